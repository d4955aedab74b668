//! Stub for the trait of both arenas: the signatures that the given unsync module implements or calls.

use core::ptr::NonNull;

use super::{ArenaPosition, BytesRefMut, Error, RefMut, align_offset, sealed::Sealed};

/// The calls of an arena.
#[allow(missing_docs, clippy::missing_safety_doc, clippy::mut_from_ref)]
pub trait Allocator: Sealed {
    fn reserved_bytes(&self) -> usize;
    fn reserved_slice(&self) -> &[u8];
    unsafe fn reserved_slice_mut(&self) -> &mut [u8];
    unsafe fn alloc<T>(&self) -> Result<RefMut<'_, T, Self>, Error>;
    fn alloc_aligned_bytes<T>(&self, size: u32) -> Result<BytesRefMut<'_, Self>, Error>;
    fn alloc_bytes(&self, size: u32) -> Result<BytesRefMut<'_, Self>, Error>;
    fn allocated(&self) -> usize;
    fn raw_mut_ptr(&self) -> *mut u8;
    fn raw_ptr(&self) -> *const u8;
    unsafe fn clear(&self) -> Result<(), Error>;
    fn data_offset(&self) -> usize;
    unsafe fn dealloc(&self, offset: u32, size: u32) -> bool;
    fn discard_freelist(&self) -> Result<u32, Error>;
    fn discarded(&self) -> u32;
    fn increase_discarded(&self, size: u32);
    fn magic_version(&self) -> u16;
    fn minimum_segment_size(&self) -> u32;
    fn set_minimum_segment_size(&self, size: u32);
    unsafe fn offset(&self, ptr: *const u8) -> usize;
    fn page_size(&self) -> usize;
    fn refs(&self) -> usize;
    fn remaining(&self) -> usize;
    unsafe fn rewind(&self, pos: ArenaPosition);
    fn version(&self) -> u16;

    /// The address of a `T` in the memory that starts at `offset`. Nothing here reads or writes through it.
    unsafe fn get_aligned_pointer_mut<T>(&self, offset: usize) -> NonNull<T> {
        let at = align_offset::<T>(offset as u32) as usize;
        // Safety: a granted block lies in the buffer, whose address is not null.
        unsafe { NonNull::new_unchecked(self.raw_mut_ptr().add(at).cast()) }
    }
}
