//! The given Rust arena behind calls on numbers, and readers for what a comparison looks at.

// The given crate, unchanged, as the module `rarena`.
include!(concat!(env!("OUT_DIR"), "/tree.rs"));

mod types;

// The given files name these two from their crate's root.
use rarena::align_offset;
mod memory {
    pub(crate) use crate::rarena::sync::Memory;
}

pub use rarena::{Allocator, ArenaPosition, Error, Freelist, Options, UnknownFreelist, unsync::Arena};
use rarena::{BytesRefMut, RefMut, sync};
pub use types::{ALIGNMENTS, COUNTS, LARGEST};

/// What a request answers: a block's four numbers (memory offset and size, usable offset and size) or nothing.
pub type Taken = Result<Option<[u32; 4]>, Error>;

/// A writable arena of the Rust over a zeroed buffer of its own.
pub struct Reference {
    arena: Arena,
    cap: u32,
}

impl Reference {
    /// Sets the Rust's arena up.
    ///
    /// # Safety
    /// The Rust trusts its caller. Every later call must lie in document 01's domain of the comparison, and writes
    /// through `bytes_mut` must spare the free segments.
    pub unsafe fn create(
        cap: u32,
        reserved: u32,
        unify: bool,
        freelist: Freelist,
        minimum_segment_size: u32,
    ) -> Result<Self, Error> {
        let arena = Options::new()
            .with_capacity(cap)
            .with_reserved(reserved)
            .with_unify(unify)
            .with_freelist(freelist)
            .with_minimum_segment_size(minimum_segment_size)
            .alloc::<Arena>()?;
        Ok(Self { arena, cap })
    }

    pub fn alloc_bytes(&mut self, size: u32) -> Taken {
        self.arena.alloc_bytes(size).map(|block| block.numbers())
    }

    /// A typed request. The type of this size and alignment must be compiled in: see `COUNTS`.
    pub fn alloc(&mut self, size: u32, align: u32) -> Taken {
        types::with_type(size, align, Typed(&self.arena)).expect("a type that is compiled in")
    }

    /// Aligned bytes for the type of this size and alignment, which must be compiled in, and `extra` more.
    pub fn alloc_aligned_bytes(&mut self, size: u32, align: u32, extra: u32) -> Taken {
        types::with_type(size, align, Aligned(&self.arena, extra)).expect("a type that is compiled in")
    }

    pub fn dealloc(&mut self, offset: u32, size: u32) -> bool {
        // Safety: promised at `create`.
        unsafe { self.arena.dealloc(offset, size) }
    }

    pub fn discard_freelist(&mut self) -> Result<u32, Error> {
        self.arena.discard_freelist()
    }

    pub fn rewind(&mut self, position: ArenaPosition) {
        // Safety: promised at `create`.
        unsafe { self.arena.rewind(position) }
    }

    pub fn set_minimum_segment_size(&mut self, size: u32) {
        self.arena.set_minimum_segment_size(size);
    }

    pub fn increase_discarded(&mut self, size: u32) {
        self.arena.increase_discarded(size);
    }

    pub fn sentinel(&self) -> u64 {
        sync::sentinel(&self.arena)
    }

    pub fn allocated(&self) -> u32 {
        self.arena.allocated() as u32
    }

    pub fn minimum_segment_size(&self) -> u32 {
        self.arena.minimum_segment_size()
    }

    pub fn discarded(&self) -> u32 {
        self.arena.discarded()
    }

    pub fn remaining(&self) -> u32 {
        self.arena.remaining() as u32
    }

    pub fn data_offset(&self) -> u32 {
        self.arena.data_offset() as u32
    }

    pub fn reserved_slice(&self) -> &[u8] {
        self.arena.reserved_slice()
    }

    /// The header as the Rust prints it.
    pub fn shown_header(&self) -> String {
        sync::shown(&self.arena)
    }

    /// The whole buffer.
    pub fn bytes(&self) -> &[u8] {
        // Safety: the buffer is `cap` initialized bytes, and a call that writes borrows the whole arena.
        unsafe { std::slice::from_raw_parts(self.arena.raw_ptr(), self.cap as usize) }
    }

    /// The whole buffer, for a caller's writes.
    pub fn bytes_mut(&mut self) -> &mut [u8] {
        // Safety: as for `bytes`.
        unsafe { std::slice::from_raw_parts_mut(self.arena.raw_mut_ptr(), self.cap as usize) }
    }
}

struct Typed<'a>(&'a Arena);

impl types::Request for Typed<'_> {
    type Answer = Taken;

    fn run<T>(self) -> Taken {
        // Safety: nothing is read or written through the answer, and dropping it gives nothing back.
        unsafe { self.0.alloc::<T>() }.map(|block: RefMut<'_, T, Arena>| block.numbers())
    }
}

struct Aligned<'a>(&'a Arena, u32);

impl types::Request for Aligned<'_> {
    type Answer = Taken;

    fn run<T>(self) -> Taken {
        self.0.alloc_aligned_bytes::<T>(self.1).map(|block: BytesRefMut<'_, Arena>| block.numbers())
    }
}
