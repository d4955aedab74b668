//! The proved arena allocator over a buffer that the caller lends. Every call answers a value: a block, a number or
//! one of document 01's refusals. None panics, whatever the header, the buffer and the numbers are.
//!
//! ```
//! use arena::{Arena, Settings};
//!
//! let mut buffer = [0; 200];
//! let mut arena = Arena::new(&mut buffer, Settings::default())?;
//! if let Some(lease) = arena.alloc_bytes(40)? {
//!     arena.bytes_mut(&lease).fill(7);
//!     arena.dealloc(lease.memory_offset, lease.memory_size)?;
//! }
//! # Ok::<(), arena::Refusal>(())
//! ```
//!
//! # What callers owe
//!
//! A block is held from its grant until it is given back or a rewind puts the top below its end. Held blocks share no
//! byte with each other or with free room, and a held block is always taken back, if from a fresh writable arena on
//!
//! - callers write only in the usable bytes of blocks that they hold,
//! - and give back only blocks that they hold, each once, by the memory range that its [`Block`] names.
//!
//! Otherwise a call still ends with an answer and stays inside of the buffer, but leases may come to share bytes:
//!
//! - A block given back twice is refused while its room is free: with 7 where that lies in the list, with 6 where the
//!   top has fallen. Room that was too small for the list, or any under [`Policy::None`], is counted as lost once more.
//!   But once the room is granted anew, the second give-back frees the new holder's bytes.
//! - A write outside of one's usable bytes changes another's lease or a node of the free list. Calls that need a list
//!   that is no longer sound refuse with 4; one that was changed and still is sound may hand out room that is held.
//!
//! Alignment is counted from the buffer's start: a block's usable offset is a multiple of it. Its address is one only
//! if the buffer's is.

#![deny(missing_docs)]

mod answers;
pub mod raw;

pub use answers::{Block, Refusal};
pub use raw::{Header, Shape};

use std::fmt;

/// What becomes of room that is given back below the top.
#[repr(u8)]
#[derive(Debug, Clone, Copy, PartialEq, Eq)]
pub enum Policy {
    /// It is lost.
    None = 0,
    /// It is listed, the largest segment first; a request takes the first.
    Optimistic = 1,
    /// It is listed, the smallest segment first; a request takes the first that fits.
    Pessimistic = 2,
}

impl TryFrom<u8> for Policy {
    type Error = Refusal;

    /// The policy of a code, as from a file.
    fn try_from(code: u8) -> Result<Self, Refusal> {
        match code {
            0 => Ok(Policy::None),
            1 => Ok(Policy::Optimistic),
            2 => Ok(Policy::Pessimistic),
            _ => Err(Refusal::UnknownFreelist),
        }
    }
}

/// What an arena is set up with.
#[derive(Debug, Clone, Copy, PartialEq, Eq)]
pub struct Settings {
    /// Bytes at the buffer's start that the arena leaves to the caller.
    pub reserved: u32,
    /// Whether the data starts where an image with its header in the buffer would have it.
    pub unify: bool,
    /// Whether and in which order room that is given back is listed.
    pub policy: Policy,
    /// A free segment's data is at least so many bytes when it is made; a shorter range is lost.
    pub minimum_segment_size: u32,
    /// Whether every call that would change the arena is refused.
    pub read_only: bool,
}

impl Default for Settings {
    fn default() -> Self {
        Settings { reserved: 0, unify: false, policy: Policy::Optimistic, minimum_segment_size: 20, read_only: false }
    }
}

/// Where a rewind puts the top, which is never below the data offset nor past the buffer's end.
#[derive(Debug, Clone, Copy, PartialEq, Eq)]
pub enum Position {
    /// At this offset.
    Start(u32),
    /// This far from the present top. Where that is exactly 0, the top stays.
    Current(i64),
    /// This far below the buffer's end.
    End(u32),
}

/// An arena over a lent buffer.
pub struct Arena<'a> {
    shape: Shape,
    header: Header,
    buf: &'a mut [u8],
}

// Setup writes all but the last number, or refuses and no arena is made of it.
const UNSET: Header =
    Header { sentinel_next: 0, sentinel_size: 0, allocated: 0, minimum_segment_size: 0, discarded: 0, unused: 0 };

impl<'a> Arena<'a> {
    /// A fresh arena over the whole of `buf`. No byte is written.
    pub fn new(buf: &'a mut [u8], settings: Settings) -> Result<Self, Refusal> {
        let mut header = UNSET;
        // Safety: header and buffer are valid for the call.
        let begun = unsafe {
            raw::arena_setup(
                &mut header,
                buf.as_ptr(),
                buf.len(),
                settings.reserved,
                settings.unify.into(),
                settings.policy as u8,
                settings.minimum_segment_size,
                settings.read_only.into(),
            )
        };
        match begun.code {
            raw::DONE => Ok(Arena { shape: begun.shape, header, buf }),
            code => Err(answers::refused(code)),
        }
    }

    /// An arena from its parts, such as those kept from an earlier one. They may be anything: calls that need more
    /// than they find refuse.
    pub fn from_parts(shape: Shape, header: Header, buf: &'a mut [u8]) -> Self {
        Arena { shape, header, buf }
    }

    /// `size` zeroed bytes; none for size 0.
    #[inline]
    pub fn alloc_bytes(&mut self, size: u32) -> Result<Option<Block>, Refusal> {
        let (shape, header, buf, len) = self.parts();
        // Safety: header and buffer are valid for the call.
        answers::taken(unsafe { raw::arena_alloc_bytes(shape, header, buf, len, size) })
    }

    /// Room for a value of `size` bytes at a multiple of `align`; none for size 0. Zeroed at the top; from the list,
    /// the eight bytes of the old node word may remain at its start.
    #[inline]
    pub fn alloc(&mut self, size: u32, align: u32) -> Result<Option<Block>, Refusal> {
        let (shape, header, buf, len) = self.parts();
        // Safety: header and buffer are valid for the call.
        answers::taken(unsafe { raw::arena_alloc(shape, header, buf, len, size, align) })
    }

    /// Room for a value of `size` bytes at a multiple of `align` with `extra` bytes after it, not zeroed at the top.
    #[inline]
    pub fn alloc_aligned_bytes(&mut self, size: u32, align: u32, extra: u32) -> Result<Option<Block>, Refusal> {
        let (shape, header, buf, len) = self.parts();
        // Safety: header and buffer are valid for the call.
        answers::taken(unsafe { raw::arena_alloc_aligned_bytes(shape, header, buf, len, size, align, extra) })
    }

    /// Gives a memory range back. False says that it was too small for a segment and is lost.
    #[inline]
    pub fn dealloc(&mut self, offset: u32, size: u32) -> Result<bool, Refusal> {
        let (shape, header, buf, len) = self.parts();
        // Safety: header and buffer are valid for the call.
        answers::given_back(unsafe { raw::arena_dealloc(shape, header, buf, len, offset, size) })
    }

    /// Empties the free list and answers the sum of its data sizes.
    #[inline]
    pub fn discard_freelist(&mut self) -> Result<u32, Refusal> {
        let (shape, header, buf, len) = self.parts();
        // Safety: header and buffer are valid for the call.
        answers::sum(unsafe { raw::arena_discard_freelist(shape, header, buf, len) })
    }

    /// Moves the top. Blocks whose bytes pass the new top are held no more.
    #[inline]
    pub fn rewind(&mut self, position: Position) -> Result<(), Refusal> {
        let (shape, header, buf, len) = self.parts();
        // Safety: header and buffer are valid for the call.
        answers::done(unsafe {
            match position {
                Position::Start(by) => raw::arena_rewind_start(shape, header, buf, len, by),
                Position::Current(by) => raw::arena_rewind_current(shape, header, buf, len, by),
                Position::End(by) => raw::arena_rewind_end(shape, header, buf, len, by),
            }
        })
    }

    /// Sets the least data size of segments made from now on.
    #[inline]
    pub fn set_minimum_segment_size(&mut self, size: u32) -> Result<(), Refusal> {
        let (shape, header, buf, len) = self.parts();
        // Safety: header and buffer are valid for the call.
        answers::done(unsafe { raw::arena_set_minimum_segment_size(shape, header, buf, len, size) })
    }

    /// Adds to the count of lost bytes, which stops at its end.
    #[inline]
    pub fn increase_discarded(&mut self, size: u32) -> Result<(), Refusal> {
        let (shape, header, buf, len) = self.parts();
        // Safety: header and buffer are valid for the call.
        answers::done(unsafe { raw::arena_increase_discarded(shape, header, buf, len, size) })
    }

    /// Whether head and free list are as document 01 wants them.
    #[inline]
    pub fn sound(&self) -> bool {
        // Safety: header and buffer are valid for the call.
        unsafe { raw::arena_sound(self.shape, &self.header, self.buf.as_ptr(), self.buf.len()) }
    }

    /// The room between the top and the buffer's end.
    #[inline]
    pub fn remaining(&self) -> u32 {
        // Safety: the header is valid for the call.
        unsafe { raw::arena_remaining(self.shape, &self.header) }
    }

    /// The top: no byte from here on is in use.
    #[inline]
    pub fn allocated(&self) -> u32 {
        self.header.allocated
    }

    /// The count of lost bytes.
    #[inline]
    pub fn discarded(&self) -> u32 {
        self.header.discarded
    }

    /// The least data size of segments made from now on.
    #[inline]
    pub fn minimum_segment_size(&self) -> u32 {
        self.header.minimum_segment_size
    }

    /// The usable bytes of a block; empty if its range leaves the buffer.
    #[inline]
    pub fn bytes(&self, block: &Block) -> &[u8] {
        self.buf.get(usable(block)).unwrap_or_default()
    }

    /// The usable bytes of a block, for writing; empty if its range leaves the buffer.
    #[inline]
    pub fn bytes_mut(&mut self, block: &Block) -> &mut [u8] {
        self.buf.get_mut(usable(block)).unwrap_or_default()
    }

    /// The reserved bytes at the buffer's start; empty if it is shorter.
    #[inline]
    pub fn reserved_slice(&self) -> &[u8] {
        self.buf.get(..self.shape.reserved as usize).unwrap_or_default()
    }

    /// The header, to keep or to look at.
    #[inline]
    pub fn header(&self) -> Header {
        self.header
    }

    /// What setup fixed, to keep or to look at.
    #[inline]
    pub fn shape(&self) -> Shape {
        self.shape
    }

    #[inline]
    fn parts(&mut self) -> (Shape, *mut Header, *mut u8, usize) {
        (self.shape, &mut self.header, self.buf.as_mut_ptr(), self.buf.len())
    }
}

// What setup fixed and what the calls count, not the bytes of the buffer.
impl fmt::Debug for Arena<'_> {
    fn fmt(&self, f: &mut fmt::Formatter<'_>) -> fmt::Result {
        let known = Policy::try_from(self.shape.policy);
        let policy: &dyn fmt::Debug = match &known {
            Ok(policy) => policy,
            Err(_) => &self.shape.policy,
        };
        let first = self.header.sentinel_next;
        f.debug_struct("Arena")
            .field("cap", &self.shape.cap)
            .field("data_offset", &self.shape.data_offset)
            .field("policy", policy)
            .field("allocated", &self.allocated())
            .field("remaining", &self.remaining())
            .field("minimum_segment_size", &self.minimum_segment_size())
            .field("discarded", &self.discarded())
            .field("first_node", &(first != raw::END_MARK).then_some(first))
            .finish_non_exhaustive()
    }
}

// Where usize is no wider than u32 an end past it is cut, and lies outside of every buffer as it did before.
fn usable(block: &Block) -> std::ops::Range<usize> {
    let start = block.usable_offset as usize;
    start..start.saturating_add(block.usable_size as usize)
}
