//! The boundary itself, as `libexports.a` has it. A slice crosses as its address and its length.
//!
//! # Safety
//!
//! Every call asks the same: `header` and `buf` are valid for it, also where `len` is 0; `buf` is the arena's whole
//! buffer, and the header lies outside of it; nobody else touches either while the call lasts. No more is asked for
//! the safety of memory. A shape, a header, the bytes and the numbers may be anything: the library refuses what it
//! cannot serve and stays inside of the buffer.
//!
//! That leases stay apart asks more of the callers; [the crate's page](crate#what-callers-owe) says what.

/// What setup fixes for an arena's life: keep it beside the header, and hand it to every call. Each call tests it
/// against the buffer. One whose `unify` or `read_only` is neither 0 nor 1, or whose `policy` is no code, is damaged.
#[repr(C)]
#[derive(Debug, Clone, Copy, PartialEq, Eq)]
pub struct Shape {
    /// The buffer's length in bytes.
    pub cap: u32,
    /// How many bytes at the buffer's start no call touches.
    pub reserved: u32,
    /// Where the data starts: the lowest offset of a block.
    pub data_offset: u32,
    /// 1 where the data starts as if the header stood in the buffer, else 0.
    pub unify: u8,
    /// 1 where every call that would change the arena is refused, else 0.
    pub read_only: u8,
    /// The code of a [`Policy`](crate::Policy): 0, 1 or 2.
    pub policy: u8,
}

/// What the calls change, in the caller's own memory.
#[repr(C)]
#[derive(Debug, Clone, Copy, PartialEq, Eq)]
pub struct Header {
    /// The offset of the free list's first node, [`END_MARK`] where the list is empty.
    pub sentinel_next: u32,
    /// Always [`END_MARK`] in a sound arena.
    pub sentinel_size: u32,
    /// The top: no byte from this offset on is in use.
    pub allocated: u32,
    /// The least data size, in bytes, of the free segments that are made from now on.
    pub minimum_segment_size: u32,
    /// The count of lost bytes, which stops at 4,294,967,295.
    pub discarded: u32,
    /// Neither read nor written by any call.
    pub unused: u32,
}

/// Stands where a list ends: in a node's next half, and in both halves of an empty list's sentinel.
pub const END_MARK: u32 = u32::MAX;

/// An answer: its code, and the numbers that this code carries, the rest 0.
#[repr(C)]
#[derive(Debug, Clone, Copy, PartialEq, Eq)]
pub struct Answer {
    /// A refusal's number, 1 to 9, or [`GRANTED`], [`NOTHING`], [`GIVEN_BACK`], [`SUM`] or [`DONE`].
    pub code: u32,
    /// A block's memory offset; 1 or 0 for a give-back that was kept or not; a discard's sum; what refusal 6 or 9
    /// carries first: the offset given, the bytes requested.
    pub first: u32,
    /// A block's memory size; what refusal 6 or 9 carries second: the top, the bytes available.
    pub second: u32,
    /// A block's usable offset.
    pub third: u32,
    /// A block's usable size.
    pub fourth: u32,
}

/// What setup answers.
#[repr(C)]
#[derive(Debug, Clone, Copy, PartialEq, Eq)]
pub struct Begun {
    /// [`DONE`], or the number of refusal 2 or 3.
    pub code: u32,
    /// The fresh arena's shape, all zeros where setup refused.
    pub shape: Shape,
}

// The layouts, as include/arena.h has them.
const _: () = assert!(size_of::<Shape>() == 16 && size_of::<Header>() == 24);
const _: () = assert!(size_of::<Answer>() == 20 && size_of::<Begun>() == 20);

/// The code of a block: memory offset, memory size, usable offset, usable size.
pub const GRANTED: u32 = 100;
/// The code of a request for nothing.
pub const NOTHING: u32 = 101;
/// The code of a give-back: 1 for true, 0 for false.
pub const GIVEN_BACK: u32 = 102;
/// The code of a discard: the sum of the data sizes.
pub const SUM: u32 = 103;
/// The code of a rewind, a setter or a setup.
pub const DONE: u32 = 104;

extern "C" {
    /// A fresh arena over a buffer of any contents, of which no byte is written. Refuses 2, then 3 (also for a `unify`
    /// or `read_only` over 1), and then leaves the header as it is.
    pub fn arena_setup(
        header: *mut Header,
        buf: *const u8,
        len: usize,
        reserved: u32,
        unify: u8,
        policy: u8,
        minimum_segment_size: u32,
        read_only: u8,
    ) -> Begun;

    /// `size` bytes, zeroed. Refuses 1, 5, 4, 9.
    pub fn arena_alloc_bytes(shape: Shape, header: *mut Header, buf: *mut u8, len: usize, size: u32) -> Answer;

    /// Room for a value of this size and alignment. Zeroed at the top; from the list, the eight bytes of the old node
    /// word may remain at its start. Refuses 1, 5, 4, 9.
    pub fn arena_alloc(shape: Shape, header: *mut Header, buf: *mut u8, len: usize, size: u32, align: u32) -> Answer;

    /// Room for a value of this size and alignment with `extra` bytes after it, not zeroed at the top. Where `size` is
    /// 0, `extra` bytes as by [`arena_alloc_bytes`]. Refuses 1, 5, 4, 9.
    pub fn arena_alloc_aligned_bytes(
        shape: Shape,
        header: *mut Header,
        buf: *mut u8,
        len: usize,
        size: u32,
        align: u32,
        extra: u32,
    ) -> Answer;

    /// Gives a block's memory range back. Refuses 1, 4, 6, 7.
    pub fn arena_dealloc(shape: Shape, header: *mut Header, buf: *mut u8, len: usize, offset: u32, size: u32)
        -> Answer;

    /// Empties the free list and counts the sum of its data sizes as discarded. Refuses 1, 4.
    pub fn arena_discard_freelist(shape: Shape, header: *mut Header, buf: *const u8, len: usize) -> Answer;

    /// Moves the top to the offset `by`, raised to the data offset and cut to the end. Refuses 1, 4, 8.
    pub fn arena_rewind_start(shape: Shape, header: *mut Header, buf: *const u8, len: usize, by: u32) -> Answer;

    /// Moves the top by `by`, within the data offset and the end; where the sum is exactly 0 it stays. Refuses 1, 4, 8.
    pub fn arena_rewind_current(shape: Shape, header: *mut Header, buf: *const u8, len: usize, by: i64) -> Answer;

    /// Moves the top to `by` below the end, raised to the data offset. Refuses 1, 4, 8.
    pub fn arena_rewind_end(shape: Shape, header: *mut Header, buf: *const u8, len: usize, by: u32) -> Answer;

    /// Sets the minimum segment size. Refuses 1, 4.
    pub fn arena_set_minimum_segment_size(
        shape: Shape,
        header: *mut Header,
        buf: *const u8,
        len: usize,
        size: u32,
    ) -> Answer;

    /// Adds `size` to discarded. Refuses 1, 4.
    pub fn arena_increase_discarded(shape: Shape, header: *mut Header, buf: *const u8, len: usize, size: u32)
        -> Answer;

    /// Whether the arena is sound; no for a damaged shape.
    pub fn arena_sound(shape: Shape, header: *const Header, buf: *const u8, len: usize) -> bool;

    /// `cap` less `allocated`, 0 where the top is higher. Of the shape it reads `cap` alone.
    pub fn arena_remaining(shape: Shape, header: *const Header) -> u32;
}
