//! The calls that are timed, each on both sides.

use std::marker::PhantomData;

use arena::Arena;
use reference::{Allocator, Arena as RustArena};

/// A call with its numbers. Both sides answer whether it was granted, and no more is read of an answer: the given Rust
/// would take twice as long for a short call whose whole answer is copied.
pub trait Call {
    fn theirs(&self, arena: &RustArena) -> bool;
    fn ours(&self, arena: &mut Arena) -> bool;
}

/// A bytes request of this size.
#[derive(Clone)]
pub struct Bytes(pub u32);

impl Call for Bytes {
    fn theirs(&self, arena: &RustArena) -> bool {
        arena.alloc_bytes(self.0).is_ok()
    }

    fn ours(&self, arena: &mut Arena) -> bool {
        arena.alloc_bytes(self.0).is_ok()
    }
}

/// A typed request.
pub struct Typed<T>(PhantomData<T>);

impl<T> Clone for Typed<T> {
    fn clone(&self) -> Self {
        Typed(PhantomData)
    }
}

impl<T> Typed<T> {
    pub fn new() -> Self {
        Typed(PhantomData)
    }
}

impl<T> Call for Typed<T> {
    fn theirs(&self, arena: &RustArena) -> bool {
        // Safety: nothing is read or written through the answer.
        unsafe { arena.alloc::<T>() }.is_ok()
    }

    fn ours(&self, arena: &mut Arena) -> bool {
        arena.alloc(size_of::<T>() as u32, align_of::<T>() as u32).is_ok()
    }
}

/// A request of aligned bytes with this many after the value.
pub struct Aligned<T> {
    extra: u32,
    value: PhantomData<T>,
}

impl<T> Clone for Aligned<T> {
    fn clone(&self) -> Self {
        Aligned::new(self.extra)
    }
}

impl<T> Aligned<T> {
    pub fn new(extra: u32) -> Self {
        Aligned { extra, value: PhantomData }
    }
}

impl<T> Call for Aligned<T> {
    fn theirs(&self, arena: &RustArena) -> bool {
        arena.alloc_aligned_bytes::<T>(self.extra).is_ok()
    }

    fn ours(&self, arena: &mut Arena) -> bool {
        let (size, align) = (size_of::<T>() as u32, align_of::<T>() as u32);
        arena.alloc_aligned_bytes(size, align, self.extra).is_ok()
    }
}

/// A give-back of a block's memory range.
#[derive(Clone, Copy)]
pub struct Give {
    pub offset: u32,
    pub size: u32,
}

impl Call for Give {
    fn theirs(&self, arena: &RustArena) -> bool {
        // Safety: the range is a block's that the given Rust granted on the way to this state.
        unsafe { arena.dealloc(self.offset, self.size) }
    }

    fn ours(&self, arena: &mut Arena) -> bool {
        arena.dealloc(self.offset, self.size) == Ok(true)
    }
}

/// A step of a mixed day.
pub enum Step {
    Take(Bytes),
    Give(Give),
}

impl Call for Step {
    fn theirs(&self, arena: &RustArena) -> bool {
        match self {
            Step::Take(bytes) => bytes.theirs(arena),
            Step::Give(give) => give.theirs(arena),
        }
    }

    fn ours(&self, arena: &mut Arena) -> bool {
        match self {
            Step::Take(bytes) => bytes.ours(arena),
            Step::Give(give) => give.ours(arena),
        }
    }
}

/// The public soundness check, for which the given Rust has no counterpart: its side does nothing.
#[derive(Clone)]
pub struct Sound;

impl Call for Sound {
    fn theirs(&self, _: &RustArena) -> bool {
        true
    }

    fn ours(&self, arena: &mut Arena) -> bool {
        arena.sound()
    }
}
