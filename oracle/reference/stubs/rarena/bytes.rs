//! Stub for the bytes that a request hands out: it keeps the block's record and gives nothing back when dropped.

use core::marker::PhantomData;

use super::{Allocator, Meta};

/// The answer of a bytes request.
pub struct BytesRefMut<'a, A: Allocator> {
    meta: Option<Meta>,
    arena: PhantomData<&'a A>,
}

impl<'a, A: Allocator> BytesRefMut<'a, A> {
    pub(super) fn null(_: &'a A) -> Self {
        Self { meta: None, arena: PhantomData }
    }

    pub(super) unsafe fn new(_: &'a A, meta: Meta) -> Self {
        Self { meta: Some(meta), arena: PhantomData }
    }

    /// The block's four numbers, or none where the request was for nothing.
    pub(crate) fn numbers(&self) -> Option<[u32; 4]> {
        self.meta.as_ref().map(Meta::numbers)
    }
}

impl Meta {
    /// Memory offset and size, usable offset and size.
    pub(super) fn numbers(&self) -> [u32; 4] {
        [self.memory_offset, self.memory_size, self.ptr_offset, self.ptr_size]
    }
}
