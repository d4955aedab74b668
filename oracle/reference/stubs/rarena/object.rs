//! Stub for the typed object that a request hands out: it keeps the block's record and gives nothing back when
//! dropped.

use core::{marker::PhantomData, mem::MaybeUninit, ptr::NonNull};

use super::{Allocator, Meta};

/// The answer of a typed request.
pub struct RefMut<'a, T, A: Allocator> {
    meta: Option<Meta>,
    arena: PhantomData<(&'a A, T)>,
}

impl<'a, T, A: Allocator> RefMut<'a, T, A> {
    pub(super) fn new_zst(_: &'a A) -> Self {
        Self { meta: None, arena: PhantomData }
    }

    pub(super) fn new(_: MaybeUninit<T>, meta: Meta, _: &'a A) -> Self {
        Self { meta: Some(meta), arena: PhantomData }
    }

    pub(super) fn new_inline(_: NonNull<T>, meta: Meta, _: &'a A) -> Self {
        Self { meta: Some(meta), arena: PhantomData }
    }

    /// The block's four numbers, or none where the type has no size.
    pub(crate) fn numbers(&self) -> Option<[u32; 4]> {
        self.meta.as_ref().map(Meta::numbers)
    }
}
