//! Stub for `either`.

/// One of two values.
#[derive(Debug, Clone, Copy, PartialEq, Eq)]
pub enum Either<L, R> {
    /// The first kind of value.
    Left(L),
    /// The second kind of value.
    Right(R),
}
