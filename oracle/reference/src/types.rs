//! Rust types by number: document 01 names a size and an alignment where the Rust names a type.

macro_rules! types {
    ($($name:ident = $align:literal),*) => {
        $(
            #[repr(C, align($align))]
            struct $name<const N: usize>(#[allow(dead_code)] [u8; N]);
        )*

        /// Runs `request` with the type of this size and alignment, or answers none if it is not compiled in.
        pub fn with_type<R: Request>(size: u32, align: u32, request: R) -> Option<R::Answer> {
            match align {
                $($align => with_size!($name, $align, size, request),)*
                _ => None,
            }
        }
    };
}

macro_rules! sizes {
    ($($count:literal),*) => {
        /// How many times its alignment a type can be long; `LARGEST` bytes can be had at every alignment too.
        pub const COUNTS: &[u32] = &[$($count),*];

        macro_rules! with_size {
            ($name:ident, $align:literal, $size:ident, $request:ident) => {
                match $size {
                    $(n if n == $count * $align => Some($request.run::<$name<{ $count * $align }>>()),)*
                    LARGEST => Some($request.run::<$name<{ LARGEST as usize }>>()),
                    _ => None,
                }
            };
        }
    };
}

/// The largest size that document 01 allows.
pub const LARGEST: u32 = 1_073_741_824;

/// The alignments that document 01 allows.
pub const ALIGNMENTS: [u32; 13] = [1, 2, 4, 8, 16, 32, 64, 128, 256, 512, 1024, 2048, 4096];

/// A request that wants a type.
pub trait Request {
    type Answer;

    fn run<T>(self) -> Self::Answer;
}

sizes!(0, 1, 2, 3, 4, 5, 6, 7, 8, 9, 10, 12, 15, 16, 20, 24, 32, 40, 64);

types!(
    A1 = 1,
    A2 = 2,
    A4 = 4,
    A8 = 8,
    A16 = 16,
    A32 = 32,
    A64 = 64,
    A128 = 128,
    A256 = 256,
    A512 = 512,
    A1024 = 1024,
    A2048 = 2048,
    A4096 = 4096
);
