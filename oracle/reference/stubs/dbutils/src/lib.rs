//! Stub for `dbutils`: names that the given files import; nothing of it is called in a comparison.

/// Called when a reference count would pass its end.
pub fn abort() -> ! {
    std::process::abort()
}

/// Checksums, which the given files re-export.
pub mod checksum {
    /// A running checksum.
    pub trait Checksumer {}

    /// Makes a running checksum.
    pub trait BuildChecksumer {}
}

/// Errors of buffers, which the given files re-export.
pub mod error {
    /// A buffer has too little room.
    #[derive(Debug, Clone, PartialEq, Eq)]
    pub struct InsufficientBuffer;

    /// A buffer has too few bytes.
    #[derive(Debug, Clone, PartialEq, Eq)]
    pub struct IncompleteBuffer;
}

/// Varints, which document 01 leaves behind.
pub mod leb128 {
    /// A varint could not be read.
    #[derive(Debug, Clone, PartialEq, Eq)]
    pub struct DecodeVarintError;

    impl core::fmt::Display for DecodeVarintError {
        fn fmt(&self, f: &mut core::fmt::Formatter<'_>) -> core::fmt::Result {
            f.write_str("not a varint")
        }
    }
}
