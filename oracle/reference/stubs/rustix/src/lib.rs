//! Stub for `rustix`. The page size is only reported by a page method, which is not compared.

/// Facts about the machine.
pub mod param {
    /// The size of a page in bytes.
    pub fn page_size() -> usize {
        4096
    }
}
