//! What tests of the wrapper share.

use arena::raw::END_MARK;
use arena::{Arena, Block, Refusal};

/// A granted block.
pub fn block(
    memory_offset: u32,
    memory_size: u32,
    usable_offset: u32,
    usable_size: u32,
) -> Result<Option<Block>, Refusal> {
    Ok(Some(Block { memory_offset, memory_size, usable_offset, usable_size }))
}

/// The list's nodes with their data sizes, read from header and bytes.
pub fn list(arena: &Arena) -> Vec<(u32, u32)> {
    let mut nodes = Vec::new();
    let mut at = arena.header().sentinel_next;
    while at != END_MARK {
        let word = Block { memory_offset: at, memory_size: 8, usable_offset: at, usable_size: 8 };
        let word = u64::from_le_bytes(arena.bytes(&word).try_into().unwrap());
        nodes.push((at, (word >> 32) as u32));
        at = word as u32;
    }
    nodes
}
