//! The blocks that a caller holds.

use arena::Block;

use crate::calls::{Answer, Call};

#[derive(Debug, Default)]
pub struct Held(Vec<Block>);

impl Held {
    pub fn blocks(&self) -> &[Block] {
        &self.0
    }

    /// Takes in a call that was answered: bytes given back, or passing the new top, are held no more.
    pub fn note(&mut self, call: &Call, answer: &Answer, top: u32) {
        match (*call, *answer) {
            (_, Answer::Granted(block)) => self.0.push(block),
            (Call::Give { offset, size }, Answer::GivenBack(_)) => self.0.retain(|block| !meets(block, offset, size)),
            (_, Answer::Moved) => self.0.retain(|block| end(block) <= top),
            _ => {}
        }
    }
}

fn end(block: &Block) -> u32 {
    (block.memory_offset + block.memory_size).max(block.usable_offset + block.usable_size)
}

fn meets(block: &Block, offset: u32, size: u32) -> bool {
    let crosses = |start: u32, length: u32| size > 0 && start < offset + size && offset < start + length;
    crosses(block.memory_offset, block.memory_size) || crosses(block.usable_offset, block.usable_size)
}
