//! Full arenas with a free list, and the calls made on them.

use arena::Policy;
use reference::Allocator;

use crate::calls::{Bytes, Call, Give, Sound};
use crate::measure::Batch;
use crate::random::Random;
use crate::sides::{DATA_OFFSET, MINIMUM_SEGMENT_SIZE, Pair};

/// Lists of so many nodes: so many regions to time, so many arenas to a region, so many calls on each arena. Calls on
/// short lists are too quick to be timed alone; more arenas of them than these would leave the nearest cache.
pub const LENGTHS: [Length; 4] = [
    Length { nodes: 1, regions: 1, arenas: 64, calls: 1 },
    Length { nodes: 16, regions: 4, arenas: 16, calls: 1 },
    Length { nodes: 256, regions: 4, arenas: 1, calls: 16 },
    Length { nodes: 4_096, regions: 4, arenas: 1, calls: 16 },
];

pub struct Length {
    pub nodes: u32,
    pub regions: u64,
    pub arenas: u64,
    pub calls: usize,
}

/// Both sides with a list of nodes at random places, in random order of giving back, and no room above the top.
struct Listed {
    pair: Pair,
    /// Blocks at random places among the nodes, still held: one for each call.
    held: Vec<Give>,
    /// The nodes' data sizes, the largest first.
    sizes: Vec<u32>,
}

pub fn give_backs(policy: Policy, length: &Length) -> Vec<Batch<Give>> {
    batches(policy, length, |listed, _| listed.held.clone())
}

/// Each call uses up one node at most, so the last one still finds a node of its size.
pub fn served_requests(policy: Policy, length: &Length) -> Vec<Batch<Bytes>> {
    batches(policy, length, |listed, random| {
        let most = listed.sizes[length.calls - 1];
        (0..length.calls).map(|_| Bytes(random.within(MINIMUM_SEGMENT_SIZE..=most))).collect()
    })
}

pub fn missed_requests(policy: Policy, length: &Length) -> Vec<Batch<Bytes>> {
    batches(policy, length, |listed, _| vec![Bytes(listed.sizes[0] + 1); length.calls])
}

pub fn soundness_checks(policy: Policy, length: &Length) -> Vec<Batch<Sound>> {
    batches(policy, length, |_, _| vec![Sound; length.calls])
}

/// The same arenas for every kind of call.
fn batches<C: Call>(policy: Policy, length: &Length, calls: impl Fn(&Listed, &mut Random) -> Vec<C>) -> Vec<Batch<C>> {
    let member = |seed| {
        let mut random = Random::new(seed);
        let listed = listed(policy, length, &mut random);
        let calls = calls(&listed, &mut random);
        (listed.pair, calls)
    };
    let region = |i: u64| (i * length.arenas..(i + 1) * length.arenas).map(member).collect();
    (0..length.regions).map(region).collect()
}

fn listed(policy: Policy, length: &Length, random: &mut Random) -> Listed {
    let mut top = DATA_OFFSET;
    let mut next_block = || {
        // With its padding and its node word the smallest still makes a segment.
        let block = Give { offset: top, size: random.within(36..=99) };
        top += block.size;
        block
    };
    let nodes = length.nodes as usize;
    let blocks: Vec<Give> = (0..nodes + length.calls + 1).map(|_| next_block()).collect();
    // The last block stays held, or the top would fall.
    let mut below = blocks[..nodes + length.calls].to_vec();
    random.shuffle(&mut below);
    let held = below.split_off(nodes);
    let pair = Pair::new(top, policy, |arena| {
        assert!(blocks.iter().all(|block| Bytes(block.size).theirs(arena)), "the blocks fill the buffer");
        assert!(below.iter().all(|block| block.theirs(arena)), "every block makes a segment");
        assert_eq!(arena.remaining(), 0);
    });
    let mut sizes: Vec<u32> = below.iter().map(data_size).collect();
    sizes.sort_unstable_by(|a, b| b.cmp(a));
    Listed { pair, held, sizes }
}

/// The data size of the segment that a block becomes.
fn data_size(block: &Give) -> u32 {
    block.offset + block.size - block.offset.next_multiple_of(8) - 8
}
