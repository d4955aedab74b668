//! A mixed day: random requests and give-backs over a small buffer.

use arena::Policy;
use reference::Reference;

use crate::calls::{Bytes, Give, Step};
use crate::measure::Batch;
use crate::random::Random;
use crate::sides::{MINIMUM_SEGMENT_SIZE, Pair, rust_policy};

pub const CAP: u32 = 65_536;
/// The allocator loses room as the day goes on and later refuses nearly all; so many steps are before that.
pub const STEPS: usize = 2_000;
pub const SLOTS: usize = 1_000;
pub const DAYS: u64 = 4;

/// Several days' steps, and how many of their requests are refused, as a share.
pub struct Days {
    pub batches: Vec<Batch<Step>>,
    pub refused: f64,
}

struct Day {
    steps: Vec<Step>,
    requests: u32,
    refused: u32,
}

pub fn days(policy: Policy) -> Days {
    let days: Vec<Day> = (1..=DAYS).map(|seed| day(policy, &mut Random::new(seed))).collect();
    let sum = |of: fn(&Day) -> u32| f64::from(days.iter().map(of).sum::<u32>());
    let refused = sum(|day| day.refused) / sum(|day| day.requests);
    let batches = days.into_iter().map(|day| vec![(Pair::new(CAP, policy, |_| ()), day.steps)]).collect();
    Days { batches, refused }
}

/// The steps with the numbers that the given Rust answers: a random slot's block is given back, or an empty slot asks
/// for one.
fn day(policy: Policy, random: &mut Random) -> Day {
    // Safety: only granted blocks are given back, each once.
    let mut arena =
        unsafe { Reference::create(CAP, 0, true, rust_policy(policy), MINIMUM_SEGMENT_SIZE) }.expect("a good setup");
    let mut slots: Vec<Option<Give>> = vec![None; SLOTS];
    let mut day = Day { steps: Vec::with_capacity(STEPS), requests: 0, refused: 0 };
    for _ in 0..STEPS {
        let slot = &mut slots[random.index(SLOTS)];
        if let Some(block) = slot.take() {
            arena.dealloc(block.offset, block.size);
            day.steps.push(Step::Give(block));
        } else {
            let size = random.log_uniform(8..=512);
            *slot = arena.alloc_bytes(size).ok().flatten().map(|[offset, size, ..]| Give { offset, size });
            day.requests += 1;
            day.refused += u32::from(slot.is_none());
            day.steps.push(Step::Take(Bytes(size)));
        }
    }
    day
}
