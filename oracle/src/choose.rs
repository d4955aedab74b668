//! Random setups, and calls that crowd around the bounds: the top's room, the sizes of free segments, the segment
//! rule, and the ends of document 01's numbers.

use arena::Position;

use crate::calls::{Answer, Call, LIMIT, Setup};
use crate::held::Held;
use crate::random::Random;
use crate::rules::{self, Segment, View};

/// How large a buffer may be.
#[derive(Debug, Clone, Copy)]
pub struct Caps {
    /// No cap is over this but that of a large arena.
    pub most: u32,
    /// One arena in so many is large, none for 0.
    pub large: u64,
}

/// A setup that both sides take, or now and then one byte too short for either.
pub fn setup(random: &mut Random, caps: Caps) -> Setup {
    let reserved = random.within(0..=40);
    let unify = random.one_in(2).into();
    let start = rules::data_offset(reserved, unify) as u32;
    let room = match random.below(100) {
        0..2 => 0,
        2..45 => random.within(0..=120),
        45..80 => random.within(0..=1_000),
        80..94 => random.within(0..=9_000),
        94..99 => random.within(0..=65_536),
        _ => 65_536,
    };
    let mut cap = (start + room).min(caps.most).max(start);
    if caps.large != 0 && random.one_in(caps.large) {
        cap = random.within(65_537..=2_097_152);
    }
    if random.one_in(500) {
        cap = start - 1;
    }
    let policy = random.pick(&[0, 1, 1, 2, 2]);
    Setup { cap, reserved, unify, policy, minimum_segment_size: minimum(random, cap), read_only: 0 }
}

fn minimum(random: &mut Random, cap: u32) -> u32 {
    match random.below(24) {
        0 => u32::MAX,
        1 => random.within(0..=cap),
        2..6 => 0,
        6..12 => 20,
        12..14 => 1,
        _ => random.within(0..=64),
    }
}

/// How often each kind of call comes, in the order of `next`'s arms: bytes, typed, aligned, a held block, any range,
/// discard, rewind, the minimum, a number lost, a caller's write. Each arena leans its own way.
const WEIGHTS: [u64; 10] = [30, 12, 15, 45, 4, 1, 4, 2, 2, 12];

/// Chooses one arena's calls and keeps its held blocks.
pub struct Chooser {
    random: Random,
    held: Held,
    /// A range that was just given back, to be tried twice.
    given: Option<(u32, u32)>,
    weights: [u64; 10],
    /// The usual size of a request here.
    usual: u32,
    /// Whether the arena is to be filled first.
    filling: bool,
}

impl Chooser {
    pub fn new(mut random: Random, setup: &Setup) -> Self {
        let start = rules::data_offset(setup.reserved, setup.unify);
        let room = u64::from(setup.cap).saturating_sub(start) as u32;
        let weights = WEIGHTS.map(|weight| weight * random.pick(&[1, 2, 2, 2, 6]));
        let kept = setup.minimum_segment_size.saturating_add(8).saturating_mul(2);
        let usual = random.pick(&[12, 24, 60, 300, room / 8, kept, kept, kept]).min(room / 3).max(1);
        let filling = random.one_in(2);
        Chooser { random, held: Held::default(), given: None, weights, usual, filling }
    }

    /// The next call for an arena that has these free segments.
    pub fn next(&mut self, view: &View, found: &[Segment]) -> Call {
        let full = view.shape.cap - view.counters.allocated < self.usual;
        self.filling &= !full;
        if full && found.is_empty() && !self.random.one_in(3) {
            return self.relieve(view);
        }
        match self.kind() {
            1..9 if self.filling => Call::Bytes { size: self.random.within(1..=self.usual) },
            0 => Call::Bytes { size: self.need(view, found) },
            1 => self.typed(view, found),
            2 => self.aligned(view, found),
            3 => self.give_held(),
            4 => self.give_any(view, found),
            5 => Call::Discard,
            6 => Call::Rewind(self.position(view, found)),
            7 => Call::Minimum { size: minimum(&mut self.random, view.shape.cap) },
            8 => Call::Lost { size: self.lost(view) },
            _ => self.fill(),
        }
    }

    /// Takes in a call that was answered.
    pub fn note(&mut self, call: &Call, answer: &Answer, top: u32) {
        if let (Call::Give { offset, size }, Answer::GivenBack(_)) = (*call, answer) {
            self.given = Some((offset, size));
        }
        self.held.note(call, answer, top);
    }

    /// A call that makes room in an arena that is full and has nothing free.
    fn relieve(&mut self, view: &View) -> Call {
        let (start, top) = (view.shape.data_offset, view.counters.allocated);
        if view.shape.policy != 0 && self.held.blocks().len() > 1 {
            return self.give_held();
        }
        let to = if self.random.one_in(2) { start } else { self.random.within(start..=top) };
        Call::Rewind(self.named(to.into(), view))
    }

    fn kind(&mut self) -> usize {
        let mut left = self.random.below(self.weights.iter().sum());
        for (kind, weight) in self.weights.iter().enumerate() {
            if left < *weight {
                return kind;
            }
            left -= weight;
        }
        unreachable!("a number below the sum of the weights")
    }

    /// A number of bytes near some bound. Where there is a list the top is often closed, so that the list is asked.
    fn need(&mut self, view: &View, found: &[Segment]) -> u32 {
        let random = &mut self.random;
        let room = i64::from(view.shape.cap) - i64::from(view.counters.allocated);
        if !found.is_empty() && room > 0 && random.one_in(3) {
            return room as u32;
        }
        let segment = if found.is_empty() { room } else { i64::from(random.pick(found).size) };
        let kept = 8 + i64::from(view.counters.minimum_segment_size.min(view.shape.cap));
        let first = if found.is_empty() || random.one_in(3) { 0 } else { 3 };
        let near = match first + random.below(if first == 0 { 24 } else { 9 }) {
            0..2 => room + random.jitter(2),
            2 => room + random.jitter(9),
            3..6 => segment + random.jitter(1),
            6..10 => segment - kept + random.jitter(9),
            10 => segment - 8 * i64::from(random.within(0..=4)) + random.jitter(1),
            11 => segment / 2,
            12 => random.within(0..=view.shape.cap).into(),
            13 => random.within(0..=9).into(),
            14 if random.one_in(8) => i64::from(LIMIT) - i64::from(random.within(0..=1)),
            14 if random.one_in(60) => random.pick(&[LIMIT + 1, u32::MAX]).into(),
            _ => random.within(1..=self.usual).into(),
        };
        near.clamp(0, u32::MAX.into()) as u32
    }

    fn typed(&mut self, view: &View, found: &[Segment]) -> Call {
        let need = self.need(view, found);
        let (size, align) = self.layout(need);
        Call::Typed { size, align }
    }

    fn aligned(&mut self, view: &View, found: &[Segment]) -> Call {
        let need = self.need(view, found);
        let typed = need / self.random.pick(&[1, 2]);
        let (size, align) = self.layout(typed);
        let extra = match self.random.below(8) {
            0 => 0,
            1 => self.random.within(0..=16),
            _ => (u64::from(need) + 1).saturating_sub(u64::from(size) + u64::from(align)) as u32,
        };
        Call::Aligned { size, align, extra }
    }

    /// A size and an alignment with a Rust type, near `need` together; rarely a layout that no type has.
    fn layout(&mut self, need: u32) -> (u32, u32) {
        let random = &mut self.random;
        if random.one_in(1_500) {
            return random.pick(&[(8, 3), (8, 0), (8_192, 8_192), (12, 8), (LIMIT + 8, 8), (1, u32::MAX)]);
        }
        let most = random.pick(&[1, 3, 4, 4, 4, 5, 7, 12]);
        let align = reference::ALIGNMENTS[random.within(0..=most) as usize];
        let count = need.saturating_sub(align - 1) / align;
        let near = reference::COUNTS.iter().rposition(|c| *c <= count).unwrap_or(0);
        match random.below(40) {
            0 => (0, align),
            1 => (reference::LARGEST, align),
            2..12 => (random.pick(reference::COUNTS) * align, align),
            _ => (reference::COUNTS[near] * align, align),
        }
    }

    fn give_held(&mut self) -> Call {
        if let Some((offset, size)) = self.given.filter(|_| self.random.one_in(300)) {
            return Call::Give { offset, size };
        }
        if self.held.blocks().is_empty() {
            return Call::Bytes { size: self.random.within(1..=self.usual) };
        }
        let block = self.random.pick(self.held.blocks());
        if self.random.one_in(20) {
            let skip = self.random.within(0..=block.memory_size);
            let size = self.random.within(0..=block.memory_size - skip);
            return Call::Give { offset: block.memory_offset + skip, size };
        }
        Call::Give { offset: block.memory_offset, size: block.memory_size }
    }

    /// A range between free segments, held or not; rarely one that leaves its gap.
    fn give_any(&mut self, view: &View, found: &[Segment]) -> Call {
        let (top, start) = (view.counters.allocated, view.shape.data_offset);
        let mut bounds: Vec<u32> = found.iter().flat_map(|s| [s.offset, s.end() as u32]).collect();
        bounds.extend([start, top]);
        bounds.sort_unstable();
        let gap = 2 * self.random.below(bounds.len() as u64 / 2) as usize;
        let (low, high) = (bounds[gap], bounds[gap + 1]);
        let offset = if self.random.one_in(2) { low } else { self.random.within(low..=high) };
        let size = if self.random.one_in(2) { high - offset } else { self.random.within(0..=high - offset) };
        if self.random.one_in(40) {
            let moved = i64::from(offset) + self.random.jitter(1);
            return Call::Give { offset: moved.max(0) as u32, size: size.saturating_add(self.random.within(0..=2)) };
        }
        Call::Give { offset, size }
    }

    /// A new top, mostly above every free segment, named in one of the three ways.
    fn position(&mut self, view: &View, found: &[Segment]) -> Position {
        let (cap, top) = (i64::from(view.shape.cap), i64::from(view.counters.allocated));
        let start = i64::from(view.shape.data_offset);
        let floor = found.iter().map(|segment| segment.end() as i64).max().unwrap_or(start);
        let random = &mut self.random;
        let to = match random.below(16) {
            0 => start + random.jitter(1),
            1..4 => floor + i64::from(random.within(0..=1)),
            4 => top + random.jitter(9),
            5..8 => cap + random.jitter(1).min(0),
            8 if random.one_in(8) => floor - 1,
            8 => return self.extreme(view),
            _ => floor + random.below((cap - floor) as u64 + 1) as i64,
        };
        self.named(to.clamp(0, u32::MAX.into()), view)
    }

    /// The top `to`, named from one of the three places.
    fn named(&mut self, to: i64, view: &View) -> Position {
        match self.random.below(3) {
            0 => Position::Start(to as u32),
            1 => Position::Current(to - i64::from(view.counters.allocated)),
            _ => Position::End((i64::from(view.shape.cap) - to).max(0) as u32),
        }
    }

    fn extreme(&mut self, view: &View) -> Position {
        let top = i64::from(view.counters.allocated);
        self.random.pick(&[
            Position::Start(0),
            Position::Start(u32::MAX),
            Position::End(0),
            Position::End(view.shape.cap.saturating_add(1)),
            Position::End(u32::MAX),
            Position::Current(-top),
            Position::Current(-top),
            Position::Current(-top + 1),
            Position::Current(-top - 1),
            Position::Current(i64::MIN),
            Position::Current(i64::MAX - top),
            Position::Current(i64::MAX),
        ])
    }

    fn lost(&mut self, view: &View) -> u32 {
        if self.random.one_in(60) {
            let left = u32::MAX - view.counters.discarded;
            return left.saturating_sub(self.random.pick(&[0, 0, 8, 24, 1_000]));
        }
        self.random.within(0..=100)
    }

    /// A caller's write into the usable bytes of a held block.
    fn fill(&mut self) -> Call {
        if self.held.blocks().is_empty() {
            return Call::Bytes { size: self.random.within(1..=self.usual) };
        }
        let block = self.random.pick(self.held.blocks());
        let skip = if self.random.one_in(2) { 0 } else { self.random.within(0..=block.usable_size) };
        let byte = self.random.within(1..=255) as u8;
        Call::Fill { offset: block.usable_offset + skip, size: block.usable_size - skip, byte }
    }
}
