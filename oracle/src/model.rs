//! Document 01's calls once more, written from the paper, plain and slow: the judge of our side where the Rust cannot
//! be asked.

use arena::{Block, Refusal, Shape};

use crate::calls::{Answer, Call};
use crate::rules::{self, Counters, END_MARK, Segment, View, round_up};
use crate::sides::Side;

pub struct Model {
    pub shape: Shape,
    pub counters: Counters,
    pub bytes: Vec<u8>,
}

/// The three requests, which differ in what they report, what they hand out and what they zero.
#[derive(Clone, Copy, PartialEq, Eq)]
enum Kind {
    Bytes,
    Typed,
    Aligned,
}

impl Side for Model {
    fn call(&mut self, call: &Call) -> Answer {
        if let Some(refusal) = rules::refusal(&self.view(), call) {
            return Answer::Refused(refusal);
        }
        match *call {
            Call::Bytes { size: 0 } | Call::Typed { size: 0, .. } => Answer::Nothing,
            Call::Aligned { size: 0, extra: 0, .. } => Answer::Nothing,
            Call::Bytes { size } | Call::Aligned { size: 0, extra: size, .. } => self.take(Kind::Bytes, size, 1, 0),
            Call::Typed { size, align } => self.take(Kind::Typed, size, align, 0),
            Call::Aligned { size, align, extra } => self.take(Kind::Aligned, size, align, extra),
            Call::Give { offset, size } => Answer::GivenBack(self.give(offset, size)),
            Call::Discard => self.discard(),
            Call::Rewind(position) => {
                self.counters.allocated = rules::new_top(&self.view(), position) as u32;
                Answer::Moved
            }
            Call::Minimum { size } => {
                self.counters.minimum_segment_size = size;
                Answer::Done
            }
            Call::Lost { size } => {
                self.lose(size);
                Answer::Done
            }
            Call::Fill { offset, size, byte } => {
                self.bytes[offset as usize..][..size as usize].fill(byte);
                Answer::Done
            }
        }
    }

    fn counters(&self) -> Counters {
        self.counters
    }

    fn bytes(&self) -> &[u8] {
        &self.bytes
    }

    fn intact(&self) -> bool {
        true
    }
}

impl Model {
    pub fn view(&self) -> View<'_> {
        View { shape: self.shape, counters: self.counters, bytes: &self.bytes }
    }

    fn take(&mut self, kind: Kind, size: u32, align: u32, extra: u32) -> Answer {
        let (top, cap) = (self.counters.allocated, self.shape.cap);
        let at = round_up(top.into(), align.into()) as u32;
        let want = at + size + extra;
        if want <= cap {
            self.counters.allocated = want;
            if kind != Kind::Aligned {
                self.zero(at, want);
            }
            return granted(top, want - top, at, want - at);
        }
        let requested = match (self.shape.policy, kind) {
            (0, Kind::Bytes) => size,
            (0, Kind::Typed) => want,
            (0, Kind::Aligned) => size + extra,
            _ => size + align - 1 + extra,
        };
        let nodes = self.list();
        let first_fit = nodes.iter().position(|node| requested <= node.size);
        let (place, available) = match (self.shape.policy, nodes.first()) {
            (2, _) => (first_fit, cap - top),
            (1, Some(head)) => (first_fit.filter(|place| *place == 0), head.size),
            _ => (None, cap - top),
        };
        match place {
            Some(place) => self.take_node(nodes, place, requested, kind, size, align),
            None => Answer::Refused(Refusal::InsufficientSpace { requested, available }),
        }
    }

    fn take_node(
        &mut self,
        mut nodes: Vec<Segment>,
        place: usize,
        need: u32,
        kind: Kind,
        size: u32,
        align: u32,
    ) -> Answer {
        let taken = nodes.remove(place);
        self.link(&nodes);
        let end = taken.offset + 8 + need;
        let rest = self.kept(end, taken.size - need);
        if let Some(rest) = rest {
            self.insert(rest);
        }
        self.zero(taken.offset + 8, end);
        let memory = if rest.is_some() { need } else { taken.size };
        let at = round_up(taken.offset.into(), align.into()) as u32;
        match kind {
            Kind::Bytes => granted(taken.offset, memory, taken.offset + 8, need),
            Kind::Typed => granted(taken.offset, memory, at, size),
            Kind::Aligned => granted(taken.offset, memory, at, taken.offset + memory - at),
        }
    }

    fn give(&mut self, offset: u32, size: u32) -> bool {
        if offset + size == self.counters.allocated {
            self.counters.allocated = offset;
            return true;
        }
        let kept = if self.shape.policy == 0 { None } else { self.kept(offset, size) };
        match kept {
            Some(segment) => self.insert(segment),
            None => self.lose(size),
        }
        kept.is_some() || self.shape.policy == 0
    }

    fn discard(&mut self) -> Answer {
        let sum = self.list().iter().map(|node| node.size).sum();
        self.link(&[]);
        self.lose(sum);
        Answer::Sum(sum)
    }

    /// The segment rule: the segment that a range makes, or none.
    fn kept(&self, offset: u32, size: u32) -> Option<Segment> {
        let at = round_up(offset.into(), 8) as u32;
        let spent = at - offset + 8;
        let accepted = offset != 0 && size > spent && size - spent >= self.counters.minimum_segment_size;
        accepted.then(|| Segment { offset: at, size: size - spent })
    }

    /// Puts a segment before its equals.
    fn insert(&mut self, segment: Segment) {
        let mut nodes = self.list();
        let before =
            |node: &Segment| if self.shape.policy == 1 { node.size > segment.size } else { node.size < segment.size };
        let place = nodes.iter().take_while(|node| before(node)).count();
        nodes.insert(place, segment);
        self.link(&nodes);
        self.lose(8);
    }

    fn list(&self) -> Vec<Segment> {
        rules::segments(&self.view()).expect("a call that comes here has found the arena sound")
    }

    fn link(&mut self, nodes: &[Segment]) {
        let first = write_list(nodes, &mut self.bytes);
        self.counters.sentinel = u64::from(END_MARK) << 32 | u64::from(first);
    }

    fn lose(&mut self, size: u32) {
        self.counters.discarded = self.counters.discarded.saturating_add(size);
    }

    fn zero(&mut self, start: u32, end: u32) {
        self.bytes[start as usize..end as usize].fill(0);
    }
}

fn granted(memory_offset: u32, memory_size: u32, usable_offset: u32, usable_size: u32) -> Answer {
    Answer::Granted(Block { memory_offset, memory_size, usable_offset, usable_size })
}

/// Writes the words of these nodes, linked in this order, and tells where the first is.
pub fn write_list(nodes: &[Segment], bytes: &mut [u8]) -> u32 {
    let mut next = END_MARK;
    for node in nodes.iter().rev() {
        let word = u64::from(node.size) << 32 | u64::from(next);
        bytes[node.offset as usize..][..8].copy_from_slice(&word.to_le_bytes());
        next = node.offset;
    }
    next
}

#[cfg(test)]
mod tests {
    use super::*;
    use crate::calls::Setup;
    use crate::choose::Caps;
    use crate::drive;

    fn fresh(setup: &Setup) -> Result<Box<dyn Side>, Refusal> {
        if let Some(refusal) = rules::setup_refusal(setup) {
            return Err(refusal);
        }
        let Setup { cap, reserved, unify, policy, minimum_segment_size, read_only } = *setup;
        let data_offset = rules::data_offset(reserved, unify) as u32;
        let shape = Shape { cap, reserved, data_offset, unify, read_only, policy };
        let counters = Counters { sentinel: u64::MAX, allocated: data_offset, minimum_segment_size, discarded: 0 };
        Ok(Box::new(Model { shape, counters, bytes: vec![0; cap as usize] }))
    }

    #[test]
    fn the_model_equals_the_rust() {
        let (tally, difference) = drive::compare(200_000, 7, Caps { most: 65_536, large: 0 }, &fresh);
        assert!(difference.is_none(), "{}", difference.unwrap());
        assert!(tally.granted_from_list > 10_000 && tally.splits > 5_000);
    }
}
