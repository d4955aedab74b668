//! A sample of the Rust's answers as a text, for a replay that needs no Rust. A `cap=` line sets an arena up; each
//! line after it is a call, or a caller's write (`op=fill`), with the Rust's answer and what the arena then holds: top,
//! discarded, the sentinel word, and a sum over all bytes from the data offset up.

use std::fmt::Write;

use arena::{Position, Shape};

use crate::calls::{Answer, Call, Setup};
use crate::choose::{self, Caps, Chooser};
use crate::random::Random;
use crate::rules::{self, View};
use crate::sides::{Side, Theirs};

/// No arena of the sample is longer.
const CAPS: Caps = Caps { most: 4_096, large: 0 };

/// Each arena of the sample is the one, of this many, that asks its list most.
const TRIED: u32 = 24;

/// The sample's text, of `calls` calls or a few more, and the count of its calls.
pub fn text(calls: u64, seed: u64) -> (String, u64) {
    let mut out = String::new();
    let mut count = 0;
    for written in (0..=2).flat_map(ledger) {
        out += &written.lines;
        count += written.calls;
    }
    let mut random = Random::new(seed);
    for policy in [1, 2, 1, 2, 0].into_iter().cycle() {
        if count >= calls {
            break;
        }
        let tried = (0..TRIED).filter_map(|_| chosen(policy, &mut random));
        if let Some(best) = tried.max_by_key(|written| written.from_list) {
            out += &best.lines;
            count += best.calls;
        }
    }
    (out, count)
}

/// Document 01's start S, and each of its next calls, under one policy.
fn ledger(policy: u8) -> Vec<Written> {
    let setup = Setup { cap: 200, reserved: 7, unify: 0, policy, minimum_segment_size: 20, read_only: 0 };
    let start = [
        Call::Bytes { size: 40 },
        Call::Bytes { size: 60 },
        Call::Bytes { size: 92 },
        Call::Fill { offset: 8, size: 192, byte: 7 },
        Call::Give { offset: 8, size: 40 },
        Call::Give { offset: 48, size: 60 },
    ];
    let next = [
        Call::Bytes { size: 30 },
        Call::Bytes { size: 4 },
        Call::Bytes { size: 53 },
        Call::Typed { size: 8, align: 8 },
        Call::Aligned { size: 8, align: 8, extra: 0 },
        Call::Give { offset: 108, size: 92 },
        Call::Discard,
        Call::Rewind(Position::Current(-200)),
        Call::Rewind(Position::End(92)),
    ];
    let made = |last| {
        let mut written = Written::begin(&setup).expect("a setup that the Rust takes");
        for call in start.into_iter().chain([last]) {
            written.make(&call);
        }
        written
    };
    next.into_iter().map(made).collect()
}

/// Some random calls on a random arena, all in the domain; none where the Rust refuses the setup.
fn chosen(policy: u8, random: &mut Random) -> Option<Written> {
    let setup = Setup { policy, ..choose::setup(random, CAPS) };
    let mut chooser = Chooser::new(Random::new(random.number()), &setup);
    let mut written = Written::begin(&setup)?;
    for _ in 0..20 + random.below(40) {
        let view = written.view();
        let found = rules::segments(&view).expect("the domain keeps the Rust's arena sound");
        let call = chooser.next(&view, &found);
        if rules::refusal(&view, &call).is_some() || rules::rust_overflows(&view, &found, &call) {
            continue;
        }
        let answer = written.make(&call);
        chooser.note(&call, &answer, written.view().counters.allocated);
    }
    Some(written)
}

/// The Rust's arena, each of whose calls becomes a line.
struct Written {
    shape: Shape,
    theirs: Theirs,
    lines: String,
    calls: u64,
    /// Grants that left the top alone, and so came from the list.
    from_list: u64,
}

impl Written {
    fn begin(setup: &Setup) -> Option<Self> {
        // Safety: only calls in the domain are made, by `ledger` and by `chosen`.
        let theirs = unsafe { Theirs::create(setup) }?;
        let Setup { cap, reserved, unify, policy, .. } = *setup;
        let data_offset = theirs.data_offset();
        let shape = Shape { cap, reserved, data_offset, unify, read_only: 0, policy };
        Some(Written { shape, theirs, lines: format!("{setup}\n"), calls: 0, from_list: 0 })
    }

    fn view(&self) -> View<'_> {
        View { shape: self.shape, counters: self.theirs.counters(), bytes: self.theirs.bytes() }
    }

    fn make(&mut self, call: &Call) -> Answer {
        let before = self.theirs.counters().allocated;
        let answer = self.theirs.call(call);
        let counters = self.theirs.counters();
        let (top, lost, sentinel) = (counters.allocated, counters.discarded, counters.sentinel);
        let sum = checksum(&self.theirs.bytes()[self.shape.data_offset as usize..]);
        writeln!(self.lines, "{call} -> {answer} top={top} lost={lost} sentinel={sentinel} sum={sum}")
            .expect("a string grows");
        self.calls += u64::from(!matches!(call, Call::Fill { .. }));
        self.from_list += u64::from(matches!(answer, Answer::Granted(_)) && top == before);
        answer
    }
}

/// s = (s * 31 + byte) mod 2^32, from 0, over the bytes in order.
fn checksum(bytes: &[u8]) -> u32 {
    bytes.iter().fold(0u32, |sum, byte| sum.wrapping_mul(31).wrapping_add(u32::from(*byte)))
}
