//! Every sequence of a few calls from a small alphabet, on small arenas of every policy.

use arena::Position;

use crate::calls::{Call, Setup};
use crate::drive::{Difference, Make, Outcome, Pair, shortened};
use crate::held::Held;
use crate::rules::View;

/// A call whose numbers may depend on the arena.
#[derive(Clone, Copy)]
enum Letter {
    Is(Call),
    /// Bytes for the room at the top and this many more.
    Room(u32),
    /// The memory of a held block, counted from the last.
    Give(usize),
}

const ALPHABET: [Letter; 15] = [
    Letter::Is(Call::Bytes { size: 1 }),
    Letter::Is(Call::Bytes { size: 9 }),
    Letter::Is(Call::Bytes { size: 20 }),
    Letter::Room(0),
    Letter::Room(1),
    Letter::Is(Call::Typed { size: 8, align: 8 }),
    Letter::Is(Call::Aligned { size: 4, align: 4, extra: 3 }),
    Letter::Give(0),
    Letter::Give(1),
    Letter::Give(2),
    Letter::Is(Call::Discard),
    Letter::Is(Call::Minimum { size: 0 }),
    Letter::Is(Call::Rewind(Position::Start(0))),
    Letter::Is(Call::Rewind(Position::Current(-8))),
    Letter::Is(Call::Rewind(Position::End(0))),
];

/// What was run.
#[derive(Debug, Default)]
pub struct Count {
    pub setups: u64,
    pub sequences: u64,
    pub compared: u64,
}

/// Runs all sequences of three letters on every cap from 40 to 96, and of four on some of them.
pub fn run(make: Make) -> (Count, Option<Difference>) {
    let mut count = Count::default();
    for cap in 40..=96 {
        let depth = if [40, 57, 64, 80, 96].contains(&cap) { 4 } else { 3 };
        for setup in setups(cap) {
            for start in [fresh(), full(&setup)] {
                count.setups += 1;
                if let Err(difference) = all_words(&setup, &start, depth, make, &mut count) {
                    return (count, Some(shortened(difference, make)));
                }
            }
        }
    }
    (count, None)
}

fn setups(cap: u32) -> Vec<Setup> {
    let mut out = Vec::new();
    for policy in 0..=2 {
        for (reserved, unify) in [(0, 0), (7, 0), (0, 1)] {
            for minimum_segment_size in [1, 20] {
                out.push(Setup { cap, reserved, unify, policy, minimum_segment_size, read_only: 0 });
            }
        }
    }
    out
}

fn fresh() -> Vec<Letter> {
    Vec::new()
}

/// Three blocks that fill the arena.
fn full(setup: &Setup) -> Vec<Letter> {
    let third = setup.cap / if setup.unify == 1 { 6 } else { 3 };
    let bytes = Letter::Is(Call::Bytes { size: third });
    vec![bytes, bytes, Letter::Room(0)]
}

fn all_words(setup: &Setup, start: &[Letter], depth: usize, make: Make, count: &mut Count) -> Result<(), Difference> {
    let mut word = vec![0; depth];
    loop {
        let letters: Vec<Letter> = start.iter().copied().chain(word.iter().map(|i| ALPHABET[*i])).collect();
        let made = one_word(setup, &letters, make, count)?;
        let last = made.saturating_sub(start.len()).min(depth - 1);
        if !advance(&mut word, last) {
            return Ok(());
        }
    }
}

/// The next word that differs at `last` or before; false after the last one.
fn advance(word: &mut [usize], last: usize) -> bool {
    word[last + 1..].fill(0);
    for place in word[..=last].iter_mut().rev() {
        *place += 1;
        if *place < ALPHABET.len() {
            return true;
        }
        *place = 0;
    }
    false
}

/// Makes the letters' calls and tells how many could be made before one had no block to give back.
fn one_word(setup: &Setup, letters: &[Letter], make: Make, count: &mut Count) -> Result<usize, Difference> {
    let mut calls = Vec::new();
    let failed = |calls: &[Call], what| Difference { setup: *setup, calls: calls.to_vec(), what };
    let Some(mut pair) = Pair::begin(setup, make).map_err(|what| failed(&[], what))? else {
        return Ok(0);
    };
    count.sequences += 1;
    let mut held = Held::default();
    for letter in letters {
        let Some(call) = resolved(letter, &pair.view(), &held) else {
            break;
        };
        calls.push(call);
        if let Outcome::Compared(answer) = pair.step(&call).map_err(|what| failed(&calls, what))? {
            count.compared += 1;
            held.note(&call, &answer, pair.view().counters.allocated);
        }
    }
    Ok(calls.len())
}

fn resolved(letter: &Letter, view: &View, held: &Held) -> Option<Call> {
    match *letter {
        Letter::Is(call) => Some(call),
        Letter::Room(more) => Some(Call::Bytes { size: view.shape.cap - view.counters.allocated + more }),
        Letter::Give(place) => held
            .blocks()
            .iter()
            .rev()
            .nth(place)
            .map(|block| Call::Give { offset: block.memory_offset, size: block.memory_size }),
    }
}
