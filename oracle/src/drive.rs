//! Makes the same calls on both sides and compares after every one.

use std::fmt;

use arena::{Position, Refusal, Shape};

use crate::calls::{Answer, Call, Setup};
use crate::choose::{self, Caps, Chooser};
use crate::random::Random;
use crate::rules::{self, Counters, Segment, View};
use crate::sides::{Side, Theirs};

/// Sets up the side that is compared with the Rust.
pub type Make<'a> = &'a dyn Fn(&Setup) -> Result<Box<dyn Side>, Refusal>;

/// What became of a call.
pub enum Outcome {
    /// Made on both sides, with one answer and one state.
    Compared(Answer),
    /// Owed a refusal that only our side has; given, with nothing changed, and not made on the Rust.
    RefusedByOursAlone(Refusal),
    /// Outside the comparison's domain without a refusal: made on neither side.
    LeftOut,
}

/// Where the two sides differ.
pub struct Difference {
    pub setup: Setup,
    pub calls: Vec<Call>,
    pub what: String,
}

impl fmt::Display for Difference {
    fn fmt(&self, f: &mut fmt::Formatter<'_>) -> fmt::Result {
        writeln!(f, "{}", self.setup)?;
        for call in &self.calls {
            writeln!(f, "{call}")?;
        }
        write!(f, "{}", self.what)
    }
}

/// Both sides after the same setup and calls.
pub struct Pair {
    shape: Shape,
    ours: Box<dyn Side>,
    theirs: Theirs,
}

impl Pair {
    /// Sets both sides up; none where the Rust refuses and ours answers 3 as well.
    pub fn begin(setup: &Setup, make: Make) -> Result<Option<Self>, String> {
        // Safety: `step` makes no call on the Rust before `rules` has found it in the domain.
        let theirs = unsafe { Theirs::create(setup) };
        let (ours, theirs) = match (make(setup), theirs) {
            (Ok(ours), Some(theirs)) => (ours, theirs),
            (Err(Refusal::BadSetup), None) => return Ok(None),
            (Err(refusal), _) => return Err(format!("setup: ours refuses no={}", refusal.number())),
            (Ok(_), None) => return Err("setup: the Rust refuses".into()),
        };
        let shape = shape(setup, theirs.data_offset());
        let pair = Pair { shape, ours, theirs };
        pair.compare_states().map(|()| Some(pair))
    }

    /// The Rust's arena, which ours equals.
    pub fn view(&self) -> View<'_> {
        View { shape: self.shape, counters: self.theirs.counters(), bytes: self.theirs.bytes() }
    }

    /// The free segments, which the domain's calls keep sound.
    pub fn segments(&self) -> Result<Vec<Segment>, String> {
        rules::segments(&self.view()).ok_or("the Rust's arena is not sound by document 01".into())
    }

    pub fn step(&mut self, call: &Call) -> Result<Outcome, String> {
        let found = self.segments()?;
        let view = self.view();
        if let Some(refusal) = rules::refusal(&view, call) {
            let answer = self.ours.call(call);
            return self.compared(answer, Answer::Refused(refusal), Outcome::RefusedByOursAlone(refusal));
        }
        if rules::rust_overflows(&view, &found, call) || writes_elsewhere(&view, &found, call) {
            return Ok(Outcome::LeftOut);
        }
        let answer = self.theirs.call(call);
        let our_answer = self.ours.call(call);
        self.compared(our_answer, answer, Outcome::Compared(answer))
    }

    fn compared(&self, ours: Answer, wanted: Answer, outcome: Outcome) -> Result<Outcome, String> {
        if ours != wanted {
            return Err(format!("ours: {ours}\nwanted: {wanted}"));
        }
        self.compare_states().map(|()| outcome)
    }

    fn compare_states(&self) -> Result<(), String> {
        let (ours, theirs) = (self.ours.counters(), self.theirs.counters());
        if ours != theirs {
            return Err(format!("ours: {}\nthe Rust: {}", shown(&ours), shown(&theirs)));
        }
        let start = self.shape.data_offset as usize;
        let (ours, theirs) = (&self.ours.bytes()[start..], &self.theirs.bytes()[start..]);
        if ours != theirs {
            let at = ours.iter().zip(theirs).position(|(a, b)| a != b).unwrap_or(ours.len().min(theirs.len()));
            return Err(format!("byte {} is {:?}, in the Rust {:?}", start + at, ours.get(at), theirs.get(at)));
        }
        if !self.ours.intact() || !self.theirs.intact() {
            return Err("a byte outside of the arena's data has changed".into());
        }
        Ok(())
    }
}

fn shape(setup: &Setup, data_offset: u32) -> Shape {
    let Setup { cap, reserved, unify, policy, .. } = *setup;
    Shape { cap, reserved, data_offset, unify, read_only: 0, policy }
}

fn shown(counters: &Counters) -> String {
    let Counters { sentinel, allocated, minimum_segment_size, discarded } = counters;
    format!("sentinel={sentinel} top={allocated} min={minimum_segment_size} lost={discarded}")
}

/// Whether a caller's write leaves the data or meets a free segment.
fn writes_elsewhere(view: &View, found: &[Segment], call: &Call) -> bool {
    let Call::Fill { offset, size, .. } = *call else {
        return false;
    };
    let (start, end) = (u64::from(offset), u64::from(offset) + u64::from(size));
    offset < view.shape.data_offset
        || end > view.shape.cap.into()
        || found.iter().any(|segment| segment.meets(start, end))
}

/// Counts over a run.
#[derive(Debug, Default)]
pub struct Tally {
    pub arenas: u64,
    pub setups_refused: u64,
    pub compared: u64,
    pub granted_at_top: u64,
    pub granted_from_list: u64,
    pub splits: u64,
    pub refused: u64,
    pub longest_list: usize,
    pub refused_by_ours_alone: [u64; 9],
    pub left_out: u64,
}

impl Tally {
    fn count(&mut self, call: &Call, outcome: &Outcome, before: &Counters, after: &Counters) {
        match outcome {
            Outcome::Compared(_) if matches!(call, Call::Fill { .. }) => {}
            Outcome::Compared(answer) => {
                self.compared += 1;
                self.count_answer(answer, before, after);
            }
            Outcome::RefusedByOursAlone(refusal) => self.refused_by_ours_alone[refusal.number() as usize] += 1,
            Outcome::LeftOut => self.left_out += 1,
        }
    }

    fn count_answer(&mut self, answer: &Answer, before: &Counters, after: &Counters) {
        match answer {
            Answer::Granted(_) if after.allocated != before.allocated => self.granted_at_top += 1,
            Answer::Granted(_) => {
                self.granted_from_list += 1;
                self.splits += u64::from(after.discarded != before.discarded);
            }
            Answer::Refused(_) => self.refused += 1,
            _ => {}
        }
    }
}

impl fmt::Display for Tally {
    fn fmt(&self, f: &mut fmt::Formatter<'_>) -> fmt::Result {
        let alone = &self.refused_by_ours_alone;
        writeln!(f, "{} arenas, {} setups refused by both", self.arenas, self.setups_refused)?;
        writeln!(
            f,
            "{} grants at the top, {} from the list ({} with a split), {} refusals 9; longest list {}",
            self.granted_at_top, self.granted_from_list, self.splits, self.refused, self.longest_list
        )?;
        write!(
            f,
            "refused by ours alone: {} (5: {}, 6: {}, 7: {}, 8: {}); left out where the Rust overflows: {}",
            alone.iter().sum::<u64>(),
            alone[5],
            alone[6],
            alone[7],
            alone[8],
            self.left_out
        )
    }
}

/// Compares at least `calls` random calls. A difference comes back as short as it can be made.
pub fn compare(calls: u64, seed: u64, caps: Caps, make: Make) -> (Tally, Option<Difference>) {
    let mut tally = Tally::default();
    let mut random = Random::new(seed);
    while tally.compared < calls {
        let setup = choose::setup(&mut random, caps);
        let chooser = Chooser::new(Random::new(random.number()), &setup);
        let steps = 20
            + random.below(match setup.cap {
                0..=2_000 => 90,
                2_001..=20_000 => 400,
                _ => 2_000,
            });
        if let Err(difference) = one_arena(setup, chooser, steps, make, &mut tally) {
            return (tally, Some(shortened(difference, make)));
        }
    }
    (tally, None)
}

fn one_arena(setup: Setup, mut chooser: Chooser, steps: u64, make: Make, tally: &mut Tally) -> Result<(), Difference> {
    let mut calls = Vec::new();
    let failed = |calls: &[Call], what| Difference { setup, calls: calls.to_vec(), what };
    let Some(mut pair) = Pair::begin(&setup, make).map_err(|what| failed(&[], what))? else {
        tally.setups_refused += 1;
        return Ok(());
    };
    tally.arenas += 1;
    let mut left_out = 0;
    for _ in 0..steps {
        // An arena whose discarded has come to its end has few calls left in the domain.
        if left_out > 4 {
            break;
        }
        let found = pair.segments().map_err(|what| failed(&calls, what))?;
        tally.longest_list = tally.longest_list.max(found.len());
        let before = pair.view().counters;
        let call = chooser.next(&pair.view(), &found);
        calls.push(call);
        let outcome = pair.step(&call).map_err(|what| failed(&calls, what))?;
        let after = pair.view().counters;
        tally.count(&call, &outcome, &before, &after);
        match outcome {
            Outcome::Compared(answer) => chooser.note(&call, &answer, after.allocated),
            Outcome::RefusedByOursAlone(_) => {}
            Outcome::LeftOut => left_out += 1,
        }
    }
    Ok(())
}

/// Makes listed calls on fresh sides and tells how they differ.
pub fn replay(setup: &Setup, calls: &[Call], make: Make) -> Option<String> {
    let mut pair = match Pair::begin(setup, make) {
        Ok(pair) => pair?,
        Err(what) => return Some(what),
    };
    calls.iter().find_map(|call| pair.step(call).err())
}

/// The same difference with fewer calls: as they are, or with the top first raised to the buffer's end, which often
/// stands for many requests.
pub fn shortened(difference: Difference, make: Make) -> Difference {
    let raised: Vec<Call> =
        [Call::Rewind(Position::End(0))].into_iter().chain(difference.calls.iter().copied()).collect();
    let setup = difference.setup;
    let raised = replay(&setup, &raised, make).map(|what| thinned(Difference { setup, calls: raised, what }, make));
    let plain = thinned(difference, make);
    match raised {
        Some(raised) if raised.calls.len() < plain.calls.len() => raised,
        _ => plain,
    }
}

/// Drops calls, longest runs first, as long as the sides still differ.
fn thinned(mut difference: Difference, make: Make) -> Difference {
    let mut run = difference.calls.len().max(1);
    loop {
        let mut at = 0;
        while at < difference.calls.len() {
            let mut fewer = difference.calls.clone();
            fewer.drain(at..(at + run).min(fewer.len()));
            match replay(&difference.setup, &fewer, make) {
                Some(what) => difference = Difference { calls: fewer, what, ..difference },
                None => at += run,
            }
        }
        if run == 1 {
            return difference;
        }
        run /= 2;
    }
}
