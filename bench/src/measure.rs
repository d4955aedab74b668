//! Rounds on both sides in turn, and the best of them.

use std::time::{Duration, Instant};

use arena::{Arena, Header};
use reference::Arena as RustArena;

use crate::calls::Call;
use crate::sides::Pair;

/// How many times the whole set of cases is gone through, so that a slow spell of the machine spoils no case for good.
pub const PASSES: u32 = 3;
/// How many rounds a case has in a pass, and more as long as there is time. The first finds the caches as another case
/// left them.
const ROUNDS: u32 = 2;
const TIME: Duration = Duration::from_millis(150);

/// Arenas that one timed region goes through, each with the calls made on it.
pub type Batch<C> = Vec<(Pair, Vec<C>)>;

/// Nanoseconds on both sides.
#[derive(Clone, Copy)]
pub struct Cost {
    pub theirs: f64,
    pub ours: f64,
}

impl Cost {
    fn least(self, other: Cost) -> Cost {
        Cost { theirs: self.theirs.min(other.theirs), ours: self.ours.min(other.ours) }
    }
}

/// A clock that knows what reading it costs.
pub struct Clock {
    pub own: f64,
}

impl Clock {
    pub fn new() -> Self {
        let still = Clock { own: 0.0 };
        let own = (0..10_000).map(|_| still.time(|| ()).0).fold(f64::INFINITY, f64::min);
        Clock { own }
    }

    /// The nanoseconds that `work` takes, and what it answers.
    fn time<T>(&self, work: impl FnOnce() -> T) -> (f64, T) {
        let start = Instant::now();
        let answer = work();
        (start.elapsed().as_nanos() as f64 - self.own, answer)
    }
}

/// Calls that are timed together for one figure on each side.
pub trait Timed {
    /// Times rounds for a while.
    fn pass(&mut self, clock: &Clock);
    /// What a call costs: the best round of each batch so far, and the mean over the calls of all batches.
    fn cost(&self) -> Cost;
}

struct Case<C> {
    batches: Vec<(Batch<C>, Cost)>,
}

/// A case of these batches, not yet timed.
pub fn case<C: Call + 'static>(batches: Vec<Batch<C>>) -> Box<dyn Timed> {
    let worst = Cost { theirs: f64::INFINITY, ours: f64::INFINITY };
    Box::new(Case { batches: batches.into_iter().map(|batch| (batch, worst)).collect() })
}

impl<C: Call> Timed for Case<C> {
    fn pass(&mut self, clock: &Clock) {
        let start = Instant::now();
        let mut rounds = 0;
        while rounds < ROUNDS || start.elapsed() < TIME {
            for (batch, best) in &mut self.batches {
                *best = best.least(round(clock, batch));
            }
            rounds += 1;
        }
    }

    fn cost(&self) -> Cost {
        let calls: usize = self.batches.iter().flat_map(|(batch, _)| batch).map(|(_, calls)| calls.len()).sum();
        let mean = |side: fn(Cost) -> f64| self.batches.iter().map(|(_, best)| side(*best)).sum::<f64>() / calls as f64;
        Cost { theirs: mean(|best| best.theirs), ours: mean(|best| best.ours) }
    }
}

/// One timed region on each side. Putting the arenas back and comparing them afterwards is not timed.
fn round<C: Call>(clock: &Clock, batch: &mut Batch<C>) -> Cost {
    let arenas: Vec<_> = batch.iter_mut().map(|(pair, calls)| (pair.theirs(), &calls[..])).collect();
    let (theirs, their_grants) = clock.time(|| run_theirs(&arenas));
    let mut arenas: Vec<_> = batch.iter_mut().map(|(pair, calls)| (pair.ours(), &calls[..])).collect();
    let (ours, our_grants) = clock.time(|| run_ours(&mut arenas));
    let headers: Vec<Header> = arenas.iter().map(|(arena, _)| arena.header()).collect();
    assert_eq!(their_grants, our_grants, "the sides granted a different number of calls");
    for ((pair, _), header) in batch.iter_mut().zip(headers) {
        assert!(pair.agree(header), "the sides ended in different states");
    }
    Cost { theirs, ours }
}

fn run_theirs<C: Call>(arenas: &[(&RustArena, &[C])]) -> usize {
    arenas.iter().map(|(arena, calls)| calls.iter().filter(|call| call.theirs(arena)).count()).sum()
}

fn run_ours<C: Call>(arenas: &mut [(Arena, &[C])]) -> usize {
    arenas.iter_mut().map(|(arena, calls)| calls.iter().filter(|call| call.ours(arena)).count()).sum()
}
