//! Damaged inputs on our side alone: any shape, header, buffer and numbers. Each call returns, touches nothing outside
//! of the buffer, and leaves answer, header and bytes as the model of document 01 does; so it refuses exactly when the
//! paper says, and a refusal changes nothing.

use arena::{Arena, Position, Refusal, Settings};

use crate::calls::LIMIT;
use crate::fence::Fence;
use crate::image::Image;
use crate::judge::{self, Answers, slot};
use crate::random::Random;
use crate::watch::Watch;
use crate::wide;

/// Longest buffer, but for the wide arenas.
const MOST: u32 = 4_096;
/// Calls made on each image.
const CALLS: u64 = 8;
/// One call on a wide arena comes to so many others.
const WIDE: u64 = 15;

/// What was run.
#[derive(Debug, Default)]
pub struct Count {
    pub setups: Answers,
    pub calls: Answers,
    pub wide: wide::Count,
}

/// Makes `calls` calls on damaged arenas, and a share of that on wide ones; the first fault is told with the round that
/// shows it.
pub fn run(calls: u64, seed: u64) -> (Count, Result<(), String>) {
    let mut count = Count::default();
    let watch = Watch::start();
    let outcome = narrow(calls, seed, &watch, &mut count)
        .and_then(|()| wide::run(calls / WIDE, seed, |round| watch.round(round), &mut count.wide))
        .and_then(|()| at_the_limit());
    (count, outcome)
}

fn narrow(calls: u64, seed: u64, watch: &Watch, count: &mut Count) -> Result<(), String> {
    let mut image = Image::new(MOST);
    let mut round = 0;
    while count.calls.iter().sum::<u64>() < calls {
        watch.round(round);
        let mut random = Random::of_round(seed, round);
        one_round(&mut image, &mut random, count).map_err(|what| format!("round {round}: {what}"))?;
        round += 1;
    }
    Ok(())
}

fn one_round(image: &mut Image, random: &mut Random, count: &mut Count) -> Result<(), String> {
    let setup = image.any_setup(MOST, random);
    let code = judge::checked_setup(image, &setup, random)?;
    count.setups[slot(code)] += 1;
    match random.below(8) {
        0 => image.scramble(random),
        1..5 => image.forge(random),
        _ => {
            image.live(random);
            for _ in 0..random.below(3) {
                image.damage(random);
            }
        }
    }
    let mut model = judge::model_of(image);
    for _ in 0..CALLS {
        let call = image.any_call(&image.segments(), random);
        let answer = judge::checked_call(image, &mut model, &call)?;
        count.calls[slot(answer.code)] += 1;
    }
    Ok(())
}

/// Buffers of the largest length and one byte more. Only the pages that a call touches take memory.
fn at_the_limit() -> Result<(), String> {
    let most = LIMIT as usize;
    let mut fence = Fence::new(most + 1);
    let buf = fence.buffer_mut();
    if Arena::new(&mut buf[..=most], Settings::default()).err() != Some(Refusal::BadSetup) {
        return Err("a buffer one byte over the limit is taken".into());
    }
    let mut arena = Arena::new(&mut buf[..most], Settings::default()).map_err(|r| format!("the limit: {r}"))?;
    let wanted = Err(Refusal::InsufficientSpace { requested: LIMIT, available: LIMIT - 1 });
    if arena.alloc_bytes(LIMIT) != wanted || arena.remaining() != LIMIT - 1 {
        return Err("a request of the largest size is not refused with 9".into());
    }
    let moved = arena.rewind(Position::End(40)).and_then(|()| arena.alloc_bytes(40));
    match moved {
        Ok(Some(block)) if block.usable_offset == LIMIT - 40 && arena.allocated() == LIMIT => Ok(()),
        other => Err(format!("the last bytes of the largest buffer: {other:?}")),
    }
}
