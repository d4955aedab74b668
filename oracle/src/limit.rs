//! A few calls on buffers of the largest length, both sides compared. It takes two gigabytes of memory.

use arena::Position;

use crate::calls::{Call, LIMIT, Setup};
use crate::drive::{Difference, Make, Outcome, Pair};

/// Makes the calls under every policy and both layouts, and tells how many were compared.
pub fn run(make: Make) -> (u64, Option<Difference>) {
    let mut compared = 0;
    for policy in 0..=2 {
        for unify in 0..=1 {
            let setup = Setup { cap: LIMIT, reserved: 0, unify, policy, minimum_segment_size: 20, read_only: 0 };
            match one_setup(&setup, make) {
                Ok(calls) => compared += calls,
                Err(difference) => return (compared, Some(difference)),
            }
        }
    }
    (compared, None)
}

fn one_setup(setup: &Setup, make: Make) -> Result<u64, Difference> {
    let calls = calls();
    let failed = |made: usize, what| Difference { setup: *setup, calls: calls[..made].to_vec(), what };
    let Some(mut pair) = Pair::begin(setup, make).map_err(|what| failed(0, what))? else {
        return Err(failed(0, "setup: both refuse".into()));
    };
    let mut compared = 0;
    for (made, call) in calls.iter().enumerate() {
        if let Outcome::Compared(_) = pair.step(call).map_err(|what| failed(made + 1, what))? {
            compared += 1;
        }
    }
    Ok(compared)
}

/// Sums near three times the limit, blocks at the very end, and a free segment of nearly all.
fn calls() -> Vec<Call> {
    vec![
        Call::Bytes { size: LIMIT },
        Call::Typed { size: LIMIT, align: 4096 },
        Call::Aligned { size: LIMIT, align: 4096, extra: LIMIT },
        Call::Rewind(Position::End(40)),
        Call::Typed { size: 16, align: 16 },
        Call::Rewind(Position::Current(i64::from(LIMIT))),
        Call::Give { offset: 40, size: LIMIT - 80 },
        Call::Typed { size: LIMIT, align: 1 },
        Call::Bytes { size: 1 },
        Call::Aligned { size: 4096, align: 4096, extra: 5 },
        Call::Discard,
        Call::Rewind(Position::Start(u32::MAX)),
        Call::Rewind(Position::End(LIMIT)),
    ]
}
