//! What is written around the figures, and how the figures are written.

use arena::Policy;

use crate::day;
use crate::measure::{Clock, Cost, PASSES};

pub fn preface(clock: &Clock) -> String {
    let own = nanoseconds(clock.own);
    format!(
        "\
# Speed: the proved arena against the given Rust

- Both sides run in one process, in turns, on the same inputs. A figure is the best round of those made in {PASSES}
  passes over all cases. The ratio is ours / original, from this run.
- Ours is called through the safe Rust wrapper over the proved library. The original is rarena's `unsync::Arena`,
  compiled unchanged and called directly. Release, opt-level 3, no overflow checks, no link-time optimization.
- Timed: the loop over the calls, the calls, and the test whether the answer is a grant; no more is read of an answer.
  Reading the clock costs {own} ns, which is subtracted from each timed region.
- Not timed: before each round the arena is put back to the round's first state, the header and every byte. So the
  buffer is in the cache as far as it fits, and holds noise or old nodes, not zeros. After each round the sides'
  grants, headers and bytes are compared, and a difference stops the run.
- Minimum segment size 20, reserved 0, buffers aligned to 64. Unify is on, since the original then keeps its header in
  the buffer, where it can be put back."
    )
}

pub fn top(cap: u32) -> String {
    let cap = count(cap);
    format!(
        "\
## Requests served at the top

A fresh arena of {cap} bytes is filled in one timed region. Nanoseconds a call.

| Request | original ns | ours ns | ratio |
|---|---|---|---|"
    )
}

pub fn lists() -> String {
    "\
## Calls that need the free list

Arenas with n free nodes of 21 to 91 bytes at random places and no room above the top. Nanoseconds a call, the mean
over 64 calls: one on each of 64 arenas for n = 1 and 16, and for n = 256 and 4,096 sixteen on each of 4, one after
another, so that the list grows or shrinks by up to sixteen nodes. Blocks given back are of the nodes' sizes. A served
request asks for 20 bytes up to a size that is in the list, a missed one for one byte more than the largest. Per node:
the figure divided by n.

| Call | policy | n | original ns | ours ns | ratio | original ns per node | ours ns per node |
|---|---|---|---|---|---|---|---|"
        .into()
}

pub fn soundness() -> String {
    "\
## The public soundness check alone

On the arenas of the table above. The original has no such check.

| Policy | n | ours ns | ours ns per node |
|---|---|---|---|"
        .into()
}

pub fn days() -> String {
    let (steps, slots, cap) = (count(day::STEPS), count(day::SLOTS), count(day::CAP));
    let days = day::DAYS;
    format!(
        "\
## A mixed day

{steps} steps on a fresh arena of {cap} bytes: a random one of {slots} slots gives its block back or, where it is empty,
asks for 8 to 512 bytes (log-uniform). Nanoseconds a step, the mean over {days} days. The calls' numbers are recorded
beforehand, so no slot is looked up in the timed region. Later steps would say little: either arena wears out and
refuses nearly every request.

| Policy | original ns | ours ns | ratio | requests refused |
|---|---|---|---|---|"
    )
}

pub fn columns(cost: Cost) -> String {
    let ratio = cost.ours / cost.theirs;
    let ratio = if ratio < 10.0 { format!("{ratio:.2}") } else { nanoseconds(ratio) };
    format!("{} | {} | {ratio}", nanoseconds(cost.theirs), nanoseconds(cost.ours))
}

pub fn policy_name(policy: Policy) -> &'static str {
    match policy {
        Policy::None => "none",
        Policy::Optimistic => "optimistic",
        Policy::Pessimistic => "pessimistic",
    }
}

/// With one decimal below 100.
pub fn nanoseconds(x: f64) -> String {
    if x < 100.0 { format!("{x:.1}") } else { count(x.round() as u64) }
}

/// With commas.
pub fn count(n: impl ToString) -> String {
    let digits = n.to_string();
    let mut text = String::new();
    for (i, digit) in digits.chars().enumerate() {
        if i > 0 && (digits.len() - i).is_multiple_of(3) {
            text.push(',');
        }
        text.push(digit);
    }
    text
}
