//! Times the proved arena against the given Rust and writes ratios as Markdown tables.

mod calls;
mod day;
mod lists;
mod measure;
mod random;
mod show;
mod sides;

use arena::Policy;
use calls::{Aligned, Bytes, Call, Typed};
use lists::{LENGTHS, Length};
use measure::{Batch, Clock, Cost, Timed};
use show::{columns, count, nanoseconds, policy_name};
use sides::{DATA_OFFSET, Pair};

const POLICIES: [Policy; 2] = [Policy::Pessimistic, Policy::Optimistic];
/// Large enough that the clock does not show, small enough for the second cache.
const TOP_CAP: u32 = 262_144;

#[repr(C, align(64))]
struct Line([u8; 64]);

#[repr(C, align(16))]
struct Record([u8; 32]);

struct Table {
    head: String,
    rows: Vec<Row>,
}

struct Row {
    name: String,
    case: Box<dyn Timed>,
    show: Box<dyn Fn(Cost) -> String>,
}

fn main() {
    let clock = Clock::new();
    let mut tables = [top(), lists(), soundness(), days()];
    for _ in 0..measure::PASSES {
        for row in tables.iter_mut().flat_map(|table| &mut table.rows) {
            row.case.pass(&clock);
        }
    }
    println!("{}", show::preface(&clock));
    for table in &tables {
        println!("\n{}", table.head);
        for row in &table.rows {
            println!("| {} | {} |", row.name, (row.show)(row.case.cost()));
        }
    }
}

fn top() -> Table {
    let mut rows: Vec<Row> =
        [16, 64, 256, 4_096].map(|size| top_row(&format!("bytes {}", count(size)), filling(Bytes(size), size))).into();
    rows.push(top_row("typed 8 align 8", filling(Typed::<u64>::new(), 8)));
    rows.push(top_row("typed 64 align 64", filling(Typed::<Line>::new(), 64)));
    rows.push(top_row("aligned 32 align 16 extra 100", filling(Aligned::<Record>::new(100), 144)));
    Table { head: show::top(TOP_CAP), rows }
}

fn top_row<C: Call + 'static>(name: &str, batch: Batch<C>) -> Row {
    Row { name: name.into(), case: measure::case(vec![batch]), show: Box::new(columns) }
}

/// As many calls as a fresh arena can serve, where each moves the top by `room`.
fn filling<C: Call + Clone>(call: C, room: u32) -> Batch<C> {
    let times = (TOP_CAP - DATA_OFFSET.next_multiple_of(room)) / room;
    let pair = Pair::new(TOP_CAP, Policy::Optimistic, |_| ());
    vec![(pair, vec![call; times as usize])]
}

fn lists() -> Table {
    let mut rows = list_rows("give-back", lists::give_backs);
    rows.extend(list_rows("request served", lists::served_requests));
    rows.extend(list_rows("request missed", lists::missed_requests));
    Table { head: show::lists(), rows }
}

fn list_rows<C: Call + 'static>(name: &str, batches: fn(Policy, &Length) -> Vec<Batch<C>>) -> Vec<Row> {
    by_policy_and_length(|policy, length| {
        let nodes = f64::from(length.nodes);
        Row {
            name: format!("{name} | {} | {}", policy_name(policy), count(length.nodes)),
            case: measure::case(batches(policy, length)),
            show: Box::new(move |cost| {
                let (theirs, ours) = (nanoseconds(cost.theirs / nodes), nanoseconds(cost.ours / nodes));
                format!("{} | {theirs} | {ours}", columns(cost))
            }),
        }
    })
}

fn soundness() -> Table {
    let rows = by_policy_and_length(|policy, length| {
        let nodes = f64::from(length.nodes);
        Row {
            name: format!("{} | {}", policy_name(policy), count(length.nodes)),
            case: measure::case(lists::soundness_checks(policy, length)),
            show: Box::new(move |cost| format!("{} | {}", nanoseconds(cost.ours), nanoseconds(cost.ours / nodes))),
        }
    });
    Table { head: show::soundness(), rows }
}

fn by_policy_and_length(row: impl Fn(Policy, &Length) -> Row) -> Vec<Row> {
    let row = &row;
    POLICIES.iter().flat_map(|policy| LENGTHS.iter().map(move |length| row(*policy, length))).collect()
}

fn days() -> Table {
    let row = |policy| {
        let days = day::days(policy);
        Row {
            name: policy_name(policy).into(),
            case: measure::case(days.batches),
            show: Box::new(move |cost| format!("{} | {:.1} %", columns(cost), 100.0 * days.refused)),
        }
    };
    Table { head: show::days(), rows: POLICIES.map(row).into() }
}
