//! Damaged arenas of up to 2 MiB with long free lists. The soundness check tells segments apart in several ways, by how
//! many they are and by the top; each is tried on lists that are sound and on lists that are not.

use std::fmt;
use std::ops::Range;

use arena::Shape;

use crate::calls::Setup;
use crate::image::{self, Image};
use crate::judge::{self, Answers, slot};
use crate::model::write_list;
use crate::random::Random;
use crate::rules::{self, Segment, View};

/// Longest buffer.
const MOST: u32 = 2_097_152;
/// The check has marks for so many bytes at a time, and below a low top for so many.
const WINDOW: u32 = 524_288;
const SMALL_WINDOW: u32 = 65_536;
/// A longer list counts as long.
const LONG: usize = 1_000;
/// Calls made on each arena.
const CALLS: u64 = 8;
/// What stands in the data around the nodes, so that a byte cleared or left by mistake shows.
const NOISE: u8 = 0xa5;

/// How the check tells segments apart.
const WAYS: [&str; 5] =
    ["pairs of under 8", "marks of a small window", "pairs of few", "marks of one window", "marks of several windows"];

fn way(segments: usize, top: u32) -> usize {
    let windows = top.div_ceil(WINDOW) as usize;
    match segments {
        0..8 => 0,
        _ if top <= SMALL_WINDOW => 1,
        _ if segments / 4 < windows + 2 => 2,
        _ if windows == 1 => 3,
        _ => 4,
    }
}

/// What was run.
#[derive(Debug, Default)]
pub struct Count {
    pub calls: Answers,
    arenas: u64,
    long: u64,
    long_refused: u64,
    /// Lists that came to be told apart, by the way: those that are, and those that are not.
    apart: [u64; 5],
    not_apart: [u64; 5],
    /// Lists over several windows with one overlap only: in the last window, and of segments from different windows.
    in_the_last: u64,
    across: u64,
}

impl Count {
    fn note(&mut self, view: &View) {
        let Some(found) = rules::listed(view) else {
            return;
        };
        let top = view.counters.allocated;
        let way = way(found.len(), top);
        let meeting = rules::meeting(&found);
        let told = if meeting.is_empty() { &mut self.apart } else { &mut self.not_apart };
        told[way] += 1;
        if let (4, [[low, high]]) = (way, meeting.as_slice()) {
            self.in_the_last += u64::from(high.offset / WINDOW == (top - 1) / WINDOW);
            self.across += u64::from(high.offset / WINDOW != low.offset / WINDOW);
        }
    }
}

impl fmt::Display for Count {
    fn fmt(&self, f: &mut fmt::Formatter<'_>) -> fmt::Result {
        let ways = (0..5).map(|way| format!("{} ({}, {})", WAYS[way], self.apart[way], self.not_apart[way]));
        writeln!(f, "wide lists (apart, not apart): {}", ways.collect::<Vec<_>>().join(", "))?;
        let Count { in_the_last, across, .. } = self;
        writeln!(
            f,
            "one overlap over several windows: {in_the_last} in the last, {across} of segments of two windows"
        )?;
        let Count { arenas, long, long_refused, .. } = self;
        write!(f, "{arenas} wide arenas, {long} lists of over {LONG} nodes, {long_refused} of these refused 4")
    }
}

/// Makes `calls` calls, telling each round's number before it.
pub fn run(calls: u64, seed: u64, tell: impl Fn(u64), count: &mut Count) -> Result<(), String> {
    while count.calls.iter().sum::<u64>() < calls {
        let round = count.arenas;
        tell(round);
        one_round(&mut Random::of_round(seed, round), count).map_err(|what| format!("wide round {round}: {what}"))?;
    }
    Ok(())
}

fn one_round(random: &mut Random, count: &mut Count) -> Result<(), String> {
    let top = any_top(random);
    let setup = any_setup(top, random);
    let mut image = Image::new(setup.cap);
    judge::checked_setup(&mut image, &setup, random)?;
    let nodes = forge(&mut image, top, random);
    count.note(&image.view());
    let mut model = judge::model_of(&image);
    let mut refused = false;
    for _ in 0..CALLS {
        let call = image.any_call(&nodes, random);
        let answer = judge::checked_call(&mut image, &mut model, &call)?;
        count.calls[slot(answer.code)] += 1;
        refused |= answer.code == 4;
    }
    count.arenas += 1;
    count.long += u64::from(nodes.len() > LONG);
    count.long_refused += u64::from(nodes.len() > LONG && refused);
    Ok(())
}

/// A top near the end of a window or of the small one, or any.
fn any_top(random: &mut Random) -> u32 {
    let near = match random.below(8) {
        0..3 => SMALL_WINDOW,
        3..5 => WINDOW * random.within(1..=4),
        5 => random.within(4_096..=SMALL_WINDOW),
        6 => random.within(SMALL_WINDOW..=WINDOW),
        _ => random.within(WINDOW..=MOST),
    };
    near.saturating_add_signed(random.jitter(17) as i32).min(MOST)
}

/// A setup that is taken and leaves the data below this top, mostly with no room above it, so that the list is asked.
fn any_setup(top: u32, random: &mut Random) -> Setup {
    let any = random.within(0..=MOST);
    let room = random.pick(&[0, 0, 0, 1, 8, 100, any]);
    Setup {
        cap: (top + room).min(MOST),
        reserved: random.pick(&[0, 7, 8, 40]),
        unify: random.below(2) as u8,
        policy: if random.one_in(16) { 0 } else { random.pick(&[1, 2]) },
        minimum_segment_size: random.pick(&[0, 0, 1, 8, 20, 64]),
        read_only: 0,
    }
}

/// What may be wrong with a list.
#[derive(Clone, Copy, PartialEq, Eq)]
enum Fault {
    Nothing,
    /// Two segments meet, or only touch, which is no fault.
    Meeting,
    PastTheTop,
    NoSize,
    OffItsPlace,
    BelowTheData,
    OutOfOrder,
    Looped,
    /// Any damage, to shape and header too.
    Damaged,
}

/// How often each comes.
const FAULTS: [(Fault, usize); 9] = [
    (Fault::Nothing, 4),
    (Fault::Meeting, 5),
    (Fault::PastTheTop, 1),
    (Fault::NoSize, 1),
    (Fault::OffItsPlace, 1),
    (Fault::BelowTheData, 1),
    (Fault::OutOfOrder, 1),
    (Fault::Looped, 1),
    (Fault::Damaged, 1),
];

fn any_fault(random: &mut Random) -> Fault {
    let faults: Vec<Fault> = FAULTS.iter().flat_map(|(fault, times)| vec![*fault; *times]).collect();
    random.pick(&faults)
}

/// Lays a list out below this top and tells its nodes.
fn forge(image: &mut Image, top: u32, random: &mut Random) -> Vec<Segment> {
    let Shape { data_offset, policy, .. } = image.shape;
    let fault = any_fault(random);
    let mut nodes = laid_out(data_offset, top, random);
    spoil(&mut nodes, fault, data_offset..top, random);
    nodes.sort_by_key(|node| if policy == 1 { u32::MAX - node.size } else { node.size });
    if fault == Fault::OutOfOrder && nodes.len() > 1 {
        let place = random.below(nodes.len() as u64 - 1) as usize;
        nodes.swap(place, place + 1);
    }
    let buf = image.fence.buffer_mut();
    buf[data_offset as usize..].fill(NOISE);
    let first = write_list(&nodes, buf);
    if let (Fault::Looped, Some(last)) = (fault, nodes.last()) {
        let again = random.pick(&nodes).offset;
        buf[last.offset as usize..][..4].copy_from_slice(&again.to_le_bytes());
    }
    image.header = image::header(first, top, image.header.minimum_segment_size);
    if fault == Fault::Damaged {
        image.damage(random);
    }
    nodes
}

/// Segments from the data offset up to the top, by place, none meeting another.
fn laid_out(data_offset: u32, top: u32, random: &mut Random) -> Vec<Segment> {
    let starts = starts(data_offset.div_ceil(8), top / 8, random);
    let ends = starts.iter().skip(1).copied().chain([top]);
    let all_small = random.one_in(8);
    let segment = |(offset, end): (&u32, u32)| {
        let room = end.checked_sub(offset + 8).filter(|room| *room > 0)?;
        let size = match random.below(2) {
            _ if all_small => 1,
            0 => room,
            _ => random.within(1..=room),
        };
        Some(Segment { offset: *offset, size })
    };
    starts.iter().zip(ends).filter_map(segment).collect()
}

/// Where segments may start, from the first cell of 8 bytes to the last: at so many at random, or at every other one,
/// so that the list is as long as can be. Now and then where windows meet too, or nowhere over more than a window.
fn starts(first: u32, last: u32, random: &mut Random) -> Vec<u32> {
    let count = match random.below(8) {
        0 => random.within(0..=7),
        1..3 => random.within(8..=30),
        3 => random.within(30..=1_000),
        _ => random.within(1_300..=3_000),
    };
    let mut cells: Vec<u32> = (0..count).map(|_| random.within(first..=last)).collect();
    if last * 8 <= SMALL_WINDOW + 17 && random.one_in(8) {
        cells = (first..=last).step_by(2).collect();
    }
    if random.one_in(2) {
        cells.extend((1..=last * 8 / WINDOW).map(|windows| windows * WINDOW / 8));
    }
    if random.one_in(8) {
        let from = random.within(first..=last);
        cells.retain(|cell| !(from..from + WINDOW / 6).contains(cell));
    }
    cells.sort_unstable();
    cells.dedup();
    cells.iter().map(|cell| cell * 8).collect()
}

/// Puts a fault of place or size in one of the segments.
fn spoil(nodes: &mut [Segment], fault: Fault, data: Range<u32>, random: &mut Random) {
    if nodes.is_empty() {
        return;
    }
    let any = random.below(nodes.len() as u64) as usize;
    match (fault, nodes) {
        (Fault::Meeting, nodes @ [_, _, ..]) => meet(nodes, data.end, random),
        (Fault::PastTheTop, [.., last]) => last.size = data.end + random.within(1..=8) - last.offset - 8,
        (Fault::NoSize, nodes) => nodes[any].size = 0,
        (Fault::OffItsPlace, nodes) => nodes[any].offset += random.within(1..=7).min(nodes[any].size),
        (Fault::BelowTheData, [first, ..]) => first.offset = (data.start - 1) / 8 * 8,
        _ => {}
    }
}

/// Makes a segment end in the next one, or where that starts: any two, the last two, or two about a window's edge.
fn meet(nodes: &mut [Segment], top: u32, random: &mut Random) {
    let last = nodes.len() - 2;
    let edge = WINDOW * random.within(1..=top / WINDOW);
    let place = match random.below(3) {
        0 => random.below(nodes.len() as u64 - 1) as usize,
        1 => last,
        _ => nodes.partition_point(|node| node.offset < edge).saturating_sub(random.pick(&[1, 1, 1, 2])).min(last),
    };
    let next = nodes[place + 1];
    let whole = next.size + 8;
    let any = random.within(1..=whole);
    let reach = random.pick(&[0, 0, 1, 1, 7, 8, 9, whole, any]);
    nodes[place].size = (next.offset + reach).min(top) - nodes[place].offset - 8;
}

#[cfg(test)]
mod tests {
    use super::*;

    #[test]
    fn every_way_is_tried() {
        let mut count = Count::default();
        assert_eq!(run(4_000, 1, |_| (), &mut count), Ok(()));
        assert!(count.apart.iter().chain(&count.not_apart).all(|lists| *lists > 4), "{count}");
        assert!(count.in_the_last > 4 && count.across > 4, "{count}");
        assert!(count.long > 100 && count.long_refused > 50, "{count}");
    }
}
