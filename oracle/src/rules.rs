//! Document 01's soundness and its refusals 1 to 8, written once more from the paper, to keep the comparison's domain
//! and to judge our refusals. Plain and slow on purpose; nothing here is shared with either side.

use arena::{Position, Refusal, Shape};

use crate::calls::{Call, LIMIT, Setup};

/// The end mark, in either half of a word.
pub const END_MARK: u32 = u32::MAX;

/// The header's numbers.
#[derive(Debug, Clone, Copy, PartialEq, Eq)]
pub struct Counters {
    pub sentinel: u64,
    pub allocated: u32,
    pub minimum_segment_size: u32,
    pub discarded: u32,
}

/// An arena as a call finds it.
#[derive(Debug, Clone, Copy)]
pub struct View<'a> {
    pub shape: Shape,
    pub counters: Counters,
    pub bytes: &'a [u8],
}

/// A free segment: its node's offset and its data size.
#[derive(Debug, Clone, Copy, PartialEq, Eq)]
pub struct Segment {
    pub offset: u32,
    pub size: u32,
}

impl Segment {
    /// The end of its bytes, not included.
    pub fn end(self) -> u64 {
        u64::from(self.offset) + 8 + u64::from(self.size)
    }

    /// Whether it shares a byte with the range from `start` to `end`, not included.
    pub fn meets(self, start: u64, end: u64) -> bool {
        start < end && start < self.end() && u64::from(self.offset) < end
    }
}

pub fn round_up(x: u64, align: u64) -> u64 {
    x.div_ceil(align) * align
}

pub fn data_offset(reserved: u32, unify: u8) -> u64 {
    if unify == 1 { round_up(reserved.into(), 8) + 32 } else { u64::from(reserved) + 1 }
}

/// Refusals 2 and 3. A flag is 0 or 1.
pub fn setup_refusal(setup: &Setup) -> Option<Refusal> {
    if setup.policy > 2 {
        return Some(Refusal::UnknownFreelist);
    }
    let fits = setup.cap <= LIMIT && data_offset(setup.reserved, setup.unify) <= setup.cap.into();
    (setup.unify > 1 || setup.read_only > 1 || !fits).then_some(Refusal::BadSetup)
}

pub fn head_sound(view: &View) -> bool {
    let Shape { cap, reserved, data_offset: start, unify, read_only, policy } = view.shape;
    policy <= 2
        && unify <= 1
        && read_only <= 1
        && view.bytes.len() == cap as usize
        && cap <= LIMIT
        && u64::from(start) == data_offset(reserved, unify)
        && start <= view.counters.allocated
        && view.counters.allocated <= cap
}

/// The free segments in list order, or none where the arena is unsound.
pub fn segments(view: &View) -> Option<Vec<Segment>> {
    listed(view).filter(|found| meeting(found).is_empty())
}

/// The same, but that they may share bytes.
pub fn listed(view: &View) -> Option<Vec<Segment>> {
    let [size_half, next] = halves(view.counters.sentinel);
    if !head_sound(view) || size_half != END_MARK || (view.shape.policy == 0 && next != END_MARK) {
        return None;
    }
    walk(view, next).filter(|found| in_order(found, view.shape.policy))
}

pub fn sound(view: &View) -> bool {
    segments(view).is_some()
}

fn halves(word: u64) -> [u32; 2] {
    [(word >> 32) as u32, word as u32]
}

fn walk(view: &View, first: u32) -> Option<Vec<Segment>> {
    let top = u64::from(view.counters.allocated);
    let mut found = Vec::new();
    let mut at = first;
    while at != END_MARK {
        let fits = at.is_multiple_of(8) && at >= view.shape.data_offset && u64::from(at) + 8 <= top;
        if !fits || found.len() >= view.bytes.len() / 16 {
            return None;
        }
        let word = view.bytes[at as usize..at as usize + 8].try_into().expect("eight bytes");
        let [size, next] = halves(u64::from_le_bytes(word));
        let segment = Segment { offset: at, size };
        if size == 0 || segment.end() > top {
            return None;
        }
        found.push(segment);
        at = next;
    }
    Some(found)
}

fn in_order(found: &[Segment], policy: u8) -> bool {
    found.windows(2).all(|pair| match policy {
        1 => pair[0].size >= pair[1].size,
        _ => pair[0].size <= pair[1].size,
    })
}

/// The neighbours by place that share a byte; where there are none, no two segments do.
pub fn meeting(found: &[Segment]) -> Vec<[Segment; 2]> {
    let mut by_place = found.to_vec();
    by_place.sort_unstable_by_key(|segment| segment.offset);
    let neighbours = by_place.windows(2).map(|pair| [pair[0], pair[1]]);
    neighbours.filter(|[low, high]| low.end() > high.offset.into()).collect()
}

/// The refusal among 1 to 8 that the call is owed, in document 01's order, or none.
pub fn refusal(view: &View, call: &Call) -> Option<Refusal> {
    if let Call::Fill { .. } = call {
        return None;
    }
    if view.shape.read_only == 1 {
        return Some(Refusal::ReadOnly);
    }
    match *call {
        Call::Bytes { size } => request_refusal(view, size, 1, 0),
        Call::Typed { size, align } => request_refusal(view, size, align, 0),
        Call::Aligned { size, align, extra } => request_refusal(view, size, align, extra),
        Call::Minimum { .. } | Call::Lost { .. } => (!head_sound(view)).then_some(Refusal::Damaged),
        Call::Give { offset, size } => list_refusal(view, |found| give_refusal(view, found, offset, size)),
        Call::Rewind(position) => list_refusal(view, |found| rewind_refusal(view, found, position)),
        Call::Discard | Call::Fill { .. } => list_refusal(view, |_| None),
    }
}

fn list_refusal(view: &View, then: impl Fn(&[Segment]) -> Option<Refusal>) -> Option<Refusal> {
    match segments(view) {
        Some(found) => then(&found),
        None => Some(Refusal::Damaged),
    }
}

fn request_refusal(view: &View, size: u32, align: u32, extra: u32) -> Option<Refusal> {
    let good_align = align.is_power_of_two() && align <= 4096;
    if size > LIMIT || extra > LIMIT || !good_align || !size.is_multiple_of(align) {
        return Some(Refusal::BadLayout);
    }
    if !head_sound(view) {
        return Some(Refusal::Damaged);
    }
    if past_top(view, size, align, extra) && segments(view).is_none() {
        return Some(Refusal::Damaged);
    }
    None
}

/// Whether a request of good layout is for something and the top cannot meet it.
pub fn past_top(view: &View, size: u32, align: u32, extra: u32) -> bool {
    let (size, align, extra) = if size == 0 { (extra, 1, 0) } else { (size, align, extra) };
    let want = round_up(view.counters.allocated.into(), align.into()) + u64::from(size) + u64::from(extra);
    size != 0 && want > view.shape.cap.into()
}

fn give_refusal(view: &View, found: &[Segment], offset: u32, size: u32) -> Option<Refusal> {
    let allocated = view.counters.allocated;
    let (start, end) = (u64::from(offset), u64::from(offset) + u64::from(size));
    if offset < view.shape.data_offset || end > allocated.into() {
        return Some(Refusal::OutOfBounds { offset, allocated });
    }
    found.iter().any(|segment| segment.meets(start, end)).then_some(Refusal::Overlap)
}

fn rewind_refusal(view: &View, found: &[Segment], position: Position) -> Option<Refusal> {
    let top = new_top(view, position);
    found.iter().any(|segment| top < segment.end()).then_some(Refusal::CutsFreeList)
}

/// The top after a rewind.
pub fn new_top(view: &View, position: Position) -> u64 {
    let (low, cap) = (i128::from(view.shape.data_offset), i128::from(view.shape.cap));
    let allocated = i128::from(view.counters.allocated);
    let top = match position {
        Position::Start(by) => i128::from(by).max(low).min(cap),
        Position::Current(by) => match allocated + i128::from(by) {
            0 => allocated,
            sum => sum.min(cap).max(low),
        },
        Position::End(by) => (cap - i128::from(by)).max(low),
    };
    top as u64
}

/// Whether the Rust's own numbers could overflow in a call that is owed no refusal: `discarded` past its end (judged
/// by the most that the call can add) or Current's sum past i64.
pub fn rust_overflows(view: &View, found: &[Segment], call: &Call) -> bool {
    let taken = |size, align, extra| if past_top(view, size, align, extra) { 8 } else { 0 };
    let added = match *call {
        Call::Bytes { size } => taken(size, 1, 0),
        Call::Typed { size, align } => taken(size, align, 0),
        Call::Aligned { size, align, extra } => taken(size, align, extra),
        Call::Give { offset, size } if u64::from(offset) + u64::from(size) == view.counters.allocated.into() => 0,
        Call::Give { size, .. } => size.max(8).into(),
        Call::Discard => found.iter().map(|segment| u64::from(segment.size)).sum(),
        Call::Lost { size } => size.into(),
        Call::Rewind(Position::Current(by)) => {
            return i64::from(view.counters.allocated).checked_add(by).is_none();
        }
        Call::Rewind(_) | Call::Minimum { .. } | Call::Fill { .. } => 0,
    };
    u64::from(view.counters.discarded) + added > u32::MAX.into()
}
