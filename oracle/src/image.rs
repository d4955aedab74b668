//! Arenas in parts, damaged in every way that numbers and bytes allow, and calls with any numbers.

use std::fmt::Write;

use arena::raw::{self, Answer, Begun, Header};
use arena::{Arena, Position, Shape};

use crate::calls::{Call, LIMIT, Setup};
use crate::choose::Chooser;
use crate::fence::{Fence, Flush};
use crate::model::write_list;
use crate::random::Random;
use crate::rules::{self, END_MARK, Segment, View};
use crate::sides;

/// A buffer longer than this is not shown.
const SHORT: usize = 4_096;

/// A header that setup has not written.
pub const UNSET: Header =
    Header { sentinel_next: 7, sentinel_size: 7, allocated: 7, minimum_segment_size: 7, discarded: 7, unused: 7 };

/// A header with nothing discarded, whose list starts here.
pub fn header(sentinel_next: u32, allocated: u32, minimum_segment_size: u32) -> Header {
    Header { sentinel_next, sentinel_size: END_MARK, allocated, minimum_segment_size, discarded: 0, ..UNSET }
}

/// An arena in parts; its buffer stands in the fence.
pub struct Image {
    pub shape: Shape,
    pub header: Header,
    pub fence: Fence,
}

/// Any byte, mostly a small one.
fn any_byte(random: &mut Random) -> u8 {
    if random.one_in(4) { random.number() as u8 } else { random.below(4) as u8 }
}

/// Segments from the data offset up to the top, now and then one that leaves them, meets another, stands off a
/// multiple of 8 or has no size.
fn forged(data_offset: u32, top: u32, random: &mut Random) -> Vec<Segment> {
    let mut nodes = Vec::new();
    let first = rules::round_up(data_offset.into(), 8) as u32;
    let mut at = if random.one_in(8) { first.saturating_sub(8) } else { first };
    while at < top && nodes.len() < 12 {
        let room = top.saturating_sub(at + 8);
        let size = match random.below(40) {
            0 => 0,
            1 => room + 1,
            2..8 => room,
            _ => random.within(1..=room.min(60)),
        };
        let offset = if random.one_in(60) { at + random.within(1..=7) } else { at };
        nodes.push(Segment { offset, size });
        let end = rules::round_up(u64::from(at) + 8 + u64::from(size), 8) as u32;
        at = if random.one_in(40) { end - 8 } else { end + 8 * random.within(0..=2) };
    }
    if nodes.last().is_some_and(|last| last.end() > top.into()) && !random.one_in(4) {
        nodes.pop();
    }
    nodes
}

impl Image {
    /// An image for buffers of up to `most` bytes.
    pub fn new(most: u32) -> Self {
        Image { shape: Self::empty_shape(), header: UNSET, fence: Fence::new(most as usize) }
    }

    /// The shape of a refused setup.
    pub fn empty_shape() -> Shape {
        Shape { cap: 0, reserved: 0, data_offset: 0, unify: 0, read_only: 0, policy: 0 }
    }

    pub fn view(&self) -> View<'_> {
        View { shape: self.shape, counters: sides::counters(&self.header), bytes: self.fence.buffer() }
    }

    /// The free segments, none where the arena is unsound.
    pub fn segments(&self) -> Vec<Segment> {
        rules::segments(&self.view()).unwrap_or_default()
    }

    /// Sets up over a zeroed buffer. A refused setup leaves the unset header and a shape of zeros.
    pub fn begin(&mut self, setup: &Setup, flush: Flush) -> Begun {
        let buf = self.fence.place(setup.cap as usize, flush);
        buf.fill(0);
        self.header = UNSET;
        let (header, buf, len) = (&mut self.header, buf.as_ptr(), buf.len());
        let Setup { reserved, unify, policy, minimum_segment_size, read_only, .. } = *setup;
        // Safety: header and buffer are valid for the call.
        let begun =
            unsafe { raw::arena_setup(header, buf, len, reserved, unify, policy, minimum_segment_size, read_only) };
        self.shape = begun.shape;
        begun
    }

    /// Makes the call on the boundary itself.
    pub fn call(&mut self, call: &Call) -> Answer {
        let Image { shape, header, fence } = self;
        let (shape, buf) = (*shape, fence.buffer_mut());
        let (buf, len) = (buf.as_mut_ptr(), buf.len());
        // Safety: header and buffer are valid for the call.
        unsafe {
            match *call {
                Call::Bytes { size } => raw::arena_alloc_bytes(shape, header, buf, len, size),
                Call::Typed { size, align } => raw::arena_alloc(shape, header, buf, len, size, align),
                Call::Aligned { size, align, extra } => {
                    raw::arena_alloc_aligned_bytes(shape, header, buf, len, size, align, extra)
                }
                Call::Give { offset, size } => raw::arena_dealloc(shape, header, buf, len, offset, size),
                Call::Discard => raw::arena_discard_freelist(shape, header, buf, len),
                Call::Rewind(Position::Start(by)) => raw::arena_rewind_start(shape, header, buf, len, by),
                Call::Rewind(Position::Current(by)) => raw::arena_rewind_current(shape, header, buf, len, by),
                Call::Rewind(Position::End(by)) => raw::arena_rewind_end(shape, header, buf, len, by),
                Call::Minimum { size } => raw::arena_set_minimum_segment_size(shape, header, buf, len, size),
                Call::Lost { size } => raw::arena_increase_discarded(shape, header, buf, len, size),
                Call::Fill { .. } => unreachable!("a caller's write is no call"),
            }
        }
    }

    /// Some calls of an honest caller, so that there is a list to damage.
    pub fn live(&mut self, random: &mut Random) {
        let Shape { cap, reserved, unify, read_only, policy, .. } = self.shape;
        let minimum_segment_size = self.header.minimum_segment_size;
        let setup = Setup { cap, reserved, unify, policy, minimum_segment_size, read_only };
        let mut chooser = Chooser::new(Random::new(random.number()), &setup);
        for _ in 0..random.below(60) {
            let view = self.view();
            let Some(found) = rules::segments(&view) else {
                return;
            };
            let call = chooser.next(&view, &found);
            if rules::refusal(&view, &call).is_none() {
                let mut arena = Arena::from_parts(self.shape, self.header, self.fence.buffer_mut());
                let answer = sides::call_through(&mut arena, &call);
                self.header = arena.header();
                chooser.note(&call, &answer, self.header.allocated);
            }
        }
    }

    /// Any header and bytes at all, or a head that is nearly good over any bytes.
    pub fn scramble(&mut self, random: &mut Random) {
        let mut number = || random.number() as u32;
        self.header = Header {
            sentinel_next: number(),
            sentinel_size: number(),
            allocated: number(),
            minimum_segment_size: number(),
            discarded: number(),
            unused: number(),
        };
        self.fence.buffer_mut().fill_with(|| random.number() as u8);
        if random.one_in(2) {
            let top = random.within(0..=self.shape.cap.saturating_add(1));
            let first = random.within(0..=self.shape.cap / 8) * 8;
            self.header = header(first, top, 0);
        }
    }

    /// A list laid out by hand: sound, or with a fault at one of its bounds.
    pub fn forge(&mut self, random: &mut Random) {
        let Shape { cap, data_offset, policy, .. } = self.shape;
        let top = random.within(data_offset..=cap.max(data_offset));
        let mut nodes = forged(data_offset, top, random);
        nodes.sort_by_key(|node| if policy == 1 { u32::MAX - node.size } else { node.size });
        if nodes.len() > 1 && random.one_in(8) {
            let place = random.below(nodes.len() as u64 - 1) as usize;
            nodes.swap(place, place + 1);
        }
        nodes.retain(|node| node.offset as usize + 8 <= self.fence.buffer().len());
        let first = write_list(&nodes, self.fence.buffer_mut());
        self.header = header(first, top, self.header.minimum_segment_size);
        if random.one_in(16) {
            self.header.sentinel_size = random.pick(&[0, END_MARK - 1]);
        }
    }

    /// Changes one thing.
    pub fn damage(&mut self, random: &mut Random) {
        let found = self.segments();
        let number = self.any_number(&found, random);
        match random.below(8) {
            0 => self.damage_shape(number, random),
            1 => self.damage_header(number, random),
            2 => self.shorten(random),
            3 => {
                let at = random.within(0..=self.fence.buffer().len() as u32) as usize;
                if let Some(byte) = self.fence.buffer_mut().get_mut(at) {
                    *byte ^= 1 << random.below(8);
                }
            }
            _ => self.damage_node(&found, number, random),
        }
    }

    fn damage_shape(&mut self, number: u32, random: &mut Random) {
        let shape = &mut self.shape;
        match random.below(6) {
            0 => shape.cap = number,
            1 => shape.reserved = number,
            2 => shape.data_offset = number,
            3 => shape.unify = any_byte(random),
            4 => shape.read_only = any_byte(random),
            _ => shape.policy = any_byte(random),
        }
    }

    fn damage_header(&mut self, number: u32, random: &mut Random) {
        let header = &mut self.header;
        match random.below(5) {
            0 => header.sentinel_next = number,
            1 => header.sentinel_size = number,
            2 => header.allocated = number,
            3 => header.minimum_segment_size = number,
            _ => header.discarded = number,
        }
    }

    /// Half of a node's word, or of a word where a node could stand, becomes the number.
    fn damage_node(&mut self, found: &[Segment], number: u32, random: &mut Random) {
        let at = match found {
            [] => random.within(0..=self.shape.cap / 8) * 8,
            nodes => random.pick(nodes).offset,
        };
        let half = at as usize + 4 * random.below(2) as usize;
        if let Some(word) = self.fence.buffer_mut().get_mut(half..half + 4) {
            word.copy_from_slice(&number.to_le_bytes());
        }
    }

    fn shorten(&mut self, random: &mut Random) {
        let kept = self.fence.buffer().to_vec();
        let len = kept.len() - random.within(0..=kept.len().min(9) as u32) as usize;
        self.fence.place(len, Flush::End).copy_from_slice(&kept[..len]);
        if random.one_in(2) {
            self.shape.cap = len as u32;
        }
    }

    /// A number near something that matters, or any at all.
    fn any_number(&self, found: &[Segment], random: &mut Random) -> u32 {
        let Shape { cap, data_offset, .. } = self.shape;
        let node = if found.is_empty() { 8 } else { random.pick(found).offset };
        let size = if found.is_empty() { 8 } else { random.pick(found).size };
        let Header { sentinel_next, allocated, .. } = self.header;
        let near = [0, 1, 8, cap, cap / 2, data_offset, allocated, sentinel_next, node, size, LIMIT, u32::MAX];
        match random.below(4) {
            0 => random.number() as u32 >> random.below(32),
            1 => random.pick(&near).wrapping_add(random.jitter(9) as u32),
            2 => random.within(0..=cap),
            _ => random.pick(&near),
        }
    }

    /// A call with any numbers, some of them near those of these segments.
    pub fn any_call(&self, found: &[Segment], random: &mut Random) -> Call {
        let [size, more, other] = std::array::from_fn(|_| self.any_number(found, random));
        let align = if random.one_in(8) { other } else { 1 << random.below(14) };
        let size = if random.one_in(3) { size } else { size / align.max(1) * align };
        let top = i64::from(self.header.allocated);
        match random.below(12) {
            0 => Call::Bytes { size },
            1 => Call::Typed { size, align },
            2 => Call::Aligned { size, align, extra: more },
            3 => Call::Give { offset: more, size: other },
            4..6 => self.near_give(found, random),
            6 => Call::Discard,
            7 => Call::Rewind(Position::Start(more)),
            8 => Call::Rewind(Position::Current(i64::from(more) - top)),
            9 => Call::Rewind(Position::Current(random.pick(&[i64::MIN, i64::MAX, -top, i64::MAX - top]))),
            10 => Call::Rewind(Position::End(more)),
            _ => random.pick(&[Call::Minimum { size: more }, Call::Lost { size: more }]),
        }
    }

    /// A give-back of small numbers, near a free segment if there is one.
    fn near_give(&self, found: &[Segment], random: &mut Random) -> Call {
        let (at, size) = match found {
            [] => (random.within(self.shape.data_offset..=self.header.allocated), 40),
            nodes => {
                let near = random.pick(nodes);
                (random.pick(&[near.offset, near.end() as u32, near.offset.wrapping_sub(40)]), near.size)
            }
        };
        let size = random.pick(&[0, 1, 8, 40, size]);
        Call::Give {
            offset: at.wrapping_add(random.jitter(8) as u32),
            size: size.wrapping_add(random.jitter(1) as u32),
        }
    }

    /// A setup with any numbers, mostly one that is taken, of up to `most` bytes.
    pub fn any_setup(&self, most: u32, random: &mut Random) -> Setup {
        let reserved = if random.one_in(20) { self.any_number(&[], random) } else { random.within(0..=40) };
        let unify = if random.one_in(20) { any_byte(random) } else { random.below(2) as u8 };
        let usual = random.pick(&[0, 40, 100, 300, 300, 600, most]);
        let room = random.within(0..=usual);
        let start = if random.one_in(8) { 0 } else { rules::data_offset(reserved, unify) };
        Setup {
            cap: (start + u64::from(room)).min(most.into()) as u32,
            reserved,
            unify,
            policy: if random.one_in(20) { any_byte(random) } else { random.below(3) as u8 },
            minimum_segment_size: random.pick(&[0, 0, 1, 8, 20, 20, 64, u32::MAX]),
            read_only: match random.below(20) {
                0 => 1,
                1 => any_byte(random),
                _ => 0,
            },
        }
    }

    /// The bytes of a short buffer, to be put back and shown after a fault.
    pub fn short_bytes(&self) -> Option<Vec<u8>> {
        let buf = self.fence.buffer();
        (buf.len() <= SHORT).then(|| buf.to_vec())
    }

    /// The whole image as a text, of a longer buffer the length alone.
    pub fn shown(&self) -> String {
        let mut text = format!("{:?}\n{:?}\nbuffer ", self.shape, self.header);
        match self.short_bytes() {
            Some(bytes) => bytes.iter().for_each(|byte| write!(text, "{byte:02x}").expect("a string grows")),
            None => write!(text, "of {} bytes", self.fence.buffer().len()).expect("a string grows"),
        }
        text
    }
}
