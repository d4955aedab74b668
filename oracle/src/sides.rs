//! The two sides of the comparison behind one trait: the proved arena through its Rust wrapper, and the given Rust.

use arena::{Arena, Block, Header, Policy, Position, Refusal, Settings, Shape};
use reference::{ArenaPosition, Reference, Taken};

use crate::calls::{Answer, Call, Setup};
use crate::rules::Counters;

/// An arena that answers calls and shows its whole state.
pub trait Side {
    fn call(&mut self, call: &Call) -> Answer;
    fn counters(&self) -> Counters;
    /// The whole buffer.
    fn bytes(&self) -> &[u8];
    /// Whether all that no call may touch is as setup left it.
    fn intact(&self) -> bool;
}

/// What the caller keeps in the reserved bytes.
const RESERVED: u8 = 0xc3;
/// Stands before and after our buffer.
const CANARY: u8 = 0x5a;
const CANARIES: usize = 32;
/// Stands in the header's last word.
const UNUSED: u32 = 0x0bad_cafe;

/// The proved arena. The buffer lies between canaries.
pub struct Ours {
    pub shape: Shape,
    pub header: Header,
    store: Vec<u8>,
}

impl Ours {
    pub fn create(setup: &Setup) -> Result<Self, Refusal> {
        let len = setup.cap as usize;
        let mut store = vec![CANARY; len + 2 * CANARIES];
        let buf = &mut store[CANARIES..CANARIES + len];
        buf.fill(0);
        let settings = Settings {
            reserved: setup.reserved,
            unify: setup.unify == 1,
            policy: Policy::try_from(setup.policy)?,
            minimum_segment_size: setup.minimum_segment_size,
            read_only: setup.read_only == 1,
        };
        let fresh = Arena::new(buf, settings)?;
        let (shape, mut header) = (fresh.shape(), fresh.header());
        header.unused = UNUSED;
        let mut ours = Ours { shape, header, store };
        ours.buffer_mut()[..setup.reserved as usize].fill(RESERVED);
        Ok(ours)
    }

    pub fn buffer(&self) -> &[u8] {
        &self.store[CANARIES..self.store.len() - CANARIES]
    }

    pub fn buffer_mut(&mut self) -> &mut [u8] {
        let end = self.store.len() - CANARIES;
        &mut self.store[CANARIES..end]
    }
}

/// A header's numbers.
pub fn counters(header: &Header) -> Counters {
    let Header { sentinel_next, sentinel_size, allocated, minimum_segment_size, discarded, .. } = *header;
    let sentinel = u64::from(sentinel_size) << 32 | u64::from(sentinel_next);
    Counters { sentinel, allocated, minimum_segment_size, discarded }
}

/// Makes the call through the Rust wrapper.
pub fn call_through(arena: &mut Arena, call: &Call) -> Answer {
    match *call {
        Call::Bytes { size } => taken(arena.alloc_bytes(size)),
        Call::Typed { size, align } => taken(arena.alloc(size, align)),
        Call::Aligned { size, align, extra } => taken(arena.alloc_aligned_bytes(size, align, extra)),
        Call::Give { offset, size } => or_refused(arena.dealloc(offset, size), Answer::GivenBack),
        Call::Discard => or_refused(arena.discard_freelist(), Answer::Sum),
        Call::Rewind(position) => or_refused(arena.rewind(position), |()| Answer::Moved),
        Call::Minimum { size } => or_refused(arena.set_minimum_segment_size(size), |()| Answer::Done),
        Call::Lost { size } => or_refused(arena.increase_discarded(size), |()| Answer::Done),
        Call::Fill { offset, size, byte } => {
            let usable = Block { memory_offset: 0, memory_size: 0, usable_offset: offset, usable_size: size };
            arena.bytes_mut(&usable).fill(byte);
            Answer::Done
        }
    }
}

impl Side for Ours {
    fn call(&mut self, call: &Call) -> Answer {
        let (shape, header) = (self.shape, self.header);
        let mut arena = Arena::from_parts(shape, header, self.buffer_mut());
        let answer = call_through(&mut arena, call);
        self.header = arena.header();
        answer
    }

    fn counters(&self) -> Counters {
        counters(&self.header)
    }

    fn bytes(&self) -> &[u8] {
        self.buffer()
    }

    fn intact(&self) -> bool {
        let (before, rest) = self.store.split_at(CANARIES);
        let (buffer, after) = rest.split_at(rest.len() - CANARIES);
        let (reserved, free) = buffer[..self.shape.data_offset as usize].split_at(self.shape.reserved as usize);
        all(before, CANARY)
            && all(after, CANARY)
            && all(reserved, RESERVED)
            && all(free, 0)
            && self.header.unused == UNUSED
    }
}

fn all(bytes: &[u8], byte: u8) -> bool {
    bytes.iter().all(|b| *b == byte)
}

fn taken(answer: Result<Option<Block>, Refusal>) -> Answer {
    or_refused(answer, |block| block.map_or(Answer::Nothing, Answer::Granted))
}

fn or_refused<T>(answer: Result<T, Refusal>, good: impl FnOnce(T) -> Answer) -> Answer {
    answer.map_or_else(Answer::Refused, good)
}

/// The given Rust.
pub struct Theirs(Reference);

impl Theirs {
    /// The Rust's arena, or none where it refuses the setup. The policy is 0, 1 or 2.
    ///
    /// # Safety
    /// As `Reference::create`: the Rust trusts its caller to stay in document 01's domain.
    pub unsafe fn create(setup: &Setup) -> Option<Self> {
        let freelist = reference::Freelist::try_from(setup.policy).expect("a policy of document 01");
        let Setup { cap, reserved, unify, minimum_segment_size, .. } = *setup;
        // Safety: handed on to the caller.
        let mut fresh = unsafe { Reference::create(cap, reserved, unify == 1, freelist, minimum_segment_size) }.ok()?;
        fresh.bytes_mut()[..reserved as usize].fill(RESERVED);
        Some(Theirs(fresh))
    }

    pub fn data_offset(&self) -> u32 {
        self.0.data_offset()
    }
}

impl Side for Theirs {
    fn call(&mut self, call: &Call) -> Answer {
        let arena = &mut self.0;
        match *call {
            Call::Bytes { size } => rust_taken(arena.alloc_bytes(size)),
            Call::Typed { size, align } => rust_taken(arena.alloc(size, align)),
            Call::Aligned { size, align, extra } => rust_taken(arena.alloc_aligned_bytes(size, align, extra)),
            Call::Give { offset, size } => Answer::GivenBack(arena.dealloc(offset, size)),
            Call::Discard => rust_answer(arena.discard_freelist(), Answer::Sum),
            Call::Rewind(position) => {
                arena.rewind(rust_position(position));
                Answer::Moved
            }
            Call::Minimum { size } => {
                arena.set_minimum_segment_size(size);
                Answer::Done
            }
            Call::Lost { size } => {
                arena.increase_discarded(size);
                Answer::Done
            }
            Call::Fill { offset, size, byte } => {
                arena.bytes_mut()[offset as usize..][..size as usize].fill(byte);
                Answer::Done
            }
        }
    }

    fn counters(&self) -> Counters {
        Counters {
            sentinel: self.0.sentinel(),
            allocated: self.0.allocated(),
            minimum_segment_size: self.0.minimum_segment_size(),
            discarded: self.0.discarded(),
        }
    }

    fn bytes(&self) -> &[u8] {
        self.0.bytes()
    }

    fn intact(&self) -> bool {
        all(self.0.reserved_slice(), RESERVED)
    }
}

fn rust_taken(answer: Taken) -> Answer {
    rust_answer(answer, |block| match block {
        Some([memory_offset, memory_size, usable_offset, usable_size]) => {
            Answer::Granted(Block { memory_offset, memory_size, usable_offset, usable_size })
        }
        None => Answer::Nothing,
    })
}

fn rust_answer<T>(answer: Result<T, reference::Error>, good: impl FnOnce(T) -> Answer) -> Answer {
    match answer {
        Ok(value) => good(value),
        Err(reference::Error::InsufficientSpace { requested, available }) => {
            Answer::Refused(Refusal::InsufficientSpace { requested, available })
        }
        Err(other) => unreachable!("a writable arena answered {other:?}"),
    }
}

fn rust_position(position: Position) -> ArenaPosition {
    match position {
        Position::Start(by) => ArenaPosition::Start(by),
        Position::Current(by) => ArenaPosition::Current(by),
        Position::End(by) => ArenaPosition::End(by),
    }
}
