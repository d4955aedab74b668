//! The two sides over buffers of the same contents: the proved arena through its Rust wrapper, and the given Rust.
//!
//! Both are set up with unify. The given Rust then keeps its header in its buffer, so that it can be put back to an
//! earlier state by writing bytes; for ours unify only moves the data offset.

use std::slice;

use arena::{Arena, Header, Policy, Settings, Shape};
use reference::{Allocator, Arena as RustArena, Options};

/// Where the data starts, on both sides.
pub const DATA_OFFSET: u32 = 32;
pub const MINIMUM_SEGMENT_SIZE: u32 = 20;

/// Where the given Rust keeps its header.
const HEADER_OFFSET: usize = 8;
/// Both buffers start at a multiple of this, the largest alignment that is asked for.
const ALIGN: usize = 64;
/// What stands in both buffers before the first call, so that bytes left uncleared would show.
const NOISE: u8 = 0xa5;

/// The header's numbers: sentinel next and size, allocated, minimum segment size, discarded.
type Numbers = [u32; 5];

/// A state of an arena: all that its calls read and write.
struct Image {
    header: Numbers,
    data: Vec<u8>,
}

/// Both sides, and the image that every round starts from.
pub struct Pair {
    theirs: RustArena,
    shape: Shape,
    store: Vec<u8>,
    cap: usize,
    image: Image,
}

impl Pair {
    /// Arenas of this capacity and policy, in the state in which `prepare` leaves the given Rust.
    pub fn new(cap: u32, policy: Policy, prepare: impl FnOnce(&RustArena)) -> Self {
        let mut theirs = Options::new()
            .with_capacity(cap)
            .with_unify(true)
            .with_freelist(rust_policy(policy))
            .with_minimum_segment_size(MINIMUM_SEGMENT_SIZE)
            .with_maximum_alignment(ALIGN)
            .alloc::<RustArena>()
            .expect("a capacity that holds the header");
        let cap = cap as usize;
        let mut store = vec![0; cap + ALIGN];
        let minimum_segment_size = MINIMUM_SEGMENT_SIZE;
        let settings = Settings { unify: true, policy, minimum_segment_size, ..Settings::default() };
        let shape = Arena::new(aligned(&mut store, cap), settings).expect("a good setup").shape();
        rust_data(&mut theirs, cap).fill(NOISE);
        prepare(&theirs);
        let image = Image { header: *rust_header(&mut theirs), data: rust_data(&mut theirs, cap).to_vec() };
        Pair { theirs, shape, store, cap, image }
    }

    /// The given Rust, put back to the image.
    pub fn theirs(&mut self) -> &RustArena {
        rust_data(&mut self.theirs, self.cap).copy_from_slice(&self.image.data);
        *rust_header(&mut self.theirs) = self.image.header;
        &self.theirs
    }

    /// The proved arena, put back to the image.
    pub fn ours(&mut self) -> Arena<'_> {
        let buf = aligned(&mut self.store, self.cap);
        buf[DATA_OFFSET as usize..].copy_from_slice(&self.image.data);
        let [sentinel_next, sentinel_size, allocated, minimum_segment_size, discarded] = self.image.header;
        let header = Header { sentinel_next, sentinel_size, allocated, minimum_segment_size, discarded, unused: 0 };
        Arena::from_parts(self.shape, header, buf)
    }

    /// Whether both sides are in the same state, ours with this header.
    pub fn agree(&mut self, ours: Header) -> bool {
        let buf = aligned(&mut self.store, self.cap);
        let numbers =
            [ours.sentinel_next, ours.sentinel_size, ours.allocated, ours.minimum_segment_size, ours.discarded];
        numbers == *rust_header(&mut self.theirs)
            && buf[DATA_OFFSET as usize..] == *rust_data(&mut self.theirs, self.cap)
    }
}

/// The given Rust's name for a policy.
pub fn rust_policy(policy: Policy) -> reference::Freelist {
    reference::Freelist::try_from(policy as u8).expect("both sides have the same codes")
}

fn aligned(store: &mut [u8], cap: usize) -> &mut [u8] {
    let start = store.as_ptr().align_offset(ALIGN);
    &mut store[start..start + cap]
}

fn rust_header(arena: &mut RustArena) -> &mut Numbers {
    // Safety: the header is `repr(C)`, its numbers come first, and the arena is borrowed with them.
    unsafe { &mut *arena.raw_mut_ptr().add(HEADER_OFFSET).cast() }
}

fn rust_data(arena: &mut RustArena, cap: usize) -> &mut [u8] {
    let start = DATA_OFFSET as usize;
    // Safety: the buffer is `cap` initialized bytes, and the arena is borrowed with them.
    unsafe { slice::from_raw_parts_mut(arena.raw_mut_ptr().add(start), cap - start) }
}
