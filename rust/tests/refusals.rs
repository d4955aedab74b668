//! Each refusal of document 01 comes back as a value and changes nothing.

use arena::raw::{self, Header};
use arena::{Arena, Policy, Position, Refusal, Settings, Shape};

const LIMIT: u32 = 1_073_741_824;

fn full(buf: &mut [u8]) -> Arena<'_> {
    let mut arena = Arena::new(buf, Settings::default()).unwrap();
    let room = arena.remaining();
    arena.alloc_bytes(room).unwrap();
    arena
}

/// Runs a call that must be refused, and checks that header and buffer stay as they were.
fn refused<T: PartialEq + std::fmt::Debug>(
    arena: &mut Arena,
    refusal: Refusal,
    call: impl FnOnce(&mut Arena) -> Result<T, Refusal>,
) {
    let whole = arena::Block { memory_offset: 0, memory_size: 0, usable_offset: 0, usable_size: arena.shape().cap };
    let before = (arena.header(), arena.bytes(&whole).to_vec());
    assert_eq!(call(arena), Err(refusal));
    assert_eq!((arena.header(), arena.bytes(&whole).to_vec()), before);
}

#[test]
fn read_only() {
    let mut buf = [0; 100];
    let mut arena = Arena::new(&mut buf, Settings { read_only: true, ..Settings::default() }).unwrap();
    refused(&mut arena, Refusal::ReadOnly, |a| a.alloc_bytes(0));
    refused(&mut arena, Refusal::ReadOnly, |a| a.alloc(0, 1));
    refused(&mut arena, Refusal::ReadOnly, |a| a.alloc_aligned_bytes(0, 1, 0));
    refused(&mut arena, Refusal::ReadOnly, |a| a.dealloc(1, 0));
    refused(&mut arena, Refusal::ReadOnly, |a| a.discard_freelist());
    refused(&mut arena, Refusal::ReadOnly, |a| a.rewind(Position::Start(1)));
    refused(&mut arena, Refusal::ReadOnly, |a| a.set_minimum_segment_size(1));
    refused(&mut arena, Refusal::ReadOnly, |a| a.increase_discarded(1));
    assert!(arena.sound());
    assert_eq!(arena.remaining(), 99);
}

#[test]
fn setup() {
    let setup = |len: usize, settings| Arena::new(&mut vec![0; len], settings).map(|arena| arena.allocated());
    let pessimistic = Settings { policy: Policy::Pessimistic, ..Settings::default() };
    assert_eq!(setup(0, pessimistic), Err(Refusal::BadSetup));
    assert_eq!(setup(1, pessimistic), Ok(1));
    let unify = Settings { unify: true, ..Settings::default() };
    assert_eq!(setup(31, unify), Err(Refusal::BadSetup));
    assert_eq!(setup(32, unify), Ok(32));
    for unify in [false, true] {
        let reserved = Settings { reserved: u32::MAX, unify, ..Settings::default() };
        assert_eq!(setup(100, reserved), Err(Refusal::BadSetup));
    }
}

/// Setup at the boundary, where policy and flags are bytes: 2 for the policy comes first, then 3 for the flags.
#[test]
fn setup_with_any_bytes() {
    let unset =
        Header { sentinel_next: 7, sentinel_size: 7, allocated: 7, minimum_segment_size: 7, discarded: 7, unused: 7 };
    let zeros = Shape { cap: 0, reserved: 0, data_offset: 0, unify: 0, read_only: 0, policy: 0 };
    for (len, unify, policy, read_only, code) in [
        (100, 0, 3, 0, 2),
        (0, 2, 255, 2, 2),
        (0, 0, 2, 0, 3),
        (100, 2, 2, 0, 3),
        (100, 0, 2, 2, 3),
        (100, 255, 2, 1, 3),
    ] {
        let (buf, mut header) = (vec![0; len], unset);
        // Safety: header and buffer are valid for the call.
        let begun = unsafe { raw::arena_setup(&mut header, buf.as_ptr(), len, 0, unify, policy, 20, read_only) };
        assert_eq!((begun.code, begun.shape, header), (code, zeros, unset), "{unify} {policy} {read_only}");
    }
}

#[test]
fn policies_by_their_codes() {
    for policy in [Policy::None, Policy::Optimistic, Policy::Pessimistic] {
        assert_eq!(Policy::try_from(policy as u8), Ok(policy));
    }
    assert_eq!(Policy::try_from(3), Err(Refusal::UnknownFreelist));
    assert_eq!(Policy::try_from(255), Err(Refusal::UnknownFreelist));
}

#[test]
fn damaged() {
    let mut buf = [0; 100];
    let arena = full(&mut buf);
    let (shape, header) = (arena.shape(), arena.header());
    assert!(arena.sound());

    let high = Header { allocated: 101, ..header };
    let mut arena = Arena::from_parts(shape, high, &mut buf);
    assert!(!arena.sound());
    assert_eq!(arena.remaining(), 0);
    refused(&mut arena, Refusal::Damaged, |a| a.alloc_bytes(1));
    refused(&mut arena, Refusal::Damaged, |a| a.set_minimum_segment_size(1));

    let looped = Header { sentinel_next: 8, ..header };
    buf[8..16].copy_from_slice(&(40u64 << 32 | 8).to_le_bytes());
    let mut arena = Arena::from_parts(shape, looped, &mut buf);
    assert!(!arena.sound());
    refused(&mut arena, Refusal::Damaged, |a| a.alloc_bytes(1));
    refused(&mut arena, Refusal::Damaged, |a| a.dealloc(60, 8));
    refused(&mut arena, Refusal::Damaged, |a| a.discard_freelist());
    refused(&mut arena, Refusal::Damaged, |a| a.rewind(Position::End(0)));
    assert_eq!(arena.increase_discarded(1), Ok(()));
}

/// A shape whose policy or flags are no codes is refused where document 01 has a damaged head: after 1 and 5. Only a
/// `read_only` of 1 is refused with 1.
#[test]
fn damaged_shape() {
    let mut buf = [0; 100];
    let arena = full(&mut buf);
    let (shape, header) = (arena.shape(), arena.header());
    for damaged in [
        Shape { policy: 3, ..shape },
        Shape { policy: 255, ..shape },
        Shape { unify: 2, ..shape },
        Shape { unify: 255, ..shape },
        Shape { read_only: 2, ..shape },
        Shape { read_only: 255, ..shape },
    ] {
        let mut arena = Arena::from_parts(damaged, header, &mut buf);
        assert!(!arena.sound(), "{damaged:?}");
        assert_eq!(arena.remaining(), 0);
        refused(&mut arena, Refusal::BadLayout, |a| a.alloc(8, 3));
        refused(&mut arena, Refusal::Damaged, |a| a.alloc_bytes(0));
        refused(&mut arena, Refusal::Damaged, |a| a.dealloc(60, 8));
        refused(&mut arena, Refusal::Damaged, |a| a.discard_freelist());
        refused(&mut arena, Refusal::Damaged, |a| a.rewind(Position::End(0)));
        refused(&mut arena, Refusal::Damaged, |a| a.increase_discarded(1));
        let mut arena = Arena::from_parts(Shape { read_only: 1, ..damaged }, header, &mut buf);
        refused(&mut arena, Refusal::ReadOnly, |a| a.alloc(8, 3));
    }
}

#[test]
fn bad_layout() {
    let mut buf = [0; 100];
    let mut arena = full(&mut buf);
    refused(&mut arena, Refusal::BadLayout, |a| a.alloc_bytes(LIMIT + 1));
    for (size, align) in [(8, 0), (8, 3), (8192, 8192), (12, 8), (LIMIT + 8, 8), (0, 0)] {
        refused(&mut arena, Refusal::BadLayout, |a| a.alloc(size, align));
        refused(&mut arena, Refusal::BadLayout, |a| a.alloc_aligned_bytes(size, align, 1));
    }
    refused(&mut arena, Refusal::BadLayout, |a| a.alloc_aligned_bytes(8, 8, LIMIT + 1));
}

#[test]
fn out_of_bounds() {
    let mut buf = [0; 100];
    let mut arena = full(&mut buf);
    for (offset, size) in [(0, 1), (0, 0), (1, 100), (101, 0), (1, u32::MAX), (u32::MAX, 1)] {
        let refusal = Refusal::OutOfBounds { offset, allocated: 100 };
        refused(&mut arena, refusal, |a| a.dealloc(offset, size));
    }
    assert_eq!(arena.dealloc(100, 0), Ok(true));
    assert_eq!(arena.dealloc(50, 0), Ok(false));
}

#[test]
fn overlap_and_cut() {
    let mut buf = [0; 100];
    let mut arena = full(&mut buf);
    assert_eq!(arena.dealloc(8, 40), Ok(true));
    for (offset, size) in [(8, 40), (47, 1), (1, 8), (1, 99)] {
        refused(&mut arena, Refusal::Overlap, |a| a.dealloc(offset, size));
    }
    refused(&mut arena, Refusal::CutsFreeList, |a| a.rewind(Position::Start(47)));
    assert_eq!(arena.dealloc(48, 52), Ok(true));
    assert_eq!(arena.rewind(Position::Start(48)), Ok(()));
}

#[test]
fn insufficient_space() {
    let mut buf = [0; 100];
    let mut arena = full(&mut buf);
    let refusal = |requested, available| Refusal::InsufficientSpace { requested, available };
    refused(&mut arena, refusal(1, 0), |a| a.alloc_bytes(1));
    refused(&mut arena, refusal(15, 0), |a| a.alloc(8, 8));
    refused(&mut arena, refusal(LIMIT + 4095 + LIMIT, 0), |a| a.alloc_aligned_bytes(LIMIT, 4096, LIMIT));
}

#[test]
fn discarded_stops_at_its_end() {
    let mut buf = [0; 100];
    let mut arena = full(&mut buf);
    assert_eq!(arena.increase_discarded(u32::MAX), Ok(()));
    assert_eq!(arena.increase_discarded(1), Ok(()));
    assert_eq!(arena.discarded(), u32::MAX);
    assert_eq!(arena.dealloc(8, 40), Ok(true));
    assert_eq!(arena.discard_freelist(), Ok(32));
    assert_eq!(arena.discarded(), u32::MAX);
}

#[test]
fn blocks_outside_the_buffer_are_empty() {
    let mut buf = [9; 20];
    let settings = Settings { reserved: 3, policy: Policy::None, ..Settings::default() };
    let mut arena = Arena::new(&mut buf, settings).unwrap();
    assert_eq!(arena.reserved_slice(), [9; 3]);
    let mut block = arena::Block { memory_offset: 0, memory_size: 0, usable_offset: 10, usable_size: 10 };
    assert_eq!(arena.bytes(&block).len(), 10);
    for (offset, size) in [(10, 11), (21, 0), (u32::MAX, u32::MAX)] {
        (block.usable_offset, block.usable_size) = (offset, size);
        assert!(arena.bytes(&block).is_empty() && arena.bytes_mut(&block).is_empty());
    }
}

#[test]
fn numbers_and_words() {
    let refusal = Refusal::InsufficientSpace { requested: 53, available: 52 };
    assert_eq!(refusal.number(), 9);
    assert_eq!(refusal.to_string(), "53 bytes requested, 52 available");
    let numbers =
        [Refusal::ReadOnly, Refusal::UnknownFreelist, Refusal::BadSetup, Refusal::Damaged, Refusal::BadLayout];
    assert_eq!(numbers.map(Refusal::number), [1, 2, 3, 4, 5]);
}

#[test]
fn debug_shows_the_counters() {
    let mut buf = [0; 100];
    let mut arena = full(&mut buf);
    let empty = "Arena { cap: 100, data_offset: 1, policy: Optimistic, allocated: 100, remaining: 0, \
                 minimum_segment_size: 20, discarded: 0, first_node: None, .. }";
    assert_eq!(format!("{arena:?}"), empty);
    arena.dealloc(3, 50).unwrap();
    let shape = Shape { policy: 9, ..arena.shape() };
    let listed = "Arena { cap: 100, data_offset: 1, policy: 9, allocated: 100, remaining: 0, \
                  minimum_segment_size: 20, discarded: 8, first_node: Some(8), .. }";
    assert_eq!(format!("{:?}", Arena::from_parts(shape, arena.header(), &mut [])), listed);
}
