//! The ledger of document 01 through the wrapper.

mod common;

use arena::{Arena, Policy, Position, Refusal, Settings};
use common::{block, list};

fn settings(policy: Policy, reserved: u32) -> Settings {
    Settings { reserved, policy, ..Settings::default() }
}

/// Start S: three blocks fill 200 bytes, and the first two are given back. Their bytes hold 7s.
fn start(buf: &mut [u8; 200], policy: Policy) -> Arena<'_> {
    let mut arena = Arena::new(buf, settings(policy, 7)).unwrap();
    for (size, at) in [(40, 8), (60, 48), (92, 108)] {
        let taken = arena.alloc_bytes(size);
        assert_eq!(taken, block(at, size, at, size));
        arena.bytes_mut(&taken.unwrap().unwrap()).fill(7);
    }
    assert_eq!(arena.dealloc(8, 40), Ok(true));
    assert_eq!(arena.dealloc(48, 60), Ok(true));
    assert_eq!((arena.discarded(), arena.allocated()), (16, 200));
    assert!(arena.sound());
    arena
}

#[test]
fn order() {
    assert_eq!(list(&start(&mut [0; 200], Policy::Pessimistic)), [(8, 32), (48, 52)]);
    assert_eq!(list(&start(&mut [0; 200], Policy::Optimistic)), [(48, 52), (8, 32)]);
}

#[test]
fn bytes_30_without_a_split() {
    assert_eq!(start(&mut [0; 200], Policy::Pessimistic).alloc_bytes(30), block(8, 32, 16, 30));
    assert_eq!(start(&mut [0; 200], Policy::Optimistic).alloc_bytes(30), block(48, 52, 56, 30));
}

#[test]
fn bytes_4() {
    let mut buf = [0; 200];
    let mut arena = start(&mut buf, Policy::Optimistic);
    assert_eq!(arena.alloc_bytes(4), block(48, 4, 56, 4));
    assert_eq!(list(&arena), [(64, 36), (8, 32)]);
    assert_eq!(arena.discarded(), 24);

    let mut buf = [0; 200];
    let mut arena = start(&mut buf, Policy::Pessimistic);
    assert_eq!(arena.alloc_bytes(4), block(8, 32, 16, 4));
    assert_eq!(arena.discarded(), 16);
}

#[test]
fn bytes_53_are_too_many() {
    let refused = |available| Err(Refusal::InsufficientSpace { requested: 53, available });
    assert_eq!(start(&mut [0; 200], Policy::Pessimistic).alloc_bytes(53), refused(0));
    assert_eq!(start(&mut [0; 200], Policy::Optimistic).alloc_bytes(53), refused(52));
}

#[test]
fn typed_from_the_list() {
    let mut buf = [0; 200];
    let taken = start(&mut buf, Policy::Pessimistic).alloc(8, 8);
    assert_eq!(taken, block(8, 32, 8, 8));
    assert_eq!(buf[16..31], [0; 15]);
    assert_eq!(buf[31..48], [7; 17]);
}

#[test]
fn give_back_at_the_top() {
    let mut buf = [0; 200];
    let mut arena = start(&mut buf, Policy::Pessimistic);
    assert_eq!(arena.dealloc(108, 92), Ok(true));
    assert_eq!(arena.allocated(), 108);
}

#[test]
fn segment_rule() {
    for (minimum, offset, size, kept) in [
        (20, 16, 28, Some((16, 20))),
        (20, 16, 27, None),
        (0, 16, 9, Some((16, 1))),
        (0, 16, 8, None),
        (20, 13, 33, Some((16, 22))),
    ] {
        let mut buf = [0; 200];
        let mut arena = Arena::new(&mut buf, settings(Policy::Pessimistic, 7)).unwrap();
        arena.set_minimum_segment_size(minimum).unwrap();
        arena.alloc_bytes(192).unwrap();
        assert_eq!(arena.dealloc(offset, size), Ok(kept.is_some()));
        assert_eq!(list(&arena), Vec::from_iter(kept));
        assert_eq!(arena.discarded(), if kept.is_some() { 8 } else { size });
    }
}

#[test]
fn data_offsets() {
    for (reserved, plain, unified) in [(0, 1, 32), (1, 2, 40), (8, 9, 40), (9, 10, 48)] {
        for (unify, start) in [(false, plain), (true, unified)] {
            let mut buf = [0; 64];
            let arena = Arena::new(&mut buf, Settings { reserved, unify, ..Settings::default() }).unwrap();
            assert_eq!((arena.allocated(), arena.shape().data_offset), (start, start));
            assert_eq!(arena.remaining(), 64 - start);
        }
    }
}

#[test]
fn typed_at_the_top() {
    let mut buf = [0; 200];
    let mut arena = Arena::new(&mut buf, Settings::default()).unwrap();
    assert_eq!(arena.alloc(8, 8), block(1, 15, 8, 8));
}

#[test]
fn no_list() {
    let mut buf = [0; 20];
    let mut arena = Arena::new(&mut buf, settings(Policy::None, 12)).unwrap();
    let refused = |requested| Err(Refusal::InsufficientSpace { requested, available: 7 });
    assert_eq!(arena.alloc(8, 8), refused(24));
    assert_eq!(arena.alloc_aligned_bytes(8, 8, 0), refused(8));
}

#[test]
fn rewind() {
    use Position::{Current, End, Start};
    for (position, top) in [
        (Start(0), 8),
        (Start(500), 200),
        (Current(-108), 108),
        (Current(-109), 8),
        (Current(-101), 8),
        (Current(92), 200),
        (Current(i64::MAX), 200),
        (Current(i64::MIN), 8),
        (End(150), 50),
        (End(201), 8),
    ] {
        let mut buf = [0; 200];
        let mut arena = Arena::new(&mut buf, settings(Policy::Pessimistic, 7)).unwrap();
        arena.alloc_bytes(100).unwrap();
        assert_eq!(arena.rewind(position), Ok(()));
        assert_eq!(arena.allocated(), top, "{position:?}");
    }
}

#[test]
fn list_is_kept_whole() {
    for policy in [Policy::Optimistic, Policy::Pessimistic] {
        let mut buf = [0; 200];
        let mut arena = start(&mut buf, policy);
        assert_eq!(arena.rewind(Position::End(150)), Err(Refusal::CutsFreeList));
        assert_eq!(arena.dealloc(8, 40), Err(Refusal::Overlap));
        assert_eq!(arena.discard_freelist(), Ok(84));
        assert_eq!((list(&arena), arena.discarded()), (vec![], 100));
    }
}
