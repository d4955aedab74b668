//! The worked example of docs/RULES.md, row by row.

mod common;

use arena::{Arena, Block, Policy, Position, Refusal, Settings};
use common::{block, list};

const SETTINGS: Settings =
    Settings { reserved: 3, unify: false, policy: Policy::Pessimistic, minimum_segment_size: 8, read_only: false };

/// What the table shows of the arena after a row.
fn shows(arena: &Arena, top: u32, nodes: &[(u32, u32)], discarded: u32) {
    assert_eq!((arena.allocated(), list(arena).as_slice(), arena.discarded()), (top, nodes, discarded));
    assert!(arena.sound());
}

/// The rows up to the third give-back.
fn three_given_back(buf: &mut [u8; 160], policy: Policy) -> Arena<'_> {
    let mut arena = Arena::new(buf, Settings { policy, ..SETTINGS }).unwrap();
    assert_eq!(arena.alloc_bytes(30), block(4, 30, 4, 30));
    assert_eq!(arena.alloc(16, 8), block(34, 22, 40, 16));
    assert_eq!(arena.alloc_bytes(60), block(56, 60, 56, 60));
    assert_eq!(arena.alloc_bytes(44), block(116, 44, 116, 44));
    shows(&arena, 160, &[], 0);
    assert_eq!(arena.dealloc(4, 30), Ok(true));
    shows(&arena, 160, &[(8, 18)], 8);
    assert_eq!(arena.dealloc(34, 22), Ok(true));
    assert_eq!(arena.dealloc(56, 60), Ok(true));
    arena
}

#[test]
fn the_worked_example() {
    let mut buf = [0; 160];
    let mut arena = three_given_back(&mut buf, Policy::Pessimistic);
    shows(&arena, 160, &[(40, 8), (8, 18), (56, 52)], 24);
    assert_eq!(arena.alloc_bytes(20), block(56, 20, 64, 20));
    shows(&arena, 160, &[(40, 8), (8, 18), (88, 20)], 32);
    assert_eq!(arena.alloc(8, 8), block(8, 18, 8, 8));
    shows(&arena, 160, &[(40, 8), (88, 20)], 32);
    let lease = Block { memory_offset: 8, memory_size: 18, usable_offset: 8, usable_size: 8 };
    assert_eq!(arena.bytes(&lease), [0x58, 0, 0, 0, 0x12, 0, 0, 0]);
    assert_eq!(arena.alloc_bytes(25), Err(Refusal::InsufficientSpace { requested: 25, available: 0 }));
    assert_eq!(arena.dealloc(56, 20), Ok(true));
    assert_eq!(arena.dealloc(56, 20), Err(Refusal::Overlap));
    shows(&arena, 160, &[(40, 8), (56, 12), (88, 20)], 40);
    assert_eq!(arena.dealloc(116, 44), Ok(true));
    assert_eq!(arena.rewind(Position::Start(100)), Err(Refusal::CutsFreeList));
    shows(&arena, 116, &[(40, 8), (56, 12), (88, 20)], 40);
    assert_eq!(arena.discard_freelist(), Ok(40));
    for (position, top) in [(Position::Start(100), 100), (Position::Current(-100), 100), (Position::Current(-101), 4)] {
        assert_eq!(arena.rewind(position), Ok(()));
        shows(&arena, top, &[], 80);
    }
}

#[test]
fn an_optimistic_list_would_say() {
    let mut buf = [0; 160];
    let mut arena = three_given_back(&mut buf, Policy::Optimistic);
    arena.alloc_bytes(20).unwrap();
    arena.alloc(8, 8).unwrap();
    assert_eq!(arena.alloc_bytes(25), Err(Refusal::InsufficientSpace { requested: 25, available: 18 }));
}
