//! What becomes of leases where callers do not keep to what they owe, as the crate's page tells it.

use arena::{Arena, Block, Policy, Refusal, Settings};

/// An arena of 200 bytes with its data from 8 on, and three blocks that fill it.
fn three(buf: &mut [u8; 200], policy: Policy, sizes: [u32; 3]) -> (Arena<'_>, [Block; 3]) {
    let mut arena = Arena::new(buf, Settings { reserved: 7, policy, ..Settings::default() }).unwrap();
    let blocks = sizes.map(|size| arena.alloc_bytes(size).unwrap().unwrap());
    assert_eq!(arena.remaining(), 0);
    (arena, blocks)
}

fn give(arena: &mut Arena, block: Block) -> Result<bool, Refusal> {
    arena.dealloc(block.memory_offset, block.memory_size)
}

#[test]
fn given_back_twice_while_its_room_is_free() {
    let mut buf = [0; 200];
    let (mut arena, [low, _, high]) = three(&mut buf, Policy::Optimistic, [40, 60, 92]);
    assert_eq!(give(&mut arena, low), Ok(true));
    assert_eq!(give(&mut arena, low), Err(Refusal::Overlap));
    assert_eq!(give(&mut arena, high), Ok(true));
    assert_eq!(give(&mut arena, high), Err(Refusal::OutOfBounds { offset: 108, allocated: 108 }));
}

#[test]
fn given_back_twice_and_lost_twice() {
    for (policy, kept) in [(Policy::Pessimistic, false), (Policy::None, true)] {
        let mut buf = [0; 200];
        let (mut arena, [low, ..]) = three(&mut buf, policy, [10, 90, 92]);
        assert_eq!((give(&mut arena, low), give(&mut arena, low)), (Ok(kept), Ok(kept)));
        assert_eq!(arena.discarded(), 20);
    }
}

#[test]
fn given_back_twice_once_its_room_is_granted_anew() {
    let mut buf = [0; 200];
    let (mut arena, [low, ..]) = three(&mut buf, Policy::Optimistic, [40, 60, 92]);
    give(&mut arena, low).unwrap();
    let held = arena.alloc_bytes(32).unwrap().unwrap();
    assert_eq!(give(&mut arena, low), Ok(true));
    assert_eq!(arena.alloc_bytes(32), Ok(Some(held)), "two callers hold the same bytes");
}

#[test]
fn written_outside_of_ones_bytes() {
    let mut buf = [0; 200];
    let (mut arena, [low, held, _]) = three(&mut buf, Policy::Optimistic, [40, 60, 92]);
    give(&mut arena, low).unwrap();
    let size_of_the_node = Block { usable_offset: 12, usable_size: 4, ..low };
    arena.bytes_mut(&size_of_the_node).copy_from_slice(&44_u32.to_le_bytes());
    assert!(arena.sound());
    let wrong = arena.alloc_bytes(44).unwrap().unwrap();
    assert!(wrong.usable_offset + wrong.usable_size > held.usable_offset, "they share bytes");

    let (mut arena, [low, ..]) = three(&mut buf, Policy::Optimistic, [40, 60, 92]);
    give(&mut arena, low).unwrap();
    arena.bytes_mut(&size_of_the_node).fill(0xff);
    assert_eq!(arena.alloc_bytes(1), Err(Refusal::Damaged));
}
