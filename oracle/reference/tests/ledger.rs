//! Document 01's ledger on the Rust, and the window onto its header.

use reference::{ArenaPosition, Error, Freelist, Reference};

fn arena(cap: u32, reserved: u32, unify: bool, freelist: Freelist) -> Reference {
    // Safety: the tests stay in the comparison's domain.
    unsafe { Reference::create(cap, reserved, unify, freelist, 20) }.expect("a setup that the Rust takes")
}

/// Start S, its blocks full of 7s.
fn start(freelist: Freelist) -> Reference {
    let mut arena = arena(200, 7, false, freelist);
    for (size, at) in [(40, 8), (60, 48), (92, 108)] {
        assert_eq!(arena.alloc_bytes(size), Ok(Some([at, size, at, size])));
    }
    arena.bytes_mut()[8..].fill(7);
    assert!(arena.dealloc(8, 40) && arena.dealloc(48, 60));
    assert_eq!((arena.discarded(), arena.allocated()), (16, 200));
    arena
}

fn node(arena: &Reference, at: usize) -> (u32, u32) {
    let word = u64::from_le_bytes(arena.bytes()[at..at + 8].try_into().unwrap());
    ((word >> 32) as u32, word as u32)
}

const END: u32 = u32::MAX;

#[test]
fn the_sentinel_is_what_the_rust_prints() {
    let printed = |next| {
        format!(
            "Header {{ sentinel: SegmentNode {{ offset: {END}, next: {next} }}, \
             allocated: 200, min_segment_size: 20, discarded: 16 }}"
        )
    };
    for (freelist, next) in [(Freelist::Pessimistic, 8), (Freelist::Optimistic, 48)] {
        let arena = start(freelist);
        assert_eq!(arena.sentinel(), u64::from(END) << 32 | next);
        assert_eq!(arena.shown_header(), printed(next));
    }
}

#[test]
fn order() {
    let rising = start(Freelist::Pessimistic);
    assert_eq!((node(&rising, 8), node(&rising, 48)), ((32, 48), (52, END)));
    let falling = start(Freelist::Optimistic);
    assert_eq!((node(&falling, 48), node(&falling, 8)), ((52, 8), (32, END)));
}

#[test]
fn bytes_from_the_list() {
    assert_eq!(start(Freelist::Pessimistic).alloc_bytes(30), Ok(Some([8, 32, 16, 30])));
    assert_eq!(start(Freelist::Optimistic).alloc_bytes(30), Ok(Some([48, 52, 56, 30])));
    assert_eq!(start(Freelist::Pessimistic).alloc_bytes(4), Ok(Some([8, 32, 16, 4])));
    let mut split = start(Freelist::Optimistic);
    assert_eq!(split.alloc_bytes(4), Ok(Some([48, 4, 56, 4])));
    assert_eq!((split.sentinel() as u32, node(&split, 64), split.discarded()), (64, (36, 8), 24));
}

#[test]
fn too_many_bytes() {
    let refused = |requested, available| Err(Error::InsufficientSpace { requested, available });
    assert_eq!(start(Freelist::Pessimistic).alloc_bytes(53), refused(53, 0));
    assert_eq!(start(Freelist::Optimistic).alloc_bytes(53), refused(53, 52));
    let mut none = arena(20, 12, false, Freelist::None);
    assert_eq!(none.alloc(8, 8), refused(24, 7));
    assert_eq!(none.alloc_aligned_bytes(8, 8, 0), refused(8, 7));
}

#[test]
fn typed() {
    let mut listed = start(Freelist::Pessimistic);
    assert_eq!(listed.alloc(8, 8), Ok(Some([8, 32, 8, 8])));
    assert_eq!((&listed.bytes()[16..31], &listed.bytes()[31..48]), (&[0; 15][..], &[7; 17][..]));
    assert_eq!(arena(200, 0, false, Freelist::Optimistic).alloc(8, 8), Ok(Some([1, 15, 8, 8])));
    assert_eq!(arena(200, 0, false, Freelist::Optimistic).alloc(0, 4096), Ok(None));
}

#[test]
fn data_offsets() {
    for (reserved, plain, unified) in [(0, 1, 32), (1, 2, 40), (8, 9, 40), (9, 10, 48)] {
        assert_eq!(arena(100, reserved, false, Freelist::None).data_offset(), plain);
        assert_eq!(arena(100, reserved, true, Freelist::None).data_offset(), unified);
    }
}

#[test]
fn rewind() {
    use ArenaPosition::{Current, End, Start};
    for (position, top) in [
        (Start(0), 8),
        (Start(500), 200),
        (Current(-108), 108),
        (Current(-109), 8),
        (Current(-101), 8),
        (Current(92), 200),
        (End(150), 50),
        (End(201), 8),
    ] {
        let mut arena = arena(200, 7, false, Freelist::Optimistic);
        arena.alloc_bytes(100).unwrap();
        arena.rewind(position);
        assert_eq!(arena.allocated(), top, "{position:?}");
    }
}
