//! What the Rust does where document 01 refuses or counts otherwise: the smallest inputs of docs/DIFFERENCES.md that
//! can be run. Sums that overflow show as panics here; without overflow checks they wrap.

use std::sync::mpsc;
use std::thread;
use std::time::Duration;

use reference::{Allocator, Arena, ArenaPosition, Error, Freelist, Options, Reference};

fn created(cap: u32, reserved: u32, unify: bool, freelist: Freelist) -> Result<Reference, Error> {
    // Safety: each test leaves the domain only by a call that touches no byte outside of the buffer.
    unsafe { Reference::create(cap, reserved, unify, freelist, 20) }
}

fn arena(cap: u32, reserved: u32, freelist: Freelist) -> Reference {
    created(cap, reserved, false, freelist).expect("a setup that the Rust takes")
}

/// Start S of document 01.
fn start(freelist: Freelist) -> Reference {
    let mut arena = arena(200, 7, freelist);
    for size in [40, 60, 92] {
        arena.alloc_bytes(size).unwrap();
    }
    assert!(arena.dealloc(8, 40) && arena.dealloc(48, 60));
    arena
}

fn next_of(arena: &Reference, node: usize) -> u32 {
    u32::from_le_bytes(arena.bytes()[node..node + 4].try_into().unwrap())
}

#[test]
fn a_short_buffer_is_insufficient_space() {
    let refused = |cap, reserved, unify| created(cap, reserved, unify, Freelist::None).err();
    let with = |requested, available| Some(Error::InsufficientSpace { requested, available });
    assert_eq!(refused(0, 0, false), with(1, 0));
    assert_eq!(refused(31, 0, true), with(32, 31));
    // The data offset 4,294,967,296 is told as 0.
    assert_eq!(refused(100, u32::MAX, false), with(0, 100));
}

#[test]
#[should_panic(expected = "overflow")]
fn reserved_near_its_end_overflows_with_unify() {
    let _ = created(32, 4_294_967_289, true, Freelist::None);
}

#[test]
#[ignore = "takes a gigabyte of memory"]
fn a_buffer_over_the_limit_is_taken() {
    assert_eq!(arena(1_073_741_825, 0, Freelist::None).remaining(), 1_073_741_824);
}

#[test]
fn an_unknown_policy_has_no_value() {
    assert!(Freelist::try_from(3).is_err());
}

#[test]
fn a_fresh_buffer_is_zeroed_and_aligned_to_eight() {
    let arena = arena(101, 3, Freelist::None);
    assert!(arena.bytes().iter().all(|byte| *byte == 0));
    assert_eq!(arena.bytes().as_ptr().align_offset(8), 0);
}

#[test]
fn sizes_over_the_limit_are_looked_for() {
    let refused = arena(100, 0, Freelist::None).alloc_bytes(1_073_741_825);
    assert_eq!(refused, Err(Error::InsufficientSpace { requested: 1_073_741_825, available: 99 }));
}

#[test]
#[should_panic(expected = "overflow")]
fn the_sum_of_a_bytes_request_overflows() {
    let _ = arena(100, 0, Freelist::None).alloc_bytes(u32::MAX);
}

#[test]
#[should_panic(expected = "overflow")]
fn the_sum_of_an_aligned_request_overflows() {
    let _ = arena(100, 0, Freelist::None).alloc_aligned_bytes(1, 1, u32::MAX - 1);
}

#[test]
fn larger_alignments_are_taken() {
    #[repr(align(8192))]
    struct Wide;
    #[repr(C)]
    struct Holds(u8, Wide);
    let arena = Options::new().with_capacity(16_384).alloc::<Arena>().unwrap();
    // Safety: nothing is read or written through the answer.
    assert!(unsafe { arena.alloc::<Holds>() }.is_ok());
    assert_eq!(arena.allocated(), 16_384);
}

#[test]
#[should_panic(expected = "overflow")]
fn the_end_of_a_give_back_overflows() {
    arena(100, 0, Freelist::None).dealloc(1, u32::MAX);
}

#[test]
fn a_give_back_above_the_top_is_taken() {
    let mut arena = arena(200, 7, Freelist::Optimistic);
    assert!(arena.dealloc(48, 60));
    assert_eq!((arena.allocated(), arena.sentinel() as u32), (8, 48));
}

#[test]
fn a_give_back_below_the_data_offset_writes_into_the_reserved_bytes() {
    let mut arena = arena(200, 40, Freelist::Optimistic);
    assert!(arena.dealloc(8, 32));
    assert_eq!(arena.reserved_slice()[8..16], [255, 255, 255, 255, 24, 0, 0, 0]);
    // Offset 0 alone is refused by the segment rule, and then nothing is counted as lost.
    assert!(!arena.dealloc(0, 40));
    assert_eq!(arena.discarded(), 8);
}

#[test]
fn a_pessimistic_block_given_back_twice_links_to_itself() {
    let mut arena = start(Freelist::Pessimistic);
    assert!(arena.dealloc(8, 40));
    assert_eq!(next_of(&arena, 8), 8);
}

#[test]
fn an_optimistic_block_given_back_twice_never_returns() {
    let (tell, told) = mpsc::channel();
    thread::spawn(move || tell.send(start(Freelist::Optimistic).dealloc(8, 40)));
    assert!(told.recv_timeout(Duration::from_millis(500)).is_err());
}

#[test]
fn an_overlapping_give_back_is_taken() {
    let mut arena = start(Freelist::Pessimistic);
    // The node at 16 lies in the segment from 8 to 48.
    assert!(arena.dealloc(16, 30));
    assert_eq!((arena.sentinel() as u32, next_of(&arena, 16)), (16, 8));
}

#[test]
fn a_rewind_cuts_the_list_and_blocks_share_bytes() {
    let mut arena = start(Freelist::Pessimistic);
    arena.rewind(ArenaPosition::End(100));
    assert_eq!(arena.allocated(), 100);
    // Bytes 100 to 107 are the end of the free segment from 48 to 107, which is handed out as well: the usable bytes
    // 56 to 105 of the second block share 100 to 105 with the first.
    assert_eq!(arena.alloc_bytes(8), Ok(Some([100, 8, 100, 8])));
    arena.rewind(ArenaPosition::End(0));
    assert_eq!(arena.alloc_bytes(50), Ok(Some([48, 52, 56, 50])));
}

#[test]
#[should_panic(expected = "overflow")]
fn the_sum_of_a_rewind_overflows() {
    arena(100, 0, Freelist::None).rewind(ArenaPosition::Current(i64::MAX));
}

#[test]
#[should_panic(expected = "overflow")]
fn discarded_overflows() {
    let mut arena = arena(100, 0, Freelist::None);
    arena.increase_discarded(u32::MAX);
    arena.increase_discarded(1);
}

#[test]
fn unify_writes_marks_and_header_into_the_buffer() {
    let arena = created(100, 5, true, Freelist::Pessimistic).unwrap();
    let bytes = arena.bytes();
    // The marks start at the reserved size, not at a multiple of 8: a zero, the policy, "al" and two versions.
    assert_eq!(bytes[5..13], [0, 2, b'a', b'l', 0, 0, 0, 0]);
    assert_eq!(bytes[13..16], [0; 3]);
    let header = [[255; 4], [255; 4], [40, 0, 0, 0], [20, 0, 0, 0], [0; 4]].concat();
    assert_eq!(bytes[16..36], header);
}

#[test]
fn the_default_minimum_is_20_though_its_text_says_48() {
    assert_eq!(Options::new().minimum_segment_size(), 20);
}
