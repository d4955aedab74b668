//! A lease taken, filled and given back, once too often; and a request that is too large.

use arena::{Arena, Policy, Refusal, Settings};

fn main() -> Result<(), Refusal> {
    let mut buffer = [0; 200];
    let settings = Settings { reserved: 7, policy: Policy::Pessimistic, ..Settings::default() };
    let mut arena = Arena::new(&mut buffer, settings)?;
    let lease = arena.alloc_bytes(40)?.expect("a lease of 40 bytes is something");
    arena.alloc_bytes(60)?;
    arena.bytes_mut(&lease).fill(7);
    println!("{lease:?}, top {}, room {}", arena.allocated(), arena.remaining());
    println!("{:?}", arena.dealloc(lease.memory_offset, lease.memory_size));
    println!("{:?}", arena.dealloc(lease.memory_offset, lease.memory_size));
    println!("{:?}", arena.alloc_bytes(1_000));
    Ok(())
}
