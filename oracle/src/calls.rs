//! Setups, calls and answers as values, and their lines as a record or a reproduction shows them.

use std::fmt;

use arena::{Block, Position, Refusal};

/// Document 01's bound on buffers, sizes and extras.
pub const LIMIT: u32 = 1_073_741_824;

/// An arena's setup, its flags and policy as the boundary takes them. The buffer is as long as `cap`.
#[derive(Debug, Clone, Copy, PartialEq, Eq)]
pub struct Setup {
    pub cap: u32,
    pub reserved: u32,
    pub unify: u8,
    pub policy: u8,
    pub minimum_segment_size: u32,
    pub read_only: u8,
}

/// A call on the arena, or a caller's write.
#[derive(Debug, Clone, Copy, PartialEq, Eq)]
pub enum Call {
    Bytes { size: u32 },
    Typed { size: u32, align: u32 },
    Aligned { size: u32, align: u32, extra: u32 },
    Give { offset: u32, size: u32 },
    Discard,
    Rewind(Position),
    Minimum { size: u32 },
    Lost { size: u32 },
    Fill { offset: u32, size: u32, byte: u8 },
}

/// What a call answers.
#[derive(Debug, Clone, Copy, PartialEq, Eq)]
pub enum Answer {
    Granted(Block),
    Nothing,
    GivenBack(bool),
    Sum(u32),
    Moved,
    Done,
    Refused(Refusal),
}

impl fmt::Display for Setup {
    fn fmt(&self, f: &mut fmt::Formatter<'_>) -> fmt::Result {
        let Setup { cap, reserved, unify, policy, minimum_segment_size, .. } = *self;
        write!(f, "cap={cap} reserved={reserved} unify={unify} policy={policy} min={minimum_segment_size}")
    }
}

impl fmt::Display for Call {
    fn fmt(&self, f: &mut fmt::Formatter<'_>) -> fmt::Result {
        match *self {
            Call::Bytes { size } => write!(f, "op=bytes size={size}"),
            Call::Typed { size, align } => write!(f, "op=typed size={size} align={align}"),
            Call::Aligned { size, align, extra } => write!(f, "op=aligned size={size} align={align} extra={extra}"),
            Call::Give { offset, size } => write!(f, "op=give offset={offset} size={size}"),
            Call::Discard => write!(f, "op=discard"),
            Call::Rewind(Position::Start(by)) => write!(f, "op=rewind from=start by={by}"),
            Call::Rewind(Position::Current(by)) => write!(f, "op=rewind from=current by={by}"),
            Call::Rewind(Position::End(by)) => write!(f, "op=rewind from=end by={by}"),
            Call::Minimum { size } => write!(f, "op=min size={size}"),
            Call::Lost { size } => write!(f, "op=lost size={size}"),
            Call::Fill { offset, size, byte } => write!(f, "op=fill offset={offset} size={size} byte={byte}"),
        }
    }
}

impl fmt::Display for Answer {
    fn fmt(&self, f: &mut fmt::Formatter<'_>) -> fmt::Result {
        match self {
            Answer::Granted(Block { memory_offset, memory_size, usable_offset, usable_size }) => write!(
                f,
                "answer=granted memory={memory_offset} length={memory_size} at={usable_offset} usable={usable_size}"
            ),
            Answer::Nothing => write!(f, "answer=nothing"),
            Answer::GivenBack(stored) => write!(f, "answer={stored}"),
            Answer::Sum(bytes) => write!(f, "answer=sum bytes={bytes}"),
            Answer::Moved => write!(f, "answer=moved"),
            Answer::Done => write!(f, "answer=done"),
            Answer::Refused(refusal) => write_refusal(f, *refusal),
        }
    }
}

fn write_refusal(f: &mut fmt::Formatter<'_>, refusal: Refusal) -> fmt::Result {
    write!(f, "answer=refused no={}", refusal.number())?;
    match refusal {
        Refusal::OutOfBounds { offset, allocated } => write!(f, " first={offset} second={allocated}"),
        Refusal::InsufficientSpace { requested, available } => write!(f, " first={requested} second={available}"),
        _ => Ok(()),
    }
}
