//! What the calls answer, as values with document 01's names.

use std::fmt;

use crate::raw;

/// A granted block's record. Give back its memory range; read and write its usable range.
#[derive(Debug, Clone, Copy, PartialEq, Eq)]
pub struct Block {
    /// Where the memory range starts.
    pub memory_offset: u32,
    /// How many bytes go back. The usable range of bytes taken from the list may end up to eight bytes later.
    pub memory_size: u32,
    /// Where the usable range starts: a multiple of the alignment asked for, counted from the buffer's start.
    pub usable_offset: u32,
    /// How many bytes are for use.
    pub usable_size: u32,
}

/// Why a call said no. A refusal changed neither header nor buffer.
#[derive(Debug, Clone, Copy, PartialEq, Eq)]
pub enum Refusal {
    /// 1: the arena is read-only.
    ReadOnly,
    /// 2: the policy code is not 0, 1 or 2.
    UnknownFreelist,
    /// 3: the buffer is over 1,073,741,824 bytes or shorter than the data offset; at the boundary, also a flag over 1.
    BadSetup,
    /// 4: the shape or the header is damaged; or, in a call that needs the list, the list is.
    Damaged,
    /// 5: a size or extra over 1,073,741,824, an alignment that is no power of two from 1 to 4,096, or a size that is
    /// no multiple of it.
    BadLayout,
    /// 6: a give-back reaches below the data offset or past the top.
    OutOfBounds {
        /// The offset that was given.
        offset: u32,
        /// The top.
        allocated: u32,
    },
    /// 7: a give-back meets a free segment.
    Overlap,
    /// 8: a rewind would cut a free segment off.
    CutsFreeList,
    /// 9: neither the top nor the list can meet the request.
    InsufficientSpace {
        /// The bytes needed, with what aligning them may take. Under [`Policy::None`](crate::Policy) without that, but
        /// for a typed request where it would end.
        requested: u32,
        /// The room above the top; on an optimistic list that is not empty, its largest segment's size.
        available: u32,
    },
}

impl Refusal {
    /// Document 01's number.
    pub fn number(self) -> u32 {
        match self {
            Refusal::ReadOnly => 1,
            Refusal::UnknownFreelist => 2,
            Refusal::BadSetup => 3,
            Refusal::Damaged => 4,
            Refusal::BadLayout => 5,
            Refusal::OutOfBounds { .. } => 6,
            Refusal::Overlap => 7,
            Refusal::CutsFreeList => 8,
            Refusal::InsufficientSpace { .. } => 9,
        }
    }
}

impl fmt::Display for Refusal {
    fn fmt(&self, f: &mut fmt::Formatter<'_>) -> fmt::Result {
        match self {
            Refusal::ReadOnly => write!(f, "the arena is read-only"),
            Refusal::UnknownFreelist => write!(f, "the free list policy is not 0, 1 or 2"),
            Refusal::BadSetup => write!(f, "the buffer is too large or too small for these settings"),
            Refusal::Damaged => write!(f, "the arena is damaged"),
            Refusal::BadLayout => write!(f, "the size, extra or alignment is not served"),
            Refusal::OutOfBounds { offset, allocated } => {
                write!(f, "the range at {offset} does not lie below the top at {allocated}")
            }
            Refusal::Overlap => write!(f, "the range meets a free segment"),
            Refusal::CutsFreeList => write!(f, "the new top would cut off a free segment"),
            Refusal::InsufficientSpace { requested, available } => {
                write!(f, "{requested} bytes requested, {available} available")
            }
        }
    }
}

impl std::error::Error for Refusal {}

/// The refusal of a setup that answered `code`.
pub(crate) fn refused(code: u32) -> Refusal {
    refusal(raw::Answer { code, first: 0, second: 0, third: 0, fourth: 0 })
}

// The library answers a request, give-back, discard or other call with that call's own code or with 1 to 9. Anything
// else would mean that another library was linked, of which nothing is known: the arena then counts as damaged.
fn refusal(answer: raw::Answer) -> Refusal {
    match answer.code {
        1 => Refusal::ReadOnly,
        2 => Refusal::UnknownFreelist,
        3 => Refusal::BadSetup,
        5 => Refusal::BadLayout,
        6 => Refusal::OutOfBounds { offset: answer.first, allocated: answer.second },
        7 => Refusal::Overlap,
        8 => Refusal::CutsFreeList,
        9 => Refusal::InsufficientSpace { requested: answer.first, available: answer.second },
        _ => Refusal::Damaged,
    }
}

/// A request's answer; none where nothing was asked for.
#[inline]
pub(crate) fn taken(answer: raw::Answer) -> Result<Option<Block>, Refusal> {
    match answer.code {
        raw::GRANTED => Ok(Some(Block {
            memory_offset: answer.first,
            memory_size: answer.second,
            usable_offset: answer.third,
            usable_size: answer.fourth,
        })),
        raw::NOTHING => Ok(None),
        _ => Err(refusal(answer)),
    }
}

/// A give-back's answer.
#[inline]
pub(crate) fn given_back(answer: raw::Answer) -> Result<bool, Refusal> {
    match answer.code {
        raw::GIVEN_BACK => Ok(answer.first == 1),
        _ => Err(refusal(answer)),
    }
}

/// A discard's answer.
#[inline]
pub(crate) fn sum(answer: raw::Answer) -> Result<u32, Refusal> {
    match answer.code {
        raw::SUM => Ok(answer.first),
        _ => Err(refusal(answer)),
    }
}

/// A rewind's or setter's answer.
#[inline]
pub(crate) fn done(answer: raw::Answer) -> Result<(), Refusal> {
    match answer.code {
        raw::DONE => Ok(()),
        _ => Err(refusal(answer)),
    }
}
