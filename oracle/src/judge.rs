//! Calls on an image and in the model of document 01, which must agree: on the answer, the header and every byte.

use arena::raw::{self, Answer};
use arena::{Refusal, Shape};

use crate::calls::{self, Call, Setup};
use crate::fence::Flush;
use crate::image::{self, Image, UNSET};
use crate::model::Model;
use crate::random::Random;
use crate::rules::{self, END_MARK};
use crate::sides::{self, Side};

/// How many answers there were: of each refusal by its number, of all others at 0.
pub type Answers = [u64; 10];

/// Where a code is counted.
pub fn slot(code: u32) -> usize {
    if code < 10 { code as usize } else { 0 }
}

/// Sets up here and tells the code that was owed.
pub fn checked_setup(image: &mut Image, setup: &Setup, random: &mut Random) -> Result<u32, String> {
    let begun = image.begin(setup, random.pick(&[Flush::Start, Flush::End]));
    let Setup { cap, reserved, unify, policy, minimum_segment_size, read_only } = *setup;
    let data_offset = rules::data_offset(reserved, unify) as u32;
    let (code, shape, header) = match rules::setup_refusal(setup) {
        Some(refusal) => (refusal.number(), Image::empty_shape(), UNSET),
        None => (
            raw::DONE,
            Shape { cap, reserved, data_offset, unify, read_only, policy },
            image::header(END_MARK, data_offset, minimum_segment_size),
        ),
    };
    let zeroed = image.fence.buffer().iter().all(|byte| *byte == 0);
    let good = begun.code == code && begun.shape == shape && image.header == header;
    if good && zeroed && image.fence.intact() {
        return Ok(code);
    }
    Err(format!("{setup:?}: answered {begun:?} with header {:?}; owed code {code}", image.header))
}

/// The model, standing as the image does.
pub fn model_of(image: &Image) -> Model {
    Model { shape: image.shape, counters: sides::counters(&image.header), bytes: image.fence.buffer().to_vec() }
}

/// Makes the call here and in the model, which stand alike before it and, where it is no fault, after it.
pub fn checked_call(image: &mut Image, model: &mut Model, call: &Call) -> Result<Answer, String> {
    check_readers(image)?;
    let wanted = on_the_boundary(model.call(call));
    let (header, bytes) = (image.header, image.short_bytes());
    let answer = image.call(call);
    let fault = if !image.fence.intact() || image.header.unused != header.unused {
        "something outside of the arena has changed"
    } else if answer != wanted {
        "another answer is owed"
    } else if sides::counters(&image.header) != model.counters {
        "another header is owed"
    } else if image.fence.buffer() != model.bytes {
        "other bytes are owed"
    } else {
        return Ok(answer);
    };
    let byte = image.fence.buffer().iter().zip(&model.bytes).position(|(ours, owed)| ours != owed);
    let after = std::mem::replace(&mut image.header, header);
    if let Some(bytes) = bytes {
        image.fence.buffer_mut().copy_from_slice(&bytes);
    }
    let owed = format!("owed {wanted:?}, {:?}; first other byte {byte:?}", model.counters);
    Err(format!("{call}: {fault}: {answer:?}, {after:?}; {owed}; before:\n{}", image.shown()))
}

fn check_readers(image: &Image) -> Result<(), String> {
    let buf = image.fence.buffer();
    // Safety: header and buffer are valid for the calls.
    let (sound, remaining) = unsafe {
        let sound = raw::arena_sound(image.shape, &image.header, buf.as_ptr(), buf.len());
        (sound, raw::arena_remaining(image.shape, &image.header))
    };
    if sound != rules::sound(&image.view()) {
        return Err(format!("the soundness check says {sound}:\n{}", image.shown()));
    }
    if remaining != image.shape.cap.saturating_sub(image.header.allocated) {
        return Err(format!("the remaining room is told as {remaining}:\n{}", image.shown()));
    }
    Ok(())
}

/// The answer's code and numbers, those that it does not carry 0.
fn on_the_boundary(answer: calls::Answer) -> Answer {
    let (code, [first, second, third, fourth]) = match answer {
        calls::Answer::Granted(block) => {
            (raw::GRANTED, [block.memory_offset, block.memory_size, block.usable_offset, block.usable_size])
        }
        calls::Answer::Nothing => (raw::NOTHING, [0; 4]),
        calls::Answer::GivenBack(stored) => (raw::GIVEN_BACK, [u32::from(stored), 0, 0, 0]),
        calls::Answer::Sum(sum) => (raw::SUM, [sum, 0, 0, 0]),
        calls::Answer::Moved | calls::Answer::Done => (raw::DONE, [0; 4]),
        calls::Answer::Refused(refusal) => (refusal.number(), carried(refusal)),
    };
    Answer { code, first, second, third, fourth }
}

fn carried(refusal: Refusal) -> [u32; 4] {
    match refusal {
        Refusal::OutOfBounds { offset, allocated } => [offset, allocated, 0, 0],
        Refusal::InsufficientSpace { requested, available } => [requested, available, 0, 0],
        _ => [0; 4],
    }
}
