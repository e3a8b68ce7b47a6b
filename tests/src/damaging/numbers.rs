//! Damages what is handed in beside bytes: formats, sizes, records, readings, and the lengths of lent slices.

use flic_boundary::Reel;
use flic_tests::model::{Format, MAX_FRAMES};
use flic_tests::rng::Rng;
use flic_tests::sizes::{lengths, right_size, wrong_size, Lengths};

/// The number of a reel's format, or now and then another.
pub fn format(rng: &mut Rng, right: Format) -> u32 {
    if rng.once_in(12) {
        rng.pick(&[0, 1, 2, 256, 1 << 31, u32::MAX])
    } else {
        right.number()
    }
}

/// The size that a reel has, or now and then another.
pub fn size(rng: &mut Rng, width: usize, height: usize) -> (u64, u64) {
    let (width, height) = (width as u64, height as u64);
    match rng.below(24) {
        0 => wrong_size(rng, Format::Flc),
        1 => (width.wrapping_add(1), height),
        2 => (width.saturating_sub(1), height),
        3 => (width, height.wrapping_add(1)),
        4 => (width, height.saturating_sub(1)),
        5 => (height, width),
        6 => {
            let (width, height) = right_size(rng);
            (width as u64, height as u64)
        }
        _ => (width, height),
    }
}

/// The record of a reel, with none, one or two of its fields altered.
pub fn record(rng: &mut Rng, right: Reel, length: usize) -> Reel {
    let mut reel = right;
    let times = rng.pick(&[0, 0, 0, 0, 1, 1, 2]);
    for _ in 0..times {
        match rng.below(9) {
            0..=3 => reel.end = end(rng, right.end, length as u64),
            4 | 5 => reel.frames = frames(rng, right.frames),
            6 => reel.closed = rng.pick(&[0, 1, 1, 2, 1 << 31, u32::MAX]),
            7 => reel.format = rng.pick(&[0, 1, 2, 256, u32::MAX]),
            _ => (reel.width, reel.height) = size(rng, right.width as usize, right.height as usize),
        }
    }
    reel
}

fn end(rng: &mut Rng, right: u64, length: u64) -> u64 {
    let near = rng.pick(&[1, 5, 6, 15, 16]);
    match rng.below(6) {
        0 => right.wrapping_add(near),
        1 => right.saturating_sub(near),
        2 => rng.pick(&[length.saturating_sub(1), length, length + 1]),
        3 => rng.pick(&[0, 1, 127, 128, 129, 143, 144]),
        4 => rng.pick(&[u32::MAX.into(), 1 << 32, u64::MAX - 15, u64::MAX]),
        _ => rng.below(length as usize + 2) as u64,
    }
}

fn frames(rng: &mut Rng, right: u64) -> u64 {
    let near = [right.wrapping_sub(1), right.wrapping_add(1), right.wrapping_add(2), 0, 1];
    if rng.once_in(2) {
        rng.pick(&near)
    } else {
        rng.pick(&[0, 1, MAX_FRAMES - 1, MAX_FRAMES, MAX_FRAMES + 1, 65_537, u64::MAX])
    }
}

/// The number of a frame that stands, or now and then another.
pub fn frame_number(rng: &mut Rng, frames: u64) -> u64 {
    match rng.below(10) {
        0 => rng.pick(&[0, frames.wrapping_add(2), u64::MAX]),
        1..=3 => frames.wrapping_add(1),
        4..=6 => frames,
        _ => 1,
    }
}

/// How far a reading is from the last draw time: most often the speed, at times around it or around half the range.
pub fn difference(rng: &mut Rng, speed: u32) -> u32 {
    const HALF: u32 = 1 << 31;
    match rng.below(12) {
        0 => rng.pick(&[0, 1, HALF - 1, HALF, HALF + 1, u32::MAX]),
        1 => rng.pick(&[speed.wrapping_sub(1), speed.wrapping_add(1)]),
        2 => rng.draw() as u32,
        _ => speed,
    }
}

/// The lengths of a lent pair: those that the larger of two sizes asks for, longer, or too short.
pub fn pair(rng: &mut Rng, pixels: usize) -> Lengths {
    lengths(rng, pixels.max(1))
}
