//! What the families of reels share: sizes, pairs, and calls on bytes that are at hand.

use crate::model::{accepted_size, field, word_at, Format, FILE_HEADER, MODEL};
use crate::rng::Rng;
use crate::runner::calls::{AddCase, CheckCase, CloseCase};
use crate::runner::inputs::Case;
use crate::sizes::{long_or_exact, small_size};
use crate::states::{any_state, State};
use flic_boundary::Reel;

/// A size for a reel of many calls: the smallest, odd and even widths, single rows and columns.
pub fn reel_size(rng: &mut Rng) -> (usize, usize) {
    match rng.below(6) {
        0 => (1, 1),
        1 => rng.pick(&[(2, 1), (3, 2), (5, 3), (7, 1), (1, 9), (8, 4), (13, 2), (31, 3), (64, 2)]),
        _ => small_size(rng),
    }
}

/// A lent pair that holds chance, at times longer than needed.
pub fn pair(rng: &mut Rng, pixels: usize) -> State {
    let lengths = long_or_exact(rng, pixels);
    any_state(rng, lengths)
}

/// How many pixels a size asks for, if it is in range.
pub fn pixels_of(width: u64, height: u64) -> usize {
    accepted_size(Format::Flc, width, height).map_or(1, |(width, height)| width * height)
}

/// A check of these bytes, with pairs that hold the size that their header tells.
pub fn check_of(rng: &mut Rng, bytes: Vec<u8>) -> Case {
    let pixels = if bytes.len() < FILE_HEADER {
        1
    } else {
        pixels_of(word_at(&bytes, field::WIDTH).into(), word_at(&bytes, field::HEIGHT).into())
    };
    Case::Check(CheckCase { bytes, first: pair(rng, pixels), second: pair(rng, pixels) })
}

/// A close of these bytes, with pairs that hold the size that the record tells.
pub fn close_of(rng: &mut Rng, reel: Reel, bytes: Vec<u8>) -> Case {
    let pixels = pixels_of(reel.width, reel.height);
    Case::Close(CloseCase { reel, bytes, first: pair(rng, pixels), second: pair(rng, pixels) })
}

/// An add to these bytes of a frame between any two states.
pub fn add_of(rng: &mut Rng, reel: Reel, bytes: Vec<u8>) -> Case {
    let pixels = pixels_of(reel.width, reel.height);
    Case::Add(AddCase { reel, bytes, shown: pair(rng, pixels), next: pair(rng, pixels) })
}

/// Plays a frame that is right.
pub fn play(format: Format, width: usize, height: usize, shown: &mut State, frame: &[u8]) {
    let answer = MODEL.read_frame(frame, format.number(), width as u64, height as u64, shown.work());
    answer.expect("this frame is right");
}
