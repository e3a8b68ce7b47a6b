//! The family of inputs around the longest that is listed, as reels and as anything else, and of as many lines as fit.

use super::make::each_call;
use super::nest::{children_start, chunk, container};
use crate::frames::frame_of;
use crate::model::{Format, CHUNK_HEADER, FRAME_TYPE, MOST_DEPTH, MOST_LISTED, PREFIX_TYPE};
use crate::reels::headers::small_reel;
use crate::reels::loose_reel::Loose;
use crate::rng::Rng;
use crate::runner::inputs::Sink;

fn bytes_of(chunks: Vec<Vec<u8>>) -> Vec<u8> {
    Loose { format: Format::Flc, width: 320, height: 200, frames: 1, chunks, after: Vec::new() }.bytes()
}

/// A reel of this length in all, after whose first frame a chunk fills what is left.
fn filled(length: usize, fill: fn(usize) -> Vec<u8>) -> Vec<u8> {
    let still = frame_of(&[]);
    let left = length - bytes_of(vec![still.clone(), still.clone()]).len();
    bytes_of(vec![still.clone(), fill(left), still])
}

/// A prefix chunk of nothing but empty chunks.
fn of_many(length: usize) -> Vec<u8> {
    let children = (length - children_start(PREFIX_TYPE)) / CHUNK_HEADER;
    let mut bytes = container(PREFIX_TYPE, &vec![chunk(4, &[]); children]);
    bytes.resize(length, 0);
    bytes[..4].copy_from_slice(&(length as u32).to_le_bytes());
    bytes
}

/// As many empty chunks as fit, in a chain of containers that ends at the deepest line.
fn of_many_deep(length: usize) -> Vec<u8> {
    let around = MOST_DEPTH - 1;
    let innermost = of_many(length - around * children_start(PREFIX_TYPE));
    (0..around).fold(innermost, |inner, _| container(PREFIX_TYPE, &[inner]))
}

/// One chunk that says nothing.
fn of_one(length: usize) -> Vec<u8> {
    chunk(3, &vec![0; length - CHUNK_HEADER])
}

/// Each call on one byte less, as many and one byte more than is listed, and on next to nothing.
pub fn limits(rng: &mut Rng, sink: Sink) {
    let small = small_reel(rng, Format::Flc);
    for length in MOST_LISTED - 1..=MOST_LISTED + 1 {
        for fill in [of_one, of_many, of_many_deep] {
            each_call(rng, filled(length, fill), sink);
        }
        let mut longer = small.clone();
        longer.resize(length, rng.byte());
        each_call(rng, longer, sink);
        let chance = rng.bytes(length);
        each_call(rng, chance, sink);
        let mut wrong = filled(length, of_one);
        wrong[rng.pick(&[4, 8, 12, 14])] ^= 0xFF;
        each_call(rng, wrong, sink);
        let mut missing = filled(length, of_one);
        missing[length - 12..length - 10].copy_from_slice(&(FRAME_TYPE ^ 1).to_le_bytes());
        each_call(rng, missing, sink);
    }
    each_call(rng, Vec::new(), sink);
    each_call(rng, vec![0], sink);
}
