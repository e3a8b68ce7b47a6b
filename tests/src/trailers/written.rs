//! Families of written trailers: every count of frames, every room, old trailers, ignored bytes before the size.

use super::changed::changed_at;
use super::make::{each_call, list_of, trailer_length, trailer_of};
use crate::damage::set_word;
use crate::frames::frame_of;
use crate::model::{field, Format, MAX_FRAMES};
use crate::reels::built_reel::Built;
use crate::reels::headers::small_reel;
use crate::reels::loose_reel::Loose;
use crate::reels::make::reel_size;
use crate::rng::Rng;
use crate::runner::calls::{CheckTrailerCase, WriteTrailerCase};
use crate::runner::inputs::Sink;

/// A trailer written into the least room and into more, over chance and over itself, and then checked and listed.
fn written(rng: &mut Rng, reel: &[u8], sink: Sink) {
    let trailer = trailer_of(reel);
    let whole = [reel, &trailer].concat();
    for room in [0, trailer.len() - 1, trailer.len(), trailer.len() + rng.between(1, 40)] {
        let bytes = [reel, &rng.bytes(room)].concat();
        sink(WriteTrailerCase(bytes).into());
    }
    sink(CheckTrailerCase(reel.to_vec()).into());
    sink(list_of(rng, reel.to_vec()));
    each_call(rng, whole, sink);
}

/// Reels of every count from 1 to 50 frames.
pub fn counts(rng: &mut Rng, sink: Sink) {
    let (width, height) = reel_size(rng);
    for frames in 1..=50 {
        let reel = Built::in_order(rng, Format::Flc, width, height, frames).closed().1;
        written(rng, &reel, sink);
    }
}

/// Reels with chunks that are stepped over, before the ring and between the ring and the size.
pub fn ignored(rng: &mut Rng, sink: Sink) {
    let mut loose = Loose::small(rng, Format::Flc);
    loose.add_others(rng);
    written(rng, &loose.bytes(), sink);
}

/// A reel of 4,000 frames, and headers that tell one more or one less.
pub fn longest(rng: &mut Rng, sink: Sink) {
    let frames = MAX_FRAMES as usize;
    let reel = Loose {
        format: Format::Flc,
        width: 1,
        height: 1,
        frames,
        chunks: vec![frame_of(&[]); frames + 1],
        after: Vec::new(),
    };
    let bytes = reel.bytes();
    written(rng, &bytes, sink);
    let whole = [&bytes[..], &trailer_of(&bytes)].concat();
    for _ in 0..20 {
        let at = bytes.len() + rng.below(whole.len() - bytes.len());
        changed_at(&whole, at, sink);
    }
    for told in [MAX_FRAMES - 1, MAX_FRAMES + 1] {
        let mut other = whole.clone();
        set_word(&mut other, field::FRAMES, told as u16);
        each_call(rng, other, sink);
    }
}

/// Every room from none to three bytes more than the trailer needs.
pub fn rooms(rng: &mut Rng, sink: Sink) {
    let reel = small_reel(rng, Format::Flc);
    for room in 0..=trailer_length(&reel) + 3 {
        let bytes = [&reel[..], &rng.bytes(room)].concat();
        sink(WriteTrailerCase(bytes.clone()).into());
        sink(CheckTrailerCase(bytes).into());
    }
}

/// Trailers written over those of other reels, longer or shorter, whole or cut.
pub fn old_trailers(rng: &mut Rng, sink: Sink) {
    let (reel, other) = (small_reel(rng, Format::Flc), small_reel(rng, Format::Flc));
    let (own, old) = (trailer_of(&reel), trailer_of(&other));
    let cut = own[..rng.below(own.len())].to_vec();
    let spare = rng.bytes(20);
    for rest in [[&old[..], &own], [&own, &old], [&old, &spare], [&own, &spare], [&cut, &own], [&cut, &spare]] {
        each_call(rng, [&reel[..], rest[0], rest[1]].concat(), sink);
    }
}
