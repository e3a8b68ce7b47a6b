//! The family of rings: those that lead back, and those that go astray by a pixel, a colour, or only in excess bytes.

use super::loose_reel::Loose;
use super::make::check_of;
use crate::frames::frame_of;
use crate::model::Format;
use crate::rng::Rng;
use crate::runner::calls::CheckCase;
use crate::runner::inputs::{Case, Sink};
use crate::sizes::long_lengths;
use crate::states::{any_state, state, State};

/// One reel with many rings.
pub fn rings(rng: &mut Rng, format: Format, sink: Sink) {
    let mut loose = Loose::small(rng, format);
    let (width, height) = (loose.width, loose.height);
    loose.chunks.pop();
    let (first, last) = loose.first_and_last();
    let ring = loose.chunks.len();
    let frames = loose.clone();
    let led = |to: &State| frames.leading(&last, to);
    let from_itself = frames.leading(&first, &first);
    let (mut pixel, mut colour) = (first.clone(), first.clone());
    pixel.picture[rng.below(width * height)] ^= 1 << rng.below(8);
    colour.palette[rng.pick(&[0, 1, 383, 766, 767])] ^= 1 << rng.below(8);
    let both = State { picture: pixel.picture.clone(), palette: colour.palette.clone() };
    let elsewhere = state(rng, format, width, height);
    loose.chunks.push(Vec::new());
    for chunk in [
        led(&first),
        led(&pixel),
        led(&colour),
        led(&both),
        led(&elsewhere),
        led(&State::blank(width * height)),
        from_itself,
        frame_of(&[]),
    ] {
        loose.chunks[ring] = chunk;
        sink(check_of(rng, loose.bytes()));
    }
    loose.chunks[ring] = led(&first);
    let lengths = long_lengths(rng, width * height);
    let (first, second) = (any_state(rng, lengths), any_state(rng, lengths));
    sink(Case::Check(CheckCase { bytes: loose.bytes(), first, second }));
}
