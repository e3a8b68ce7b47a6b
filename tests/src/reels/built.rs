//! Families of built reels: opened, added to, closed, checked, and played three laps.

use super::built_reel::Built;
use super::make::{add_of, reel_size};
use crate::model::{Format, MAX_FRAMES, MAX_HEIGHT, MAX_WIDTH};
use crate::rng::Rng;
use crate::runner::inputs::Sink;
use crate::sizes::size_of;
use crate::states::{next_state, state, State};
use flic_boundary::Reel;

/// Reels of 1 to 60 frames, of an FLI up to 6, each add handed what the last one asked for.
pub fn built(rng: &mut Rng, format: Format, sink: Sink) {
    let (width, height) = size_of(rng, format, reel_size);
    let frames = match rng.below(10) {
        0..=2 => 1,
        3..=5 => rng.between(2, 4),
        _ if format == Format::Fli => rng.between(4, 6),
        6..=8 => rng.between(5, 20),
        _ => rng.between(21, 60),
    };
    let built = Built::in_order(rng, format, width, height, frames);
    let asked = built.asked();
    built.whole_life(rng, asked, sink);
}

/// Reels of the largest size.
pub fn largest(rng: &mut Rng, sink: Sink) {
    let frames = rng.between(1, 3);
    let built = Built::in_order(rng, Format::Flc, MAX_WIDTH as usize, MAX_HEIGHT as usize, frames);
    let asked = built.asked();
    built.whole_life(rng, asked, sink);
}

/// A reel of 4,000 frames, and one add more.
pub fn longest(rng: &mut Rng, sink: Sink) {
    let (width, height) = (3, 2);
    let mut built = Built::opened(rng, Format::Flc, width, height);
    let mut shown = State::blank(width * height);
    for _ in 0..MAX_FRAMES {
        let mut next = shown.clone();
        next.picture[rng.below(width * height)] = rng.byte();
        if rng.once_in(50) {
            next.palette[rng.below(100)] = rng.byte();
        }
        built.add(shown, next.clone());
        shown = next;
    }
    let one_more = built.with_room(rng, 2_000);
    sink(add_of(rng, built.last_record(), one_more.clone()));
    sink(add_of(rng, Reel { frames: MAX_FRAMES - 1, ..built.last_record() }, one_more));
    let asked = built.asked();
    built.whole_life(rng, asked, sink);
}

/// Adds that are handed a state which doesn't show: the ring must lead back from what the bytes show.
pub fn showing(rng: &mut Rng, format: Format, sink: Sink) {
    let (width, height) = size_of(rng, format, reel_size);
    let mut built = Built::opened(rng, format, width, height);
    let mut asked = State::blank(width * height);
    for _ in 0..rng.between(1, 6) {
        let shown = match rng.below(4) {
            0 => asked,
            1 => State::blank(width * height),
            2 => built.adds.first().map_or(asked, |add| add.next.clone()),
            _ => state(rng, format, width, height),
        };
        asked = next_state(rng, format, &shown, width, height);
        built.add(shown, asked.clone());
    }
    let states = built.states_shown();
    built.whole_life(rng, states, sink);
}
