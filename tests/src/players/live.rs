//! Families of players that nothing was done to: started, ticked, and replayed.

use super::make::{readings, whole, Whole};
use crate::model::{Format, MAX_FRAMES, MAX_HEIGHT, MAX_WIDTH, MODEL};
use crate::reels::built_reel::Built;
use crate::rng::Rng;
use crate::runner::calls::TickCase;
use crate::runner::inputs::{Case, LiveCase, Sink};
use crate::states::{next_state, State};

/// A reading to start at: any, or one that comes before the roll-over or after it.
fn some_start(rng: &mut Rng) -> u32 {
    let (near, any) = (rng.below(400) as u32, rng.draw() as u32);
    rng.pick(&[0, near, u32::MAX, u32::MAX - near, any])
}

/// A start, each tick of a list of readings by itself, and the whole of them with their replay.
pub fn ticked(rng: &mut Rng, format: Format, sink: Sink) {
    let whole = whole(rng, format);
    let (now, count) = (some_start(rng), rng.between(1, 3 * whole.spans.len() + 3));
    let list = readings(rng, whole.speed(), now, count);
    let start = whole.start(rng, now);
    sink(Case::Start(start.clone()));
    let mut player = whole.standing(1, now);
    for now in &list {
        let tick = whole.tick(rng, player, *now);
        let TickCase { bytes, mut shown, .. } = tick.clone();
        sink(Case::Tick(tick));
        MODEL.tick(&mut player, &bytes, *now, shown.work()).expect("no tick of a right player is refused");
    }
    sink(Case::Live(LiveCase { start, readings: list, states: whole.states }));
}

/// Two laps and more of a reel in steps of its speed, or a little more.
fn laps(rng: &mut Rng, whole: Whole, count: usize) -> LiveCase {
    let whole = whole.at_speed(70);
    let start = u32::MAX - 35 * count as u32;
    let mut now = start;
    let later = |_| {
        now = now.wrapping_add(rng.pick(&[70, 70, 71, 69, 90]));
        now
    };
    let readings = (0..count).map(later).collect();
    LiveCase { start: whole.start(rng, start), readings, states: whole.states }
}

/// Reels of the largest size.
pub fn largest(rng: &mut Rng, sink: Sink) {
    let frames = rng.between(1, 3);
    let whole =
        Whole::of(Built::in_order(rng, Format::Flc, MAX_WIDTH as usize, MAX_HEIGHT as usize, frames).closed().1);
    sink(Case::Live(laps(rng, whole, 8)));
}

/// A reel of 4,000 frames, up to its ring and on.
pub fn longest(rng: &mut Rng, sink: Sink) {
    let (width, height) = (3, 2);
    let mut built = Built::opened(rng, Format::Flc, width, height);
    let mut shown = State::blank(width * height);
    for _ in 0..MAX_FRAMES {
        let next = if rng.once_in(40) { next_state(rng, Format::Flc, &shown, width, height) } else { shown.clone() };
        built.add(shown, next.clone());
        shown = next;
    }
    let whole = Whole::of(built.closed().1);
    sink(Case::Live(laps(rng, whole, MAX_FRAMES as usize + 400)));
}
