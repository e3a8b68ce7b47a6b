//! Families of replays: lists of readings, any number of words for them, and frame counts out of range.

use super::make::{readings, SPEEDS};
use crate::model::MAX_FRAMES;
use crate::rng::Rng;
use crate::runner::calls::ReplayCase;
use crate::runner::inputs::{Case, Sink};

fn words(rng: &mut Rng, count: usize) -> Vec<u32> {
    (0..count).map(|_| rng.draw() as u32).collect()
}

/// A list of readings with as many words, or more.
pub fn replays(rng: &mut Rng, sink: Sink) {
    let (speed, start) = (rng.pick(&SPEEDS), rng.draw() as u32);
    let frames = rng.pick(&[1, 1, 2, 2, 3, 7, MAX_FRAMES - 1, MAX_FRAMES]);
    let count = rng.pick(&[0, 1, 2, 10, 40, 200]);
    let readings = if rng.once_in(4) { words(rng, count) } else { readings(rng, speed, start, count) };
    let room = count + rng.pick(&[0, 0, 1, 9]);
    let numbers = words(rng, room);
    sink(Case::Replay(ReplayCase { speed, frames, start, readings, numbers }));
}

/// Frame counts in range and out of it, with every number of words around the readings'.
pub fn faults(rng: &mut Rng, sink: Sink) {
    let (speed, start) = (rng.pick(&SPEEDS), rng.draw() as u32);
    let count = rng.below(6);
    let readings = readings(rng, speed, start, count);
    for frames in [0, 1, 2, MAX_FRAMES, MAX_FRAMES + 1, 65_537, (1 << 32) + 1, u64::MAX] {
        for room in 0..count + 2 {
            let numbers = words(rng, room);
            sink(Case::Replay(ReplayCase { speed, frames, start, readings: readings.clone(), numbers }));
        }
    }
}
