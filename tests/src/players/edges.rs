//! The family of clocks: every speed, draw times around the roll-over, and readings at every edge from there.

use super::make::{delays, whole, HALF};
use crate::model::Format;
use crate::rng::Rng;
use crate::runner::calls::ReplayCase;
use crate::runner::inputs::{Case, Sink};

/// Draw times around the roll-over, half the range, and where the speed leads over them.
fn lasts(rng: &mut Rng, speed: u32) -> [u32; 9] {
    let over = 0u32.wrapping_sub(speed);
    [0, 1, HALF - 1, HALF, u32::MAX, over, over.wrapping_sub(1), over.wrapping_add(1), rng.draw() as u32]
}

/// Differences around none, the speed, half the range and the whole of it.
fn differences(rng: &mut Rng, speed: u32) -> [u32; 14] {
    [
        0,
        1,
        speed.wrapping_sub(1),
        speed,
        speed.wrapping_add(1),
        speed.wrapping_mul(2),
        HALF - 1,
        HALF,
        HALF + 1,
        u32::MAX,
        0u32.wrapping_sub(speed),
        0u32.wrapping_sub(speed).wrapping_sub(1),
        rng.draw() as u32,
        rng.draw() as u32 % HALF,
    ]
}

/// One reel at every speed: a tick and a replay of one reading for each draw time and difference.
pub fn clocks(rng: &mut Rng, format: Format, sink: Sink) {
    let mut whole = whole(rng, format);
    for delay in delays(format) {
        whole = whole.at_speed(*delay);
        let speed = whole.speed();
        for last in lasts(rng, speed) {
            for difference in differences(rng, speed) {
                let (number, now) = (1 + rng.below(whole.spans.len()) as u64, last.wrapping_add(difference));
                let tick = whole.tick(rng, whole.standing(number, last), now);
                sink(Case::Tick(tick));
                let (frames, numbers) = (whole.frames(), vec![rng.draw() as u32; 1]);
                sink(Case::Replay(ReplayCase { speed, frames, start: last, readings: vec![now], numbers }));
            }
        }
    }
}
