//! The family of lent slices: each picture and palette of a call, one at a time, shorter or longer than needed.

use super::built_reel::Built;
use crate::model::{Format, PALETTE_BYTES};
use crate::rng::Rng;
use crate::runner::calls::{AddCase, CheckCase, CloseCase};
use crate::runner::inputs::{Case, Sink};
use crate::sizes::exact;
use crate::states::{any_state, State};
use crate::write_cases::ample_room;

/// Two pairs of chance, with one of the four slices of another length.
fn pairs(rng: &mut Rng, pixels: usize, slice: usize, length: usize) -> (State, State) {
    let mut both = [exact(pixels); 2];
    let lengths = &mut both[slice / 2];
    match slice % 2 {
        0 => lengths.picture = length,
        _ => lengths.palette = length,
    }
    (any_state(rng, both[0]), any_state(rng, both[1]))
}

/// A check, an add and a close for each slice and length.
pub fn slices(rng: &mut Rng, format: Format, sink: Sink) {
    let frames = rng.between(1, 3);
    let built = Built::small(rng, format, frames);
    let (width, height) = (built.width, built.height);
    let (reel, (_, closed)) = (built.last_record(), built.closed());
    let open = built.with_room(rng, ample_room(width * height));
    for slice in 0..4 {
        let needed = if slice % 2 == 0 { width * height } else { PALETTE_BYTES };
        for length in [0, needed / 2, needed - 1, needed, needed + 1, needed + 40] {
            let (first, second) = pairs(rng, width * height, slice, length);
            let (shown, next) = (first.clone(), second.clone());
            sink(Case::Check(CheckCase { bytes: closed.clone(), first: first.clone(), second: second.clone() }));
            sink(Case::Add(AddCase { reel, bytes: open.clone(), shown, next }));
            sink(Case::Close(CloseCase { reel, bytes: open.clone(), first, second }));
        }
    }
}
