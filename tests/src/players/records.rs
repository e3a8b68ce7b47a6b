//! Families of records that were altered, and of slices that are longer or too short, in ticks that draw and in others.

use super::make::{due, lively, Whole, HALF};
use crate::model::{Format, PALETTE_BYTES};
use crate::rng::Rng;
use crate::runner::calls::TickCase;
use crate::runner::inputs::{Case, Sink};
use crate::sizes::{exact, short_lengths, wrong_size, Lengths};
use crate::states::{any_state, lend};
use flic_boundary::Player;

/// Places past the bytes, at their end, before the first chunk, at and around each frame's begin and end, and within.
fn places(rng: &mut Rng, whole: &Whole) -> Vec<u64> {
    let length = whole.bytes.len() as u64;
    let mut places = vec![0, 1, 127, 128, 129, length - 1, length, length + 1, whole.header.size as u64];
    places.extend([u32::MAX.into(), 1 << 32, (1 << 32) + 128, u64::MAX - 15, u64::MAX]);
    for span in &whole.spans {
        let (start, end) = (span.start as u64, span.end as u64);
        places.extend([start, start + 1, start + 6, end - 1, end, end + 1, rng.between(span.start, span.end) as u64]);
    }
    places
}

/// Numbers and frame counts around each other, and around 64 bits.
fn numbers(frames: u64) -> Vec<(u64, u64)> {
    let mut numbers = Vec::new();
    for frames in [0, 1, frames - 1, frames, frames + 1, 4_000, 4_001, u64::MAX - 1, u64::MAX] {
        let last = frames.saturating_add(1);
        for number in [0, 1, 2, frames.saturating_sub(1), frames, last, last.saturating_add(1), u64::MAX] {
            numbers.push((number, frames));
        }
    }
    numbers
}

/// Numbers of formats, of which only the first is FLC.
const FORMATS: [u32; 6] = [0, 1, 2, 256, 1 << 31, u32::MAX];

/// A record with each of its fields altered in turn, ticked when a frame is due, and now and then when none is.
pub fn records(rng: &mut Rng, format: Format, sink: Sink) {
    let whole = lively(rng, format);
    let right = whole.any_standing(rng);
    let mut altered = Vec::new();
    altered.extend(places(rng, &whole).into_iter().map(|place| Player { place, ..right }));
    altered.extend(numbers(whole.frames()).into_iter().map(|(number, frames)| Player { number, frames, ..right }));
    for first_end in places(rng, &whole) {
        altered.push(Player { first_end, ..whole.standing(whole.frames(), right.last) });
        altered.push(Player { first_end, ..right });
    }
    for _ in 0..6 {
        let (width, height) = wrong_size(rng, format);
        altered.push(Player { width, height, ..right });
    }
    for (width, height) in [(right.width + 1, right.height), (1, 1), (320, 1), (1, 200)] {
        altered.push(Player { width, height, ..right });
        altered.push(Player { width, height, format: rng.pick(&FORMATS), ..right });
    }
    altered.extend(FORMATS.map(|format| Player { format, ..right }));
    for player in altered {
        let now = due(&player);
        let tick = whole.tick(rng, player, now);
        sink(Case::Tick(tick.clone()));
        if rng.once_in(4) {
            let now = rng.pick(&[player.last.wrapping_sub(1), player.last, player.last.wrapping_add(HALF)]);
            sink(Case::Tick(TickCase { now, ..tick }));
        }
    }
}

/// What can be wrong with a tick before its frame is looked at.
#[derive(Clone, Copy, PartialEq, Eq)]
enum Fault {
    Size,
    Format,
    Slices,
    Place,
    Number,
}

const FAULTS: [Fault; 5] = [Fault::Size, Fault::Format, Fault::Slices, Fault::Place, Fault::Number];

/// Every two faults at once, when a frame is due and when none is.
pub fn faults(rng: &mut Rng, format: Format, sink: Sink) {
    let whole = lively(rng, format);
    for (at, one) in FAULTS.iter().enumerate() {
        for other in &FAULTS[at..] {
            let tick = two_faults(rng, &whole, [*one, *other]);
            let player = Player::from(tick.player);
            for now in [due(&player), player.last.wrapping_sub(1), player.last] {
                sink(Case::Tick(TickCase { now, ..tick.clone() }));
            }
        }
    }
}

fn two_faults(rng: &mut Rng, whole: &Whole, faults: [Fault; 2]) -> TickCase {
    let mut player = whole.any_standing(rng);
    let pixels = whole.header.width * whole.header.height;
    let mut lengths = exact(pixels);
    for fault in faults {
        match fault {
            Fault::Size => (player.width, player.height) = wrong_size(rng, whole.header.format),
            Fault::Format => player.format = rng.pick(&FORMATS),
            Fault::Slices => lengths = short_lengths(rng, pixels),
            Fault::Place => player.place = rng.pick(&[whole.bytes.len() as u64 + 1, 1 << 32, u64::MAX]),
            Fault::Number => player.number = rng.pick(&[0, player.frames + 2, u64::MAX]),
        }
    }
    TickCase { player: player.into(), bytes: whole.bytes.clone(), now: due(&player), shown: any_state(rng, lengths) }
}

/// Each of the two slices, one at a time, shorter or longer than needed.
pub fn slices(rng: &mut Rng, format: Format, sink: Sink) {
    let whole = lively(rng, format);
    let player = whole.any_standing(rng);
    let state = &whole.states[((player.number - 1) % whole.frames()) as usize];
    let right = exact(state.picture.len());
    let lengths = |needed: usize| [0, 1, needed / 2, needed - 1, needed, needed + 1, needed + 40];
    let pictures = lengths(right.picture).map(|picture| Lengths { picture, ..right });
    let palettes = lengths(PALETTE_BYTES).map(|palette| Lengths { palette, ..right });
    for lengths in pictures.into_iter().chain(palettes) {
        let shown = lend(rng, state, lengths);
        let (player, now) = (player.into(), due(&player));
        sink(Case::Tick(TickCase { player, bytes: whole.bytes.clone(), now, shown }));
    }
}
