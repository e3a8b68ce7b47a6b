//! Formats by their numbers, sizes of pictures and lengths of lent slices, right ones and wrong ones.

use crate::model::{Format, FLI_HEIGHT, FLI_WIDTH, PALETTE_BYTES};
use crate::rng::Rng;

/// A number that tells this format: any but 0 is FLI.
pub fn number_of(rng: &mut Rng, format: Format) -> u32 {
    match format {
        Format::Flc => 0,
        Format::Fli => rng.pick(&[1, 1, 1, 1, 2, 3, 255, 256, 1 << 16, 1 << 31, u32::MAX - 1, u32::MAX]),
    }
}

/// A size that the format takes: of an FLC one of these, of an FLI the only one.
pub fn size_of(rng: &mut Rng, format: Format, of_flc: fn(&mut Rng) -> (usize, usize)) -> (usize, usize) {
    match format {
        Format::Flc => of_flc(rng),
        Format::Fli => (FLI_WIDTH as usize, FLI_HEIGHT as usize),
    }
}

/// A size that is within range: mostly small, odd and even widths, single rows and columns, and the largest.
pub fn right_size(rng: &mut Rng) -> (usize, usize) {
    match rng.below(100) {
        0..=39 => (rng.between(1, 12), rng.between(1, 6)),
        40..=59 => (rng.between(1, 64), rng.between(1, 10)),
        60..=67 => (1, rng.between(1, 30)),
        68..=77 => (rng.between(1, 320), 1),
        78..=91 => (rng.between(200, 320), rng.between(1, 5)),
        92..=94 => (rng.between(1, 4), rng.between(150, 200)),
        95..=97 => (rng.between(1, 320), rng.between(1, 60)),
        98 => (rng.between(1, 320), rng.between(1, 200)),
        _ => (320, 200),
    }
}

/// A size small enough for trying every change of a frame.
pub fn small_size(rng: &mut Rng) -> (usize, usize) {
    (rng.between(1, 9), rng.between(1, 4))
}

const WRONG_WIDTHS: [u64; 9] = [0, 321, 322, (1 << 16) + 4, 1 << 32, (1 << 32) + 3, 1 << 63, u64::MAX - 1, u64::MAX];

const WRONG_HEIGHTS: [u64; 9] = [0, 201, 202, (1 << 16) + 4, 1 << 32, (1 << 32) + 3, 1 << 63, u64::MAX - 1, u64::MAX];

/// Sizes that are right but for an FLI.
const ALMOST_FLI: [(u64, u64); 8] =
    [(319, 200), (320, 199), (200, 320), (320, 1), (1, 200), (1, 1), (64, 200), (320, 100)];

/// A size of which at least one side is out of range, products that wrap included; of an FLI any but the right one.
pub fn wrong_size(rng: &mut Rng, format: Format) -> (u64, u64) {
    if format == Format::Fli && rng.once_in(2) {
        return rng.pick(&ALMOST_FLI);
    }
    let (width, height) = right_size(rng);
    let wrong_width = rng.pick(&WRONG_WIDTHS);
    let wrong_height = rng.pick(&WRONG_HEIGHTS);
    match rng.below(3) {
        0 => (wrong_width, height as u64),
        1 => (width as u64, wrong_height),
        _ => (wrong_width, wrong_height),
    }
}

/// A size that the format doesn't take, or this one.
pub fn wrong_or_right(rng: &mut Rng, format: Format, width: usize, height: usize) -> (u64, u64) {
    match rng.below(2) {
        0 => wrong_size(rng, format),
        _ => (width as u64, height as u64),
    }
}

/// How long the lent picture and palette are.
#[derive(Clone, Copy, Debug, PartialEq, Eq)]
pub struct Lengths {
    pub picture: usize,
    pub palette: usize,
}

/// Lengths of lent slices: exact, longer, and now and then too short.
pub fn lengths(rng: &mut Rng, pixels: usize) -> Lengths {
    match rng.below(40) {
        0 => short_lengths(rng, pixels),
        1..=14 => long_lengths(rng, pixels),
        _ => exact(pixels),
    }
}

/// Lengths without excess.
pub fn exact(pixels: usize) -> Lengths {
    Lengths { picture: pixels, palette: PALETTE_BYTES }
}

pub fn long_or_exact(rng: &mut Rng, pixels: usize) -> Lengths {
    if rng.once_in(3) {
        long_lengths(rng, pixels)
    } else {
        exact(pixels)
    }
}

/// Lengths with excess bytes in one slice or both.
pub fn long_lengths(rng: &mut Rng, pixels: usize) -> Lengths {
    Lengths { picture: pixels + rng.below(40), palette: PALETTE_BYTES + rng.below(40) }
}

/// Lengths of which at least one is too short, down to none at all.
pub fn short_lengths(rng: &mut Rng, pixels: usize) -> Lengths {
    let short_picture = rng.pick(&[0, pixels / 2, pixels - 1]);
    let short_palette = rng.pick(&[0, 1, 255, 767]);
    match rng.below(3) {
        0 => Lengths { picture: short_picture, palette: PALETTE_BYTES + rng.below(2) },
        1 => Lengths { picture: pixels + rng.below(2), palette: short_palette },
        _ => Lengths { picture: short_picture, palette: short_palette },
    }
}
