//! Families of tile maps.

use super::make::{around_tiles, changed_at, of, some_words};
use crate::model::tiles::TILE;
use crate::model::{Format, MAX_HEIGHT, MAX_WIDTH};
use crate::rng::Rng;
use crate::runner::calls::TileMapCase;
use crate::runner::inputs::{Case, Sink};
use crate::sizes::{right_size, wrong_or_right};
use crate::states::{next_state, state};

/// One pixel, at each corner of each tile of a picture whose right and bottom tiles may be cut short.
pub fn corners(rng: &mut Rng, sink: Sink) {
    let (width, height) = (around_tiles(rng, 40), around_tiles(rng, 30));
    let corners = |most: usize| {
        (0..most).step_by(TILE).flat_map(move |first| [first, (first + TILE - 1).min(most - 1)]).collect::<Vec<usize>>()
    };
    for y in corners(height) {
        for x in corners(width) {
            sink(Case::TileMap(changed_at(rng, width, height, &[y * width + x])));
        }
    }
}

/// One pixel anywhere.
pub fn single_pixels(rng: &mut Rng, sink: Sink) {
    let (width, height) = right_size(rng);
    let index = rng.below(width * height);
    sink(Case::TileMap(changed_at(rng, width, height, &[index])));
}

/// One bit of one pixel, each in its turn.
pub fn single_bits(rng: &mut Rng, sink: Sink) {
    let (width, height) = (around_tiles(rng, 24), around_tiles(rng, 16));
    let previous = rng.bytes(width * height);
    for bit in 0..8 {
        let mut next = previous.clone();
        next[rng.below(width * height)] ^= 1 << bit;
        sink(Case::TileMap(of(rng, width, height, previous.clone(), next)));
    }
}

/// Pictures as the writing tests have them.
pub fn pictures(rng: &mut Rng, sink: Sink) {
    let (width, height) = right_size(rng);
    let previous = state(rng, Format::Flc, width, height);
    let next = next_state(rng, Format::Flc, &previous, width, height);
    sink(Case::TileMap(of(rng, width, height, previous.picture, next.picture)));
}

/// The same picture twice.
pub fn equal(rng: &mut Rng, sink: Sink) {
    let (width, height) = right_size(rng);
    sink(Case::TileMap(changed_at(rng, width, height, &[])));
}

/// Pictures with excess behind them, which differs and isn't looked at.
pub fn excess(rng: &mut Rng, sink: Sink) {
    let (width, height) = (around_tiles(rng, 40), around_tiles(rng, 30));
    let some = rng.below(4);
    let indexes: Vec<usize> = (0..some).map(|_| rng.below(width * height)).collect();
    let mut case = changed_at(rng, width, height, &indexes);
    for picture in [&mut case.previous, &mut case.next] {
        let more = rng.below(3 * width + 1);
        picture.extend(rng.bytes(more));
    }
    sink(Case::TileMap(case));
}

/// Sizes out of range, pictures a pixel or more too short, and every number of words around the rows', together.
pub fn refused(rng: &mut Rng, sink: Sink) {
    let (width, height) = (around_tiles(rng, 40), around_tiles(rng, 30));
    let pixels = width * height;
    let rows = height.div_ceil(TILE);
    for words in [0, rows - 1, rows, rows + 1] {
        let mut length = || rng.pick(&[0, pixels - 1, pixels, pixels, pixels]);
        let (before, after) = (length(), length());
        let (width, height) = if rng.once_in(4) {
            wrong_or_right(rng, Format::Flc, width, height)
        } else {
            (width as u64, height as u64)
        };
        let (previous, next) = (rng.bytes(before), rng.bytes(after));
        sink(Case::TileMap(TileMapCase { width, height, previous, next, words: some_words(rng, words) }));
    }
}

/// Every width beside or at a multiple of 8, at heights of the same kind, with one pixel, some or all changed.
pub fn widths(rng: &mut Rng, sink: Sink) {
    for width in (1..=MAX_WIDTH as usize).filter(|width| matches!(width % TILE, 0 | 1 | 7)) {
        let height = around_tiles(rng, MAX_HEIGHT as usize);
        let pixels = width * height;
        let count = rng.pick(&[1, 1, 2, 9]);
        let indexes: Vec<usize> = match rng.below(8) {
            0 => (0..pixels).collect(),
            1 => vec![pixels - 1],
            2 => vec![width - 1],
            _ => (0..count).map(|_| rng.below(pixels)).collect(),
        };
        sink(Case::TileMap(changed_at(rng, width, height, &indexes)));
    }
}
