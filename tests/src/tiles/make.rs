//! What the families of tile maps share: pictures, changes, and words that hold anything before a call.

use crate::model::tiles::TILE;
use crate::rng::Rng;
use crate::runner::calls::TileMapCase;

/// As many words as a map has rows, or more, that hold anything.
pub fn words(rng: &mut Rng, height: usize) -> Vec<u64> {
    let count = height.div_ceil(TILE) + rng.pick(&[0, 0, 1, 3]);
    some_words(rng, count)
}

pub fn some_words(rng: &mut Rng, count: usize) -> Vec<u64> {
    (0..count).map(|_| rng.draw()).collect()
}

/// A map from a picture of any pixels to the same with those at these indexes changed.
pub fn changed_at(rng: &mut Rng, width: usize, height: usize, indexes: &[usize]) -> TileMapCase {
    let previous = rng.bytes(width * height);
    let mut next = previous.clone();
    for index in indexes {
        next[*index] = next[*index].wrapping_add(rng.between(1, 255) as u8);
    }
    of(rng, width, height, previous, next)
}

pub fn of(rng: &mut Rng, width: usize, height: usize, previous: Vec<u8>, next: Vec<u8>) -> TileMapCase {
    TileMapCase { width: width as u64, height: height as u64, previous, next, words: words(rng, height) }
}

/// A length at a multiple of 8, or one beside it, within 1 to the most.
pub fn around_tiles(rng: &mut Rng, most: usize) -> usize {
    (TILE * rng.below(most / TILE + 1) + rng.below(3)).saturating_sub(1).clamp(1, most)
}
