//! Which tiles a panel redraws: document 02's Req 07. "The slow panels redraw in tiles of 8 by 8 pixels, right and bottom
//! ones cut short."

use super::{accepted_size, long_enough, number, require, Document, Format, Refusal};
use flic_boundary::TileRow;

/// How many pixels a tile is wide and high.
pub const TILE: usize = 8;

/// The bits of a word.
pub const BITS: u32 = 64;

impl Tiles for Document {}

pub trait Tiles {
    /// The column and the row of the tile that a pixel lies in.
    fn tile_of(&self, x: usize, y: usize) -> (usize, usize) {
        (x / TILE, y / TILE)
    }

    /// How many tiles lie along so many pixels, the last one cut short or whole.
    fn along(&self, pixels: usize) -> usize {
        (0..pixels).map(|at| at / TILE + 1).max().unwrap_or(0)
    }

    /// Whether a pixel is changed.
    fn is_changed(&self, previous: u8, next: u8) -> bool {
        previous != next
    }

    /// The bit of a tile: "bit i set exactly if tile i has a changed pixel".
    fn bit(&self, column: usize) -> u64 {
        1 << column
    }

    /// "Refusals: 2, 1, then 3 if fewer words are lent than tile rows."
    fn tile_rows(
        &self,
        width: u64,
        height: u64,
        previous: &[u8],
        next: &[u8],
        words: usize,
    ) -> Result<(usize, usize), Refusal> {
        let (width, height) = accepted_size(Format::Flc, width, height)?;
        long_enough(width * height, &[previous, next], &[])?;
        require(words >= self.along(height), number::SHORT_OUTPUT, 0)?;
        Ok((width, height))
    }

    /// "From a previous and a next picture give one 64-bit word a tile row".
    fn tile_map(
        &self,
        width: u64,
        height: u64,
        previous: &[u8],
        next: &[u8],
        words: &mut [u64],
    ) -> Result<usize, Refusal> {
        let (width, height) = self.tile_rows(width, height, previous, next, words.len())?;
        let rows = self.along(height);
        words[..rows].fill(0);
        for y in 0..height {
            for x in 0..width {
                if self.is_changed(previous[y * width + x], next[y * width + x]) {
                    let (column, row) = self.tile_of(x, y);
                    words[row] |= self.bit(column);
                }
            }
        }
        Ok(rows)
    }

    /// "the number of marked tiles in a row, and the first and last marked one. A row without marks gives 64 for both."
    fn marked_tiles(&self, word: u64) -> TileRow {
        let marked = || (0..BITS).filter(move |bit| word / 2_u64.pow(*bit) % 2 == 1);
        TileRow {
            count: marked().count() as u32,
            first: marked().min().unwrap_or(BITS),
            last: marked().max().unwrap_or(BITS),
        }
    }
}

#[cfg(test)]
mod tests {
    use super::super::MODEL;
    use super::*;

    fn mapped(width: u64, height: u64, changed: &[(usize, usize)], words: usize) -> (Result<usize, u32>, Vec<u64>) {
        let previous = vec![3; (width * height) as usize];
        let mut next = previous.clone();
        changed.iter().for_each(|(x, y)| next[y * width as usize + x] = 4);
        let mut words = vec![9; words];
        let told = MODEL.tile_map(width, height, &previous, &next, &mut words);
        (told.map_err(|refusal| refusal.number), words)
    }

    #[test]
    fn a_bit_for_each_tile_with_a_change() {
        assert_eq!(mapped(20, 9, &[(2, 3), (7, 0), (19, 8)], 3), (Ok(2), vec![0b001, 0b100, 9]));
        assert_eq!(mapped(1, 1, &[], 1), (Ok(1), vec![0]));
        assert_eq!(mapped(320, 200, &[(319, 199)], 25).1[24], 1 << 39);
    }

    #[test]
    fn maps_are_refused_in_order() {
        assert_eq!(mapped(0, 9, &[], 0), (Err(2), vec![]));
        assert_eq!(mapped(1, 9, &[], 1), (Err(3), vec![9]));
        let refused = |previous: &[u8], next: &[u8]| MODEL.tile_map(1, 9, previous, next, &mut []).unwrap_err().number;
        assert_eq!((refused(&[0; 8], &[0; 9]), refused(&[0; 9], &[0; 8]), refused(&[0; 9], &[0; 9])), (1, 1, 3));
    }

    #[test]
    fn marks_of_a_word() {
        let marked = |word| {
            let TileRow { count, first, last } = MODEL.marked_tiles(word);
            (count, first, last)
        };
        assert_eq!(marked(0), (0, 64, 64));
        assert_eq!(marked(1), (1, 0, 0));
        assert_eq!(marked(1 << 63), (1, 63, 63));
        assert_eq!(marked(0b0110_1000), (3, 3, 6));
        assert_eq!(marked(u64::MAX), (64, 0, 63));
    }
}
