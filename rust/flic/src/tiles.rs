//! Which tiles of a picture a panel has to redraw.

use crate::boundary;
use crate::refusal::{Refusal, Refused, Result};
use crate::state::Picture;

/// How many pixels a tile is wide and high; those at the right and at the bottom may be cut short.
pub const TILE: usize = 8;

/// The tiles that have a changed pixel, from a picture to the next.
///
/// Redrawing these alone turns the previous picture into the next. Colours are not looked at.
///
/// ```
/// use flic::{Picture, Size, TileMap};
/// let size = Size::new(20, 9)?;
/// let previous = Picture::blank(size);
/// let mut next = previous.clone();
/// next.pixels_mut()[2] = 1; // in the first tile
/// next.pixels_mut()[8 * 20 + 19] = 1; // in the last one, of 4 by 1 pixels
///
/// let map = TileMap::between(&previous, &next)?;
/// assert_eq!((map.columns(), map.rows().len()), (3, 2));
/// assert_eq!((map.words(), map.count()), (&[0b001, 0b100][..], 2));
/// assert!(map.is_marked(2, 1) && !map.is_marked(1, 1));
/// assert_eq!(map.rows().nth(1).and_then(|row| row.ends), Some((2, 2)));
/// # Ok::<(), flic::Refused>(())
/// ```
#[derive(Clone, Debug, PartialEq, Eq)]
pub struct TileMap {
    columns: usize,
    words: Vec<u64>,
}

/// The marked tiles of a row.
#[derive(Clone, Copy, Debug, PartialEq, Eq)]
pub struct TileRow {
    /// How many there are.
    pub count: usize,
    /// The first of them and the last, if there are any.
    pub ends: Option<(usize, usize)>,
}

impl TileMap {
    /// Refused 2 where the pictures aren't of one size.
    pub fn between(previous: &Picture, next: &Picture) -> Result<TileMap> {
        let size = next.size();
        if previous.size() != size {
            return Err(Refused { refusal: Refusal::BadSize, place: 0 });
        }
        let (width, height) = (size.width(), size.height());
        let mut words = vec![0; usize::from(height).div_ceil(TILE)];
        boundary::tile_map(width.into(), height.into(), previous.pixels(), next.pixels(), &mut words)?;
        Ok(TileMap { columns: usize::from(width).div_ceil(TILE), words })
    }

    /// How many tiles a row has.
    pub fn columns(&self) -> usize {
        self.columns
    }

    /// A word for each row of tiles; bit i is set exactly if tile i has a changed pixel.
    pub fn words(&self) -> &[u64] {
        &self.words
    }

    /// How many tiles the picture has.
    pub fn tiles(&self) -> usize {
        self.columns * self.words.len()
    }

    /// How many of them have a changed pixel.
    pub fn count(&self) -> usize {
        self.rows().map(|row| row.count).sum()
    }

    /// The rows of tiles, from the top.
    pub fn rows(&self) -> impl ExactSizeIterator<Item = TileRow> + '_ {
        self.words.iter().map(|word| {
            let row = boundary::marked_tiles(*word);
            let ends = (row.count > 0).then_some((row.first as usize, row.last as usize));
            TileRow { count: row.count as usize, ends }
        })
    }

    /// Whether a tile is marked, by its place in its row and the row; false where there is no such tile.
    pub fn is_marked(&self, column: usize, row: usize) -> bool {
        column < self.columns && self.words.get(row).is_some_and(|word| word >> column & 1 == 1)
    }
}

#[cfg(test)]
mod tests {
    use super::*;
    use crate::state::Size;

    /// The map from a blank picture to one with these pixels set.
    fn map(width: u16, height: u16, pixels: &[(usize, usize)]) -> TileMap {
        let previous = Picture::blank(Size::new(width, height).expect("a size"));
        let mut next = previous.clone();
        for (x, y) in pixels {
            next.pixels_mut()[y * usize::from(width) + x] = 1;
        }
        TileMap::between(&previous, &next).expect("a map")
    }

    #[test]
    fn every_corner_of_a_tile_marks_it() {
        for (x, y) in [(8, 16), (15, 16), (8, 23), (15, 23)] {
            assert_eq!(map(30, 30, &[(x, y)]).words(), [0, 0, 2, 0], "{x} {y}");
        }
        assert_eq!(map(1, 1, &[(0, 0)]).words(), [1]);
        assert_eq!(map(320, 200, &[(319, 199)]).words()[24], 1 << 39);
    }

    #[test]
    fn a_row_without_marks_has_no_ends() {
        let map = map(320, 17, &[(0, 0), (319, 0), (100, 16)]);
        let rows: Vec<(usize, Option<(usize, usize)>)> = map.rows().map(|row| (row.count, row.ends)).collect();
        assert_eq!(rows, [(2, Some((0, 39))), (0, None), (1, Some((12, 12)))]);
        assert_eq!((map.count(), map.tiles()), (3, 120));
    }

    #[test]
    fn tiles_outside_are_not_marked() {
        let map = map(9, 9, &[(8, 8)]);
        assert!(map.is_marked(1, 1) && !map.is_marked(0, 1) && !map.is_marked(1, 2) && !map.is_marked(64, 1));
    }

    #[test]
    fn pictures_of_two_sizes_are_refused() -> Result<()> {
        let (one, other) = (Picture::blank(Size::new(8, 9)?), Picture::blank(Size::new(9, 8)?));
        assert_eq!(TileMap::between(&one, &other), Err(Refused { refusal: Refusal::BadSize, place: 0 }));
        Ok(())
    }

    #[test]
    fn a_picture_and_itself_are_equal() {
        let picture = Picture::blank(Size::new(17, 17).expect("a size"));
        assert_eq!(TileMap::between(&picture, &picture).expect("a map").count(), 0);
    }
}
