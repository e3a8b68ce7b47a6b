//! What a board shows: a picture of a certain size, and the palette that gives its colours.

use crate::boundary::{self, Pair, PairMut};
use crate::header::FILE_HEADER;
use crate::refusal::{Refusal, Refused, Result};
use std::fmt;

/// The bytes of a palette: red, green and blue of 256 entries.
pub const PALETTE: usize = 768;

/// A width and height that the codec takes; displayed as `160 by 64`.
#[derive(Clone, Copy, Debug, PartialEq, Eq, Hash)]
pub struct Size {
    width: u16,
    height: u16,
}

impl Size {
    /// The size of every picture of an FLI, 320 by 200, which is the largest of an FLC too.
    pub const FLI: Size = Size { width: 320, height: 200 };

    /// Refused 2 where the codec doesn't take it: the width is 1 to 320, the height 1 to 200.
    ///
    /// ```
    /// use flic::{Refusal, Size};
    /// let size = Size::new(320, 200)?;
    /// assert_eq!((size.width(), size.height(), size.pixels()), (320, 200, 64_000));
    /// assert_eq!(Size::new(321, 200).unwrap_err().refusal, Refusal::BadSize);
    /// # Ok::<(), flic::Refused>(())
    /// ```
    pub fn new(width: u16, height: u16) -> Result<Size> {
        boundary::open_reel(width.into(), height.into(), 0, &mut [0; FILE_HEADER])?;
        Ok(Size { width, height })
    }

    /// The pixels of a row.
    pub fn width(self) -> u16 {
        self.width
    }

    /// The rows.
    pub fn height(self) -> u16 {
        self.height
    }

    /// Width times height.
    pub fn pixels(self) -> usize {
        usize::from(self.width) * usize::from(self.height)
    }
}

impl fmt::Display for Size {
    fn fmt(&self, f: &mut fmt::Formatter<'_>) -> fmt::Result {
        write!(f, "{} by {}", self.width, self.height)
    }
}

/// Pixels, row by row, each an entry of the palette.
#[derive(Clone, Debug, PartialEq, Eq)]
pub struct Picture {
    size: Size,
    pixels: Vec<u8>,
}

impl Picture {
    /// All pixels 0.
    pub fn blank(size: Size) -> Picture {
        Picture { size, pixels: vec![0; size.pixels()] }
    }

    /// The first width times height of the pixels; refused 1 where there are fewer.
    pub fn new(size: Size, pixels: &[u8]) -> Result<Picture> {
        match pixels.get(..size.pixels()) {
            Some(pixels) => Ok(Picture { size, pixels: pixels.to_vec() }),
            None => Err(Refused { refusal: Refusal::ShortSlice, place: 0 }),
        }
    }

    /// The width and height.
    pub fn size(&self) -> Size {
        self.size
    }

    /// The pixels, row by row.
    pub fn pixels(&self) -> &[u8] {
        &self.pixels
    }

    /// The pixels, to be changed.
    pub fn pixels_mut(&mut self) -> &mut [u8] {
        &mut self.pixels
    }
}

/// 256 colours.
#[derive(Clone, Debug, PartialEq, Eq)]
pub struct Palette {
    bytes: [u8; PALETTE],
}

impl Palette {
    /// All entries black.
    pub fn blank() -> Palette {
        Palette { bytes: [0; PALETTE] }
    }

    /// Red, green and blue of entry 0, then of entry 1, and so on.
    pub fn new(bytes: [u8; PALETTE]) -> Palette {
        Palette { bytes }
    }

    /// Red, green and blue of entry 0, then of entry 1, and so on.
    pub fn bytes(&self) -> &[u8; PALETTE] {
        &self.bytes
    }

    /// Red, green and blue of an entry.
    pub fn colour(&self, entry: u8) -> [u8; 3] {
        let at = 3 * usize::from(entry);
        [self.bytes[at], self.bytes[at + 1], self.bytes[at + 2]]
    }

    /// Sets red, green and blue of an entry.
    pub fn set_colour(&mut self, entry: u8, colour: [u8; 3]) {
        let at = 3 * usize::from(entry);
        self.bytes[at..at + 3].copy_from_slice(&colour);
    }
}

/// A picture and its palette.
#[derive(Clone, Debug, PartialEq, Eq)]
pub struct State {
    /// The pixels.
    pub picture: Picture,
    /// The colours that they are entries of.
    pub palette: Palette,
}

impl State {
    /// What frame 1 of a reel is read against: all pixels 0, all colours black.
    pub fn blank(size: Size) -> State {
        State { picture: Picture::blank(size), palette: Palette::blank() }
    }

    /// The width and height of the picture.
    pub fn size(&self) -> Size {
        self.picture.size
    }

    /// Red, green and blue of each pixel, row by row.
    pub fn rgb(&self) -> Vec<u8> {
        self.picture.pixels.iter().flat_map(|pixel| self.palette.colour(*pixel)).collect()
    }

    pub(crate) fn lent(&self) -> Pair<'_> {
        Pair { picture: &self.picture.pixels, palette: &self.palette.bytes }
    }

    pub(crate) fn lent_mut(&mut self) -> PairMut<'_> {
        PairMut { picture: &mut self.picture.pixels, palette: &mut self.palette.bytes }
    }
}

#[cfg(test)]
mod tests {
    use super::*;

    #[test]
    fn sizes_the_codec_takes() {
        let taken = |width, height| Size::new(width, height).is_ok();
        assert!(taken(1, 1) && taken(320, 200));
        assert_eq!(Size::new(320, 200).map(|size| size.to_string()), Ok("320 by 200".to_string()));
        assert!(!taken(0, 1) && !taken(1, 0) && !taken(321, 1) && !taken(1, 201));
    }

    #[test]
    fn a_picture_takes_as_many_pixels_as_it_has() -> Result<()> {
        let size = Size::new(2, 2)?;
        assert_eq!(Picture::new(size, &[1, 2, 3, 4, 5])?.pixels(), [1, 2, 3, 4]);
        assert_eq!(Picture::new(size, &[1, 2, 3]), Err(Refused { refusal: Refusal::ShortSlice, place: 0 }));
        Ok(())
    }

    #[test]
    fn colours_of_a_state() -> Result<()> {
        let mut state = State::blank(Size::new(2, 1)?);
        state.palette.set_colour(255, [1, 2, 3]);
        state.picture.pixels_mut()[1] = 255;
        assert_eq!(state.rgb(), [0, 0, 0, 1, 2, 3]);
        assert_eq!((state.palette.colour(255), state.palette.bytes()[765..].to_vec()), ([1, 2, 3], vec![1, 2, 3]));
        Ok(())
    }
}
