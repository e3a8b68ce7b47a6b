//! Playing a reel: the states that it goes through, and the two working pairs in which a check and a close leave them.

use super::{Document, Format, Model, Refusal, PALETTE_BYTES};
use flic_boundary::{Pair, PairMut};

/// A picture and palette without excess.
#[derive(Clone, PartialEq, Eq)]
pub struct Screen {
    pub picture: Vec<u8>,
    pub palette: Vec<u8>,
}

impl Screen {
    /// "Blank: all pixels and palette bytes 0".
    pub fn blank(pixels: usize) -> Screen {
        Screen { picture: vec![0; pixels], palette: vec![0; PALETTE_BYTES] }
    }

    /// What a lent pair, which isn't too short, holds.
    pub fn held_by(pair: &PairMut, pixels: usize) -> Screen {
        Screen { picture: pair.picture[..pixels].to_vec(), palette: pair.palette[..PALETTE_BYTES].to_vec() }
    }

    pub fn shown(&self) -> Pair<'_> {
        Pair { picture: &self.picture, palette: &self.palette }
    }
}

/// A reel that is being played.
pub struct Played {
    pub format: Format,
    pub width: usize,
    pub height: usize,
    pub frames: usize,
    /// The state after the last accepted frame, blank for none.
    pub last: Screen,
    /// The state after frame 1, blank for none.
    pub first: Screen,
}

impl Played {
    /// "frame 1 is read against blank".
    pub fn from_blank(format: Format, width: usize, height: usize) -> Played {
        let blank = Screen::blank(width * height);
        Played { format, width, height, frames: 0, last: blank.clone(), first: blank }
    }
}

impl Playing for Document {}

pub trait Playing {
    /// Plays the frame at the front of `bytes`, which stands at `place` in the reel.
    fn play(&self, model: &Model, bytes: &[u8], place: usize, played: &mut Played) -> Result<(), Refusal> {
        let Played { format, width, height, frames, last, first } = played;
        let shown = PairMut { picture: &mut last.picture, palette: &mut last.palette };
        model
            .frames
            .read_frame(bytes, *format, *width as u64, *height as u64, shown)
            .map_err(|refusal| self.in_reel(refusal, place))?;
        if *frames == 0 {
            *first = last.clone();
        }
        *frames += 1;
        Ok(())
    }

    /// A place is an "offset, in the bytes handed in".
    fn in_reel(&self, refusal: Refusal, place: usize) -> Refusal {
        Refusal { place: refusal.place + place as u64, ..refusal }
    }

    /// "the first of two pairs holds the state after the last accepted frame .. and the second the state after frame 1
    /// (either blank for none)".
    fn leave(&self, played: &Played, first: &mut PairMut, second: &mut PairMut) {
        self.put(&played.last, first);
        self.put(&played.first, second);
    }

    /// "Longer lent slices are allowed; the excess stays unchanged."
    fn put(&self, screen: &Screen, pair: &mut PairMut) {
        pair.picture[..screen.picture.len()].copy_from_slice(&screen.picture);
        pair.palette[..PALETTE_BYTES].copy_from_slice(&screen.palette);
    }
}
