//! What is done to a frame before it can be read, where the codec says that little is wrong with it: spare bytes are taken
//! out, and a frame of an FLI that holds what only an FLC may hold is read as one's.

use super::stored;
use flic::{read_frame, Format, Refusal, Refused, Size, State};
use std::borrow::Cow;

/// A frame as it can be read, if it can be at all.
pub struct Mended<'a> {
    pub frame: Cow<'a, [u8]>,
    pub format: Format,
}

impl<'a> Mended<'a> {
    /// As it stands in a file of this format, with pictures of this size.
    pub fn of(frame: &'a [u8], format: Format, size: Size) -> Mended<'a> {
        let mut mended = Mended { frame: Cow::Borrowed(frame), format };
        loop {
            match mended.refused(size) {
                Some(Refused { refusal: Refusal::SpareBytes, place }) => {
                    mended.frame = Cow::Owned(mended.tidied(place as usize, size));
                }
                Some(Refused { refusal: Refusal::NotInFli, .. }) => mended.format = Format::Flc,
                _ => return mended,
            }
        }
    }

    /// Why it is refused, whatever shows.
    pub fn refused(&self, size: Size) -> Option<Refused> {
        refused(&self.frame, self.format, size)
    }

    /// The frame, which is refused 19 at a place, without the spare bytes there: what is spare, the codec says.
    fn tidied(&self, place: usize, size: Size) -> Vec<u8> {
        let with_size = |size: usize| stored::with_cut(&self.frame, place, size);
        let has_spare = |chunk: usize| {
            let why = refused(&with_size(chunk), self.format, size);
            why == Some(Refused { refusal: Refusal::SpareBytes, place: place as u64 })
        };
        // Of these sizes the lower isn't refused 19 there, the higher is.
        let (mut lower, mut higher) = (stored::CHUNK_HEADER, stored::size_at(&self.frame, place));
        while lower + 1 < higher {
            let middle = lower + (higher - lower) / 2;
            match has_spare(middle) {
                true => higher = middle,
                false => lower = middle,
            }
        }
        // One spare byte is accepted.
        with_size(lower - 1)
    }
}

fn refused(frame: &[u8], format: Format, size: Size) -> Option<Refused> {
    read_frame(frame, format, &mut State::blank(size)).err()
}

#[cfg(test)]
mod tests {
    use super::*;

    fn chunk(kind: u16, body: &[u8]) -> Vec<u8> {
        [&(6 + body.len() as u32).to_le_bytes()[..], &kind.to_le_bytes(), body].concat()
    }

    fn frame(chunks: &[Vec<u8>]) -> Vec<u8> {
        let count = chunks.len() as u8;
        chunk(stored::FRAME_KIND, &[&[count, 0, 0, 0, 0, 0, 0, 0, 0, 0], &chunks.concat()[..]].concat())
    }

    #[test]
    fn spare_bytes_and_what_only_an_flc_may_hold() {
        let colour = [1, 0, 5, 1, 7, 7, 7];
        let change = [1, 0, 1, 0, 4, 1, 8, 9];
        let stamp = chunk(18, &[0; 20]);
        let right = frame(&[chunk(4, &colour), stamp.clone(), chunk(7, &change)]);
        let sloppy =
            frame(&[chunk(4, &[&colour[..], &[0; 9]].concat()), stamp, chunk(7, &[&change[..], &[0; 2]].concat())]);
        for frame in [&right, &sloppy] {
            let mended = Mended::of(frame, Format::Fli, Size::FLI);
            assert_eq!((mended.format, mended.refused(Size::FLI)), (Format::Flc, None));
            assert_eq!(mended.frame, right);
        }
        let of_flc = Mended::of(&right, Format::Flc, Size::FLI);
        assert!(matches!((of_flc.frame, of_flc.format), (Cow::Borrowed(_), Format::Flc)));
    }

    #[test]
    fn what_is_wrong_otherwise_stays() {
        let frame = frame(&[chunk(13, &[0; 3]), chunk(16, &[0; 9])]);
        let mended = Mended::of(&frame, Format::Fli, Size::FLI);
        assert_eq!(mended.frame.len(), frame.len() - 3);
        assert_eq!(mended.refused(Size::FLI).map(|why| why.refusal), Some(Refusal::BodyEnds));
    }
}
