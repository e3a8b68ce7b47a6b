//! The trailer: the index of a reel's frames after its size, and the eight bytes behind it that tell of it.

use super::top_level::is_frame;
use super::{number, require, Document, FileHeader, Format, Model, Refusal, Span};

/// The trailer's own bytes.
pub const TRAILER: usize = 8;
const EDITION: u16 = 1;

/// A reel that the walk accepted.
pub struct Walked {
    pub header: FileHeader,
    /// The chunks up to the ring, the ring included.
    pub chunks: Vec<Span>,
    /// Those of the chunks that are frames, the last being the ring.
    pub frames: Vec<Span>,
}

/// "Checking or writing a trailer first walks the header and top-level chunks with their refusals; no sub-chunk is
/// opened and no ring compared." "Listing, trailers and later work that checks a trailer stay FLC" (document 02, Req 06).
pub fn walked(model: &Model, bytes: &[u8]) -> Result<Walked, Refusal> {
    let header = model.headers.accepted(model, bytes, &[Format::Flc], &[], &[])?;
    let mut chunks = Vec::new();
    model.top_level.walk(bytes, &header, &mut |chunk| {
        chunks.push(chunk);
        Ok(())
    })?;
    let frames = chunks.iter().copied().filter(|chunk| is_frame(bytes, chunk.start)).collect();
    Ok(Walked { header, chunks, frames })
}

impl Trailers for Document {}

pub trait Trailers {
    fn check_trailer(&self, model: &Model, bytes: &[u8]) -> Result<(), Refusal> {
        let reel = walked(model, bytes)?;
        let right = self.is_right(&bytes[self.index_start(&reel)..], &self.index_and_trailer(&reel));
        require(right, number::WRONG_TRAILER, 0)
    }

    /// Gives where the file ends then. "Writing gives 3 last."
    fn write_trailer(&self, model: &Model, bytes: &mut [u8]) -> Result<usize, Refusal> {
        let reel = walked(model, bytes)?;
        let (start, trailer) = (self.index_start(&reel), self.index_and_trailer(&reel));
        let end = start + trailer.len();
        require(end <= bytes.len(), number::SHORT_OUTPUT, 0)?;
        bytes[start..end].copy_from_slice(&trailer);
        Ok(end)
    }

    /// "No bytes after the size is also right. All else is 17."
    fn is_right(&self, rest: &[u8], wanted: &[u8]) -> bool {
        rest.is_empty() || rest == wanted
    }

    /// "The index begins at the size."
    fn index_start(&self, reel: &Walked) -> usize {
        reel.header.size
    }

    /// "After the size may stand an index .., then at the very end a trailer".
    fn index_and_trailer(&self, reel: &Walked) -> Vec<u8> {
        let places = self.places(reel);
        [self.index(&places), self.trailer(places.len()).to_vec()].concat()
    }

    /// "each frame's offset, ring included".
    fn places(&self, reel: &Walked) -> Vec<usize> {
        reel.frames.iter().map(|frame| frame.start).collect()
    }

    /// "4 bytes for each".
    fn index(&self, places: &[usize]) -> Vec<u8> {
        places.iter().flat_map(|place| (*place as u32).to_le_bytes()).collect()
    }

    /// "distance from the file's end to the index (4), entries (2), edition 1 (2)".
    fn trailer(&self, entries: usize) -> [u8; TRAILER] {
        let mut bytes = [0; TRAILER];
        bytes[..4].copy_from_slice(&((4 * entries + TRAILER) as u32).to_le_bytes());
        bytes[4..6].copy_from_slice(&(entries as u16).to_le_bytes());
        bytes[6..].copy_from_slice(&EDITION.to_le_bytes());
        bytes
    }
}

#[cfg(test)]
mod tests {
    use crate::model::{Format, MODEL};
    use crate::reels::examples::{blank_fli, blank_reel};
    use crate::reels::loose_reel::Loose;
    use crate::trailers::examples::BLANK_TRAILER;

    const FILL: u8 = 0x77;

    fn checked(bytes: &[u8]) -> Result<(), (u32, u64)> {
        MODEL.check_trailer(bytes).map_err(|refusal| (refusal.number, refusal.place))
    }

    fn written(bytes: &[u8]) -> (Result<usize, (u32, u64)>, Vec<u8>) {
        let mut bytes = bytes.to_vec();
        let answer = MODEL.write_trailer(&mut bytes).map_err(|refusal| (refusal.number, refusal.place));
        (answer, bytes)
    }

    #[test]
    fn the_blank_reel_of_document_01() {
        let reel = blank_reel();
        let whole = [&reel[..], &BLANK_TRAILER].concat();
        assert_eq!((checked(&reel), checked(&whole)), (Ok(()), Ok(())));
        assert_eq!(written(&[&reel[..], &[FILL; 18]].concat()), (Ok(176), [&whole[..], &[FILL; 2]].concat()));
        assert_eq!(written(&whole), (Ok(176), whole));
        let short = [&reel[..], &[FILL; 15]].concat();
        assert_eq!(written(&short), (Err((3, 0)), short));
        assert_eq!(written(&reel), (Err((3, 0)), reel));
    }

    #[test]
    fn all_else_after_the_size_is_17() {
        let whole = [&blank_reel()[..], &BLANK_TRAILER].concat();
        for at in 160..176 {
            let mut changed = whole.clone();
            changed[at] ^= 0x10;
            assert_eq!(checked(&changed), Err((17, 0)), "byte {at}");
        }
        for length in 161..176 {
            assert_eq!(checked(&whole[..length]), Err((17, 0)), "length {length}");
        }
        assert_eq!(checked(&[&whole[..], &[0]].concat()), Err((17, 0)));
        assert_eq!(checked(&[&whole[..], &BLANK_TRAILER].concat()), Err((17, 0)));
    }

    /// A blank frame, and one whose sub-chunk is a COPY without its pixel.
    const STILL: [u8; 16] = [16, 0, 0, 0, 0xFA, 0xF1, 0, 0, 0, 0, 0, 0, 0, 0, 0, 0];
    const BROKEN: [u8; 22] = [22, 0, 0, 0, 0xFA, 0xF1, 1, 0, 0, 0, 0, 0, 0, 0, 0, 0, 6, 0, 0, 0, 16, 0];
    const PREFIX: [u8; 7] = [7, 0, 0, 0, 0, 0xF1, 0];

    fn reel(chunks: &[&[u8]], frames: usize, after: &[u8]) -> Vec<u8> {
        let chunks = chunks.iter().map(|chunk| chunk.to_vec()).collect();
        Loose { format: Format::Flc, width: 1, height: 1, frames, chunks, after: after.to_vec() }.bytes()
    }

    #[test]
    fn the_index_tells_frames_alone_and_begins_at_the_size() {
        let bytes = reel(&[&PREFIX, &STILL, &BROKEN, &PREFIX, &STILL, &PREFIX, &[1, 2]], 2, &[FILL; 20]);
        let (answer, bytes) = written(&bytes);
        let size = 128 + 3 * 7 + 2 * 16 + 22 + 2;
        assert_eq!(answer, Ok(size + 20));
        assert_eq!(bytes[size..size + 12], [135, 0, 0, 0, 151, 0, 0, 0, 180, 0, 0, 0]);
        assert_eq!(bytes[size + 12..], [20, 0, 0, 0, 3, 0, 1, 0]);
        assert_eq!(checked(&bytes), Ok(()));
    }

    #[test]
    fn the_walk_refuses_before_17_and_3() {
        let missing = reel(&[&STILL, &PREFIX], 1, &[FILL; 5]);
        assert_eq!((checked(&missing), written(&missing).0), (Err((15, 151)), Err((15, 151))));
        let cut = reel(&[&STILL, &STILL[..15]], 1, &[FILL]);
        assert_eq!((checked(&cut), written(&cut).0), (Err((4, 144)), Err((4, 144))));
        assert_eq!((checked(&[]), written(&[]).0), (Err((4, 0)), Err((4, 0))));
        let fli = [blank_fli(), vec![0; 16]].concat();
        assert_eq!((checked(&fli), written(&fli)), (Err((5, 0)), (Err((5, 0)), fli.clone())));
        assert_eq!(checked(&fli[..127]), Err((4, 0)));
        let mut flags = reel(&[&STILL, &STILL], 1, &[FILL]);
        flags[14] = 1;
        assert_eq!((checked(&flags), written(&flags).0), (Err((14, 0)), Err((14, 0))));
    }
}
