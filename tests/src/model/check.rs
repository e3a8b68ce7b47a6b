//! The check of a whole reel: its header, its top-level chunks, its frames, and its ring.

use super::playing::Played;
use super::top_level::is_frame;
use super::{number, Document, FileHeader, Format, Model, Refusal};
use flic_boundary::PairMut;

impl Checking for Document {}

pub trait Checking {
    /// "Reel: 4, 5, size field 6 then 4, 2, 14, 1, then chunks from the front". It goes "by the magic, 5 there meaning
    /// neither" (document 02, Req 06).
    fn check_reel(&self, model: &Model, bytes: &[u8], first: PairMut, second: PairMut) -> Result<(), Refusal> {
        let pictures = [&*first.picture, &*second.picture];
        let palettes = [&*first.palette, &*second.palette];
        let header = model.headers.accepted(model, bytes, &Format::BOTH, &pictures, &palettes)?;
        let played = Played::from_blank(header.format, header.width, header.height);
        self.play_and_leave(model, bytes, &header, played, first, second)
    }

    /// "Once the checks up to 1 have passed", the pairs are set, whatever is answered.
    fn play_and_leave(
        &self,
        model: &Model,
        bytes: &[u8],
        header: &FileHeader,
        mut played: Played,
        mut first: PairMut,
        mut second: PairMut,
    ) -> Result<(), Refusal> {
        let answer = self.whole_reel(model, bytes, header, &mut played);
        model.playing.leave(&played, &mut first, &mut second);
        answer
    }

    /// Plays all frames and the ring, "the ring comparison last"; "the ring counts, also when 16 is given".
    fn whole_reel(&self, model: &Model, bytes: &[u8], header: &FileHeader, played: &mut Played) -> Result<(), Refusal> {
        let mut ring = 0;
        model.top_level.walk(bytes, header, &mut |chunk| {
            if is_frame(bytes, chunk.start) {
                ring = chunk.start;
                model.playing.play(model, &bytes[chunk.start..chunk.end], chunk.start, played)?;
            }
            Ok(())
        })?;
        if self.leads_back(played) {
            Ok(())
        } else {
            Err(self.astray(ring))
        }
    }

    /// 16: "the ring doesn't give frame 1's picture and palette".
    fn leads_back(&self, played: &Played) -> bool {
        played.last == played.first
    }

    /// "16 gives the ring's offset".
    fn astray(&self, ring: usize) -> Refusal {
        Refusal::new(number::RING_ASTRAY, ring)
    }
}

#[cfg(test)]
mod tests {
    use super::*;
    use crate::frames::{frame_of, Chunk};
    use crate::model::file_header::FILE_HEADER;
    use crate::model::{kind, FRAME_TYPE, MODEL, PALETTE_BYTES, PREFIX_TYPE};

    const FILL: u8 = 0x77;

    /// A 2 by 1 reel whose header says so many frames, closed around these chunks.
    fn reel(frames: u8, chunks: &[&[u8]]) -> Vec<u8> {
        let mut bytes = vec![0; FILE_HEADER];
        bytes.extend(chunks.concat());
        let size = bytes.len() as u32;
        bytes[..4].copy_from_slice(&size.to_le_bytes());
        bytes[4..16].copy_from_slice(&[0x12, 0xAF, frames, 0, 2, 0, 1, 0, 8, 0, 3, 0]);
        bytes
    }

    fn copies(first: u8, second: u8) -> Vec<u8> {
        frame_of(&[Chunk { kind: kind::COPY, body: vec![first, second] }])
    }

    fn colours(red: u8) -> Vec<u8> {
        frame_of(&[Chunk { kind: kind::COLOR256, body: vec![1, 0, 0, 1, red, 0, 0] }])
    }

    fn chunk(kind: u16, size: u32, length: usize) -> Vec<u8> {
        let mut bytes = vec![0; length.max(6)];
        bytes[..4].copy_from_slice(&size.to_le_bytes());
        bytes[4..6].copy_from_slice(&kind.to_le_bytes());
        bytes.truncate(length);
        bytes
    }

    /// The answer, and the pairs afterwards: two pixels and one of excess, the first colour's red and one of excess.
    type Checked = (Result<(), (u32, u64)>, [[u8; 5]; 2]);

    fn checked(bytes: &[u8]) -> Checked {
        let mut pictures = [[FILL; 3]; 2];
        let mut palettes = [[FILL; PALETTE_BYTES + 1]; 2];
        let [first, second] = &mut pictures;
        let [first_palette, second_palette] = &mut palettes;
        let first = PairMut { picture: first, palette: first_palette };
        let second = PairMut { picture: second, palette: second_palette };
        let answer = MODEL.check_reel(bytes, first, second).map_err(|refusal| (refusal.number, refusal.place));
        let told = |i: usize| {
            let ([a, b, excess], palette) = (pictures[i], palettes[i]);
            [a, b, excess, palette[0], palette[PALETTE_BYTES]]
        };
        (answer, [told(0), told(1)])
    }

    fn pair(a: u8, b: u8, red: u8) -> [u8; 5] {
        [a, b, FILL, red, FILL]
    }

    const AS_FOUND: [[u8; 5]; 2] = [[FILL; 5]; 2];

    #[test]
    fn a_ring_must_lead_back_to_frame_1() {
        let (frame_1, frame_2, red) = (copies(1, 2), copies(3, 4), colours(9));
        let right = reel(2, &[&frame_1, &frame_2, &frame_1]);
        assert_eq!(checked(&right), (Ok(()), [pair(1, 2, 0), pair(1, 2, 0)]));
        let astray = reel(2, &[&frame_1, &frame_2, &copies(1, 4)]);
        assert_eq!(checked(&astray), (Err((16, 128 + 48)), [pair(1, 4, 0), pair(1, 2, 0)]));
        let other_palette = reel(1, &[&frame_1, &red]);
        assert_eq!(checked(&other_palette), (Err((16, 128 + 24)), [pair(1, 2, 9), pair(1, 2, 0)]));
        let from_itself = reel(2, &[&frame_1, &red, &frame_of(&[])]);
        assert_eq!(checked(&from_itself).0, Err((16, 128 + 24 + red.len() as u64)));
    }

    #[test]
    fn other_chunks_are_stepped_over() {
        let (frame, prefix, stamp) = (copies(1, 2), chunk(PREFIX_TYPE, 6, 6), chunk(18, 9, 9));
        let junk = [1, 2, 3];
        let bytes = reel(1, &[&prefix, &frame, &stamp, &frame, &junk]);
        assert_eq!(checked(&bytes), (Ok(()), [pair(1, 2, 0); 2]));
        let missing = reel(2, &[&prefix, &frame, &stamp, &frame]);
        assert_eq!(checked(&missing), (Err((15, missing.len() as u64)), [pair(1, 2, 0); 2]));
    }

    #[test]
    fn top_level_headers_in_order() {
        let answer = |left: &[u8]| checked(&reel(1, &[left]));
        let at_once = |number| (Err((number, 128)), [pair(0, 0, 0); 2]);
        assert_eq!(answer(&[]), at_once(15));
        assert_eq!(answer(&chunk(FRAME_TYPE, 3, 5)), at_once(15));
        assert_eq!(answer(&chunk(FRAME_TYPE, 3, 6)), at_once(4));
        assert_eq!(answer(&chunk(FRAME_TYPE, 15, 15)), at_once(4));
        assert_eq!(answer(&chunk(FRAME_TYPE, 15, 16)), at_once(6));
        assert_eq!(answer(&chunk(FRAME_TYPE, 17, 16)), at_once(4));
        assert_eq!(answer(&chunk(PREFIX_TYPE, 5, 6)), at_once(6));
        assert_eq!(answer(&chunk(PREFIX_TYPE, 7, 6)), at_once(4));
        assert_eq!(answer(&chunk(PREFIX_TYPE, u32::MAX, 15)), at_once(4));
        assert_eq!(answer(&chunk(PREFIX_TYPE, 6, 11)).0, Err((15, 134)));
    }

    #[test]
    fn a_fault_in_a_frame_is_placed_in_the_reel() {
        let wrong = frame_of(&[Chunk { kind: kind::BLACK, body: vec![] }, Chunk { kind: kind::COPY, body: vec![1] }]);
        let bytes = reel(2, &[&copies(1, 2), &colours(9), &wrong]);
        let place = 128 + 24 + colours(9).len() as u64 + 22;
        assert_eq!(checked(&bytes), (Err((7, place)), [pair(1, 2, 9), pair(1, 2, 0)]));
    }

    #[test]
    fn file_headers_in_order() {
        let mut bytes = reel(1, &[&copies(1, 2), &copies(1, 2)]);
        let with = |bytes: &[u8], at: usize, value: u8| {
            let mut changed = bytes.to_vec();
            changed[at] = value;
            changed
        };
        assert_eq!(checked(&bytes).0, Ok(()));
        assert_eq!(checked(&bytes[..127]), (Err((4, 0)), AS_FOUND));
        for (at, value) in [(12, 7), (14, 0), (14, 7), (15, 1), (6, 0), (7, 0x10)] {
            assert_eq!(checked(&with(&bytes, at, value)), (Err((14, 0)), AS_FOUND), "byte {at}");
        }
        bytes[14] = 0;
        for (at, value) in [(8, 0), (9, 2), (10, 0), (10, 201)] {
            assert_eq!(checked(&with(&bytes, at, value)), (Err((2, 0)), AS_FOUND), "byte {at}");
        }
        bytes[8] = 0;
        assert_eq!(checked(&with(&bytes, 0, 127)), (Err((6, 0)), AS_FOUND));
        assert_eq!(checked(&bytes[..bytes.len() - 1]), (Err((4, 0)), AS_FOUND));
        bytes[0] = 127;
        assert_eq!(checked(&with(&bytes, 4, 0x13)), (Err((5, 0)), AS_FOUND));
        assert_eq!(checked(&with(&bytes, 4, 0x11)), (Err((6, 0)), AS_FOUND));
        let wide = with(&reel(1, &[]), 8, 4);
        assert_eq!(checked(&wide), (Err((1, 0)), AS_FOUND));
    }
}
