//! The top-level chunks: document 01's "Reels", from the header to the ring, and the step from one frame to the next.

use super::{
    number, require, size_at, word_at, Document, FileHeader, Refusal, CHUNK_HEADER, FILE_HEADER, FRAME_HEADER,
    FRAME_TYPE,
};

/// Where a chunk stands.
#[derive(Clone, Copy, Debug, PartialEq, Eq)]
pub struct Span {
    pub start: usize,
    pub end: usize,
}

/// What is done with each chunk of a walk.
pub type Each<'a> = &'a mut dyn FnMut(Span) -> Result<(), Refusal>;

impl TopLevel for Document {}

pub trait TopLevel {
    /// "A 128-byte header .., then chunks. Those not F1FA are stepped over; frames + 1 are read, the last being the
    /// ring; what follows up to the size is ignored. oframe1 and oframe2 aren't read." Hands on each chunk up to the
    /// ring, the ring included.
    fn walk(&self, bytes: &[u8], header: &FileHeader, each: Each) -> Result<(), Refusal> {
        let (mut place, mut frames) = (FILE_HEADER, 0);
        while frames < header.frames + 1 {
            let chunk = self.chunk_at(bytes, header.size, place)?;
            each(chunk)?;
            frames += usize::from(is_frame(bytes, place));
            place = chunk.end;
        }
        Ok(())
    }

    /// "chunks from the front (6 bytes there, else 15; an F1FA needs 16, else 4)", then "size too small (6), size too
    /// large (4)".
    fn chunk_at(&self, bytes: &[u8], end: usize, place: usize) -> Result<Span, Refusal> {
        let left = end - place;
        if left < CHUNK_HEADER {
            return Err(self.missing(place as u64));
        }
        let size = size_at(bytes, place);
        let least = self.least_size(word_at(bytes, place + 4));
        require(left >= least, number::CUT_SHORT, place)?;
        require(size >= least, number::SIZE_TOO_SMALL, place)?;
        require(size <= left, number::CUT_SHORT, place)?;
        Ok(Span { start: place, end: place + size })
    }

    /// "128, 16 for F1FA, else 6".
    fn least_size(&self, kind: u16) -> usize {
        match kind {
            FRAME_TYPE => FRAME_HEADER,
            _ => CHUNK_HEADER,
        }
    }

    /// 15: "fewer than 6 bytes left within the file's size before frames + 1 frame chunks are met", placed where the
    /// chunk "should begin".
    fn missing(&self, place: u64) -> Refusal {
        Refusal { number: number::FRAME_MISSING, place }
    }

    /// The next frame chunk from an offset on, where the bytes are a reel up to its size: other chunks are stepped
    /// over, with the walk's refusals.
    fn next_frame(&self, bytes: &[u8], at: u64) -> Result<Span, Refusal> {
        if at > bytes.len() as u64 {
            return Err(self.missing(at));
        }
        let mut place = at as usize;
        loop {
            let chunk = self.chunk_at(bytes, bytes.len(), place)?;
            if is_frame(bytes, place) {
                return Ok(chunk);
            }
            place = chunk.end;
        }
    }
}

/// Whether the chunk at this place is a frame.
pub fn is_frame(bytes: &[u8], place: usize) -> bool {
    word_at(bytes, place + 4) == FRAME_TYPE
}

#[cfg(test)]
mod tests {
    use super::*;
    use crate::reels::examples::blank_reel;

    /// Where the next frame stands, or the number and place of the refusal.
    fn found(bytes: &[u8], at: u64) -> Result<(usize, usize), (u32, u64)> {
        Document
            .next_frame(bytes, at)
            .map(|span| (span.start, span.end))
            .map_err(|refusal| (refusal.number, refusal.place))
    }

    #[test]
    fn the_frames_of_the_blank_reel_of_document_01() {
        let reel = blank_reel();
        assert_eq!((found(&reel, 128), found(&reel, 144)), (Ok((128, 144)), Ok((144, 160))));
        for at in [155, 160, 161, 1 << 32, u64::MAX] {
            assert_eq!(found(&reel, at), Err((15, at)), "offset {at}");
        }
    }

    #[test]
    fn other_chunks_are_stepped_over() {
        let prefix = [7, 0, 0, 0, 0, 0xF1, 9];
        let frame = [17, 0, 0, 0, 0xFA, 0xF1, 0, 0, 0, 0, 0, 0, 0, 0, 0, 0, 5];
        let bytes = [&prefix[..], &prefix, &frame, &prefix].concat();
        assert_eq!((found(&bytes, 0), found(&bytes, 7), found(&bytes, 14)), (Ok((14, 31)), Ok((14, 31)), Ok((14, 31))));
        assert_eq!(found(&bytes, 31), Err((15, 38)));
    }

    #[test]
    fn headers_in_order() {
        let of = |kind: u16, size: u32, length: usize| {
            let mut bytes = [&[6, 0, 0, 0, 1, 0], &size.to_le_bytes()[..], &kind.to_le_bytes(), &[0; 20]].concat();
            bytes.truncate(6 + length);
            found(&bytes, 0)
        };
        let refused = |number| Err((number, 6));
        assert_eq!((of(FRAME_TYPE, 3, 5), of(FRAME_TYPE, 3, 6)), (refused(15), refused(4)));
        assert_eq!((of(FRAME_TYPE, 15, 15), of(FRAME_TYPE, 15, 16)), (refused(4), refused(6)));
        assert_eq!((of(FRAME_TYPE, 17, 16), of(FRAME_TYPE, 16, 16)), (refused(4), Ok((6, 22))));
        assert_eq!((of(0, 5, 6), of(0, 7, 6), of(0, u32::MAX, 20)), (refused(6), refused(4), refused(4)));
        assert_eq!(of(0, 6, 11), Err((15, 12)));
    }
}
