//! The listing: a reel's chunks up to the ring, each with what it holds behind it, as lines of text.

use super::trailer::{walked, Walked};
use super::{
    kind, number, require, size_at, word_at, Document, Model, Refusal, Span, CHUNK_HEADER, FRAME_HEADER, FRAME_TYPE,
    PREFIX_TYPE,
};

/// The most bytes that are listed.
pub const MOST_LISTED: usize = 65_536;
/// The depth that no line passes.
pub const MOST_DEPTH: usize = 8;
/// Where the child of a postage stamp begins.
const STAMP_HEADER: usize = 12;

/// A listing while it is written.
pub struct Listing<'a> {
    pub bytes: &'a [u8],
    /// The containers around what is listed next, the outermost first.
    pub within: Vec<Span>,
    pub text: String,
}

impl Listing<'_> {
    pub fn kind_of(&self, chunk: Span) -> u16 {
        word_at(self.bytes, chunk.start + 4)
    }
}

impl Listings for Document {}

pub trait Listings {
    /// Writes the text, also where that is a refusal in words, and gives its length.
    fn list(&self, model: &Model, bytes: &[u8], out: &mut [u8]) -> Result<usize, Refusal> {
        let text = self.text(model, bytes).into_bytes();
        require(text.len() <= out.len(), number::SHORT_OUTPUT, 0)?;
        out[..text.len()].copy_from_slice(&text);
        Ok(text.len())
    }

    /// "writes either one line `refused N PLACE`, or the header line .., one line a chunk .., and `ok`".
    fn text(&self, model: &Model, bytes: &[u8]) -> String {
        self.lines(model, bytes).unwrap_or_else(|refusal| self.refused(refusal))
    }

    fn refused(&self, Refusal { number, place }: Refusal) -> String {
        format!("refused {number} {place}\n")
    }

    /// "the other refusals are the trailer walk's, the trailer itself unread".
    fn lines(&self, model: &Model, bytes: &[u8]) -> Result<String, Refusal> {
        require(self.may_list(bytes.len()), number::SHORT_OUTPUT, 0)?;
        let reel = walked(model, bytes)?;
        let text = format!("flic {} {} {}\n", reel.header.width, reel.header.height, reel.header.frames);
        let mut listing = Listing { bytes, within: Vec::new(), text };
        for chunk in self.top_level(&reel) {
            self.chunk(&mut listing, chunk);
        }
        listing.text.push_str("ok\n");
        Ok(listing.text)
    }

    /// "reads up to 65,536 bytes .. Input past that is refused 3, place 0".
    fn may_list(&self, length: usize) -> bool {
        length <= MOST_LISTED
    }

    /// "It lists up to the ring."
    fn top_level(&self, reel: &Walked) -> Vec<Span> {
        reel.chunks.clone()
    }

    /// Lists a chunk and, behind it, what it holds.
    fn chunk(&self, listing: &mut Listing, chunk: Span) {
        let line = self.line(listing, chunk);
        listing.text.push_str(&line);
        if self.may_open(listing.within.len()) && !self.stays_shut(listing, chunk) {
            listing.within.push(chunk);
            self.children(listing, chunk);
            listing.within.pop();
        }
    }

    /// "one line a chunk (depth, offset, kind, size)".
    fn line(&self, listing: &Listing, chunk: Span) -> String {
        let (depth, kind) = (listing.within.len(), listing.kind_of(chunk));
        format!("{depth} {} {kind} {}\n", chunk.start, chunk.end - chunk.start)
    }

    /// "no line passing depth 8".
    fn may_open(&self, depth: usize) -> bool {
        depth < MOST_DEPTH
    }

    /// "an 18 directly inside an 18 is a colour table and stays shut".
    fn stays_shut(&self, listing: &Listing, chunk: Span) -> bool {
        let is_stamp = |chunk: Span| listing.kind_of(chunk) == kind::PSTAMP;
        is_stamp(chunk) && listing.within.last().is_some_and(|container| is_stamp(*container))
    }

    /// "A container's listing stops at the first child that doesn't fit"; "a child of one of these kinds is opened in
    /// its turn".
    fn children(&self, listing: &mut Listing, container: Span) {
        let Some((mut place, count)) = self.holds(listing, container) else {
            return;
        };
        for _ in 0..count {
            let Some(child) = self.child_at(listing.bytes, place, container.end) else {
                return;
            };
            self.chunk(listing, child);
            place = child.end;
        }
    }

    /// "Chunks of kind 61696 and 61946 hold children after 16 bytes, as many as their count; kind 18 holds one after
    /// 12"; "one shorter than its 16 or 12 bytes lists none".
    fn holds(&self, listing: &Listing, chunk: Span) -> Option<(usize, usize)> {
        let (header, count) = match listing.kind_of(chunk) {
            PREFIX_TYPE | FRAME_TYPE if chunk.start + FRAME_HEADER <= chunk.end => {
                (FRAME_HEADER, word_at(listing.bytes, chunk.start + 6) as usize)
            }
            kind::PSTAMP if chunk.start + STAMP_HEADER <= chunk.end => (STAMP_HEADER, 1),
            _ => return None,
        };
        Some((chunk.start + header, count))
    }

    /// The child at `place` if it fits: not "header not whole, size under 6 or past the container".
    fn child_at(&self, bytes: &[u8], place: usize, end: usize) -> Option<Span> {
        let left = end.checked_sub(place)?;
        if left < CHUNK_HEADER {
            return None;
        }
        let size = size_at(bytes, place);
        (CHUNK_HEADER..=left).contains(&size).then_some(Span { start: place, end: place + size })
    }
}

#[cfg(test)]
mod tests {
    use super::*;
    use crate::model::{Format, MODEL};
    use crate::reels::examples::{blank_fli, blank_reel};
    use crate::reels::loose_reel::Loose;
    use crate::trailers::examples::{BLANK_LISTING, BLANK_TRAILER};
    use crate::trailers::nest::{chunk, container};

    /// The lines between the header's and the last one, of a 1 by 1 reel of one frame.
    fn listed(chunks: &[Vec<u8>]) -> Vec<String> {
        let (format, chunks) = (Format::Flc, chunks.to_vec());
        let reel = Loose { format, width: 1, height: 1, frames: 1, chunks, after: Vec::new() };
        let text = MODEL.text(&reel.bytes());
        let lines: Vec<&str> = text.split_terminator('\n').collect();
        assert_eq!((lines[0], lines[lines.len() - 1]), ("flic 1 1 1", "ok"));
        lines[1..lines.len() - 1].iter().map(|line| line.to_string()).collect()
    }

    fn still() -> Vec<u8> {
        container(FRAME_TYPE, &[])
    }

    #[test]
    fn the_blank_reel_of_document_01() {
        let reel = blank_reel();
        let mut out = [0x77; 60];
        assert_eq!(MODEL.list(&reel, &mut out), Ok(BLANK_LISTING.len()));
        assert_eq!(out[..BLANK_LISTING.len()], *BLANK_LISTING.as_bytes());
        assert_eq!(out[BLANK_LISTING.len()..], vec![0x77; 60 - BLANK_LISTING.len()]);
        assert_eq!(MODEL.text(&[&reel[..], &BLANK_TRAILER].concat()), BLANK_LISTING);
        assert_eq!(MODEL.text(&[&reel[..], &[1, 2, 3]].concat()), BLANK_LISTING);
        let mut short = [0x77; BLANK_LISTING.len() - 1];
        assert_eq!(MODEL.list(&reel, &mut short), Err(Refusal::new(3, 0)));
        assert!(short.iter().all(|byte| *byte == 0x77));
    }

    #[test]
    fn refusals_are_lines() {
        let reel = blank_reel();
        assert_eq!(MODEL.text(&[]), "refused 4 0\n");
        assert_eq!(MODEL.text(&blank_fli()), "refused 5 0\n");
        assert_eq!(MODEL.list(&reel[..127], &mut [0; 12]), Ok(12));
        assert_eq!(MODEL.list(&reel[..127], &mut [0; 11]), Err(Refusal::new(3, 0)));
        assert_eq!(MODEL.text(&vec![0; MOST_LISTED]), "refused 5 0\n");
        assert_eq!(MODEL.text(&vec![0; MOST_LISTED + 1]), "refused 3 0\n");
        let (format, chunks) = (Format::Flc, vec![still(), still()]);
        let mut reel = Loose { format, width: 1, height: 1, frames: 2, chunks, after: Vec::new() };
        assert_eq!(MODEL.text(&reel.bytes()), "refused 15 160\n");
        reel.after = vec![0; MOST_LISTED - 160];
        assert_eq!(MODEL.text(&reel.bytes()), "refused 15 160\n");
        reel.after.push(0);
        assert_eq!(MODEL.text(&reel.bytes()), "refused 3 0\n");
    }

    #[test]
    fn a_prefix_chunk_a_stamp_and_the_frames() {
        let stamp = container(kind::PSTAMP, &[chunk(kind::BRUN, &[7; 9])]);
        let prefix = container(PREFIX_TYPE, &[chunk(1, &[]), chunk(2, &[0; 4])]);
        let frame = container(FRAME_TYPE, &[stamp, chunk(kind::COPY, &[5])]);
        let after_ring = chunk(3, &[]);
        assert_eq!(
            listed(&[prefix, frame, chunk(19, &[]), still(), after_ring]),
            [
                "0 128 61696 32",
                "1 144 1 6",
                "1 150 2 10",
                "0 160 61946 50",
                "1 176 18 27",
                "2 188 15 15",
                "1 203 16 7",
                "0 210 19 6",
                "0 216 61946 16"
            ]
        );
    }

    #[test]
    fn a_stamp_directly_inside_a_stamp_stays_shut() {
        let leaf = || chunk(4, &[]);
        let table = container(kind::PSTAMP, &[container(kind::PSTAMP, &[leaf()])]);
        let apart = container(kind::PSTAMP, &[container(PREFIX_TYPE, &[container(kind::PSTAMP, &[leaf()])])]);
        assert_eq!(listed(&[table, still(), still()])[..2], ["0 128 18 30", "1 140 18 18"]);
        assert_eq!(
            listed(&[apart, still(), still()])[..4],
            ["0 128 18 46", "1 140 61696 34", "2 156 18 18", "3 168 4 6"]
        );
    }

    #[test]
    fn no_line_passes_depth_8() {
        let nested = |levels: usize| (0..levels).fold(chunk(4, &[]), |inner, _| container(PREFIX_TYPE, &[inner]));
        for levels in 0..=12 {
            let lines = listed(&[nested(levels), still(), still()]);
            let wanted = (0..=levels.min(MOST_DEPTH)).map(|depth| {
                let kind = if depth == levels { 4 } else { 61696 };
                format!("{depth} {} {kind} {}", 128 + 16 * depth, 6 + 16 * (levels - depth))
            });
            assert_eq!(lines[..lines.len() - 2], wanted.collect::<Vec<String>>());
        }
    }

    /// A prefix chunk of three children, the second of which says another size.
    fn with_second(size: u32) -> Vec<String> {
        let mut prefix = container(PREFIX_TYPE, &[chunk(1, &[]), chunk(2, &[0; 4]), chunk(3, &[])]);
        prefix[22..26].copy_from_slice(&size.to_le_bytes());
        let lines = listed(&[prefix, still(), still()]);
        lines[1..lines.len() - 2].to_vec()
    }

    #[test]
    fn a_listing_stops_at_the_first_child_that_does_not_fit() {
        let (first, third) = ("1 144 1 6", "1 160 3 6");
        assert_eq!(with_second(10), [first, "1 150 2 10", third]);
        assert_eq!(with_second(16), [first, "1 150 2 16"]);
        assert_eq!(with_second(12), [first, "1 150 2 12"]);
        for size in [0, 5, 17, 1 << 16, u32::MAX] {
            assert_eq!(with_second(size), [first], "size {size}");
        }
    }

    #[test]
    fn counts_and_short_containers() {
        let counted = |count: u8| {
            let mut prefix = container(PREFIX_TYPE, &[chunk(1, &[]), chunk(2, &[])]);
            prefix[6] = count;
            listed(&[prefix, still(), still()]).len() - 3
        };
        assert_eq!([0, 1, 2, 3, 255].map(counted), [0, 1, 2, 2, 2]);
        for (kind, header) in [(PREFIX_TYPE, 16), (kind::PSTAMP, 12)] {
            for length in 6..header {
                let short = chunk(kind, &vec![1; length - 6]);
                assert_eq!(listed(&[short, still(), still()]).len(), 3);
            }
        }
        let inner = container(PREFIX_TYPE, &[chunk(FRAME_TYPE, &[1, 0])]);
        assert_eq!(listed(&[inner, still(), still()])[1], "1 144 61946 8");
    }
}
