//! Where the chunks of a reel or a frame stand, kept up to date while bytes are put in and taken out.

use flic_tests::damage::set_size;
use flic_tests::model::{
    field, kind, size_at, word_at, CHUNK_HEADER, FILE_HEADER, FRAME_HEADER, FRAME_TYPE, PREFIX_TYPE,
};

const MAGICS: [u16; 2] = [0xAF11, 0xAF12];
const MOST_LEVELS: usize = 12;
const SIZE_FIELD: usize = 4;

/// One chunk, the file among them: its size field stands at its start.
#[derive(Clone, Copy, Debug, PartialEq, Eq)]
pub struct Span {
    pub start: usize,
    pub end: usize,
}

/// The chunks of some bytes, from outside to inside.
pub struct Spans {
    pub all: Vec<Span>,
}

impl Spans {
    /// The chunks that stand in these bytes, so far as their sizes fit.
    pub fn of(bytes: &[u8]) -> Spans {
        let mut spans = Spans { all: Vec::new() };
        let is_file = bytes.len() >= FILE_HEADER && MAGICS.contains(&word_at(bytes, field::MAGIC));
        if is_file {
            let size = size_at(bytes, field::SIZE);
            let end = if (FILE_HEADER..=bytes.len()).contains(&size) { size } else { bytes.len() };
            spans.all.push(Span { start: 0, end });
            spans.collect(bytes, FILE_HEADER, end, 0);
        } else {
            spans.collect(bytes, 0, bytes.len(), 0);
        }
        spans
    }

    fn collect(&mut self, bytes: &[u8], mut start: usize, end: usize, level: usize) {
        while start + CHUNK_HEADER <= end && level < MOST_LEVELS {
            let size = size_at(bytes, start);
            if size < CHUNK_HEADER || size > end - start {
                return;
            }
            self.all.push(Span { start, end: start + size });
            let inside = match word_at(bytes, start + 4) {
                FRAME_TYPE | PREFIX_TYPE => FRAME_HEADER,
                kind::PSTAMP => 12,
                _ => size,
            };
            self.collect(bytes, start + inside.min(size), start + size, level + 1);
            start += size;
        }
    }

    /// Bytes were put in at a place: chunks that begin there move, those that end there grow.
    pub fn put_in(&mut self, at: usize, count: usize) {
        for span in &mut self.all {
            if span.start >= at && at > 0 {
                span.start += count;
            }
            if span.end >= at {
                span.end += count;
            }
        }
    }

    /// Bytes were taken out from a place on.
    pub fn taken_out(&mut self, at: usize, count: usize) {
        let moved = |place: usize| if place <= at { place } else { place.saturating_sub(count).max(at) };
        for span in &mut self.all {
            *span = Span { start: moved(span.start), end: moved(span.end) };
        }
    }

    /// Makes every size field right again.
    pub fn mend(&self, bytes: &mut [u8]) {
        for span in &self.all {
            if span.start + SIZE_FIELD <= span.end && span.end <= bytes.len() {
                set_size(bytes, span.start, (span.end - span.start) as u32);
            }
        }
    }
}
