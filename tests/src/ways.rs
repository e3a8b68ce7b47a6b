//! The two ways in which the library reads a frame, told by the frame's headers: in two passes where few bytes are in
//! packets, in one where many are; what a run meets on each way, and sub-chunks that bring a frame from one to the other.

use crate::damage::{set_size, set_word};
use crate::frames::Chunk;
use crate::model::{kind, size_at, word_at, Format, CHUNK_HEADER, FRAME_HEADER, FRAME_TYPE};
use crate::rng::Rng;
use crate::runner::told::Told;
use std::collections::BTreeMap;
use std::ops::Range;

/// From so many bytes in sub-chunks of packets on, their headers counted too, the library reads a frame in one pass.
pub const MANY: usize = 4_096;

/// How many sub-chunks are several.
const SEVERAL: usize = 3;

const PACKETS: [u16; 3] = [kind::SS2, kind::LC, kind::BRUN];

/// The kinds whose bodies can be refused, and in an FLI those that are, whatever their bodies hold.
const READ: [u16; 7] = [kind::COLOR256, kind::SS2, kind::COLOR, kind::LC, kind::BLACK, kind::BRUN, kind::COPY];
const READ_IN_FLI: [u16; 8] =
    [kind::COLOR256, kind::SS2, kind::COLOR, kind::LC, kind::BLACK, kind::BRUN, kind::COPY, kind::PSTAMP];

/// A way, where on it something was met, and a number: of a frame that is done 0, of a refusal the sub-chunk's kind.
pub type Mark = (&'static str, u32);

/// The names of what is met on a way, and the kinds that are refused on it.
struct Way {
    passes: &'static str,
    header: &'static str,
    last: &'static str,
    kinds: &'static [u16],
}

const TWICE: Way = Way { passes: "two-passes", header: "two-passes-header", last: "two-passes-last", kinds: &READ };
const ONCE: Way = Way { passes: "one-pass", header: "one-pass-header", last: "one-pass-last", kinds: &READ };
const FLI_TWICE: Way =
    Way { passes: "fli-two-passes", header: "fli-two-passes-header", last: "fli-two-passes-last", kinds: &READ_IN_FLI };
const FLI_ONCE: Way =
    Way { passes: "fli-one-pass", header: "fli-one-pass-header", last: "fli-one-pass-last", kinds: &READ_IN_FLI };
const WAYS: [Way; 4] = [TWICE, ONCE, FLI_TWICE, FLI_ONCE];

/// Where a frame's sub-chunks stand, as far as their headers are right; the frame's own is.
fn sub_chunks(frame: &[u8]) -> Vec<Range<usize>> {
    let (end, mut at) = (size_at(frame, 0), FRAME_HEADER);
    let mut all = Vec::new();
    for _ in 0..word_at(frame, 6) {
        let fits = end - at >= CHUNK_HEADER && (CHUNK_HEADER..=end - at).contains(&size_at(frame, at));
        if !fits {
            break;
        }
        all.push(at..at + size_at(frame, at));
        at += size_at(frame, at);
    }
    all
}

fn is_of_packets(frame: &[u8], chunk: &Range<usize>) -> bool {
    PACKETS.contains(&word_at(frame, chunk.start + 4))
}

/// How many bytes of a frame stand in sub-chunks of packets.
pub fn packet_bytes(frame: &[u8]) -> usize {
    sub_chunks(frame).iter().filter(|chunk| is_of_packets(frame, chunk)).map(Range::len).sum()
}

/// What the reading of a frame meets on its way; one that is refused before its sub-chunks has none.
pub fn marks(format: Format, frame: &[u8], told: &Told) -> Vec<Mark> {
    if told.number != 0 && told.place == 0 {
        return Vec::new();
    }
    let way = match (format, packet_bytes(frame) < MANY) {
        (Format::Flc, true) => TWICE,
        (Format::Flc, false) => ONCE,
        (Format::Fli, true) => FLI_TWICE,
        (Format::Fli, false) => FLI_ONCE,
    };
    match told.number {
        0 => vec![(way.passes, 0)],
        7..=13 | 19 | 20 => refused_at(frame, told.place as usize, &way),
        _ => vec![(way.header, 0)],
    }
}

/// What the refusal of a body, or of a kind, meets: that kind, and whether it is the last of several.
fn refused_at(frame: &[u8], place: usize, way: &Way) -> Vec<Mark> {
    let chunks = sub_chunks(frame);
    let mut marks = vec![(way.passes, word_at(frame, place + 4).into())];
    let is_last =
        chunks.len() == usize::from(word_at(frame, 6)) && chunks.last().is_some_and(|last| last.start == place);
    if chunks.len() >= SEVERAL && is_last {
        marks.push((way.last, 0));
    }
    marks
}

/// How often each mark was met.
#[derive(Default)]
pub struct Ways {
    times: BTreeMap<Mark, u64>,
}

impl Ways {
    pub fn count(&mut self, mark: Mark) {
        *self.times.entry(mark).or_default() += 1;
    }

    fn of(&self, mark: Mark) -> u64 {
        self.times.get(&mark).copied().unwrap_or(0)
    }

    /// The marks that weren't met, in words: on each way a frame that is done, a refusal in a header and in the body of
    /// each kind, and one in the last of several sub-chunks.
    pub fn missing(&self) -> Vec<String> {
        let wanted = |way: Way| {
            let kinds = way.kinds.iter().map(move |kind| (way.passes, u32::from(*kind)));
            kinds.chain([(way.passes, 0), (way.header, 0), (way.last, 0)])
        };
        let unmet = WAYS.into_iter().flat_map(wanted).filter(|mark| self.of(*mark) == 0);
        unmet.map(|(name, number)| format!("{name} {number}")).collect()
    }

    /// One line for each way: how many frames went it, how many were done, and where the others were refused.
    pub fn print(&self) {
        for way in WAYS {
            let (done, header, last) = (self.of((way.passes, 0)), self.of((way.header, 0)), self.of((way.last, 0)));
            let times = |kind: &u16| self.of((way.passes, u32::from(*kind)));
            let frames = done + header + way.kinds.iter().map(times).sum::<u64>();
            let refused: Vec<String> = way.kinds.iter().map(|kind| format!("kind {kind}: {}", times(kind))).collect();
            let refused = refused.join(", ");
            println!(
                "  {:14} {frames:8} frames, {done:8} done; refused in a header: {header}, {refused}; in the last of \
                 several: {last}",
                way.passes
            );
        }
    }
}

/// A right sub-chunk of packets, for any size of picture that the format takes, that by itself takes a frame over the limit or
/// just to it.
pub fn heavy(rng: &mut Rng, format: Format, width: usize) -> Chunk {
    match format {
        Format::Flc => heavy_line(rng, width),
        Format::Fli => heavy_rows(rng, width),
    }
}

/// One line of kind 7: a last pixel, a packet of pairs, then empty packets.
fn heavy_line(rng: &mut Rng, width: usize) -> Chunk {
    let pairs = rng.below(width.min(200) / 2 + 1).min(127);
    let first = [&[0, pairs as u8][..], &rng.bytes(2 * pairs)].concat();
    // the header, the count of lines, the last pixel's word and the count of packets
    let least = (MANY - CHUNK_HEADER - 6 - first.len()).div_ceil(2);
    let empty = least + rng.pick(&[0, 0, 1, 40]);
    let last_pixel = 0x8000 | u16::from(rng.byte());
    let words = [1, last_pixel, 1 + empty as u16].map(u16::to_le_bytes).concat();
    Chunk { kind: kind::SS2, body: [words, first, vec![0; 2 * empty]].concat() }
}

/// Rows of kind 12: a packet of pixels in the first, then empty packets, as many as a row's count holds.
fn heavy_rows(rng: &mut Rng, width: usize) -> Chunk {
    let pixels = rng.below(width.min(127) + 1);
    let first = [&[0, pixels as u8][..], &rng.bytes(pixels)].concat();
    let (mut rows, mut count) = ([&[255], &first[..], &[0; 2 * 254]].concat(), 1_u16);
    // the header, the first row and the count of rows
    while rows.len() < MANY - CHUNK_HEADER - 4 {
        let left = MANY - CHUNK_HEADER - 4 - rows.len();
        let empty = (left / 2).min(255);
        rows.extend([&[empty as u8][..], &vec![0; 2 * empty]].concat());
        count += 1;
    }
    let row = rng.below(200 - usize::from(count)) as u16;
    Chunk { kind: kind::LC, body: [&row.to_le_bytes()[..], &count.to_le_bytes(), &rows].concat() }
}

/// Puts a sub-chunk into a frame, in front of its others or, where these are all there, behind them, and brings the frame's
/// header up to date; tells whether that header was right, without which nothing is put in.
pub fn put_in_frame(frame: &mut Vec<u8>, chunk: &Chunk, behind: bool) -> bool {
    let has_header = frame.len() >= FRAME_HEADER
        && word_at(frame, 4) == FRAME_TYPE
        && (FRAME_HEADER..=frame.len()).contains(&size_at(frame, 0))
        && word_at(frame, 6) < u16::MAX;
    if !has_header {
        return false;
    }
    let (size, count, chunks) = (size_at(frame, 0), word_at(frame, 6), sub_chunks(frame));
    let all_there = chunks.len() == usize::from(count);
    let at = chunks.last().filter(|_| behind && all_there).map_or(FRAME_HEADER, |last| last.end);
    let length = CHUNK_HEADER + chunk.body.len();
    let header = [&(length as u32).to_le_bytes()[..], &chunk.kind.to_le_bytes()].concat();
    frame.splice(at..at, header.into_iter().chain(chunk.body.iter().copied()));
    set_size(frame, 0, (size + length) as u32);
    set_word(frame, 6, count + 1);
    true
}

#[cfg(test)]
mod tests {
    use super::*;
    use crate::frames::frame_of;
    use crate::model::MODEL;
    use crate::states::State;

    #[test]
    fn a_heavy_sub_chunk_is_accepted_and_takes_a_frame_over_the_limit() {
        for seed in 0..2_000 {
            let mut rng = Rng::new(seed);
            let format = if seed % 50 == 0 { Format::Fli } else { Format::Flc };
            let (width, height) = match format {
                Format::Flc => (rng.between(1, 320), rng.between(1, 3)),
                Format::Fli => (320, 200),
            };
            let chunk = heavy(&mut rng, format, width);
            let mut shown = State::blank(width * height);
            let frame = frame_of(&[chunk]);
            let read = MODEL.read_frame(&frame, format.number(), width as u64, height as u64, shown.work());
            assert_eq!(read, Ok(()), "seed {seed}");
            assert!((MANY..MANY + 100).contains(&packet_bytes(&frame)), "seed {seed}");
        }
    }

    #[test]
    fn a_sub_chunk_put_in_stands_in_front_or_behind() {
        let black = Chunk { kind: kind::BLACK, body: Vec::new() };
        let heavy = heavy(&mut Rng::new(1), Format::Flc, 4);
        for behind in [false, true] {
            let mut frame = frame_of(std::slice::from_ref(&black));
            assert!(put_in_frame(&mut frame, &heavy, behind));
            let order = if behind { [black.clone(), heavy.clone()] } else { [heavy.clone(), black.clone()] };
            assert_eq!(frame, frame_of(&order));
        }
    }
}
