//! Writing one frame: document 01's "House form of a frame", and the rewriting of a frame in it.

use super::{
    accepted_size, kind, long_enough, number, require, Document, Format, Model, Refusal, CHUNK_HEADER, FRAME_HEADER,
    FRAME_TYPE, PALETTE_BYTES,
};
use flic_boundary::{Pair, PairMut};
use std::collections::HashMap;

const MOST_REPEATED: usize = 127;
const MOST_COPIED: usize = 128;

/// How many pixels a packet of a delta counts as one: of kind 12 a pixel, of kind 7 a pair.
const PIXEL: usize = 1;
const PAIR: usize = 2;

/// The bytes of a row's packets, the ignored byte not counted, and the turns that the search for them took.
#[derive(Clone, Copy, Debug, PartialEq, Eq)]
pub struct Searched {
    pub bytes: usize,
    pub turns: usize,
}

impl House for Document {}

pub trait House {
    /// "Writing: 18, 2, 1, 3." Gives the frame's length.
    fn write_frame(
        &self,
        format: Format,
        width: u64,
        height: u64,
        previous: Pair,
        next: Pair,
        out: &mut [u8],
    ) -> Result<usize, Refusal> {
        let pictures = [previous.picture, next.picture];
        let (columns, rows) = self.checked(format, width, height, &pictures, &[previous.palette, next.palette])?;
        self.store(&self.frame(format, columns, rows, previous, next), out)
    }

    /// "a rewrite gives the frame's own refusals before 3".
    #[allow(clippy::too_many_arguments)]
    fn rewrite_frame(
        &self,
        model: &Model,
        bytes: &[u8],
        format: Format,
        width: u64,
        height: u64,
        previous: Pair,
        work: PairMut,
        out: &mut [u8],
    ) -> Result<usize, Refusal> {
        let pictures = [previous.picture, &*work.picture];
        let (columns, rows) = self.checked(format, width, height, &pictures, &[previous.palette, &*work.palette])?;
        let pixels = columns * rows;
        let (mut picture, mut palette) =
            (previous.picture[..pixels].to_vec(), previous.palette[..PALETTE_BYTES].to_vec());
        let shown = PairMut { picture: &mut picture, palette: &mut palette };
        let answer = model.frames.read_frame(bytes, format, width, height, shown).and_then(|()| {
            let next = Pair { picture: &picture, palette: &palette };
            self.store(&self.frame(format, columns, rows, previous, next), out)
        });
        if self.sets_pair(&answer) {
            work.picture[..pixels].copy_from_slice(&picture);
            work.palette[..PALETTE_BYTES].copy_from_slice(&palette);
        }
        answer
    }

    /// "A rewrite's pair holds the next state when done or refused 3, else stays."
    fn sets_pair(&self, answer: &Result<usize, Refusal>) -> bool {
        !matches!(answer, Err(refusal) if refusal.number != number::SHORT_OUTPUT)
    }

    /// The checks 2 and 1.
    fn checked(
        &self,
        format: Format,
        width: u64,
        height: u64,
        pictures: &[&[u8]],
        palettes: &[&[u8]],
    ) -> Result<(usize, usize), Refusal> {
        let (columns, rows) = accepted_size(format, width, height)?;
        long_enough(columns * rows, pictures, palettes)?;
        Ok((columns, rows))
    }

    /// 3: "the output is shorter than the bytes to be written".
    fn store(&self, frame: &[u8], out: &mut [u8]) -> Result<usize, Refusal> {
        require(frame.len() <= out.len(), number::SHORT_OUTPUT, 0)?;
        out[..frame.len()].copy_from_slice(frame);
        Ok(frame.len())
    }

    /// "Written from a previous and a next state; the 8 reserved bytes are 0".
    fn frame(&self, format: Format, width: usize, height: usize, previous: Pair, next: Pair) -> Vec<u8> {
        let pixels = width * height;
        let colour = self.colour_chunk(&previous.palette[..PALETTE_BYTES], &next.palette[..PALETTE_BYTES]);
        let picture = self.picture_chunk(format, width, &previous.picture[..pixels], &next.picture[..pixels]);
        let chunks = self.in_order(colour, picture);
        let mut bytes = Vec::new();
        push_size(&mut bytes, FRAME_HEADER + chunks.iter().map(Vec::len).sum::<usize>());
        push_word(&mut bytes, FRAME_TYPE as usize);
        push_word(&mut bytes, chunks.len());
        bytes.extend([0; 8]);
        bytes.extend(chunks.concat());
        bytes
    }

    /// "at most two sub-chunks, colour first, none without a change".
    fn in_order(&self, colour: Option<Vec<u8>>, picture: Option<Vec<u8>>) -> Vec<Vec<u8>> {
        colour.into_iter().chain(picture).collect()
    }

    /// "Colour: kind 4".
    fn colour_chunk(&self, previous: &[u8], next: &[u8]) -> Option<Vec<u8>> {
        let changed: Vec<bool> = previous.chunks(3).zip(next.chunks(3)).map(|(old, new)| old != new).collect();
        let packets = self.colour_packets(&changed);
        if packets.is_empty() {
            return None;
        }
        let mut body = Vec::new();
        push_word(&mut body, packets.len());
        let mut index = 0;
        for (first, after) in packets {
            body.push(as_byte(first - index));
            body.push(as_byte((after - first) % 256));
            body.extend(&next[3 * first..3 * after]);
            index = after;
        }
        Some(sub_chunk(kind::COLOR256, &body))
    }

    /// "one packet for each longest stretch of changed entries".
    fn colour_packets(&self, changed: &[bool]) -> Vec<(usize, usize)> {
        stretches(changed)
    }

    fn picture_chunk(&self, format: Format, width: usize, previous: &[u8], next: &[u8]) -> Option<Vec<u8>> {
        if previous == next {
            return None;
        }
        let full = self.full_chunk(width, next);
        let delta = self.delta_chunk(format, width, previous, next);
        Some(if self.uses_delta(delta.len(), full.len()) { delta } else { full })
    }

    /// "Delta: kind 7"; of an FLI "Their delta is kind 12" (document 02, Req 06).
    fn delta_chunk(&self, format: Format, width: usize, previous: &[u8], next: &[u8]) -> Vec<u8> {
        match format {
            Format::Flc => sub_chunk(kind::SS2, &self.ss2_body(width, previous, next)),
            Format::Fli => sub_chunk(kind::LC, &self.lc_body(width, previous, next)),
        }
    }

    /// "The delta is used when strictly shorter than the full chunk."
    fn uses_delta(&self, delta: usize, full: usize) -> bool {
        delta < full
    }

    /// "Shortest full chunk".
    fn full_chunk(&self, width: usize, next: &[u8]) -> Vec<u8> {
        self.full_chunks(width, next).into_iter().min_by_key(Vec::len).expect("COPY is always there")
    }

    /// "BLACK if the picture is all 0; COPY; BRUN"; "ties go to BLACK, BRUN, COPY".
    fn full_chunks(&self, width: usize, next: &[u8]) -> Vec<Vec<u8>> {
        let is_black = next.iter().all(|pixel| *pixel == 0);
        let black = is_black.then(|| sub_chunk(kind::BLACK, &[]));
        let (brun, copy) = (sub_chunk(kind::BRUN, &self.brun_body(width, next)), sub_chunk(kind::COPY, next));
        black.into_iter().chain([brun, copy]).collect()
    }

    /// "BRUN with each row's packets of least total bytes". Rows that are equal have the same packets, and are searched once.
    fn brun_body(&self, width: usize, next: &[u8]) -> Vec<u8> {
        let mut body = Vec::new();
        let mut searched = HashMap::new();
        for row in next.chunks(width) {
            let packets: &Vec<BrunPacket> = searched.entry(row).or_insert_with(|| self.brun_row(row));
            body.push(self.ignored_byte(packets.len()));
            body.extend(packets.iter().flat_map(|packet| packet.stored(row)));
        }
        body
    }

    /// "The ignored byte is the packet count, or 255 if less."
    fn ignored_byte(&self, packets: usize) -> u8 {
        packets.min(255) as u8
    }

    /// The packets of least total bytes, by a plain dynamic program from the row's end to its front.
    fn brun_row(&self, row: &[u8]) -> Vec<BrunPacket> {
        let mut least = vec![0; row.len() + 1];
        let mut first = Vec::with_capacity(row.len());
        for x in (0..row.len()).rev() {
            let (total, packet) = self.first_packet(row, x, &least);
            least[x] = total;
            first.push(packet);
        }
        first.reverse();
        follow(&first)
    }

    /// "Ties within a row, left to right: among first packets that begin a least encoding" .. Gives that encoding's
    /// bytes and the packet that begins it at column `x`.
    fn first_packet(&self, row: &[u8], x: usize, least: &[usize]) -> (usize, BrunPacket) {
        let (most_repeated, most_copied) = self.most_brun();
        let longer = |longer: usize, shorter: usize| self.prefers_longer(longer, shorter);
        let equal = equal_pixels(row, x).min(most_repeated);
        let (repeat, repeated) = least_total(equal, |count| 2 + least[x + count], longer);
        let left = (row.len() - x).min(most_copied);
        let (copy, copied) = least_total(left, |count| 1 + count + least[x + count], longer);
        if self.prefers_repeat(repeat, copy) {
            (repeat, BrunPacket { x, count: repeated, repeats: true })
        } else {
            (copy, BrunPacket { x, count: copied, repeats: false })
        }
    }

    /// .. "a repeat before a copy", ..
    fn prefers_repeat(&self, repeat: usize, copy: usize) -> bool {
        repeat <= copy
    }

    /// .. "then the longest".
    fn prefers_longer(&self, longer: usize, shorter: usize) -> bool {
        longer <= shorter
    }

    /// The most pixels that a BRUN packet repeats, and the most that it copies.
    fn most_brun(&self) -> (usize, usize) {
        (MOST_REPEATED, MOST_COPIED)
    }

    /// Document 02, Req 03: "find it in at most 16 turns for each pixel of the row .. the search gives its count of turns
    /// back". A row that no picture has is refused as its size is.
    fn search_row(&self, row: &[u8]) -> Result<Searched, Refusal> {
        let (pixels, _) = accepted_size(Format::Flc, row.len() as u64, 1)?;
        let bytes = self.brun_row(row).iter().map(|packet| packet.stored(row).len()).sum();
        Ok(Searched { bytes, turns: self.turns(pixels) })
    }

    /// What the codec promises of its own search: a turn for each pixel but the last, and 128 for each 128 of these.
    fn turns(&self, pixels: usize) -> usize {
        (pixels - 1) + (pixels - 1) / 128 * 128
    }

    /// "Delta: kind 7. Only rows with a change, one skip word before each gap, none after the last."
    fn ss2_body(&self, width: usize, previous: &[u8], next: &[u8]) -> Vec<u8> {
        let mut lines = Vec::new();
        let (mut count, mut gap) = (0, 0);
        for (old, new) in previous.chunks(width).zip(next.chunks(width)) {
            if old == new {
                gap += 1;
                continue;
            }
            push_row_skip(&mut lines, gap);
            lines.extend(self.ss2_line(old, new));
            count += 1;
            gap = 0;
        }
        let mut body = Vec::new();
        push_word(&mut body, count);
        body.extend(lines);
        body
    }

    fn ss2_line(&self, old: &[u8], new: &[u8]) -> Vec<u8> {
        let mut line = self.last_pixel_word(old, new);
        let packets = self.delta_packets(PAIR, old, new);
        push_word(&mut line, packets.len());
        line.extend(packets.concat());
        line
    }

    /// "An odd width's last column uses the last-pixel word, if changed."
    fn last_pixel_word(&self, old: &[u8], new: &[u8]) -> Vec<u8> {
        let (mut word, last) = (Vec::new(), new.len() - 1);
        if new.len() % 2 == 1 && old[last] != new[last] {
            push_word(&mut word, 0x8000 | new[last] as usize);
        }
        word
    }

    /// An FLI's delta: "kind 12 in Req 04's form: rows from the first changed to the last, a row without change having count
    /// 0" (document 02, Req 06).
    fn lc_body(&self, width: usize, previous: &[u8], next: &[u8]) -> Vec<u8> {
        let rows: Vec<(&[u8], &[u8])> = previous.chunks(width).zip(next.chunks(width)).collect();
        let (first, after) = self.lc_rows(&rows);
        let mut body = Vec::new();
        push_word(&mut body, first);
        push_word(&mut body, after - first);
        for (old, new) in &rows[first..after] {
            let packets = self.delta_packets(PIXEL, old, new);
            body.push(as_byte(packets.len()));
            body.extend(packets.concat());
        }
        body
    }

    /// The first changed row, and the row after the last.
    fn lc_rows(&self, rows: &[(&[u8], &[u8])]) -> (usize, usize) {
        let changed = |(old, new): &(&[u8], &[u8])| old != new;
        let (first, last) = (rows.iter().position(changed), rows.iter().rposition(changed));
        first.zip(last).map_or((0, 0), |(first, last)| (first, last + 1))
    }

    /// The packets of a row: of kind 7 "The row is seen as pairs from column 0", of kind 12 each pixel is a unit.
    fn delta_packets(&self, unit: usize, old: &[u8], new: &[u8]) -> Vec<Vec<u8>> {
        let units: Vec<&[u8]> = new.chunks_exact(unit).collect();
        let changed: Vec<bool> =
            old.chunks_exact(unit).zip(&units).map(|(was, is)| self.unit_changed(was, is)).collect();
        let mut packets = Vec::new();
        let mut shown = 0;
        for (first, after) in stretches(&changed) {
            let mut gap = unit * (first - shown);
            while gap > self.most_skipped(unit) {
                packets.push(vec![as_byte(self.most_skipped(unit)), 0]);
                gap -= self.most_skipped(unit);
            }
            packets.extend(self.delta_stretch(gap, &units[first..after]));
            shown = after;
        }
        packets
    }

    /// "a pair is changed if either pixel is".
    fn unit_changed(&self, was: &[u8], is: &[u8]) -> bool {
        was != is
    }

    /// "A gap over 254 pixels is first shortened by packets of skip 254 and type 0"; of kind 12 "gaps over 255 use skip 255,
    /// type 0".
    fn most_skipped(&self, unit: usize) -> usize {
        match unit {
            PAIR => 254,
            _ => 255,
        }
    }

    /// The packets of one stretch of changed units, the first of them after `gap` pixels: "otherwise pairs are copied up to
    /// such a repeat, the stretch's end, or 127"; the same of kind 12's pixels.
    fn delta_stretch(&self, gap: usize, units: &[&[u8]]) -> Vec<Vec<u8>> {
        let mut packets = Vec::new();
        let (mut at, mut skip) = (0, gap);
        while at < units.len() {
            let mut packet = vec![as_byte(skip)];
            let repeated = self.repeated(units, at);
            if repeated > 0 {
                packet.push(as_negative(repeated));
                packet.extend(units[at]);
                at += repeated;
            } else {
                let up_to_repeat = (at..units.len()).take_while(|i| self.repeated(units, *i) == 0).count();
                let copied = up_to_repeat.min(self.most_units());
                packet.push(as_byte(copied));
                packet.extend(units[at..at + copied].concat());
                at += copied;
            }
            packets.push(packet);
            skip = 0;
        }
        packets
    }

    /// How many units from `at` on are a repeat, if any: "one repeat, as long as can be, at most 127".
    fn repeated(&self, units: &[&[u8]], at: usize) -> usize {
        let equal = units[at..].iter().take(self.most_units()).take_while(|unit| **unit == units[at]).count();
        if equal >= self.least_repeat(units[at].len()) {
            equal
        } else {
            0
        }
    }

    /// "two or more equal next pairs in a row are one repeat"; of kind 12 "three or more equal ones are repeated".
    fn least_repeat(&self, unit: usize) -> usize {
        match unit {
            PAIR => 2,
            _ => 3,
        }
    }

    /// "at most 127".
    fn most_units(&self) -> usize {
        127
    }
}

pub fn push_word(bytes: &mut Vec<u8>, word: usize) {
    let word = u16::try_from(word).expect("a word of the house form fits 16 bits");
    bytes.extend(word.to_le_bytes());
}

fn push_size(bytes: &mut Vec<u8>, size: usize) {
    let size = u32::try_from(size).expect("a size of the house form fits 32 bits");
    bytes.extend(size.to_le_bytes());
}

pub fn as_byte(number: usize) -> u8 {
    u8::try_from(number).expect("a number of the house form fits a byte")
}

/// Minus `number`, as a signed byte is stored.
fn as_negative(number: usize) -> u8 {
    as_byte(256 - number)
}

pub fn sub_chunk(kind: u16, body: &[u8]) -> Vec<u8> {
    let mut bytes = Vec::new();
    push_size(&mut bytes, CHUNK_HEADER + body.len());
    push_word(&mut bytes, kind as usize);
    bytes.extend(body);
    bytes
}

/// The stretches of true, as (first, after the last).
pub fn stretches(marks: &[bool]) -> Vec<(usize, usize)> {
    let mut found = Vec::new();
    let mut at = 0;
    while at < marks.len() {
        let end = at + marks[at..].iter().take_while(|mark| **mark == marks[at]).count();
        if marks[at] {
            found.push((at, end));
        }
        at = end;
    }
    found
}

/// One skip word for a gap of rows, none for no gap.
pub fn push_row_skip(bytes: &mut Vec<u8>, rows: usize) {
    if rows > 0 {
        push_word(bytes, 65_536 - rows);
    }
}

/// A packet of a BRUN row that begins at column `x`.
#[derive(Clone, Copy, Debug, PartialEq, Eq)]
pub struct BrunPacket {
    pub x: usize,
    pub count: usize,
    pub repeats: bool,
}

impl BrunPacket {
    fn stored(&self, row: &[u8]) -> Vec<u8> {
        if self.repeats {
            vec![as_byte(self.count), row[self.x]]
        } else {
            let mut bytes = vec![as_negative(self.count)];
            bytes.extend(&row[self.x..self.x + self.count]);
            bytes
        }
    }
}

/// The least total of the counts from 1 to `most`, and the count that gives it: a longer one where it is preferred.
fn least_total(
    most: usize,
    total: impl Fn(usize) -> usize,
    prefers_longer: impl Fn(usize, usize) -> bool,
) -> (usize, usize) {
    (2..=most).fold((total(1), 1), |(least, count), longer| match total(longer) {
        candidate if prefers_longer(candidate, least) => (candidate, longer),
        _ => (least, count),
    })
}

/// How many pixels from column `x` on are equal, at most 127.
pub fn equal_pixels(row: &[u8], x: usize) -> usize {
    row[x..].iter().take(MOST_REPEATED).take_while(|pixel| **pixel == row[x]).count()
}

/// Follows the chosen first packets from column 0 to the row's end.
fn follow(first: &[BrunPacket]) -> Vec<BrunPacket> {
    let mut packets = Vec::new();
    let mut x = 0;
    while x < first.len() {
        packets.push(first[x]);
        x += first[x].count;
    }
    packets
}

#[cfg(test)]
mod tests {
    use super::*;
    use crate::model::MODEL;

    const GREY: [u8; PALETTE_BYTES] = [9; PALETTE_BYTES];

    fn packets_of(row: &[u8]) -> Vec<u8> {
        Document.brun_row(row).iter().flat_map(|packet| packet.stored(row)).collect()
    }

    fn written(width: usize, previous: &[u8], next: &[u8]) -> Vec<u8> {
        written_with(width, previous, &GREY, next, &GREY)
    }

    fn written_with(width: usize, previous: &[u8], old: &[u8], next: &[u8], new: &[u8]) -> Vec<u8> {
        let mut out = vec![0xEE; 70_000];
        let from = Pair { picture: previous, palette: old };
        let to = Pair { picture: next, palette: new };
        let height = previous.len() / width;
        let length = Document
            .write_frame(Format::Flc, width as u64, height as u64, from, to, &mut out)
            .expect("the room is large");
        assert!(out[length..].iter().all(|byte| *byte == 0xEE));
        out.truncate(length);
        out
    }

    /// Every way to pack a row, to its least cost.
    fn least_of_all_ways(row: &[u8]) -> usize {
        if row.is_empty() {
            return 0;
        }
        let repeats = (1..=row.len()).take_while(|n| row[..*n].iter().all(|pixel| *pixel == row[0]));
        let copies = 1..=row.len();
        let best_repeat = repeats.map(|n| 2 + least_of_all_ways(&row[n..])).min();
        let best_copy = copies.map(|n| 1 + n + least_of_all_ways(&row[n..])).min();
        best_repeat.into_iter().chain(best_copy).min().expect("a row has packets")
    }

    #[test]
    fn rows_of_document_01() {
        assert_eq!(packets_of(&[1, 1, 2]), [0x02, 1, 1, 2]);
        assert_eq!(packets_of(&[1, 2, 2, 3]), [0xFC, 1, 2, 2, 3]);
        assert_eq!(packets_of(&[9; 130]), [0x7F, 9, 0x03, 9]);
        let no_neighbours_equal: Vec<u8> = (0..129).collect();
        assert_eq!(packets_of(&no_neighbours_equal).len(), 131);
        assert_eq!(packets_of(&no_neighbours_equal)[..3], [1, 0, 0x80]);
    }

    #[test]
    fn short_rows_cost_the_least_of_all_ways() {
        for length in 1..=7 {
            for code in 0..3usize.pow(length) {
                let row: Vec<u8> = (0..length).map(|i| (code / 3usize.pow(i) % 3) as u8).collect();
                assert_eq!(packets_of(&row).len(), least_of_all_ways(&row), "row {row:?}");
            }
        }
    }

    #[test]
    fn an_odd_last_column_takes_the_last_pixel_word() {
        let previous: Vec<u8> = (1..=101).collect();
        let mut next = previous.clone();
        next[100] = 200;
        assert_eq!(written(101, &previous, &next)[16..], [12, 0, 0, 0, 7, 0, 1, 0, 200, 0x80, 0, 0]);
    }

    #[test]
    fn gaps_over_254_pixels_are_shortened() {
        let previous: Vec<u8> = (0..320).map(|x| (x % 251) as u8).collect();
        let delta_of = |column: usize| {
            let mut next = previous.clone();
            next[column] = 255;
            written(320, &previous, &next)[22..].to_vec()
        };
        assert_eq!(delta_of(254), [1, 0, 1, 0, 254, 1, 255, 4]);
        assert_eq!(delta_of(256), [1, 0, 2, 0, 254, 0, 2, 1, 255, 6]);
    }

    #[test]
    fn pairs_past_127_start_anew() {
        let ss2_body = |previous: &[u8], next: &[u8]| Document.ss2_body(320, previous, next);
        let previous = [0; 320];
        let mut next = [0; 320];
        next[..256].fill(5);
        next[256..258].copy_from_slice(&[6, 7]);
        let body = ss2_body(&previous, &next);
        assert_eq!(body, [1, 0, 2, 0, 0, 0x81, 5, 5, 0, 2, 5, 5, 6, 7]);
    }

    #[test]
    fn rows_without_a_change_are_skipped() {
        let ss2_body = |previous: &[u8], next: &[u8]| Document.ss2_body(2, previous, next);
        let next = [0, 0, 1, 2, 0, 0, 0, 0, 3, 4];
        let expected = [2, 0, 0xFF, 0xFF, 1, 0, 0, 1, 1, 2, 0xFE, 0xFF, 1, 0, 0, 1, 3, 4];
        assert_eq!(ss2_body(&[0; 10], &next), expected);
        assert_eq!(ss2_body(&next, &[0, 0, 1, 9, 0, 0, 0, 0, 3, 4]), [1, 0, 0xFF, 0xFF, 1, 0, 0, 1, 1, 9]);
    }

    /// The packets of a row of kind 12 that is 0 before, with the count in front of them.
    fn lc_row(next: &[u8]) -> Vec<u8> {
        let body = Document.lc_body(next.len(), &vec![0; next.len()], next);
        assert_eq!(body[..4], [0, 0, 1, 0]);
        body[4..].to_vec()
    }

    /// So many zeros, and then these pixels.
    fn after(gap: usize, pixels: &[u8]) -> Vec<u8> {
        [&vec![0; gap], pixels].concat()
    }

    #[test]
    fn gaps_over_255_pixels_are_shortened_in_kind_12() {
        assert_eq!(lc_row(&after(254, &[9])), [1, 254, 1, 9]);
        assert_eq!(lc_row(&after(255, &[9])), [1, 255, 1, 9]);
        assert_eq!(lc_row(&after(256, &[9])), [2, 255, 0, 1, 1, 9]);
        assert_eq!(lc_row(&after(300, &[9])), [2, 255, 0, 45, 1, 9]);
        assert_eq!(lc_row(&after(1, &[8, 0, 9])), [2, 1, 1, 8, 1, 1, 9]);
        assert_eq!(lc_row(&[&[8][..], &[0; 256], &[9]].concat()), [3, 0, 1, 8, 255, 0, 1, 1, 9]);
    }

    #[test]
    fn three_equal_pixels_are_repeated_in_kind_12() {
        assert_eq!(lc_row(&[5; 2]), [1, 0, 2, 5, 5]);
        assert_eq!(lc_row(&[5; 3]), [1, 0, 0xFD, 5]);
        assert_eq!(lc_row(&[5; 127]), [1, 0, 0x81, 5]);
        assert_eq!(lc_row(&[5; 128]), [2, 0, 0x81, 5, 0, 1, 5]);
        assert_eq!(lc_row(&[5; 129]), [2, 0, 0x81, 5, 0, 2, 5, 5]);
        assert_eq!(lc_row(&[5; 130]), [2, 0, 0x81, 5, 0, 0xFD, 5]);
        assert_eq!(lc_row(&[1, 5, 5, 5, 2, 2]), [3, 0, 1, 1, 0, 0xFD, 5, 0, 2, 2, 2]);
        assert_eq!(lc_row(&[&[5; 128][..], &[6, 7, 7, 7]].concat()), [3, 0, 0x81, 5, 0, 2, 5, 6, 0, 0xFD, 7]);
        let slope: Vec<u8> = (1..=128).collect();
        assert_eq!(lc_row(&slope), [&[2, 0, 127], &slope[..127], &[0, 1, 128]].concat());
    }

    #[test]
    fn equal_pixels_that_stay_are_no_part_of_a_repeat() {
        let body = Document.lc_body(5, &[5, 0, 0, 5, 5], &[5, 5, 5, 5, 5]);
        assert_eq!(body, [0, 0, 1, 0, 1, 1, 2, 5, 5]);
    }

    #[test]
    fn rows_from_the_first_changed_to_the_last() {
        let next = [0, 0, 1, 2, 0, 0, 0, 0, 3, 4, 0, 0];
        let expected = [1, 0, 4, 0, 1, 0, 2, 1, 2, 0, 0, 1, 0, 2, 3, 4];
        assert_eq!(Document.lc_body(2, &[0; 12], &next), expected);
        assert_eq!(Document.lc_body(2, &[0; 12], &[0, 0, 0, 0, 0, 0, 0, 0, 0, 0, 0, 1]), [5, 0, 1, 0, 1, 1, 1, 1]);
    }

    #[test]
    fn a_row_of_most_packets_fits_its_count() {
        for width in [319, 320] {
            let every_second: Vec<u8> = (0..width).map(|x| (x % 2 == 0).into()).collect();
            assert_eq!(lc_row(&every_second)[0], 160);
        }
    }

    #[test]
    fn an_fli_takes_kind_12_where_it_is_strictly_shorter() {
        let palette = GREY.to_vec();
        let chunk_of = |previous: &[u8], next: &[u8]| {
            let pair = |picture| Pair { picture, palette: &palette };
            MODEL.house_frame(Format::Fli, 320, 200, pair(previous), pair(next))[16..].to_vec()
        };
        let (flat, noise) = (vec![7; 64_000], (0..64_000).map(|at| (at % 251) as u8).collect::<Vec<u8>>());
        let mut one = noise.clone();
        one[320 * 199 + 319] = 255;
        assert_eq!(chunk_of(&noise, &one), [16, 0, 0, 0, 12, 0, 199, 0, 1, 0, 2, 255, 0, 64, 1, 255]);
        assert_eq!(chunk_of(&noise, &vec![0; 64_000]), [6, 0, 0, 0, 13, 0]);
        // A flat row takes 7 bytes of BRUN, 1400 in all, and 10 of kind 12: 133 changed rows of 199 come out even.
        for (rows, kind) in [(198, kind::LC), (199, kind::BRUN), (200, kind::BRUN)] {
            let mut previous = flat.clone();
            previous[..320 * 132].fill(9);
            previous[320 * (rows - 1)..320 * rows].fill(9);
            let body = Document.lc_body(320, &previous, &flat).len();
            assert_eq!((body, u16::from(chunk_of(&previous, &flat)[4])), (1_201 + rows, kind), "{rows} rows");
        }
    }

    #[test]
    fn colours_take_a_packet_for_each_stretch() {
        let mut new = GREY;
        new[0] = 1;
        new[5] = 2;
        new[767] = 3;
        let frame = written_with(1, &[0], &GREY, &[0], &new);
        assert_eq!(frame[16..], [21, 0, 0, 0, 4, 0, 2, 0, 0, 2, 1, 9, 9, 9, 9, 2, 253, 1, 9, 9, 3]);
        let all = written_with(1, &[0], &GREY, &[0], &[7; PALETTE_BYTES]);
        assert_eq!(all.len(), 16 + 6 + 2 + 2 + 768);
        assert_eq!(all[22..26], [1, 0, 0, 0]);
    }

    #[test]
    fn black_goes_before_brun_before_copy() {
        assert_eq!(written(1, &[1], &[0])[16..], [6, 0, 0, 0, 13, 0]);
        assert_eq!(written(3, &[0; 3], &[5; 3])[16..], [9, 0, 0, 0, 15, 0, 1, 3, 5]);
        assert_eq!(written(2, &[0; 2], &[5; 2])[16..], [8, 0, 0, 0, 16, 0, 5, 5]);
    }

    #[test]
    fn writing_refuses_in_order() {
        let shown = |picture, palette| Pair { picture, palette };
        let numbered = |answer: Result<usize, Refusal>| answer.map_err(|refusal| (refusal.number, refusal.place));
        let right = shown(&[0; 1], &GREY);
        assert_eq!(numbered(Document.write_frame(Format::Flc, 0, 1, shown(&[], &[]), right, &mut [])), Err((2, 0)));
        assert_eq!(numbered(Document.write_frame(Format::Flc, 1, 1, shown(&[], &GREY), right, &mut [])), Err((1, 0)));
        assert_eq!(
            numbered(Document.write_frame(Format::Flc, 1, 1, right, shown(&[0], &GREY[1..]), &mut [])),
            Err((1, 0))
        );
        assert_eq!(numbered(Document.write_frame(Format::Flc, 1, 1, right, right, &mut [0; 15])), Err((3, 0)));
        assert_eq!(numbered(Document.write_frame(Format::Flc, 1, 1, right, right, &mut [0; 16])), Ok(16));
    }

    #[test]
    fn a_rewrite_sets_its_pair_when_done_or_short_of_room() {
        let frame = [24, 0, 0, 0, 0xFA, 0xF1, 1, 0, 1, 2, 3, 4, 5, 6, 7, 8, 8, 0, 0, 0, 16, 0, 3, 99];
        let rewritten = |bytes: &[u8], room: usize| {
            let (mut picture, mut palette, mut out) = ([8; 2], [8; 769], vec![0; room]);
            let work = PairMut { picture: &mut picture, palette: &mut palette };
            let answer = Document.rewrite_frame(
                &MODEL,
                bytes,
                Format::Flc,
                1,
                1,
                Pair { picture: &[0], palette: &GREY },
                work,
                &mut out,
            );
            (answer.map_err(|refusal| refusal.number), picture, palette[0], palette[768], out)
        };
        let house = [23, 0, 0, 0, 0xFA, 0xF1, 1, 0, 0, 0, 0, 0, 0, 0, 0, 0, 7, 0, 0, 0, 16, 0, 3];
        assert_eq!(rewritten(&frame, 23), (Ok(23), [3, 8], 9, 8, house.to_vec()));
        assert_eq!(rewritten(&frame, 22), (Err(3), [3, 8], 9, 8, vec![0; 22]));
        assert_eq!(rewritten(&frame[..23], 0), (Err(4), [8, 8], 8, 8, vec![]));
        assert_eq!(rewritten(&house, 23).4, house);
    }
}
