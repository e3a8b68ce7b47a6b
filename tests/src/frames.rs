//! Builds frames: valid sub-chunks of every kind with all their freedoms, or with a slip past a limit.

use crate::model::decode::{has_data, Data, Frames, Screen};
use crate::model::{kind, Document, Format, CHUNK_HEADER, FRAME_HEADER, FRAME_TYPE, PALETTE_BYTES, PREFIX_TYPE};
use crate::rng::Rng;

/// The kinds that a frame may hold, an unknown one (0) among them.
pub const KINDS: [u16; 9] =
    [kind::COLOR256, kind::SS2, kind::COLOR, kind::LC, kind::BLACK, kind::BRUN, kind::COPY, kind::PSTAMP, UNKNOWN];

/// Those that a frame of an FLI may hold, and those that it may not.
pub const FLI_KINDS: [u16; 7] = [kind::COLOR256, kind::COLOR, kind::LC, kind::BLACK, kind::BRUN, kind::COPY, UNKNOWN];
pub const NOT_IN_FLI: [u16; 2] = [kind::SS2, kind::PSTAMP];

/// Stands for any kind that document 01 doesn't name.
pub const UNKNOWN: u16 = 0;

const UNKNOWN_KINDS: [u16; 16] =
    [0, 1, 3, 5, 6, 8, 14, 17, 19, 0x0104, 0x0107, 0x010F, 0x0112, 0x8007, FRAME_TYPE, PREFIX_TYPE];

pub fn is_known(kind: u16) -> bool {
    KINDS.contains(&kind) && kind != UNKNOWN
}

/// How many bytes are tried behind a body's data, of which two and more are refused in a kind that is read.
pub const SPARE: [usize; 9] = [0, 1, 2, 2, 3, 9, 40, 256, 257];

/// A sub-chunk before its header is written.
#[derive(Clone)]
pub struct Chunk {
    pub kind: u16,
    pub body: Vec<u8>,
}

impl Chunk {
    /// How many bytes of the body are data, if it has no fault of its own; all of a kind that is stepped over.
    pub fn data_length(&self, width: usize, height: usize) -> Option<usize> {
        if !has_data(self.kind) {
            return Some(self.body.len());
        }
        let (picture, palette) = (vec![0; width * height], vec![0; PALETTE_BYTES]);
        let mut data = Data { rest: &self.body };
        Document.act(self.kind, &mut data, &mut Screen { width, height, picture, palette }).ok()?;
        Some(self.body.len() - data.rest.len())
    }

    /// Leaves so many of the bytes behind the data, where there are more.
    pub fn trim(&mut self, width: usize, height: usize, spare: usize) {
        if let Some(length) = self.data_length(width, height) {
            self.body.truncate(length + spare);
        }
    }
}

/// A whole frame before it is written.
#[derive(Clone, Default)]
pub struct Frame {
    pub reserved: [u8; 8],
    pub chunks: Vec<Chunk>,
    /// Bytes inside the frame's size, after its last sub-chunk.
    pub spare: Vec<u8>,
    /// Bytes after the frame's size.
    pub after: Vec<u8>,
}

impl Frame {
    pub fn bytes(&self) -> Vec<u8> {
        let inside: usize = self.chunks.iter().map(|chunk| CHUNK_HEADER + chunk.body.len()).sum();
        let mut bytes = Vec::new();
        bytes.extend(((FRAME_HEADER + inside + self.spare.len()) as u32).to_le_bytes());
        bytes.extend(FRAME_TYPE.to_le_bytes());
        bytes.extend((self.chunks.len() as u16).to_le_bytes());
        bytes.extend(self.reserved);
        for chunk in &self.chunks {
            bytes.extend(((CHUNK_HEADER + chunk.body.len()) as u32).to_le_bytes());
            bytes.extend(chunk.kind.to_le_bytes());
            bytes.extend(&chunk.body);
        }
        bytes.extend(&self.spare);
        bytes.extend(&self.after);
        bytes
    }
}

/// The bytes of a frame that holds these sub-chunks and nothing more.
pub fn frame_of(chunks: &[Chunk]) -> Vec<u8> {
    Frame { chunks: chunks.to_vec(), ..Frame::default() }.bytes()
}

/// A frame for each refusal that a frame of an FLI can meet, with its number: behind a BLACK and a colour, so that it has done
/// something before.
pub fn faulty_fli_frames() -> Vec<(u32, Vec<u8>)> {
    let of = |kind, body: &[u8]| Chunk { kind, body: body.to_vec() };
    let behind = |chunk: Chunk| frame_of(&[of(kind::BLACK, &[]), of(kind::COLOR256, &[1, 0, 7, 1, 1, 2, 3]), chunk]);
    let mut frames: Vec<(u32, Vec<u8>)> = [
        (7, kind::COPY, &[9, 9][..]),
        (7, kind::LC, &[0, 0, 1, 0]),
        (8, kind::BRUN, &[1, 0, 9]),
        (9, kind::BRUN, &[3, 127, 9, 127, 9, 67, 9]),
        (9, kind::LC, &[0, 0, 1, 0, 1, 255, 66]),
        (10, kind::LC, &[200, 0, 1, 0, 0]),
        (12, kind::COLOR256, &[1, 0, 255, 2, 1, 2, 3, 4, 5, 6]),
        (13, kind::COLOR, &[1, 0, 0, 1, 0, 64, 0]),
        (19, kind::COLOR, &[0, 0, 9, 9]),
        (20, kind::SS2, &[0, 0]),
        (20, kind::PSTAMP, &[]),
    ]
    .map(|(number, kind, body)| (number, behind(of(kind, body))))
    .to_vec();
    let whole = frame_of(&[of(kind::BLACK, &[])]);
    let with = |at: usize, byte: u8| {
        let mut frame = whole.clone();
        frame[at] = byte;
        frame
    };
    frames.extend([(4, with(6, 2)), (5, with(4, 0)), (6, with(0, 15)), (6, with(16, 5))]);
    frames
}

/// Makes bodies for one size of picture.
pub struct Maker<'a> {
    pub rng: &'a mut Rng,
    pub format: Format,
    pub width: usize,
    pub height: usize,
    /// How rarely a limit is passed by one, or a rule broken: once in so many turns, or never.
    pub slips: Option<usize>,
}

impl Maker<'_> {
    /// A frame of none to several sub-chunks of any kind.
    pub fn frame(&mut self) -> Frame {
        let count = match self.rng.below(20) {
            0 => 0,
            1..=11 => 1,
            12..=15 => 2,
            16..=18 => self.rng.between(3, 4),
            _ if self.rng.once_in(40) => return self.frame_of_many(),
            _ => self.rng.between(5, 9),
        };
        let kinds: Vec<u16> = (0..count).map(|_| self.kind()).collect();
        self.frame_of_kinds(&kinds)
    }

    /// A kind that the format has; in an FLI a slip gives one that it hasn't.
    pub fn kind(&mut self) -> u16 {
        let kinds: &[u16] = match self.format {
            Format::Flc => &KINDS,
            Format::Fli => match self.slip() {
                true => &NOT_IN_FLI,
                false => &FLI_KINDS,
            },
        };
        self.rng.pick(kinds)
    }

    /// A frame of more sub-chunks than one byte can count.
    fn frame_of_many(&mut self) -> Frame {
        let count = self.rng.between(250, 600);
        let many = match self.format {
            Format::Flc => [kind::BLACK, kind::PSTAMP, UNKNOWN],
            Format::Fli => [kind::BLACK, UNKNOWN, UNKNOWN],
        };
        let kinds: Vec<u16> = (0..count).map(|_| self.rng.pick(&many)).collect();
        self.frame_of_kinds(&kinds)
    }

    pub fn frame_of_kinds(&mut self, kinds: &[u16]) -> Frame {
        let chunks = kinds.iter().map(|kind| self.chunk(*kind)).collect();
        let mut reserved = [0; 8];
        if self.rng.once_in(2) {
            self.rng.fill(&mut reserved);
        }
        Frame { reserved, chunks, spare: self.spare_bytes(), after: self.spare_bytes() }
    }

    pub fn chunk(&mut self, kind: u16) -> Chunk {
        let mut body = match kind {
            kind::COLOR256 => self.colour(u8::MAX),
            kind::COLOR => self.colour(63),
            kind::SS2 => self.ss2(),
            kind::LC => self.lc(),
            kind::BLACK => Vec::new(),
            kind::BRUN => self.brun(),
            kind::COPY => self.rng.bytes(self.width * self.height),
            _ => self.stepped_over(),
        };
        body.extend(if has_data(kind) { self.pad() } else { self.spare_bytes() });
        self.cut_by_slip(&mut body);
        let kind = if kind == UNKNOWN { self.unknown_kind() } else { kind };
        Chunk { kind, body }
    }

    /// The spare byte that may stand behind a body's data, or none; a slip gives more.
    fn pad(&mut self) -> Vec<u8> {
        let length = match self.rng.below(8) {
            _ if self.slip() => self.rng.pick(&SPARE[2..]),
            0 | 1 => 1,
            _ => 0,
        };
        self.rng.bytes(length)
    }

    /// Bytes that a reader ignores; seldom any.
    fn spare_bytes(&mut self) -> Vec<u8> {
        if !self.rng.once_in(4) {
            return Vec::new();
        }
        let length = self.rng.between(1, 9);
        self.rng.bytes(length)
    }

    fn cut_by_slip(&mut self, body: &mut Vec<u8>) {
        if self.slip() {
            let cut = self.rng.between(1, 3).min(body.len());
            body.truncate(body.len() - cut);
        }
    }

    fn unknown_kind(&mut self) -> u16 {
        let drawn = match self.rng.below(2) {
            0 => self.rng.pick(&UNKNOWN_KINDS),
            _ => self.rng.draw() as u16,
        };
        if is_known(drawn) {
            drawn | 0x0100
        } else {
            drawn
        }
    }

    /// The body of a postage stamp or an unknown chunk: anything, at times what looks like chunks.
    fn stepped_over(&mut self) -> Vec<u8> {
        match self.rng.below(4) {
            0 => Vec::new(),
            1 => frame_of(&[Chunk { kind: kind::BLACK, body: vec![] }]),
            _ => {
                let length = self.rng.between(1, 40);
                self.rng.bytes(length)
            }
        }
    }

    fn slip(&mut self) -> bool {
        match self.slips {
            Some(turns) => self.rng.once_in(turns),
            None => false,
        }
    }

    /// A number from 0 to `limit`, often at an end; a slip gives one more.
    fn up_to(&mut self, limit: usize) -> usize {
        if self.slip() {
            return limit + 1;
        }
        match self.rng.below(6) {
            0 => 0,
            1 => limit,
            2 => self.rng.below(limit.min(4) + 1),
            _ => self.rng.below(limit + 1),
        }
    }

    /// A skip that leaves something over most of the time.
    fn skip_up_to(&mut self, limit: usize) -> usize {
        match self.rng.below(3) {
            0 => 0,
            1 => self.rng.below(limit.min(6) + 1),
            _ => self.up_to(limit),
        }
    }

    fn packets_wanted(&mut self) -> usize {
        match self.rng.below(40) {
            0 => self.rng.between(5, 40),
            1..=12 => 1,
            13..=16 => 0,
            _ => self.rng.between(1, 4),
        }
    }

    fn colour(&mut self, top: u8) -> Vec<u8> {
        let wanted = if self.rng.once_in(30) { 256 } else { self.packets_wanted() };
        let mut packets = Vec::new();
        let mut count: u16 = 0;
        let mut index = 0;
        while usize::from(count) < wanted && index < 256 {
            let skip = if wanted == 256 { 0 } else { self.skip_up_to(255 - index) };
            index += skip;
            let colours = if wanted == 256 { 1 } else { 1 + self.up_to(255_usize.saturating_sub(index)) };
            packets.extend([skip as u8, colours as u8]);
            packets.extend(self.levels(3 * colours, top));
            index += colours;
            count += 1;
        }
        if self.slip() {
            count += 1;
        }
        [count.to_le_bytes().to_vec(), packets].concat()
    }

    fn levels(&mut self, length: usize, top: u8) -> Vec<u8> {
        let mut levels = self.rng.bytes(length);
        if top < u8::MAX {
            levels.iter_mut().for_each(|level| *level %= top + 1);
            if self.slip() {
                let at = self.rng.below(length);
                levels[at] = self.rng.pick(&[top + 1, u8::MAX, 0x80]);
            }
        }
        levels
    }

    fn brun(&mut self) -> Vec<u8> {
        let mut body = Vec::new();
        for _ in 0..self.height {
            body.push(self.rng.byte());
            self.brun_row(&mut body);
        }
        body
    }

    fn brun_row(&mut self, body: &mut Vec<u8>) {
        let longest = if self.rng.once_in(20) { 1 } else { self.width };
        let mut left = self.width;
        while left > 0 {
            let repeats = self.rng.once_in(2);
            let most = left.min(longest).min(if repeats { 127 } else { 128 });
            let count = 1 + self.up_to(most - 1);
            if self.slip() {
                body.push(0);
            }
            if repeats {
                body.extend([count as u8, self.rng.byte()]);
            } else {
                body.push(0_u8.wrapping_sub(count as u8));
                body.extend(self.rng.bytes(count));
            }
            left = left.saturating_sub(count);
        }
    }

    fn lc(&mut self) -> Vec<u8> {
        let first = self.up_to(self.height);
        let rows = self.up_to(self.height.saturating_sub(first));
        let counted = if self.slip() { rows + 1 } else { rows };
        let mut body = Vec::new();
        body.extend((first as u16).to_le_bytes());
        body.extend((counted as u16).to_le_bytes());
        for _ in 0..rows {
            self.lc_row(&mut body);
        }
        body
    }

    fn lc_row(&mut self, body: &mut Vec<u8>) {
        let packets = if self.rng.once_in(60) { 255 } else { self.packets_wanted() };
        body.push(packets as u8);
        self.delta_packets(body, packets, 1);
    }

    fn ss2(&mut self) -> Vec<u8> {
        let wanted = self.up_to(self.height);
        let mut lines = Vec::new();
        let mut count: u16 = 0;
        let mut row = 0;
        while usize::from(count) < wanted && row < self.height {
            row += self.row_skips(&mut lines, row);
            self.words_before_packets(&mut lines);
            self.ss2_packets(&mut lines);
            row += 1;
            count += 1;
        }
        if self.slip() || self.slips_below(row) {
            count += 1;
            lines.extend(self.wrong_word().to_le_bytes());
        }
        [count.to_le_bytes().to_vec(), lines].concat()
    }

    /// Whether a word is to stand below the last row, which seldom comes about by other slips.
    fn slips_below(&mut self, row: usize) -> bool {
        self.slips.is_some() && row >= self.height && self.rng.once_in(2)
    }

    /// Words that skip down, none to several, and how far they lead.
    fn row_skips(&mut self, lines: &mut Vec<u8>, from: usize) -> usize {
        let mut skipped = 0;
        while from + skipped + 1 < self.height && self.rng.once_in(3) {
            let rows = 1 + self.up_to(self.height - from - skipped - 2).min(16_383);
            lines.extend(0_u16.wrapping_sub(rows as u16).to_le_bytes());
            skipped += rows;
        }
        skipped
    }

    /// A last-pixel word with any ignored bits, or none; a slip adds a word that mustn't stand there.
    fn words_before_packets(&mut self, lines: &mut Vec<u8>) {
        let sets_last_pixel = self.rng.once_in(3);
        if sets_last_pixel {
            let ignored_and_pixel = self.rng.draw() as u16 & 0x3FFF;
            lines.extend((0x8000 | ignored_and_pixel).to_le_bytes());
        }
        if self.slip() || self.slips_after_last_pixel(sets_last_pixel) {
            lines.extend(self.wrong_word().to_le_bytes());
        }
    }

    /// Whether a second word is to follow a last-pixel word, which seldom comes about by other slips.
    fn slips_after_last_pixel(&mut self, sets_last_pixel: bool) -> bool {
        self.slips.is_some() && sets_last_pixel && self.rng.once_in(12)
    }

    /// A word with high bits 01, a last-pixel word, a row skip, or a packet count.
    fn wrong_word(&mut self) -> u16 {
        let low = self.rng.draw() as u16;
        match self.rng.below(5) {
            0 => 0x4000 | (low & 0x3FFF),
            1 => 0x8000 | (low & 0x3FFF),
            2 => 0xFFFF,
            3 => 0xC000 | (low & 0x3FFF),
            _ => low & 3,
        }
    }

    fn ss2_packets(&mut self, lines: &mut Vec<u8>) {
        let packets = if self.rng.once_in(60) { self.rng.between(250, 300) } else { self.packets_wanted() };
        lines.extend((packets as u16).to_le_bytes());
        self.delta_packets(lines, packets, 2);
    }

    /// Packets of LC (`unit` 1) or SS2 (`unit` 2), from column 0 on.
    fn delta_packets(&mut self, bytes: &mut Vec<u8>, packets: usize, unit: usize) {
        let mut x = 0;
        for _ in 0..packets {
            let left = self.width.saturating_sub(x);
            let skip = self.skip_up_to(left.min(255));
            let room = left.saturating_sub(skip) / unit;
            x += skip + unit * self.delta_packet(bytes, skip, room, unit);
        }
    }

    /// One packet of at most `room` units; gives how many units it sets.
    fn delta_packet(&mut self, bytes: &mut Vec<u8>, skip: usize, room: usize, unit: usize) -> usize {
        let repeats = self.rng.once_in(2);
        let count = self.up_to(room.min(if repeats { 128 } else { 127 }));
        if repeats && count > 0 {
            bytes.extend([skip as u8, 0_u8.wrapping_sub(count as u8)]);
            bytes.extend(self.rng.bytes(unit));
        } else {
            bytes.extend([skip as u8, count as u8]);
            bytes.extend(self.rng.bytes(unit * count));
        }
        count
    }
}

#[cfg(test)]
mod tests {
    use super::*;
    use crate::model::MODEL;
    use crate::sizes::{right_size, size_of};
    use crate::states::State;

    /// The answer to a frame of this seed.
    fn answer(seed: u64, format: Format, slips: Option<usize>) -> u32 {
        let mut rng = Rng::new(seed);
        let (width, height) = size_of(&mut rng, format, right_size);
        let frame = Maker { rng: &mut rng, format, width, height, slips }.frame();
        let mut shown = State::blank(width * height);
        match MODEL.read_frame(&frame.bytes(), format.number(), width as u64, height as u64, shown.work()) {
            Ok(()) => 0,
            Err(refusal) => refusal.number,
        }
    }

    #[test]
    fn each_fault_of_an_fli_has_its_number() {
        for (number, frame) in faulty_fli_frames() {
            let mut shown = State::blank(64_000);
            let answer = MODEL.read_frame(&frame, 1, 320, 200, shown.work());
            assert_eq!(answer.map_err(|refusal| refusal.number), Err(number));
        }
    }

    #[test]
    fn frames_without_slips_are_accepted() {
        for (format, seeds) in [(Format::Flc, 4_000), (Format::Fli, 300)] {
            for seed in 0..seeds {
                assert_eq!(answer(seed, format, None), 0, "{format:?}, seed {seed}");
            }
        }
    }

    #[test]
    fn slips_reach_every_refusal_of_a_body() {
        for (format, seeds) in [(Format::Flc, 4_000), (Format::Fli, 1_000)] {
            let mut met = [0; 21];
            (0..seeds).for_each(|seed| met[answer(seed, format, Some(12)) as usize] += 1);
            let numbers: &[usize] = match format {
                Format::Flc => &[7, 8, 9, 10, 11, 12, 13, 19],
                Format::Fli => &[7, 8, 9, 10, 12, 13, 19, 20],
            };
            assert!(numbers.iter().all(|number| met[*number] > 0), "{format:?}: met {met:?}");
        }
    }
}
