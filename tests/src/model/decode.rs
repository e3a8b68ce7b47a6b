//! Reading one frame: document 01's "Frames, chunks and rows".

use super::{
    accepted_size, kind, long_enough, number, require, size_at, word_at, Document, Format, Refusal, CHUNK_HEADER,
    FRAME_HEADER, FRAME_TYPE, PALETTE_BYTES,
};
use flic_boundary::PairMut;

const COLOURS: usize = PALETTE_BYTES / 3;
const MOST_LEVEL: u8 = 63;

/// Whether a body of this kind is read; of others any bytes are stepped over.
pub fn has_data(kind: u16) -> bool {
    use kind::*;
    [COLOR256, SS2, COLOR, LC, BLACK, BRUN, COPY].contains(&kind)
}

impl Frames for Document {}

pub trait Frames {
    /// "Single frame: 2, 1, then its bytes from the front." A refusal leaves all lent memory as found.
    fn read_frame(&self, bytes: &[u8], format: Format, width: u64, height: u64, shown: PairMut) -> Result<(), Refusal> {
        let mut screen = self.checked(format, width, height, &shown)?;
        self.play(bytes, format, &mut screen)?;
        shown.picture.copy_from_slice(&screen.picture);
        shown.palette.copy_from_slice(&screen.palette);
        Ok(())
    }

    /// The checks 2 and 1, and copies of what was lent.
    fn checked(&self, format: Format, width: u64, height: u64, shown: &PairMut) -> Result<Screen, Refusal> {
        let (width, height) = accepted_size(format, width, height)?;
        long_enough(width * height, &[shown.picture], &[shown.palette])?;
        Ok(Screen { width, height, picture: shown.picture.to_vec(), palette: shown.palette.to_vec() })
    }

    /// "Then as many sub-chunks as the count says"; "sub-chunks act in file order".
    fn play(&self, bytes: &[u8], format: Format, screen: &mut Screen) -> Result<(), Refusal> {
        let header = self.frame_header(bytes)?;
        let mut place = FRAME_HEADER;
        for _ in 0..header.count {
            let chunk = self.sub_chunk(&bytes[..header.end], format, place)?;
            let data = &mut Data { rest: &bytes[place + CHUNK_HEADER..place + chunk.size] };
            self.judged(chunk.kind, data, screen).map_err(|number| self.fault(number, place))?;
            place += chunk.size;
        }
        Ok(())
    }

    /// "Header of a chunk: length present (4), type (5, frames only), size too small (6), size too large (4)"; any
    /// fault of the frame header gives place 0.
    fn frame_header(&self, bytes: &[u8]) -> Result<FrameHeader, Refusal> {
        require(bytes.len() >= FRAME_HEADER, number::CUT_SHORT, 0)?;
        let end = size_at(bytes, 0);
        require(word_at(bytes, 4) == FRAME_TYPE, number::WRONG_TYPE, 0)?;
        require(end >= FRAME_HEADER, number::SIZE_TOO_SMALL, 0)?;
        require(end <= bytes.len(), number::CUT_SHORT, 0)?;
        Ok(FrameHeader { end, count: word_at(bytes, 6) })
    }

    /// The sub-chunk that begins at `place`, within the bytes that enclose it. "kind 7 or 18 met is 20, as the sub-chunk's
    /// header is accepted" (document 02, Req 06).
    fn sub_chunk(&self, enclosing: &[u8], format: Format, place: usize) -> Result<SubChunk, Refusal> {
        let rest = &enclosing[place..];
        require(rest.len() >= CHUNK_HEADER, number::CUT_SHORT, place)?;
        let size = size_at(rest, 0);
        require(size >= CHUNK_HEADER, number::SIZE_TOO_SMALL, place)?;
        require(size <= rest.len(), number::CUT_SHORT, place)?;
        let kind = word_at(rest, 4);
        require(self.may_hold(format, kind), number::NOT_IN_FLI, place)?;
        Ok(SubChunk { kind, size })
    }

    /// Of an FLI: "no kinds 7 or 18" (document 02, Req 06).
    fn may_hold(&self, format: Format, kind: u16) -> bool {
        format == Format::Flc || ![kind::SS2, kind::PSTAMP].contains(&kind)
    }

    /// A body's fault is placed at "the offset .. of the chunk header at fault".
    fn fault(&self, number: u32, place: usize) -> Refusal {
        Refusal::new(number, place)
    }

    /// What a sub-chunk does, and then its spare bytes: 19 comes "after all other checks of that sub-chunk and before the
    /// next one" (document 02, Req 05). From here on the error is a refusal's number.
    fn judged(&self, kind: u16, data: &mut Data, screen: &mut Screen) -> Result<(), u32> {
        self.act(kind, data, screen)?;
        self.spare(kind, data.rest.len())
    }

    /// "In kinds 4, 7, 11, 12, 13, 15 and 16 more than one spare byte after the data is refused" (document 02, Req 05).
    fn spare(&self, kind: u16, spare: usize) -> Result<(), u32> {
        if has_data(kind) && spare > 1 {
            return Err(number::SPARE_BYTES);
        }
        Ok(())
    }

    /// "Reading covers kinds 4, 7, 11, 12, 13, 15 and 16. Kind 18 .. and unknown kinds are stepped over."
    fn act(&self, kind: u16, data: &mut Data, screen: &mut Screen) -> Result<(), u32> {
        match kind {
            kind::COLOR256 | kind::COLOR => self.colour(kind, data, screen),
            kind::SS2 => self.ss2(data, screen),
            kind::LC => self.lc(data, screen),
            kind::BLACK => self.black(screen),
            kind::BRUN => self.brun(data, screen),
            kind::COPY => self.copy(data, screen),
            _ => Ok(()),
        }
    }

    /// "4, 11 colour. Packet count (2). Each packet: skip, count .. The index starts at 0, moves by the skip, then by
    /// the count." Checks: "two bytes there (7)", then the packet's.
    fn colour(&self, kind: u16, data: &mut Data, screen: &mut Screen) -> Result<(), u32> {
        let packets = data.word()?;
        let mut index = 0;
        for _ in 0..packets {
            let (skip, count) = data.two()?;
            let first = index + skip as usize;
            index = first + self.colour_count(count);
            self.colour_packet(kind, data, first..index, screen)?;
        }
        Ok(())
    }

    /// "count (0 means 256)".
    fn colour_count(&self, stored: u8) -> usize {
        match stored {
            0 => 256,
            _ => stored as usize,
        }
    }

    /// "three bytes a colour"; "index (12), colours there (7), levels (13, kind 11)".
    fn colour_packet(
        &self,
        kind: u16,
        data: &mut Data,
        entries: std::ops::Range<usize>,
        screen: &mut Screen,
    ) -> Result<(), u32> {
        if entries.end > COLOURS {
            return Err(number::PAST_LAST_COLOUR);
        }
        let stored = data.take(3 * entries.len())?;
        self.levels(kind, stored)?;
        for (component, level) in screen.palette[3 * entries.start..3 * entries.end].iter_mut().zip(stored) {
            *component = self.component(kind, *level);
        }
        Ok(())
    }

    /// 13: "a kind 11 component over 63".
    fn levels(&self, kind: u16, stored: &[u8]) -> Result<(), u32> {
        if kind == kind::COLOR && stored.iter().any(|level| *level > MOST_LEVEL) {
            return Err(number::LEVEL_OVER_63);
        }
        Ok(())
    }

    /// "A 64-level component c becomes 4c plus c divided by 16, rounded down" (document 02, Req 02).
    fn component(&self, kind: u16, level: u8) -> u8 {
        match kind {
            kind::COLOR => level.wrapping_mul(4).wrapping_add(level / 16),
            _ => level,
        }
    }

    /// "13 BLACK sets all pixels 0."
    fn black(&self, screen: &mut Screen) -> Result<(), u32> {
        let pixels = screen.width * screen.height;
        screen.picture[..pixels].fill(0);
        Ok(())
    }

    /// "16 COPY holds width times height pixels."
    fn copy(&self, data: &mut Data, screen: &mut Screen) -> Result<(), u32> {
        let pixels = data.take(screen.width * screen.height)?;
        screen.put(0, 0, pixels);
        Ok(())
    }

    /// "15 BRUN. Every row: one ignored byte, then packets until the width is reached." Checks: "byte there (7), zero
    /// (8), width (9), data (7)".
    fn brun(&self, data: &mut Data, screen: &mut Screen) -> Result<(), u32> {
        for row in 0..screen.height {
            data.byte()?;
            let mut x = 0;
            while x < screen.width {
                let packet = self.brun_type(data.byte()? as i8)?;
                let pixels = self.pixels(&packet, 1, data, x + packet.count, screen.width)?;
                screen.put(row, x, &pixels);
                x += packet.count;
            }
        }
        Ok(())
    }

    /// "A signed type byte: n from 1 to 127 repeats one pixel n times; minus n, to minus 128, copies n pixels."
    fn brun_type(&self, signed: i8) -> Result<Packet, u32> {
        match signed {
            0 => Err(number::EMPTY_BRUN_PACKET),
            _ => Ok(Packet { repeats: signed > 0, count: signed.unsigned_abs() as usize }),
        }
    }

    /// "12 LC. First row (2), row count (2)"; then the rows. Checks: "7, also for each word and row start".
    fn lc(&self, data: &mut Data, screen: &mut Screen) -> Result<(), u32> {
        let (first, count) = (data.word()? as usize, data.word()? as usize);
        self.lc_rows(first, count, screen.height)?;
        for row in first..first + count {
            let start = self.lc_start(data)?;
            self.lc_row(data, screen, row, start)?;
        }
        Ok(())
    }

    /// "if their sum is over the height, 10".
    fn lc_rows(&self, first: usize, count: usize, height: usize) -> Result<(), u32> {
        if first + count > height {
            return Err(number::PAST_HEIGHT);
        }
        Ok(())
    }

    /// "rows begin with the packet count alone .. x starts at 0 and the first packet's skip does the work. A row start
    /// is one byte" (document 02, Req 04).
    fn lc_start(&self, data: &mut Data) -> Result<RowStart, u32> {
        Ok(RowStart { x: 0, packets: data.byte()? })
    }

    fn lc_row(&self, data: &mut Data, screen: &mut Screen, row: usize, start: RowStart) -> Result<(), u32> {
        let mut x = start.x;
        for _ in 0..start.packets {
            x = self.delta_packet(data, screen, row, x, 1)?;
        }
        Ok(())
    }

    /// A packet of LC, whose unit is a pixel, or of SS2, whose unit is a pair: "skip in pixels, signed type". Gives the
    /// column after it.
    fn delta_packet(
        &self,
        data: &mut Data,
        screen: &mut Screen,
        row: usize,
        x: usize,
        unit: usize,
    ) -> Result<usize, u32> {
        let (skip, kind) = data.two()?;
        let from = x + skip as usize;
        let packet = self.delta_type(kind as i8)?;
        let after = from + packet.count * unit;
        let pixels = self.pixels(&packet, unit, data, after, screen.width)?;
        screen.put(row, from, &pixels);
        Ok(after)
    }

    /// "n of 0 or more copies n pixels [pairs], minus n repeats one".
    fn delta_type(&self, signed: i8) -> Result<Packet, u32> {
        Ok(Packet { repeats: signed < 0, count: signed.unsigned_abs() as usize })
    }

    /// "x after skip and pixels (9), data (7)": the pixels of a packet that ends before the column `after`.
    fn pixels(
        &self,
        packet: &Packet,
        unit: usize,
        data: &mut Data,
        after: usize,
        width: usize,
    ) -> Result<Vec<u8>, u32> {
        if after > width {
            return Err(number::PAST_WIDTH);
        }
        Ok(if packet.repeats {
            data.take(unit)?.repeat(packet.count)
        } else {
            data.take(packet.count * unit)?.to_vec()
        })
    }

    /// "7 SS2. Line count (2), starting at row 0." "A packet count ends the line and moves down one row."
    fn ss2(&self, data: &mut Data, screen: &mut Screen) -> Result<(), u32> {
        let lines = data.word()?;
        let mut row = 0;
        for _ in 0..lines {
            row = self.ss2_line(data, screen, row)? + 1;
        }
        Ok(())
    }

    /// The words of one line; "a word that isn't there is 7, before 11, and 11 before 10". Gives the row of its
    /// packets.
    fn ss2_line(&self, data: &mut Data, screen: &mut Screen, first_row: usize) -> Result<usize, u32> {
        let mut line = Line { first_row, row: first_row, height: screen.height, last_pixel: None };
        loop {
            match self.ss2_word(data.word()?, &line)? {
                Ss2Word::SkipDown(rows) => self.skip_down(&mut line, rows)?,
                Ss2Word::LastPixel(pixel) => {
                    line.row_is_there()?;
                    self.last_pixel(screen, line.row, pixel);
                    line.last_pixel = Some(pixel);
                }
                Ss2Word::PacketCount(packets) => {
                    line.row_is_there()?;
                    self.ss2_packets(data, screen, &line, packets)?;
                    return Ok(line.row);
                }
            }
        }
    }

    /// "The two high bits of each word decide what it is: 00 packet count, 10 last pixel .., 11 skip down by the
    /// absolute value as a signed word, 01 refused." 11: "high bits 01, or no packet count after a last-pixel word".
    fn ss2_word(&self, word: u16, line: &Line) -> Result<Ss2Word, u32> {
        match word >> 14 {
            0 => Ok(Ss2Word::PacketCount(word as usize)),
            2 if line.last_pixel.is_none() => Ok(Ss2Word::LastPixel(word as u8)),
            3 if line.last_pixel.is_none() => Ok(Ss2Word::SkipDown((word as i16).unsigned_abs() as usize)),
            _ => Err(number::BAD_SS2_WORD),
        }
    }

    /// "A skip that reaches a row at or past the height .. is refusal 10."
    fn skip_down(&self, line: &mut Line, rows: usize) -> Result<(), u32> {
        line.row += rows;
        line.row_is_there()
    }

    /// "low byte goes to column width - 1, at any width".
    fn last_pixel(&self, screen: &mut Screen, row: usize, pixel: u8) {
        screen.put(row, screen.width - 1, &[pixel]);
    }

    /// "Packets act after the last-pixel word."
    fn ss2_packets(&self, data: &mut Data, screen: &mut Screen, line: &Line, packets: usize) -> Result<(), u32> {
        let mut x = 0;
        for _ in 0..packets {
            x = self.delta_packet(data, screen, line.row, x, 2)?;
        }
        Ok(())
    }
}

pub struct FrameHeader {
    pub end: usize,
    pub count: u16,
}

pub struct SubChunk {
    pub kind: u16,
    pub size: usize,
}

/// What a type byte says.
pub struct Packet {
    pub repeats: bool,
    pub count: usize,
}

/// Where a row of LC begins, and how many packets it has.
pub struct RowStart {
    pub x: usize,
    pub packets: u8,
}

pub enum Ss2Word {
    PacketCount(usize),
    LastPixel(u8),
    SkipDown(usize),
}

/// How far a line has come.
pub struct Line {
    pub first_row: usize,
    pub row: usize,
    pub height: usize,
    pub last_pixel: Option<u8>,
}

impl Line {
    /// "a last-pixel word or packet count that stands on [a row at or past the height], is refusal 10".
    pub fn row_is_there(&self) -> Result<(), u32> {
        if self.row >= self.height {
            return Err(number::PAST_HEIGHT);
        }
        Ok(())
    }
}

/// What is left of a body. Each taking gives 7 where "a chunk's body ends before its data".
pub struct Data<'a> {
    pub rest: &'a [u8],
}

impl<'a> Data<'a> {
    pub fn take(&mut self, count: usize) -> Result<&'a [u8], u32> {
        if count > self.rest.len() {
            return Err(number::BODY_ENDS);
        }
        let (taken, rest) = self.rest.split_at(count);
        self.rest = rest;
        Ok(taken)
    }

    fn byte(&mut self) -> Result<u8, u32> {
        Ok(self.take(1)?[0])
    }

    fn two(&mut self) -> Result<(u8, u8), u32> {
        let taken = self.take(2)?;
        Ok((taken[0], taken[1]))
    }

    fn word(&mut self) -> Result<u16, u32> {
        let (low, high) = self.two()?;
        Ok(u16::from_le_bytes([low, high]))
    }
}

/// Copies of the whole lent slices, on which a frame is tried out.
pub struct Screen {
    pub width: usize,
    pub height: usize,
    pub picture: Vec<u8>,
    pub palette: Vec<u8>,
}

impl Screen {
    fn put(&mut self, row: usize, x: usize, pixels: &[u8]) {
        let start = row * self.width + x;
        self.picture[start..start + pixels.len()].copy_from_slice(pixels);
    }
}

#[cfg(test)]
mod tests {
    use super::*;
    use crate::frames::{frame_of, Chunk};

    const FILL: u8 = 0x77;

    struct Read {
        answer: Result<(), Refusal>,
        picture: Vec<u8>,
        palette: Vec<u8>,
    }

    fn read(bytes: &[u8], width: usize, height: usize) -> Read {
        let mut picture = vec![FILL; width * height];
        let mut palette = vec![FILL; PALETTE_BYTES];
        let shown = PairMut { picture: &mut picture, palette: &mut palette };
        let answer = Document.read_frame(bytes, Format::Flc, width as u64, height as u64, shown);
        Read { answer, picture, palette }
    }

    fn read_body(kind: u16, body: &[u8], width: usize, height: usize) -> Read {
        read(&frame_of(&[Chunk { kind, body: body.to_vec() }]), width, height)
    }

    fn number_of(kind: u16, body: &[u8], width: usize, height: usize) -> u32 {
        let read = read_body(kind, body, width, height);
        assert!(read.answer.is_ok() || read.picture.iter().chain(&read.palette).all(|b| *b == FILL));
        match read.answer {
            Ok(()) => 0,
            Err(refusal) => {
                assert_eq!(refusal.place, 16, "a body's fault stands at its sub-chunk");
                refusal.number
            }
        }
    }

    fn row_of(kind: u16, body: &[u8], width: usize) -> Vec<u8> {
        let read = read_body(kind, body, width, 1);
        assert_eq!(read.answer, Ok(()));
        read.picture
    }

    #[test]
    fn brun_rows_of_document_01() {
        assert_eq!(row_of(kind::BRUN, &[2, 0x02, 1, 0xFF, 2], 3), [1, 1, 2]);
        assert_eq!(row_of(kind::BRUN, &[2, 0x02, 1, 0x01, 2], 3), [1, 1, 2]);
        assert_eq!(row_of(kind::BRUN, &[1, 0xFC, 1, 2, 2, 3], 4), [1, 2, 2, 3]);
        assert_eq!(row_of(kind::BRUN, &[2, 0x7F, 9, 3, 9], 130), [9; 130]);
    }

    #[test]
    fn ss2_bodies_of_document_01() {
        let mut expected = [FILL; 100];
        expected[10..12].fill(0);
        assert_eq!(row_of(kind::SS2, &[1, 0, 1, 0, 0x0A, 1, 0, 0], 100), expected);
        assert_eq!(row_of(kind::SS2, &[1, 0, 9, 0x80, 0, 0], 5), [FILL, FILL, FILL, FILL, 9]);
        assert_eq!(number_of(kind::SS2, &[1, 0, 0xFF, 0xFF], 5, 1), 10);
    }

    #[test]
    fn colour_packets_of_document_01() {
        let read = read_body(kind::COLOR256, &[1, 0, 255, 1, 7, 8, 9], 1, 1);
        assert_eq!(read.answer, Ok(()));
        assert_eq!(read.palette[764..], [FILL, 7, 8, 9]);
        assert_eq!(number_of(kind::COLOR256, &[1, 0, 255, 2, 7, 8, 9, 7, 8, 9], 1, 1), 12);
        assert_eq!(number_of(kind::COLOR256, &[1, 0, 255, 2], 1, 1), 12);
    }

    #[test]
    fn colour_checks_in_order() {
        assert_eq!(number_of(kind::COLOR, &[], 1, 1), 7);
        assert_eq!(number_of(kind::COLOR, &[0], 1, 1), 7);
        assert_eq!(number_of(kind::COLOR, &[0, 0], 1, 1), 0);
        assert_eq!(number_of(kind::COLOR, &[1, 0, 0], 1, 1), 7);
        assert_eq!(number_of(kind::COLOR, &[1, 0, 1, 0], 1, 1), 12);
        assert_eq!(number_of(kind::COLOR, &[1, 0, 0, 1, 64, 0], 1, 1), 7);
        assert_eq!(number_of(kind::COLOR, &[1, 0, 0, 1, 0, 64, 0], 1, 1), 13);
        assert_eq!(number_of(kind::COLOR256, &[1, 0, 0, 1, 0, 64, 0], 1, 1), 0);
        let read = read_body(kind::COLOR, &[1, 0, 1, 1, 0, 1, 63], 1, 1);
        assert_eq!(read.palette[..7], [FILL, FILL, FILL, 0, 4, 255, FILL]);
        let read = read_body(kind::COLOR, &[1, 0, 0, 1, 31, 32, 16], 1, 1);
        assert_eq!(read.palette[..3], [125, 130, 65]);
    }

    #[test]
    fn brun_checks_in_order() {
        assert_eq!(number_of(kind::BRUN, &[], 2, 1), 7);
        assert_eq!(number_of(kind::BRUN, &[1], 2, 1), 7);
        assert_eq!(number_of(kind::BRUN, &[1, 0], 2, 1), 8);
        assert_eq!(number_of(kind::BRUN, &[1, 3], 2, 1), 9);
        assert_eq!(number_of(kind::BRUN, &[1, 2], 2, 1), 7);
        assert_eq!(number_of(kind::BRUN, &[1, 0x80], 128, 1), 7);
        assert_eq!(number_of(kind::BRUN, &[1, 0x80], 127, 1), 9);
    }

    #[test]
    fn lc_checks_in_order() {
        assert_eq!(number_of(kind::LC, &[9, 0, 0], 2, 1), 7);
        assert_eq!(number_of(kind::LC, &[1, 0, 0, 0], 2, 1), 0);
        assert_eq!(number_of(kind::LC, &[2, 0, 0, 0], 2, 1), 10);
        assert_eq!(number_of(kind::LC, &[0, 0, 2, 0], 2, 1), 10);
        assert_eq!(number_of(kind::LC, &[0, 0, 1, 0], 2, 1), 7);
        assert_eq!(number_of(kind::LC, &[0, 0, 1, 0, 0], 2, 1), 0);
        assert_eq!(number_of(kind::LC, &[0, 0, 2, 0, 0], 2, 2), 7);
        assert_eq!(number_of(kind::LC, &[0, 0, 1, 0, 255], 2, 1), 7);
        assert_eq!(number_of(kind::LC, &[0, 0, 1, 0, 1, 0], 2, 1), 7);
        assert_eq!(number_of(kind::LC, &[0, 0, 1, 0, 1, 1, 2], 2, 1), 9);
        assert_eq!(number_of(kind::LC, &[0, 0, 1, 0, 1, 1, 1], 2, 1), 7);
        assert_eq!(number_of(kind::LC, &[0, 0, 1, 0, 1, 2, 0], 2, 1), 0);
        assert_eq!(number_of(kind::LC, &[0, 0, 1, 0, 1, 3, 0], 2, 1), 9);
    }

    #[test]
    fn lc_rows_begin_with_the_packet_count() {
        assert_eq!(row_of(kind::LC, &[0, 0, 1, 0, 1, 0, 1, 9], 3), [9, FILL, FILL]);
        assert_eq!(row_of(kind::LC, &[0, 0, 1, 0, 2, 2, 0xFE, 5, 0, 1, 6], 6), [FILL, FILL, 5, 5, 6, FILL]);
        let two_rows = read_body(kind::LC, &[1, 0, 2, 0, 0, 1, 1, 1, 8], 2, 3);
        assert_eq!(two_rows.picture, [FILL, FILL, FILL, FILL, FILL, 8]);
    }

    #[test]
    fn ss2_words_are_judged_one_by_one() {
        let ss2 = |body: &[u8], height: usize| number_of(kind::SS2, body, 5, height);
        assert_eq!(ss2(&[1], 1), 7);
        assert_eq!(ss2(&[0, 0], 1), 0);
        assert_eq!(ss2(&[1, 0], 1), 7);
        assert_eq!(ss2(&[1, 0, 0, 0x40], 1), 11);
        assert_eq!(ss2(&[2, 0, 0, 0, 0, 0x40], 1), 11);
        assert_eq!(ss2(&[2, 0, 0, 0, 0, 0], 1), 10);
        assert_eq!(ss2(&[2, 0, 0, 0, 9, 0x80], 1), 10);
        assert_eq!(ss2(&[1, 0, 9, 0x80], 1), 7);
        assert_eq!(ss2(&[1, 0, 9, 0x80, 9, 0x80], 1), 11);
        assert_eq!(ss2(&[1, 0, 9, 0x80, 0xFF, 0xFF], 1), 11);
        assert_eq!(ss2(&[1, 0, 0xFF, 0xFF, 0xFF, 0xFF, 0, 0], 3), 0);
        assert_eq!(ss2(&[1, 0, 0xFF, 0xFF, 0xFE, 0xFF, 0, 0], 3), 10);
        assert_eq!(ss2(&[1, 0, 0, 0xC0], 200), 10);
        assert_eq!(ss2(&[1, 0, 1, 0, 0, 3], 1), 9);
        assert_eq!(ss2(&[1, 0, 1, 0, 0, 2, 1, 2, 3], 1), 7);
        assert_eq!(ss2(&[1, 0, 1, 0, 5, 0], 1), 0);
        assert_eq!(ss2(&[1, 0, 1, 0, 6, 0], 1), 9);
    }

    #[test]
    fn ss2_packets_act_after_the_last_pixel() {
        assert_eq!(row_of(kind::SS2, &[1, 0, 9, 0xBF, 1, 0, 1, 0xFF, 1, 2], 3), [FILL, 1, 2]);
        assert_eq!(row_of(kind::SS2, &[1, 0, 9, 0x80, 0, 0], 4), [FILL, FILL, FILL, 9]);
    }

    /// A body of each kind that is read, with nothing behind its data, for a picture of 2 by 1.
    const BODIES: [(u16, &[u8]); 7] = [
        (kind::COLOR256, &[1, 0, 3, 1, 7, 8, 9]),
        (kind::SS2, &[1, 0, 1, 0, 0, 1, 4, 5]),
        (kind::COLOR, &[1, 0, 3, 1, 7, 8, 9]),
        (kind::LC, &[0, 0, 1, 0, 1, 0, 0xFE, 4]),
        (kind::BLACK, &[]),
        (kind::BRUN, &[0, 2, 9]),
        (kind::COPY, &[1, 2]),
    ];

    #[test]
    fn one_spare_byte_is_ignored_and_two_are_19() {
        for (kind, body) in BODIES {
            let with = |spare: usize| [body, &vec![0xAB; spare]].concat();
            let [none, one] = [0, 1].map(|spare| read_body(kind, &with(spare), 2, 1));
            assert_eq!((one.answer, &one.picture, &one.palette), (none.answer, &none.picture, &none.palette));
            assert_eq!(none.answer, Ok(()), "kind {kind}");
            for spare in [2, 3, 255, 256, 1000] {
                assert_eq!(number_of(kind, &with(spare), 2, 1), 19, "kind {kind}, {spare} spare bytes");
            }
        }
        for spare in [0, 1, 2, 1000] {
            assert_eq!(number_of(kind::PSTAMP, &vec![0; spare], 2, 1), 0);
            assert_eq!(number_of(14, &vec![0; spare], 2, 1), 0);
        }
    }

    #[test]
    fn spare_bytes_come_after_the_body_and_before_the_next() {
        assert_eq!(number_of(kind::COLOR, &[1, 0, 0, 1, 64, 0, 0, 9, 9, 9], 1, 1), 13);
        assert_eq!(number_of(kind::COLOR256, &[1, 0, 255, 2, 9, 9, 9, 9, 9, 9, 9, 9], 1, 1), 12);
        assert_eq!(number_of(kind::LC, &[2, 0, 0, 0, 9, 9, 9], 2, 1), 10);
        assert_eq!(number_of(kind::BRUN, &[1, 0, 9, 9, 9], 2, 1), 8);
        assert_eq!(number_of(kind::BRUN, &[1, 3, 9, 9, 9], 2, 1), 9);
        assert_eq!(number_of(kind::SS2, &[1, 0, 0, 0x40, 9, 9, 9], 2, 1), 11);
        let sloppy = |spare: usize| Chunk { kind: kind::BLACK, body: vec![9; spare] };
        let faulty = Chunk { kind: kind::BRUN, body: vec![1, 0] };
        let answer = |chunks: &[Chunk]| read(&frame_of(chunks), 2, 1).answer.map_err(|r| (r.number, r.place));
        assert_eq!(answer(&[sloppy(2), faulty.clone()]), Err((19, 16)));
        assert_eq!(answer(&[sloppy(1), faulty.clone()]), Err((8, 23)));
        assert_eq!(answer(&[faulty, sloppy(2)]), Err((8, 16)));
        assert_eq!(answer(&[sloppy(1), sloppy(0), sloppy(2)]), Err((19, 29)));
        let mut cut = frame_of(&[sloppy(2)]);
        cut[6] = 2;
        assert_eq!(read(&cut, 2, 1).answer.map_err(|r| (r.number, r.place)), Err((19, 16)));
        let mut loose = frame_of(&[sloppy(1)]);
        loose[0] += 9;
        loose.extend([7; 20]);
        assert_eq!(read(&loose, 2, 1).answer, Ok(()));
    }

    #[test]
    fn headers_in_order() {
        let answer = |bytes: &[u8]| read(bytes, 1, 1).answer.map_err(|refusal| (refusal.number, refusal.place));
        let mut bytes = frame_of(&[Chunk { kind: kind::PSTAMP, body: vec![] }]);
        assert_eq!(answer(&bytes), Ok(()));
        assert_eq!(answer(&bytes[..15]), Err((4, 0)));
        assert_eq!(answer(&bytes[..21]), Err((4, 0)));
        bytes[6] = 2;
        assert_eq!(answer(&bytes), Err((4, 22)));
        bytes[6] = 1;
        bytes[0] = 21;
        assert_eq!(answer(&bytes), Err((4, 16)));
        bytes[0] = 15;
        assert_eq!(answer(&bytes), Err((6, 0)));
        bytes[4] = 0;
        assert_eq!(answer(&bytes), Err((5, 0)));
        assert_eq!(answer(&bytes[..6]), Err((4, 0)));
        bytes[4] = 0xFA;
        bytes[0] = 22;
        bytes[16] = 5;
        assert_eq!(answer(&bytes), Err((6, 16)));
        bytes[16] = 7;
        assert_eq!(answer(&bytes), Err((4, 16)));
        bytes.push(0);
        assert_eq!(answer(&bytes), Err((4, 16)));
    }

    #[test]
    fn size_before_slices_before_bytes() {
        let answer = |width, height, picture: usize, palette: usize| {
            let shown = PairMut { picture: &mut vec![0; picture], palette: &mut vec![0; palette] };
            Document.read_frame(&[], Format::Flc, width, height, shown).map_err(|refusal| refusal.number)
        };
        assert_eq!(answer(0, 1, 0, 0), Err(2));
        assert_eq!(answer(321, 1, 0, 0), Err(2));
        assert_eq!(answer(1, 201, 0, 0), Err(2));
        assert_eq!(answer(1 << 32, 1 << 32, 0, 0), Err(2));
        assert_eq!(answer(320, 200, 63_999, 768), Err(1));
        assert_eq!(answer(320, 200, 64_000, 767), Err(1));
        assert_eq!(answer(320, 200, 64_000, 768), Err(4));
    }

    /// The answer to a frame of an FLI.
    fn of_fli(bytes: &[u8]) -> Result<(), (u32, u64)> {
        let (mut picture, mut palette) = (vec![FILL; 64_000], vec![FILL; PALETTE_BYTES]);
        let shown = PairMut { picture: &mut picture, palette: &mut palette };
        let answer = Document.read_frame(bytes, Format::Fli, 320, 200, shown);
        assert!(answer.is_ok() || picture.iter().chain(&palette).all(|byte| *byte == FILL));
        answer.map_err(|refusal| (refusal.number, refusal.place))
    }

    #[test]
    fn an_fli_holds_no_kind_7_or_18() {
        let of = |kind, body: &[u8]| Chunk { kind, body: body.to_vec() };
        let black = || of(kind::BLACK, &[]);
        for kind in [kind::SS2, kind::PSTAMP] {
            for body in [&[0, 0][..], &[], &[1, 0, 0, 0x40]] {
                assert_eq!(of_fli(&frame_of(&[of(kind, body)])), Err((20, 16)), "kind {kind}, {body:?}");
                assert_eq!(of_fli(&frame_of(&[black(), of(kind, body)])), Err((20, 22)));
            }
            assert_eq!(of_fli(&frame_of(&[of(kind::BLACK, &[9, 9]), of(kind, &[0, 0])])), Err((19, 16)));
            assert_eq!(of_fli(&frame_of(&[of(kind::COPY, &[]), of(kind, &[0, 0])])), Err((7, 16)));
            assert_eq!(of_fli(&frame_of(&[of(kind, &[0, 0]), of(kind::COPY, &[])])), Err((20, 16)));
            for (size, number) in [(5, 6), (9, 4), (6, 20), (8, 20)] {
                let mut bytes = frame_of(&[of(kind, &[0, 0])]);
                bytes[16] = size;
                assert_eq!(of_fli(&bytes), Err((number, 16)), "kind {kind}, size {size}");
            }
            let mut cut = frame_of(&[black(), of(kind, &[])]);
            cut[0] -= 1;
            assert_eq!(of_fli(&cut), Err((4, 22)));
        }
        for kind in [kind::COLOR256, kind::COLOR, kind::LC] {
            assert_eq!(of_fli(&frame_of(&[of(kind, &[0, 0, 0, 0][..if kind == kind::LC { 4 } else { 2 }])])), Ok(()));
        }
        assert_eq!(of_fli(&frame_of(&[black(), of(0x0107, &[]), of(19, &[1, 2, 3])])), Ok(()));
    }

    #[test]
    fn an_fli_is_320_by_200() {
        let answer = |width, height, picture: usize| {
            let shown = PairMut { picture: &mut vec![0; picture], palette: &mut [0; PALETTE_BYTES] };
            Document.read_frame(&[], Format::Fli, width, height, shown).map_err(|refusal| refusal.number)
        };
        for (width, height) in [(1, 1), (319, 200), (320, 199), (200, 320), (320, 201), (321, 200), (0, 0)] {
            assert_eq!(answer(width, height, 0), Err(2), "{width} by {height}");
        }
        assert_eq!((answer(320, 200, 63_999), answer(320, 200, 64_000)), (Err(1), Err(4)));
    }
}
