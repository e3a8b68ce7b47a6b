//! The file header: 001's tables of fields, document 01's checks of it, document 02's of an FLI's, and what is written into
//! it.

use super::{
    accepted_size, long_enough, number, require, size_at, word_at, Document, Format, Jiffies, Milliseconds, Model,
    Refusal, FLI_HEIGHT, FLI_WIDTH, MAX_FRAMES, MAX_HEIGHT, MAX_WIDTH,
};

pub const FILE_HEADER: usize = 128;

const DEPTH: u16 = 8;
const FINISHED: u16 = 3;
const FLIB: u32 = 0x464C_4942;

/// The offsets of the fields, by 001's names.
pub mod field {
    pub const SIZE: usize = 0;
    pub const MAGIC: usize = 4;
    pub const FRAMES: usize = 6;
    pub const WIDTH: usize = 8;
    pub const HEIGHT: usize = 10;
    pub const DEPTH: usize = 12;
    pub const FLAGS: usize = 14;
    pub const SPEED: usize = 16;
    pub const CREATOR: usize = 26;
    pub const UPDATER: usize = 34;
    pub const ASPECT_X: usize = 38;
    pub const ASPECT_Y: usize = 40;
    pub const OFRAME1: usize = 80;
    pub const OFRAME2: usize = 84;
}

/// What is taken from a header that is accepted.
#[derive(Clone, Copy, Debug, PartialEq, Eq)]
pub struct FileHeader {
    pub format: Format,
    pub size: usize,
    pub width: usize,
    pub height: usize,
    pub frames: usize,
    /// The delay, an FLI's too.
    pub speed: Milliseconds,
}

impl Headers for Document {}

pub trait Headers {
    /// What a header tells, or the whole-reel check's refusals of it.
    fn read_header(&self, model: &Model, bytes: &[u8]) -> Result<FileHeader, Refusal> {
        self.accepted(model, bytes, &Format::BOTH, &[], &[])
    }

    /// "Reel: 4, 5, size field 6 then 4, 2, 14, 1", the last for the slices lent with the reel; "any fault of file
    /// header .. give[s] place 0". The formats are those that a call takes.
    fn accepted(
        &self,
        model: &Model,
        bytes: &[u8],
        formats: &[Format],
        pictures: &[&[u8]],
        palettes: &[&[u8]],
    ) -> Result<FileHeader, Refusal> {
        require(bytes.len() >= FILE_HEADER, number::CUT_SHORT, 0)?;
        let magic = model.formats.of_magic(word_at(bytes, field::MAGIC)).filter(|format| formats.contains(format));
        let format = magic.unwrap_or(Format::Flc);
        let header = FileHeader {
            format,
            size: size_at(bytes, field::SIZE),
            width: word_at(bytes, field::WIDTH) as usize,
            height: word_at(bytes, field::HEIGHT) as usize,
            frames: word_at(bytes, field::FRAMES) as usize,
            speed: self.speed(model, format, bytes),
        };
        for (number, passed) in self.checks(&header, magic.is_some(), bytes, pictures, palettes) {
            require(passed, number, 0)?;
        }
        Ok(header)
    }

    /// Four bytes of milliseconds; of an FLI "delay in jiffies of 1/70 second (2 bytes at offset 16)" (document 02, Req 06).
    fn speed(&self, model: &Model, format: Format, bytes: &[u8]) -> Milliseconds {
        match format {
            Format::Flc => Milliseconds(size_at(bytes, field::SPEED) as u64),
            Format::Fli => model.formats.milliseconds(Jiffies(word_at(bytes, field::SPEED).into())),
        }
    }

    /// The checks after the first, in their order.
    fn checks(
        &self,
        header: &FileHeader,
        type_is_right: bool,
        bytes: &[u8],
        pictures: &[&[u8]],
        palettes: &[&[u8]],
    ) -> [(u32, bool); 6] {
        let (width, height) = (header.width, header.height);
        [
            (number::WRONG_TYPE, type_is_right),
            (number::SIZE_TOO_SMALL, header.size >= FILE_HEADER),
            (number::CUT_SHORT, header.size <= bytes.len()),
            (number::BAD_SIZE, accepted_size(header.format, width as u64, height as u64).is_ok()),
            (
                number::BAD_FILE_HEADER,
                self.depth_is_right(word_at(bytes, field::DEPTH))
                    && self.frames_are_right(header.frames as u64)
                    && self.flags_are_right(header.format, word_at(bytes, field::FLAGS)),
            ),
            (number::SHORT_SLICE, long_enough(width * height, pictures, palettes).is_ok()),
        ]
    }

    /// 14: "depth not 8, ..
    fn depth_is_right(&self, depth: u16) -> bool {
        depth == DEPTH
    }

    /// .. frame count out of range, ..
    fn frames_are_right(&self, frames: u64) -> bool {
        (1..=MAX_FRAMES).contains(&frames)
    }

    /// .. or flags not 3"; "FLI flags not 0 is 14" (document 02, Req 06).
    fn flags_are_right(&self, format: Format, flags: u16) -> bool {
        match format {
            Format::Flc => flags == FINISHED,
            Format::Fli => flags == 0,
        }
    }

    /// "Written: created and updated 0, creator and updater hex 464C4942, aspect .. Speed is the caller's. Size,
    /// frames, flags and both oframes are 0 until the close".
    fn opened(&self, width: usize, height: usize, Milliseconds(speed): Milliseconds) -> [u8; FILE_HEADER] {
        let mut header = [0; FILE_HEADER];
        let (aspect_x, aspect_y) = self.aspect(width as u64, height as u64);
        put_word(&mut header, field::MAGIC, Format::Flc.magic());
        put_word(&mut header, field::WIDTH, width as u16);
        put_word(&mut header, field::HEIGHT, height as u16);
        put_word(&mut header, field::DEPTH, DEPTH);
        put_double(&mut header, field::SPEED, speed as u32);
        put_double(&mut header, field::CREATOR, FLIB);
        put_double(&mut header, field::UPDATER, FLIB);
        put_word(&mut header, field::ASPECT_X, aspect_x);
        put_word(&mut header, field::ASPECT_Y, aspect_y);
        header
    }

    /// An FLI's: "magic AF11, flags 0, delay in jiffies .. (2 bytes at offset 16) .., bytes 18 to 127 written 0" (document
    /// 02, Req 06).
    fn opened_fli(&self, Jiffies(jiffies): Jiffies) -> [u8; FILE_HEADER] {
        let mut header = [0; FILE_HEADER];
        put_word(&mut header, field::MAGIC, Format::Fli.magic());
        put_word(&mut header, field::WIDTH, FLI_WIDTH as u16);
        put_word(&mut header, field::HEIGHT, FLI_HEIGHT as u16);
        put_word(&mut header, field::DEPTH, DEPTH);
        put_word(&mut header, field::SPEED, jiffies as u16);
        header
    }

    /// "aspect 1:1 (6:5 at 320 by 200)".
    fn aspect(&self, width: u64, height: u64) -> (u16, u16) {
        if (width, height) == (MAX_WIDTH, MAX_HEIGHT) {
            (6, 5)
        } else {
            (1, 1)
        }
    }

    /// "oframe1 128, oframe2 the second frame chunk (the ring, if there is one frame), flags 3 at the close", "which
    /// sets no other header byte" than these, size and frames; of an FLI it sets size and frames alone.
    fn close(&self, header: &mut [u8], format: Format, closing: &Closing) {
        put_double(header, field::SIZE, closing.size);
        put_word(header, field::FRAMES, closing.frames);
        if format == Format::Flc {
            put_word(header, field::FLAGS, FINISHED);
            put_double(header, field::OFRAME1, FILE_HEADER as u32);
            put_double(header, field::OFRAME2, closing.second_frame);
        }
    }
}

/// What a close tells the header.
pub struct Closing {
    pub size: u32,
    pub frames: u16,
    pub second_frame: u32,
}

pub fn put_word(header: &mut [u8], offset: usize, word: u16) {
    header[offset..offset + 2].copy_from_slice(&word.to_le_bytes());
}

pub fn put_double(header: &mut [u8], offset: usize, double: u32) {
    header[offset..offset + 4].copy_from_slice(&double.to_le_bytes());
}

#[cfg(test)]
mod tests {
    use super::*;
    use crate::model::MODEL;
    use crate::reels::examples::{blank_fli, blank_reel, JIFFIES, SPEED};

    fn number(bytes: &[u8]) -> Result<(), (u32, u64)> {
        MODEL.read_header(bytes).map(|_| ()).map_err(|refusal| (refusal.number, refusal.place))
    }

    #[test]
    fn what_a_header_tells() {
        let mut bytes = blank_reel();
        let speed = Milliseconds(SPEED.into());
        let told = FileHeader { format: Format::Flc, size: 160, width: 1, height: 1, frames: 1, speed };
        assert_eq!(MODEL.read_header(&bytes), Ok(told));
        bytes[8..12].copy_from_slice(&[0x40, 1, 200, 0]);
        bytes[16..20].copy_from_slice(&[4, 3, 2, 1]);
        bytes.extend([7; 9]);
        let speed = Milliseconds(0x0102_0304);
        assert_eq!(MODEL.read_header(&bytes), Ok(FileHeader { width: 320, height: 200, speed, ..told }));
    }

    #[test]
    fn what_an_fli_header_tells() {
        let mut bytes = blank_fli();
        let speed = Milliseconds(71);
        assert_eq!(JIFFIES, 5);
        let told = FileHeader { format: Format::Fli, size: 160, width: 320, height: 200, frames: 1, speed };
        assert_eq!(MODEL.read_header(&bytes), Ok(told));
        bytes[18..128].fill(0xAB);
        assert_eq!(MODEL.read_header(&bytes), Ok(told));
        bytes[16..18].fill(0xFF);
        assert_eq!(MODEL.read_header(&bytes), Ok(FileHeader { speed: Milliseconds(936_214), ..told }));
        for (at, value, refusal) in [(14, 3, 14), (12, 7, 14), (6, 0, 14), (8, 0x3F, 2), (10, 199, 2), (4, 0x13, 5)] {
            let mut changed = bytes.clone();
            changed[at] = value;
            assert_eq!(number(&changed), Err((refusal, 0)), "byte {at}");
        }
        bytes[14] = 3;
        bytes[4] = 0x12;
        assert_eq!(MODEL.read_header(&bytes).map(|header| header.format), Ok(Format::Flc));
    }

    #[test]
    fn refusals_in_order() {
        let whole = blank_reel();
        for length in 0..whole.len() {
            assert_eq!(number(&whole[..length]), Err((4, 0)), "length {length}");
        }
        let mut bytes = whole;
        for (at, value, refusal) in [(14, 2, 14), (8, 0, 2), (0, 161, 4), (0, 127, 6), (4, 0, 5)] {
            bytes[at] = value;
            assert_eq!(number(&bytes), Err((refusal, 0)), "byte {at}");
        }
        assert_eq!(number(&bytes[..127]), Err((4, 0)));
    }
}
