//! What the tool shows of a file's bytes as they stand: every field of the file header, of a refused file too, and the
//! kinds and sizes of chunks. The codec gives neither (its listing ends at 65,536 bytes), so that these few numbers are
//! taken from the bytes here, and nowhere else in this tool and its crate. Whether a file is right, where its frames lie
//! and which of them can be read, the codec says.

use flic::{Chunk, Format, Jiffies, Milliseconds, FILE_HEADER};
use std::iter;

/// The bytes of a frame chunk's header and of any other chunk's.
pub const FRAME_HEADER: usize = 16;
pub const CHUNK_HEADER: usize = 6;
/// A frame chunk, and the chunk that Animator Pro puts before the first.
pub const FRAME_KIND: u16 = 0xF1FA;
const PREFIX_KIND: u16 = 0xF100;
/// The magics of the two formats.
pub const FLC_MAGIC: u16 = 0xAF12;
pub const FLI_MAGIC: u16 = 0xAF11;
const MAGIC_AT: usize = 4;
const FRAMES_AT: usize = 6;
const FLAGS_AT: usize = 14;
/// Where the header of an FLI ends: what follows isn't read.
const FLI_END: usize = 18;
/// Of the first and the second frame of an FLC.
const OFFSETS_AT: [usize; 2] = [80, 84];

/// The fields of a file header, with the names of the Animator Pro document.
#[derive(Clone, Copy, Debug, PartialEq, Eq)]
pub struct StoredHeader {
    /// The bytes of the reel, this header included; a trailer stands behind them.
    pub size: u32,
    pub magic: u16,
    /// How many frames there are, the ring not counted.
    pub frames: u16,
    pub width: u16,
    pub height: u16,
    pub depth: u16,
    pub flags: u16,
    pub rest: Rest,
}

/// What stands behind the flags.
#[derive(Clone, Copy, Debug, PartialEq, Eq)]
pub enum Rest {
    Flc {
        speed: Milliseconds,
        made: Made,
        /// The offset of the first frame.
        oframe1: u32,
        /// The offset of the second frame, or of the ring if there is one frame.
        oframe2: u32,
    },
    Fli {
        delay: Jiffies,
        /// Whether any of the bytes that aren't read isn't 0.
        has_more: bool,
    },
}

/// What an FLC says of whoever made it and when.
#[derive(Clone, Copy, Debug, PartialEq, Eq)]
pub struct Made {
    pub created: u32,
    pub creator: u32,
    pub updated: u32,
    pub updater: u32,
    pub aspect_x: u16,
    pub aspect_y: u16,
}

/// As it stands in an FLC of 320 by 200 that this tool makes.
const MADE_HERE: Made =
    Made { created: 0, creator: 0x464C_4942, updated: 0, updater: 0x464C_4942, aspect_x: 6, aspect_y: 5 };

impl StoredHeader {
    /// The header at the front of the bytes, checked in no way; none where there are fewer than 128. What has neither
    /// magic is read as an FLC's.
    pub fn of(bytes: &[u8]) -> Option<StoredHeader> {
        if bytes.len() < FILE_HEADER {
            return None;
        }
        Some(StoredHeader {
            size: long_at(bytes, 0),
            magic: word_at(bytes, MAGIC_AT),
            frames: word_at(bytes, FRAMES_AT),
            width: word_at(bytes, 8),
            height: word_at(bytes, 10),
            depth: word_at(bytes, 12),
            flags: word_at(bytes, FLAGS_AT),
            rest: match format_of(bytes) {
                Some(Format::Fli) => Rest::Fli {
                    delay: Jiffies(word_at(bytes, 16)),
                    has_more: bytes[FLI_END..FILE_HEADER].iter().any(|byte| *byte != 0),
                },
                _ => Rest::Flc {
                    speed: Milliseconds(long_at(bytes, 16)),
                    made: Made::of(bytes),
                    oframe1: long_at(bytes, OFFSETS_AT[0]),
                    oframe2: long_at(bytes, OFFSETS_AT[1]),
                },
            },
        })
    }

    /// By the magic.
    pub fn format(&self) -> Option<Format> {
        format_with(self.magic)
    }

    /// The flags that a closed reel of this format has.
    pub fn flags_of_closed(&self) -> u16 {
        flags_of(self.format())
    }

    /// Whether the reel was closed. The flags of an FLI don't say so, but its size, which the close sets.
    pub fn is_closed(&self) -> bool {
        match self.format() {
            Some(Format::Fli) => self.size != 0,
            _ => self.flags == self.flags_of_closed(),
        }
    }

    /// The bytes of the reel, where a closed file says so.
    pub fn reel(&self) -> Option<usize> {
        Some(self.size as usize).filter(|size| self.is_closed() && *size >= FILE_HEADER)
    }
}

impl Made {
    fn of(header: &[u8]) -> Made {
        Made {
            created: long_at(header, 22),
            creator: long_at(header, 26),
            updated: long_at(header, 30),
            updater: long_at(header, 34),
            aspect_x: word_at(header, 38),
            aspect_y: word_at(header, 40),
        }
    }

    fn words(&self) -> [String; 5] {
        [
            format!("created {}", date(self.created)),
            format!("creator {:08X}", self.creator),
            format!("updated {}", date(self.updated)),
            format!("updater {:08X}", self.updater),
            format!("aspect {}:{}", self.aspect_x, self.aspect_y),
        ]
    }
}

/// The format of a file that begins so, by its magic alone.
pub fn format_of(bytes: &[u8]) -> Option<Format> {
    format_with(word_at(bytes.get(..MAGIC_AT + 2)?, MAGIC_AT))
}

fn format_with(magic: u16) -> Option<Format> {
    match magic {
        FLC_MAGIC => Some(Format::Flc),
        FLI_MAGIC => Some(Format::Fli),
        _ => None,
    }
}

fn flags_of(format: Option<Format>) -> u16 {
    match format {
        Some(Format::Fli) => 0,
        _ => 3,
    }
}

/// What a file header says beside its reel, and the one that was written in its place doesn't.
pub fn lost(before: &StoredHeader, after: &StoredHeader) -> Vec<String> {
    match (before.rest, after.rest) {
        (Rest::Flc { made: before, .. }, Rest::Flc { made: after, .. }) => lost_of(&before, &after),
        // What stands in every FLC that is made here isn't missed in an FLI.
        (Rest::Flc { made, .. }, Rest::Fli { .. }) => lost_of(&made, &MADE_HERE),
        (Rest::Fli { has_more: true, .. }, _) => {
            vec![format!("bytes {FLI_END} to {} of the header, which no one reads", FILE_HEADER - 1)]
        }
        (Rest::Fli { has_more: false, .. }, _) => Vec::new(),
    }
}

fn lost_of(before: &Made, after: &Made) -> Vec<String> {
    let pairs = before.words().into_iter().zip(after.words());
    pairs.filter(|(before, after)| before != after).map(|(before, _)| before).collect()
}

/// A date and time in MS-DOS format, or its number where it is none.
pub fn date(number: u32) -> String {
    let bits = |from: u32, count: u32| number >> from & ((1 << count) - 1);
    let (year, month, day) = (1980 + bits(25, 7), bits(21, 4), bits(16, 5));
    let (hour, minute, second) = (bits(11, 5), bits(5, 6), 2 * bits(0, 5));
    match (month, day, hour, minute, second) {
        (1..=12, 1..=31, ..=23, ..=59, ..=59) => {
            format!("{year}-{month:02}-{day:02} {hour:02}:{minute:02}:{second:02}")
        }
        _ => number.to_string(),
    }
}

/// A closed reel's file, with these bytes before each of its frames, the ring and its end.
pub fn with_others(bytes: &[u8], frames: &[Chunk], others: &[Vec<u8>]) -> Vec<u8> {
    let mut whole = bytes[..FILE_HEADER].to_vec();
    let mut offsets = Vec::new();
    for (at, other) in others.iter().enumerate() {
        whole.extend(other);
        if let Some(frame) = frames.get(at) {
            offsets.push(whole.len());
            whole.extend(&bytes[frame.offset..frame.end()]);
        }
    }
    let size = whole.len();
    set_long(&mut whole, 0, size);
    // An FLI has no room for them.
    if format_of(bytes) != Some(Format::Fli) {
        for (at, offset) in OFFSETS_AT.into_iter().zip(offsets) {
            set_long(&mut whole, at, offset);
        }
    }
    whole
}

/// A file header like the one at the front of these bytes, of a closed reel without bytes behind it: what the codec
/// says of it, it says of the rest of the fields.
pub fn mended(bytes: &[u8]) -> Vec<u8> {
    let mut header = bytes[..bytes.len().min(FILE_HEADER)].to_vec();
    if header.len() == FILE_HEADER {
        set_long(&mut header, 0, FILE_HEADER);
        header[FRAMES_AT..FRAMES_AT + 2].copy_from_slice(&1u16.to_le_bytes());
        let flags = flags_of(format_of(bytes));
        header[FLAGS_AT..FLAGS_AT + 2].copy_from_slice(&flags.to_le_bytes());
    }
    header
}

/// The kind that a chunk's header has, at this offset; none where no header is there.
pub fn kind_at(bytes: &[u8], at: usize) -> Option<u16> {
    bytes.get(at..at.checked_add(CHUNK_HEADER)?).map(|header| word_at(header, 4))
}

/// The size that a chunk's header has, at this offset.
pub fn size_at(bytes: &[u8], at: usize) -> usize {
    long_at(bytes, at) as usize
}

/// The frame with the sub-chunk at this offset cut to so many bytes.
pub fn with_cut(frame: &[u8], at: usize, size: usize) -> Vec<u8> {
    let mut cut = [&frame[..at + size], &frame[at + size_at(frame, at)..]].concat();
    set_long(&mut cut, at, size);
    let whole = cut.len();
    set_long(&mut cut, 0, whole);
    cut
}

/// What a kind of chunk is called.
pub fn kind_name(kind: u16) -> &'static str {
    match kind {
        4 => "colours, 256 levels",
        7 => "SS2, delta",
        11 => "colours, 64 levels",
        12 => "LC, delta",
        13 => "BLACK, full",
        15 => "BRUN, full",
        16 => "COPY, full",
        18 => "postage stamp",
        PREFIX_KIND => "prefix",
        FRAME_KIND => "frame",
        _ => "unknown",
    }
}

/// A chunk by its header.
#[derive(Clone, Copy, Debug, PartialEq, Eq)]
pub struct StoredChunk {
    pub kind: u16,
    /// How many bytes it has, its header included.
    pub size: usize,
}

/// The chunks that stand back to back in these bytes; ends where no whole one follows.
pub fn chunks(bytes: &[u8]) -> impl Iterator<Item = StoredChunk> + '_ {
    let mut rest = bytes;
    iter::from_fn(move || {
        let header = rest.get(..CHUNK_HEADER)?;
        let chunk = StoredChunk { kind: word_at(header, 4), size: long_at(header, 0) as usize };
        rest = rest.get(chunk.size..).filter(|_| chunk.size >= CHUNK_HEADER)?;
        Some(chunk)
    })
}

/// The sub-chunks of a frame chunk, as many as its count says.
pub fn sub_chunks(frame: &[u8]) -> impl Iterator<Item = StoredChunk> + '_ {
    let count = frame.get(..FRAME_HEADER).map_or(0, |header| word_at(header, 6));
    chunks(frame.get(FRAME_HEADER..).unwrap_or_default()).take(count.into())
}

fn word_at(bytes: &[u8], at: usize) -> u16 {
    u16::from_le_bytes([bytes[at], bytes[at + 1]])
}

fn long_at(bytes: &[u8], at: usize) -> u32 {
    u32::from_le_bytes([bytes[at], bytes[at + 1], bytes[at + 2], bytes[at + 3]])
}

/// The numbers of a file's fields have 4 bytes.
fn set_long(bytes: &mut [u8], at: usize, number: usize) {
    bytes[at..at + 4].copy_from_slice(&(number as u32).to_le_bytes());
}

#[cfg(test)]
mod tests {
    use super::*;
    use flic::{Reel, Size, State};

    fn counted() -> [u8; FILE_HEADER] {
        let mut bytes = [0; FILE_HEADER];
        for (at, byte) in bytes.iter_mut().enumerate() {
            *byte = at as u8;
        }
        bytes
    }

    #[test]
    fn every_field_has_its_own_bytes() {
        let expected = StoredHeader {
            size: 0x0302_0100,
            magic: 0x0504,
            frames: 0x0706,
            width: 0x0908,
            height: 0x0B0A,
            depth: 0x0D0C,
            flags: 0x0F0E,
            rest: Rest::Flc {
                speed: Milliseconds(0x1312_1110),
                made: Made {
                    created: 0x1918_1716,
                    creator: 0x1D1C_1B1A,
                    updated: 0x2120_1F1E,
                    updater: 0x2524_2322,
                    aspect_x: 0x2726,
                    aspect_y: 0x2928,
                },
                oframe1: 0x5352_5150,
                oframe2: 0x5756_5554,
            },
        };
        assert_eq!(StoredHeader::of(&counted()), Some(expected));
        assert_eq!(StoredHeader::of(&counted()[1..]), None);
    }

    #[test]
    fn an_fli_has_its_delay_and_nothing_behind() {
        let mut bytes = counted();
        bytes[MAGIC_AT..MAGIC_AT + 2].copy_from_slice(&FLI_MAGIC.to_le_bytes());
        let rest = |bytes: &[u8]| StoredHeader::of(bytes).unwrap().rest;
        assert_eq!(rest(&bytes), Rest::Fli { delay: Jiffies(0x1110), has_more: true });
        bytes[FLI_END..].fill(0);
        assert_eq!(rest(&bytes), Rest::Fli { delay: Jiffies(0x1110), has_more: false });
        for at in [FLI_END, FILE_HEADER - 1] {
            let mut more = bytes;
            more[at] = 1;
            assert_eq!(rest(&more), Rest::Fli { delay: Jiffies(0x1110), has_more: true });
        }
    }

    #[test]
    fn the_magic_is_the_format() {
        assert_eq!(format_of(&[0, 0, 0, 0, 0x12, 0xAF]), Some(Format::Flc));
        assert_eq!(format_of(&[0, 0, 0, 0, 0x11, 0xAF]), Some(Format::Fli));
        assert_eq!((format_of(&[0, 0, 0, 0, 0x10, 0xAF]), format_of(&[0, 0, 0, 0, 0x12])), (None, None));
    }

    #[test]
    fn a_reel_of_this_tool_loses_nothing_in_the_other_format() {
        let header = |format| {
            let mut reel = Reel::open_as(format, Size::FLI, Milliseconds(100)).unwrap();
            reel.add(&State::blank(Size::FLI)).unwrap();
            StoredHeader::of(&reel.close().unwrap()).unwrap()
        };
        let (flc, fli) = (header(Format::Flc), header(Format::Fli));
        assert_eq!((lost(&flc, &fli), lost(&fli, &flc)), (vec![], vec![]));
        let more = StoredHeader { rest: Rest::Fli { delay: Jiffies(7), has_more: true }, ..fli };
        assert_eq!(lost(&more, &fli), ["bytes 18 to 127 of the header, which no one reads"]);
    }

    #[test]
    fn dates_of_ms_dos() {
        assert_eq!(date((1996 - 1980) << 25 | 3 << 21 | 14 << 16 | 15 << 11 | 9 << 5 | 13), "1996-03-14 15:09:26");
        assert_eq!((date(0), date(u32::MAX)), ("0".to_string(), "4294967295".to_string()));
    }

    #[test]
    fn only_what_differs_is_lost() {
        let made = Made { created: 0, creator: 0, updated: 0, updater: 0, aspect_x: 0, aspect_y: 0 };
        let other = Made { creator: 0x464C_4942, aspect_x: 6, aspect_y: 5, ..made };
        assert_eq!(lost_of(&made, &made), [""; 0]);
        assert_eq!(lost_of(&other, &made), ["creator 464C4942", "aspect 6:5"]);
    }

    /// A frame of count 2: BLACK, an unknown kind with one byte, and a third that the count leaves out.
    const FRAME: [u8; 35] = [
        35, 0, 0, 0, 0xFA, 0xF1, 2, 0, 0, 0, 0, 0, 0, 0, 0, 0, // the frame's header
        6, 0, 0, 0, 13, 0, 7, 0, 0, 0, 99, 0, 1, 6, 0, 0, 0, 13, 0,
    ];

    fn found(length: usize) -> Vec<(u16, usize)> {
        sub_chunks(&FRAME[..length]).map(|chunk| (chunk.kind, chunk.size)).collect()
    }

    #[test]
    fn as_many_as_the_count_says() {
        assert_eq!(found(35), [(13, 6), (99, 7)]);
        assert_eq!(chunks(&FRAME[16..]).count(), 3);
    }

    #[test]
    fn only_what_is_whole() {
        assert_eq!(found(28), [(13, 6)]);
        assert_eq!(found(27), [(13, 6)]);
        assert_eq!(found(21), []);
        assert_eq!(found(16), []);
        assert_eq!(found(8), []);
        assert_eq!(chunks(&[5, 0, 0, 0, 1, 0, 0]).count(), 0);
    }
}
