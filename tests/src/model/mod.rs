//! The model: document 01, and document 02 as far as it has landed, read a second time, in plain Rust, sharing nothing
//! with the codec. Each part of it is a trait whose methods are the document's rules, in its order; `Document` takes them
//! all as they stand.

pub mod build;
pub mod check;
pub mod decode;
pub mod encode;
pub mod file_header;
pub mod format;
pub mod listing;
pub mod player;
pub mod playing;
pub mod tiles;
pub mod top_level;
pub mod trailer;

use build::Building;
use check::Checking;
use decode::Frames;
use encode::House;
use file_header::Headers;
use flic_boundary::{Pair, PairMut, Player, Reel, TileRow};
use format::Formats;
use listing::Listings;
use player::Players;
use playing::Playing;
use tiles::Tiles;
use top_level::TopLevel;
use trailer::Trailers;

pub use build::Outcome;
pub use encode::Searched;
pub use file_header::{field, FileHeader, FILE_HEADER};
pub use format::{Format, Jiffies, Milliseconds};
pub use listing::{MOST_DEPTH, MOST_LISTED};
pub use player::Event;
pub use top_level::Span;

/// The documents as they stand.
pub struct Document;

/// A reading of the documents, part by part.
#[derive(Clone, Copy)]
pub struct Model {
    pub formats: &'static dyn Formats,
    pub frames: &'static dyn Frames,
    pub house: &'static dyn House,
    pub headers: &'static dyn Headers,
    pub top_level: &'static dyn TopLevel,
    pub playing: &'static dyn Playing,
    pub checking: &'static dyn Checking,
    pub building: &'static dyn Building,
    pub trailers: &'static dyn Trailers,
    pub listings: &'static dyn Listings,
    pub players: &'static dyn Players,
    pub tiles: &'static dyn Tiles,
}

/// The oracle.
pub const MODEL: Model = Model {
    formats: &Document,
    frames: &Document,
    house: &Document,
    headers: &Document,
    top_level: &Document,
    playing: &Document,
    checking: &Document,
    building: &Document,
    trailers: &Document,
    listings: &Document,
    players: &Document,
    tiles: &Document,
};

/// The entry points.
impl Model {
    pub fn read_frame(
        &self,
        bytes: &[u8],
        format: u32,
        width: u64,
        height: u64,
        shown: PairMut,
    ) -> Result<(), Refusal> {
        self.frames.read_frame(bytes, self.formats.told(format), width, height, shown)
    }

    pub fn write_frame(
        &self,
        format: u32,
        width: u64,
        height: u64,
        previous: Pair,
        next: Pair,
        out: &mut [u8],
    ) -> Result<usize, Refusal> {
        self.house.write_frame(self.formats.told(format), width, height, previous, next, out)
    }

    #[allow(clippy::too_many_arguments)]
    pub fn rewrite_frame(
        &self,
        bytes: &[u8],
        format: u32,
        width: u64,
        height: u64,
        previous: Pair,
        work: PairMut,
        out: &mut [u8],
    ) -> Result<usize, Refusal> {
        self.house.rewrite_frame(self, bytes, self.formats.told(format), width, height, previous, work, out)
    }

    pub fn search_row(&self, row: &[u8]) -> Result<Searched, Refusal> {
        self.house.search_row(row)
    }

    pub fn check_reel(&self, bytes: &[u8], first: PairMut, second: PairMut) -> Result<(), Refusal> {
        self.checking.check_reel(self, bytes, first, second)
    }

    pub fn open_reel(&self, width: u64, height: u64, speed: u32, bytes: &mut [u8]) -> Outcome {
        self.building.open_reel(self, width, height, Milliseconds(speed.into()), bytes)
    }

    pub fn open_fli(&self, width: u64, height: u64, jiffies: u32, bytes: &mut [u8]) -> Outcome {
        self.building.open_fli(self, width, height, Jiffies(jiffies.into()), bytes)
    }

    pub fn add_frame(&self, reel: Reel, bytes: &mut [u8], shown: Pair, next: Pair) -> Outcome {
        self.building.add_frame(self, reel, bytes, shown, next)
    }

    pub fn close_reel(&self, reel: Reel, bytes: &mut [u8], first: PairMut, second: PairMut) -> Outcome {
        self.building.close_reel(self, reel, bytes, first, second)
    }

    pub fn check_trailer(&self, bytes: &[u8]) -> Result<(), Refusal> {
        self.trailers.check_trailer(self, bytes)
    }

    pub fn write_trailer(&self, bytes: &mut [u8]) -> Result<usize, Refusal> {
        self.trailers.write_trailer(self, bytes)
    }

    pub fn list(&self, bytes: &[u8], out: &mut [u8]) -> Result<usize, Refusal> {
        self.listings.list(self, bytes, out)
    }

    pub fn read_header(&self, bytes: &[u8]) -> Result<FileHeader, Refusal> {
        self.headers.read_header(self, bytes)
    }

    pub fn next_frame(&self, bytes: &[u8], at: u64) -> Result<Span, Refusal> {
        self.top_level.next_frame(bytes, at)
    }

    pub fn in_milliseconds(&self, jiffies: u32) -> Result<Milliseconds, Refusal> {
        self.formats.in_milliseconds(Jiffies(jiffies.into()))
    }

    pub fn in_jiffies(&self, milliseconds: u32) -> Result<Jiffies, Refusal> {
        self.formats.in_jiffies(Milliseconds(milliseconds.into()))
    }

    pub fn start_player(&self, bytes: &[u8], now: u32, first: PairMut, second: PairMut) -> Result<Player, Refusal> {
        self.players.start_player(self, bytes, now, first, second)
    }

    pub fn tick(&self, player: &mut Player, bytes: &[u8], now: u32, shown: PairMut) -> Result<Event, Refusal> {
        self.players.tick(self, player, bytes, now, shown)
    }

    pub fn replay(
        &self,
        speed: u32,
        frames: u64,
        start: u32,
        readings: &[u32],
        numbers: &mut [u32],
    ) -> Result<usize, Refusal> {
        self.players.replay(self, speed, frames, start, readings, numbers)
    }

    pub fn tile_map(
        &self,
        width: u64,
        height: u64,
        previous: &[u8],
        next: &[u8],
        words: &mut [u64],
    ) -> Result<usize, Refusal> {
        self.tiles.tile_map(width, height, previous, next, words)
    }

    pub fn marked_tiles(&self, word: u64) -> TileRow {
        self.tiles.marked_tiles(word)
    }
}

/// What the inputs of the tests are made with besides.
impl Model {
    /// The house frame that leads from `previous` to `next`, of which no slice is too short.
    pub fn house_frame(&self, format: Format, width: usize, height: usize, previous: Pair, next: Pair) -> Vec<u8> {
        self.house.frame(format, width, height, previous, next)
    }

    /// A listing's text.
    pub fn text(&self, bytes: &[u8]) -> String {
        self.listings.text(self, bytes)
    }
}

/// The largest width and height of a picture.
pub const MAX_WIDTH: u64 = 320;
pub const MAX_HEIGHT: u64 = 200;

/// The width and height of an FLI.
pub const FLI_WIDTH: u64 = 320;
pub const FLI_HEIGHT: u64 = 200;

/// A palette is 256 entries of red, green, blue.
pub const PALETTE_BYTES: usize = 768;

/// The most frames of a reel, the ring not counted.
pub const MAX_FRAMES: u64 = 4_000;

pub const FRAME_TYPE: u16 = 0xF1FA;
pub const PREFIX_TYPE: u16 = 0xF100;
pub const FRAME_HEADER: usize = 16;
pub const CHUNK_HEADER: usize = 6;

/// The kinds of sub-chunk, by 001's names.
pub mod kind {
    pub const COLOR256: u16 = 4;
    pub const SS2: u16 = 7;
    pub const COLOR: u16 = 11;
    pub const LC: u16 = 12;
    pub const BLACK: u16 = 13;
    pub const BRUN: u16 = 15;
    pub const COPY: u16 = 16;
    pub const PSTAMP: u16 = 18;
}

/// The refusal numbers of frames, reels and trailers, by document 01's table and document 02.
pub mod number {
    pub const SHORT_SLICE: u32 = 1;
    pub const BAD_SIZE: u32 = 2;
    pub const SHORT_OUTPUT: u32 = 3;
    pub const CUT_SHORT: u32 = 4;
    pub const WRONG_TYPE: u32 = 5;
    pub const SIZE_TOO_SMALL: u32 = 6;
    pub const BODY_ENDS: u32 = 7;
    pub const EMPTY_BRUN_PACKET: u32 = 8;
    pub const PAST_WIDTH: u32 = 9;
    pub const PAST_HEIGHT: u32 = 10;
    pub const BAD_SS2_WORD: u32 = 11;
    pub const PAST_LAST_COLOUR: u32 = 12;
    pub const LEVEL_OVER_63: u32 = 13;
    pub const BAD_FILE_HEADER: u32 = 14;
    pub const FRAME_MISSING: u32 = 15;
    pub const RING_ASTRAY: u32 = 16;
    pub const WRONG_TRAILER: u32 = 17;
    pub const CLOSED_OR_FULL: u32 = 18;
    pub const SPARE_BYTES: u32 = 19;
    pub const NOT_IN_FLI: u32 = 20;
}

/// A refusal: its number, and the offset of the chunk at fault.
#[derive(Clone, Copy, Debug, PartialEq, Eq)]
pub struct Refusal {
    pub number: u32,
    pub place: u64,
}

impl Refusal {
    pub fn new(number: u32, place: usize) -> Refusal {
        Refusal { number, place: place as u64 }
    }
}

/// Document 01's check 2: the size as numbers that can be counted with. Of an FLI "size not 320 by 200 is 2" (document 02,
/// Req 06).
pub fn accepted_size(format: Format, width: u64, height: u64) -> Result<(usize, usize), Refusal> {
    let is_right = match format {
        Format::Flc => (1..=MAX_WIDTH).contains(&width) && (1..=MAX_HEIGHT).contains(&height),
        Format::Fli => (width, height) == (FLI_WIDTH, FLI_HEIGHT),
    };
    require(is_right, number::BAD_SIZE, 0)?;
    Ok((width as usize, height as usize))
}

/// Document 01's check 1, over every picture and palette slice of a call.
pub fn long_enough(pixels: usize, pictures: &[&[u8]], palettes: &[&[u8]]) -> Result<(), Refusal> {
    let pictures_hold = pictures.iter().all(|slice| slice.len() >= pixels);
    let palettes_hold = palettes.iter().all(|slice| slice.len() >= PALETTE_BYTES);
    if pictures_hold && palettes_hold {
        Ok(())
    } else {
        Err(Refusal::new(number::SHORT_SLICE, 0))
    }
}

/// A check that must pass, or else refuses with this number at this place.
pub fn require(passed: bool, number: u32, place: usize) -> Result<(), Refusal> {
    if passed {
        Ok(())
    } else {
        Err(Refusal::new(number, place))
    }
}

/// The little-endian word at an offset that must be there.
pub fn word_at(bytes: &[u8], offset: usize) -> u16 {
    u16::from_le_bytes([bytes[offset], bytes[offset + 1]])
}

/// The little-endian double word at an offset that must be there.
pub fn size_at(bytes: &[u8], offset: usize) -> usize {
    let low = word_at(bytes, offset) as usize;
    let high = word_at(bytes, offset + 2) as usize;
    high << 16 | low
}
