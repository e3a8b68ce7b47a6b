//! The entry points, a row each: what a call is handed and lent, how it is made of the library and of the model, and what
//! a run must meet.

use super::lent::{bytes_of, values_in, Lent, PlayerIn, Record};
use super::told::Told;
use crate::frames::{FLI_KINDS, KINDS};
use crate::model::{field, kind, word_at, Format, Model, MODEL};
use crate::states::State;
use flic_boundary::{self as library, Pair, PairMut, Player, Reel};
use std::slice;

/// What is the same for every call of an entry point.
pub struct Row {
    /// The function of include/flic.h, without its `flic_`.
    pub function: &'static str,
    /// What a run calls such a call, and what it counts by it.
    pub name: &'static str,
    pub unit: &'static str,
    /// The slices that are lent, in the order of the function's arguments.
    pub lends: &'static [&'static str],
    /// How the first of them, the second, .. are aligned, as far as they aren't of bytes.
    pub aligned: &'static [usize],
    /// The numbers that a run must meet, 0 being done.
    pub numbers: &'static [u32],
    /// Those that it must meet of FLI besides; none where a call has to do with FLC alone, or with neither.
    pub in_fli: &'static [u32],
    /// The kinds that a run must meet in frames that were done, in those of FLI besides, and what is said of these.
    pub kinds: &'static [u16],
    pub kinds_in_fli: &'static [u16],
    pub verb: &'static str,
}

impl Row {
    /// The numbers that a run must meet of a format.
    pub fn numbers_of(&self, format: Format) -> &'static [u32] {
        match format {
            Format::Flc => self.numbers,
            Format::Fli => self.in_fli,
        }
    }

    /// The kinds that a run must meet of a format.
    pub fn kinds_of(&self, format: Format) -> &'static [u16] {
        match format {
            Format::Flc => self.kinds,
            Format::Fli => self.kinds_in_fli,
        }
    }
}

/// One call.
pub trait Call {
    fn row(&self) -> &'static Row;

    /// What is handed over besides slices, in words.
    fn handed(&self) -> String {
        String::new()
    }

    /// The format that the call is told, or that of the file or record it is handed.
    fn format(&self) -> Format {
        Format::Flc
    }

    /// What the slices hold before the call.
    fn slices(&self) -> Vec<&[u8]>;

    /// The furthest place that a refusal can tell.
    fn furthest(&self) -> u64 {
        0
    }

    fn library(&self, lent: &mut Lent) -> Told;

    fn model(&self, model: &Model, lent: &mut Lent) -> Told;

    /// The frame whose kinds are counted, where the call is done and has left this in its slices.
    fn frame<'a>(&'a self, _left: &'a [Vec<u8>]) -> Option<&'a [u8]> {
        None
    }
}

/// The call as it is made of the library and of the model, with the same slices in the same words.
macro_rules! made {
    ($self:ident, [$($slice:ident),*], $function:ident($($argument:expr),*)) => {
        fn row(&$self) -> &'static Row {
            &Self::ROW
        }

        fn library(&$self, lent: &mut Lent) -> Told {
            let [$($slice),*] = lent.slices();
            library::$function($($argument),*).into()
        }

        fn model(&$self, model: &Model, lent: &mut Lent) -> Told {
            let [$($slice),*] = lent.slices();
            model.$function($($argument),*).into()
        }
    };
}

/// The rows, in the order in which the damage test makes its calls.
pub const ROWS: [&Row; 21] = [
    &ReadCase::ROW,
    &WriteCase::ROW,
    &RewriteCase::ROW,
    &CheckCase::ROW,
    &OpenCase::ROW,
    &AddCase::ROW,
    &CloseCase::ROW,
    &CheckTrailerCase::ROW,
    &WriteTrailerCase::ROW,
    &ListCase::ROW,
    &HeaderCase::ROW,
    &StepCase::ROW,
    &SearchCase::ROW,
    &StartCase::ROW,
    &TickCase::ROW,
    &ReplayCase::ROW,
    &TileMapCase::ROW,
    &MarkedCase::ROW,
    &OpenFliCase::ROW,
    &MillisecondsCase::ROW,
    &JiffiesCase::ROW,
];

/// A row of which no kinds are counted, and that lends bytes alone.
pub const PLAIN: Row = Row {
    function: "",
    name: "",
    unit: "",
    lends: &[],
    aligned: &[],
    numbers: &[],
    in_fli: &[],
    kinds: &[],
    kinds_in_fli: &[],
    verb: "",
};

/// The format of a file by its magic, where it has that of an FLI.
pub fn format_of(file: &[u8]) -> Format {
    match file.get(field::MAGIC..field::MAGIC + 2) {
        Some(magic) if word_at(magic, 0) == Format::Fli.magic() => Format::Fli,
        _ => Format::Flc,
    }
}

fn pair<'a>(picture: &'a [u8], palette: &'a [u8]) -> Pair<'a> {
    Pair { picture, palette }
}

fn pair_mut<'a>(picture: &'a mut [u8], palette: &'a mut [u8]) -> PairMut<'a> {
    PairMut { picture, palette }
}

/// flic_read_frame.
#[derive(Clone, Debug, PartialEq, Eq)]
pub struct ReadCase {
    pub bytes: Vec<u8>,
    pub format: u32,
    pub width: u64,
    pub height: u64,
    pub shown: State,
}

impl ReadCase {
    pub const ROW: Row = Row {
        function: "read_frame",
        name: "reading",
        unit: "frames",
        lends: &["frame", "picture", "palette"],
        numbers: &[0, 1, 2, 4, 5, 6, 7, 8, 9, 10, 11, 12, 13, 19],
        in_fli: &[0, 1, 2, 4, 5, 6, 7, 8, 9, 10, 12, 13, 19, 20],
        kinds: &KINDS,
        kinds_in_fli: &FLI_KINDS,
        verb: "accepted",
        ..PLAIN
    };
}

impl Call for ReadCase {
    made!(
        self,
        [bytes, picture, palette],
        read_frame(bytes, self.format, self.width, self.height, pair_mut(picture, palette))
    );

    fn handed(&self) -> String {
        format!("format {}, {} by {}", self.format, self.width, self.height)
    }

    fn format(&self) -> Format {
        MODEL.formats.told(self.format)
    }

    fn slices(&self) -> Vec<&[u8]> {
        vec![&self.bytes, &self.shown.picture, &self.shown.palette]
    }

    fn furthest(&self) -> u64 {
        self.bytes.len() as u64
    }

    fn frame<'a>(&'a self, _left: &'a [Vec<u8>]) -> Option<&'a [u8]> {
        Some(&self.bytes)
    }
}

/// flic_write_frame.
#[derive(Clone, Debug, PartialEq, Eq)]
pub struct WriteCase {
    pub format: u32,
    pub width: u64,
    pub height: u64,
    pub previous: State,
    pub next: State,
    pub out: Vec<u8>,
}

impl WriteCase {
    pub const ROW: Row = Row {
        function: "write_frame",
        name: "writing",
        unit: "frames",
        lends: &["previous picture", "previous palette", "next picture", "next palette", "output"],
        numbers: &[0, 1, 2, 3],
        in_fli: &[0, 1, 2, 3],
        kinds: &[kind::COLOR256, kind::SS2, kind::BLACK, kind::BRUN, kind::COPY],
        kinds_in_fli: &[kind::COLOR256, kind::LC, kind::BLACK, kind::BRUN, kind::COPY],
        verb: "written",
        ..PLAIN
    };
}

impl Call for WriteCase {
    made!(self, [p, q, n, m, out], write_frame(self.format, self.width, self.height, pair(p, q), pair(n, m), out));

    fn handed(&self) -> String {
        format!("format {}, {} by {}", self.format, self.width, self.height)
    }

    fn format(&self) -> Format {
        MODEL.formats.told(self.format)
    }

    fn slices(&self) -> Vec<&[u8]> {
        let (previous, next) = (&self.previous, &self.next);
        vec![&previous.picture, &previous.palette, &next.picture, &next.palette, &self.out]
    }

    fn frame<'a>(&'a self, left: &'a [Vec<u8>]) -> Option<&'a [u8]> {
        Some(&left[4])
    }
}

/// flic_rewrite_frame.
#[derive(Clone, Debug, PartialEq, Eq)]
pub struct RewriteCase {
    pub bytes: Vec<u8>,
    pub format: u32,
    pub width: u64,
    pub height: u64,
    pub previous: State,
    pub work: State,
    pub out: Vec<u8>,
}

impl RewriteCase {
    pub const ROW: Row = Row {
        function: "rewrite_frame",
        name: "rewriting",
        unit: "frames",
        lends: &["frame", "previous picture", "previous palette", "working picture", "working palette", "output"],
        numbers: &[0, 1, 2, 3, 4, 5, 6, 7, 8, 9, 10, 11, 12, 13, 19],
        in_fli: &[0, 1, 2, 3, 4, 5, 6, 7, 8, 9, 10, 12, 13, 19, 20],
        kinds: &KINDS,
        kinds_in_fli: &FLI_KINDS,
        verb: "rewritten",
        ..PLAIN
    };
}

impl Call for RewriteCase {
    made!(
        self,
        [bytes, p, q, w, v, out],
        rewrite_frame(bytes, self.format, self.width, self.height, pair(p, q), pair_mut(w, v), out)
    );

    fn handed(&self) -> String {
        format!("format {}, {} by {}", self.format, self.width, self.height)
    }

    fn format(&self) -> Format {
        MODEL.formats.told(self.format)
    }

    fn slices(&self) -> Vec<&[u8]> {
        let (previous, work) = (&self.previous, &self.work);
        vec![&self.bytes, &previous.picture, &previous.palette, &work.picture, &work.palette, &self.out]
    }

    fn furthest(&self) -> u64 {
        self.bytes.len() as u64
    }

    fn frame<'a>(&'a self, _left: &'a [Vec<u8>]) -> Option<&'a [u8]> {
        Some(&self.bytes)
    }
}

/// What is lent with a reel that is checked or closed.
const REEL_AND_PAIRS: &[&str] = &["reel", "first picture", "first palette", "second picture", "second palette"];

/// What a whole-reel check can answer.
const OF_A_CHECK: &[u32] = &[0, 1, 2, 4, 5, 6, 7, 8, 9, 10, 11, 12, 13, 14, 15, 16, 19];
/// And of an FLI, which has a magic that is right.
const OF_AN_FLI_CHECK: &[u32] = &[0, 1, 2, 4, 6, 7, 8, 9, 10, 12, 13, 14, 15, 16, 19, 20];

/// flic_check_reel.
#[derive(Clone, Debug, PartialEq, Eq)]
pub struct CheckCase {
    pub bytes: Vec<u8>,
    pub first: State,
    pub second: State,
}

impl CheckCase {
    pub const ROW: Row = Row {
        function: "check_reel",
        name: "check",
        unit: "reels",
        lends: REEL_AND_PAIRS,
        numbers: OF_A_CHECK,
        in_fli: OF_AN_FLI_CHECK,
        ..PLAIN
    };
}

impl Call for CheckCase {
    made!(self, [bytes, p, q, n, m], check_reel(bytes, pair_mut(p, q), pair_mut(n, m)));

    fn format(&self) -> Format {
        format_of(&self.bytes)
    }

    fn slices(&self) -> Vec<&[u8]> {
        let (first, second) = (&self.first, &self.second);
        vec![&self.bytes, &first.picture, &first.palette, &second.picture, &second.palette]
    }

    fn furthest(&self) -> u64 {
        self.bytes.len() as u64
    }
}

/// flic_open_reel.
#[derive(Clone, Debug, PartialEq, Eq)]
pub struct OpenCase {
    pub width: u64,
    pub height: u64,
    pub speed: u32,
    pub bytes: Vec<u8>,
}

impl OpenCase {
    pub const ROW: Row =
        Row { function: "open_reel", name: "open", unit: "reels", lends: &["reel"], numbers: &[0, 2, 3], ..PLAIN };
}

impl Call for OpenCase {
    made!(self, [bytes], open_reel(self.width, self.height, self.speed, bytes));

    fn handed(&self) -> String {
        format!("{} by {}, speed {}", self.width, self.height, self.speed)
    }

    fn slices(&self) -> Vec<&[u8]> {
        vec![&self.bytes]
    }
}

/// flic_open_fli.
#[derive(Clone, Debug, PartialEq, Eq)]
pub struct OpenFliCase {
    pub width: u64,
    pub height: u64,
    pub jiffies: u32,
    pub bytes: Vec<u8>,
}

impl OpenFliCase {
    pub const ROW: Row = Row {
        function: "open_fli",
        name: "open of an FLI",
        unit: "reels",
        lends: &["reel"],
        numbers: &[0, 2, 3, 14],
        ..PLAIN
    };
}

impl Call for OpenFliCase {
    made!(self, [bytes], open_fli(self.width, self.height, self.jiffies, bytes));

    fn handed(&self) -> String {
        format!("{} by {}, {} jiffies", self.width, self.height, self.jiffies)
    }

    fn slices(&self) -> Vec<&[u8]> {
        vec![&self.bytes]
    }
}

/// flic_add_frame.
#[derive(Clone, Debug, PartialEq, Eq)]
pub struct AddCase {
    pub reel: Reel,
    pub bytes: Vec<u8>,
    pub shown: State,
    pub next: State,
}

impl AddCase {
    pub const ROW: Row = Row {
        function: "add_frame",
        name: "add",
        unit: "frames",
        lends: &["reel", "showing picture", "showing palette", "next picture", "next palette"],
        numbers: &[0, 1, 2, 3, 4, 18],
        in_fli: &[0, 1, 2, 3, 4, 18],
        ..PLAIN
    };
}

impl Call for AddCase {
    made!(self, [bytes, p, q, n, m], add_frame(self.reel, bytes, pair(p, q), pair(n, m)));

    fn handed(&self) -> String {
        format!("{:?}", self.reel)
    }

    fn format(&self) -> Format {
        MODEL.formats.told(self.reel.format)
    }

    fn slices(&self) -> Vec<&[u8]> {
        let (shown, next) = (&self.shown, &self.next);
        vec![&self.bytes, &shown.picture, &shown.palette, &next.picture, &next.palette]
    }
}

/// flic_close_reel.
#[derive(Clone, Debug, PartialEq, Eq)]
pub struct CloseCase {
    pub reel: Reel,
    pub bytes: Vec<u8>,
    pub first: State,
    pub second: State,
}

impl CloseCase {
    pub const ROW: Row = Row {
        function: "close_reel",
        name: "close",
        unit: "reels",
        lends: REEL_AND_PAIRS,
        numbers: &[0, 1, 2, 3, 4, 5, 6, 7, 8, 9, 10, 11, 12, 13, 18, 19],
        in_fli: &[0, 1, 2, 3, 4, 5, 6, 7, 8, 9, 10, 12, 13, 18, 19, 20],
        ..PLAIN
    };
}

impl Call for CloseCase {
    made!(self, [bytes, p, q, n, m], close_reel(self.reel, bytes, pair_mut(p, q), pair_mut(n, m)));

    fn handed(&self) -> String {
        format!("{:?}", self.reel)
    }

    fn format(&self) -> Format {
        MODEL.formats.told(self.reel.format)
    }

    fn slices(&self) -> Vec<&[u8]> {
        let (first, second) = (&self.first, &self.second);
        vec![&self.bytes, &first.picture, &first.palette, &second.picture, &second.palette]
    }

    fn furthest(&self) -> u64 {
        self.bytes.len() as u64
    }
}

/// flic_check_trailer, of a file.
#[derive(Clone, Debug, PartialEq, Eq)]
pub struct CheckTrailerCase(pub Vec<u8>);

impl CheckTrailerCase {
    pub const ROW: Row = Row {
        function: "check_trailer",
        name: "check of a trailer",
        unit: "files",
        lends: &["file"],
        numbers: &[0, 2, 4, 5, 6, 14, 15, 17],
        in_fli: &[4, 5],
        ..PLAIN
    };
}

impl Call for CheckTrailerCase {
    made!(self, [bytes], check_trailer(bytes));

    fn format(&self) -> Format {
        format_of(&self.0)
    }

    fn slices(&self) -> Vec<&[u8]> {
        vec![&self.0]
    }

    fn furthest(&self) -> u64 {
        self.0.len() as u64
    }
}

/// flic_write_trailer, into a file.
#[derive(Clone, Debug, PartialEq, Eq)]
pub struct WriteTrailerCase(pub Vec<u8>);

impl WriteTrailerCase {
    pub const ROW: Row = Row {
        function: "write_trailer",
        name: "writing of a trailer",
        unit: "files",
        lends: &["file"],
        numbers: &[0, 2, 3, 4, 5, 6, 14, 15],
        in_fli: &[4, 5],
        ..PLAIN
    };
}

impl Call for WriteTrailerCase {
    made!(self, [bytes], write_trailer(bytes));

    fn format(&self) -> Format {
        format_of(&self.0)
    }

    fn slices(&self) -> Vec<&[u8]> {
        vec![&self.0]
    }

    fn furthest(&self) -> u64 {
        self.0.len() as u64
    }
}

/// flic_list.
#[derive(Clone, Debug, PartialEq, Eq)]
pub struct ListCase {
    pub bytes: Vec<u8>,
    pub out: Vec<u8>,
}

impl ListCase {
    pub const ROW: Row = Row {
        function: "list",
        name: "list",
        unit: "calls",
        lends: &["file", "output"],
        numbers: &[0, 3],
        in_fli: &[0, 3],
        ..PLAIN
    };
}

impl Call for ListCase {
    made!(self, [bytes, out], list(bytes, out));

    fn format(&self) -> Format {
        format_of(&self.bytes)
    }

    fn slices(&self) -> Vec<&[u8]> {
        vec![&self.bytes, &self.out]
    }
}

/// flic_read_header, of a file.
#[derive(Clone, Debug, PartialEq, Eq)]
pub struct HeaderCase(pub Vec<u8>);

impl HeaderCase {
    pub const ROW: Row = Row {
        function: "read_header",
        name: "reading of a header",
        unit: "files",
        lends: &["file"],
        numbers: &[0, 2, 4, 5, 6, 14],
        in_fli: &[0, 2, 4, 6, 14],
        ..PLAIN
    };
}

impl Call for HeaderCase {
    made!(self, [bytes], read_header(bytes));

    fn format(&self) -> Format {
        format_of(&self.0)
    }

    fn slices(&self) -> Vec<&[u8]> {
        vec![&self.0]
    }
}

/// flic_next_frame.
#[derive(Clone, Debug, PartialEq, Eq)]
pub struct StepCase {
    pub bytes: Vec<u8>,
    pub at: u64,
}

impl StepCase {
    pub const ROW: Row = Row {
        function: "next_frame",
        name: "step to the next frame",
        unit: "steps",
        lends: &["reel"],
        numbers: &[0, 4, 6, 15],
        ..PLAIN
    };
}

impl Call for StepCase {
    made!(self, [bytes], next_frame(bytes, self.at));

    fn handed(&self) -> String {
        format!("from offset {}", self.at)
    }

    fn slices(&self) -> Vec<&[u8]> {
        vec![&self.bytes]
    }

    fn furthest(&self) -> u64 {
        self.at.max(self.bytes.len() as u64)
    }
}

/// flic_search_row.
#[derive(Clone, Debug, PartialEq, Eq)]
pub struct SearchCase(pub Vec<u8>);

impl SearchCase {
    pub const ROW: Row = Row {
        function: "search_row",
        name: "search for a row",
        unit: "rows",
        lends: &["row"],
        numbers: &[0, 2],
        ..PLAIN
    };
}

impl Call for SearchCase {
    made!(self, [row], search_row(row));

    fn slices(&self) -> Vec<&[u8]> {
        vec![&self.0]
    }
}

/// flic_start_player.
#[derive(Clone, Debug, PartialEq, Eq)]
pub struct StartCase {
    pub bytes: Vec<u8>,
    pub now: u32,
    pub first: State,
    pub second: State,
}

impl StartCase {
    pub const ROW: Row = Row {
        function: "start_player",
        name: "start of a player",
        unit: "reels",
        lends: REEL_AND_PAIRS,
        numbers: OF_A_CHECK,
        in_fli: OF_AN_FLI_CHECK,
        ..PLAIN
    };
}

impl Call for StartCase {
    made!(self, [bytes, p, q, n, m], start_player(bytes, self.now, pair_mut(p, q), pair_mut(n, m)));

    fn handed(&self) -> String {
        format!("at reading {}", self.now)
    }

    fn format(&self) -> Format {
        format_of(&self.bytes)
    }

    fn slices(&self) -> Vec<&[u8]> {
        let (first, second) = (&self.first, &self.second);
        vec![&self.bytes, &first.picture, &first.palette, &second.picture, &second.palette]
    }

    fn furthest(&self) -> u64 {
        self.bytes.len() as u64
    }
}

/// flic_tick.
#[derive(Clone, Debug, PartialEq, Eq)]
pub struct TickCase {
    pub player: Record,
    pub bytes: Vec<u8>,
    pub now: u32,
    pub shown: State,
}

impl TickCase {
    pub const ROW: Row = Row {
        function: "tick",
        name: "tick",
        unit: "ticks",
        lends: &["player", "reel", "picture", "palette"],
        aligned: &[align_of::<Player>()],
        numbers: &[0, 1, 2, 4, 6, 7, 8, 9, 10, 11, 12, 13, 15, 19],
        in_fli: &[0, 1, 2, 4, 6, 7, 8, 9, 10, 12, 13, 15, 19, 20],
        ..PLAIN
    };
}

impl Call for TickCase {
    made!(self, [player, bytes, p, q], tick(&mut PlayerIn::of(player), bytes, self.now, pair_mut(p, q)));

    fn handed(&self) -> String {
        format!("{:?}, at reading {}", Player::from(self.player), self.now)
    }

    fn format(&self) -> Format {
        MODEL.formats.told(Player::from(self.player).format)
    }

    fn slices(&self) -> Vec<&[u8]> {
        let shown = &self.shown;
        vec![bytes_of(slice::from_ref(&self.player)), &self.bytes, &shown.picture, &shown.palette]
    }

    fn furthest(&self) -> u64 {
        self.bytes.len() as u64
    }
}

/// flic_replay.
#[derive(Clone, Debug, PartialEq, Eq)]
pub struct ReplayCase {
    pub speed: u32,
    pub frames: u64,
    pub start: u32,
    pub readings: Vec<u32>,
    /// What the words hold before the call.
    pub numbers: Vec<u32>,
}

impl ReplayCase {
    pub const ROW: Row = Row {
        function: "replay",
        name: "replay",
        unit: "lists",
        lends: &["readings", "numbers"],
        aligned: &[align_of::<u32>(), align_of::<u32>()],
        numbers: &[0, 3, 14],
        ..PLAIN
    };
}

impl Call for ReplayCase {
    made!(
        self,
        [readings, numbers],
        replay(self.speed, self.frames, self.start, values_in(readings), values_in(numbers))
    );

    fn handed(&self) -> String {
        format!("speed {}, {} frames, started at reading {}", self.speed, self.frames, self.start)
    }

    fn slices(&self) -> Vec<&[u8]> {
        vec![bytes_of(&self.readings), bytes_of(&self.numbers)]
    }
}

/// flic_tile_map.
#[derive(Clone, Debug, PartialEq, Eq)]
pub struct TileMapCase {
    pub width: u64,
    pub height: u64,
    pub previous: Vec<u8>,
    pub next: Vec<u8>,
    /// What the words hold before the call.
    pub words: Vec<u64>,
}

impl TileMapCase {
    pub const ROW: Row = Row {
        function: "tile_map",
        name: "tile map",
        unit: "pictures",
        lends: &["previous picture", "next picture", "words"],
        aligned: &[1, 1, align_of::<u64>()],
        numbers: &[0, 1, 2, 3],
        ..PLAIN
    };
}

impl Call for TileMapCase {
    made!(self, [previous, next, words], tile_map(self.width, self.height, previous, next, values_in(words)));

    fn handed(&self) -> String {
        format!("{} by {}", self.width, self.height)
    }

    fn slices(&self) -> Vec<&[u8]> {
        vec![&self.previous, &self.next, bytes_of(&self.words)]
    }
}

/// flic_marked_tiles.
#[derive(Clone, Debug, PartialEq, Eq)]
pub struct MarkedCase(pub u64);

impl MarkedCase {
    pub const ROW: Row =
        Row { function: "marked_tiles", name: "marked tiles of a word", unit: "words", numbers: &[0], ..PLAIN };
}

impl Call for MarkedCase {
    made!(self, [], marked_tiles(self.0));

    fn handed(&self) -> String {
        format!("{:#018x}", self.0)
    }

    fn slices(&self) -> Vec<&[u8]> {
        Vec::new()
    }
}

/// flic_in_milliseconds, of jiffies.
#[derive(Clone, Debug, PartialEq, Eq)]
pub struct MillisecondsCase(pub u32);

impl MillisecondsCase {
    pub const ROW: Row = Row {
        function: "in_milliseconds",
        name: "jiffies in milliseconds",
        unit: "delays",
        numbers: &[0, 14],
        ..PLAIN
    };
}

impl Call for MillisecondsCase {
    made!(self, [], in_milliseconds(self.0));

    fn handed(&self) -> String {
        format!("{} jiffies", self.0)
    }

    fn slices(&self) -> Vec<&[u8]> {
        Vec::new()
    }
}

/// flic_in_jiffies, of milliseconds.
#[derive(Clone, Debug, PartialEq, Eq)]
pub struct JiffiesCase(pub u32);

impl JiffiesCase {
    pub const ROW: Row =
        Row { function: "in_jiffies", name: "milliseconds in jiffies", unit: "delays", numbers: &[0, 14], ..PLAIN };
}

impl Call for JiffiesCase {
    made!(self, [], in_jiffies(self.0));

    fn handed(&self) -> String {
        format!("{} milliseconds", self.0)
    }

    fn slices(&self) -> Vec<&[u8]> {
        Vec::new()
    }
}
