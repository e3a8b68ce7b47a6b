//! What is wrong on purpose, and in which calls it must be seen: other readings of the documents, and trespasses.

mod formats;
mod frames;
mod headers;
mod house;
mod listings;
mod players;
mod reels;
mod tiles;
mod top_level;
mod trailers;

use crate::cases::{FAMILIES, FLI_FAMILIES, FLI_SHOWN, SINGLE};
use crate::model::{Model, MODEL};
use crate::players::families as player_families;
use crate::reels::families as reel_families;
use crate::runner::calls::Call;
use crate::runner::compare::Subject;
use crate::runner::inputs::listed;
use crate::runner::lent::{Lent, Side};
use crate::runner::told::{Rest, Told};
use crate::runner::wrongs::{models, see, Deed, Telling, Trespasser, Wrong};
use crate::tiles::families as tile_families;
use crate::trailers::families as trailer_families;
use crate::write_cases::{
    FLI_REWRITE_FAMILIES, FLI_WRITE_FAMILIES, REWRITE_FAMILIES, SEARCH_FAMILIES, SINGLE_REWRITES, SINGLE_WRITES,
    WRITE_FAMILIES,
};
use flic_boundary::Player;

/// For a rule of a part of the documents: readings that take this rule otherwise, and all others as they stand.
macro_rules! rules {
    ($part:ident; $($name:ident: $rule:ident($($argument:ident: $type:ty),*) -> $result:ty;)*) => {
        $(struct $name(fn($($type),*) -> $result);

        impl $part for $name {
            fn $rule(&self, $($argument: $type),*) -> $result {
                (self.0)($($argument),*)
            }
        })*
    };
}

/// Such readings by their names.
macro_rules! readings {
    ($all:ident: $part:ident; $($name:ident = $reading:expr;)*) => {
        pub const $all: &[(&str, &dyn $part)] = &[$((stringify!($name), &$reading),)*];
    };
}

use {readings, rules};

/// Models by name.
type Models = Vec<(String, Model)>;

/// The model with one part of it taken otherwise.
macro_rules! with {
    ($part:ident: $($all:path),*) => {
        [$($all),*].concat().iter().map(|(name, $part)| (name.to_string(), Model { $part: *$part, ..MODEL })).collect()
    };
}

/// A trespass in words, the function that makes it, and what it does to which slice.
pub type Trespass = (&'static str, &'static str, &'static str, Deed);

const BEFORE: Deed = Deed::WritesBeside(Side::Before);
const AFTER: Deed = Deed::WritesBeside(Side::After);

pub const READING: [Trespass; 4] = [
    ("a write before the picture", "read_frame", "picture", BEFORE),
    ("a write after the palette", "read_frame", "palette", AFTER),
    ("a changed frame byte", "read_frame", "frame", Deed::Changes),
    ("a changed picture of a refused frame", "read_frame", "picture", Deed::ChangesWhenRefused),
];

pub const WRITING: [Trespass; 3] = [
    ("a write after the output", "write_frame", "output", AFTER),
    ("a write past the frame", "write_frame", "output", Deed::ChangesPast),
    ("a changed previous picture", "write_frame", "previous picture", Deed::Changes),
];

pub const REWRITING: [Trespass; 1] =
    [("a changed excess of the working palette", "rewrite_frame", "working palette", Deed::ChangesExcess)];

pub const REELS: [Trespass; 10] = [
    ("a check that writes before the first picture", "check_reel", "first picture", BEFORE),
    ("a check that writes after the second palette", "check_reel", "second palette", AFTER),
    ("a check that changes the reel", "check_reel", "reel", Deed::Changes),
    ("an open that writes after the bytes", "open_reel", "reel", AFTER),
    ("an add that writes after the bytes", "add_frame", "reel", AFTER),
    ("an add that changes the showing picture", "add_frame", "showing picture", Deed::Changes),
    ("an add that changes the next palette", "add_frame", "next palette", Deed::Changes),
    ("an add that changes a byte when refused", "add_frame", "reel", Deed::ChangesWhenRefused),
    ("a close that changes the palette's excess", "close_reel", "first palette", Deed::ChangesExcess),
    ("a close that changes a byte past the ring", "close_reel", "reel", Deed::ChangesPast),
];

pub const FLI: [Trespass; 3] = [
    ("an open of an FLI that writes before the bytes", "open_fli", "reel", BEFORE),
    ("an open of an FLI that writes after the bytes", "open_fli", "reel", AFTER),
    ("an open of an FLI that changes a byte when refused", "open_fli", "reel", Deed::ChangesWhenRefused),
];

pub const TRAILERS: [Trespass; 14] = [
    ("a check that changes the file", "check_trailer", "file", Deed::Changes),
    ("a check that writes after the file", "check_trailer", "file", AFTER),
    ("a writing that writes before the file", "write_trailer", "file", BEFORE),
    ("a writing that writes after the file", "write_trailer", "file", AFTER),
    ("a writing that changes a byte when refused", "write_trailer", "file", Deed::ChangesWhenRefused),
    ("a writing that changes a byte past the trailer", "write_trailer", "file", Deed::ChangesPast),
    ("a listing that changes the file", "list", "file", Deed::Changes),
    ("a listing that writes after the output", "list", "output", AFTER),
    ("a listing that changes a byte when refused", "list", "output", Deed::ChangesWhenRefused),
    ("a listing that changes a byte past the text", "list", "output", Deed::ChangesPast),
    ("a reading of a header that changes the file", "read_header", "file", Deed::Changes),
    ("a reading of a header that writes after it", "read_header", "file", AFTER),
    ("a step that changes the file", "next_frame", "reel", Deed::Changes),
    ("a step that writes before the file", "next_frame", "reel", BEFORE),
];

pub const PLAYERS: [Trespass; 14] = [
    ("a start that writes before the first picture", "start_player", "first picture", BEFORE),
    ("a start that writes after the second palette", "start_player", "second palette", AFTER),
    ("a start that changes the reel", "start_player", "reel", Deed::Changes),
    ("a start that changes the palette's excess", "start_player", "first palette", Deed::ChangesExcess),
    ("a tick that writes before the record", "tick", "player", BEFORE),
    ("a tick that writes after the record", "tick", "player", AFTER),
    ("a tick that changes the record when refused", "tick", "player", Deed::ChangesWhenRefused),
    ("a tick that changes the picture when refused", "tick", "picture", Deed::ChangesWhenRefused),
    ("a tick that changes the palette's excess", "tick", "palette", Deed::ChangesExcess),
    ("a tick that changes the reel", "tick", "reel", Deed::Changes),
    ("a replay that changes the readings", "replay", "readings", Deed::Changes),
    ("a replay that writes after the numbers", "replay", "numbers", AFTER),
    ("a replay that changes a number when refused", "replay", "numbers", Deed::ChangesWhenRefused),
    ("a replay that changes a word past the numbers", "replay", "numbers", Deed::ChangesPast),
];

pub const TILES: [Trespass; 6] = [
    ("a map that writes before the words", "tile_map", "words", BEFORE),
    ("a map that writes after the words", "tile_map", "words", AFTER),
    ("a map that changes the previous picture", "tile_map", "previous picture", Deed::Changes),
    ("a map that changes the next picture", "tile_map", "next picture", Deed::Changes),
    ("a map that changes a word when refused", "tile_map", "words", Deed::ChangesWhenRefused),
    ("a map that changes a word past the tile rows", "tile_map", "words", Deed::ChangesPast),
];

pub fn trespassers(all: &[Trespass]) -> Vec<Wrong> {
    let wrong = |(name, function, slice, deed): &Trespass| {
        Wrong::of(*name, Trespasser { function, slice, deed: *deed }, &[function])
    };
    all.iter().map(wrong).collect()
}

/// Refusals that tell more than they should.
pub fn tellers() -> Vec<Wrong> {
    let header = |told: Told| match told.rest {
        Rest::Header { height, frames, size, speed, format, .. } if told.number == 14 => {
            Told { rest: Rest::Header { width: 1, height, frames, size, speed, format }, ..told }
        }
        _ => told,
    };
    let span = |told: Told| match told.rest {
        Rest::Span { end, .. } if told.number == 6 => Told { rest: Rest::Span { from: told.place, end }, ..told },
        _ => told,
    };
    vec![
        Wrong::of(
            "a refused header that tells its fields",
            Telling { function: "read_header", altered: header },
            &["read_header"],
        ),
        Wrong::of(
            "a refused step that tells a span",
            Telling { function: "next_frame", altered: span },
            &["next_frame"],
        ),
    ]
}

/// The same of delays.
pub fn delay_tellers() -> Vec<Wrong> {
    let delayed = |told: Told| match told.number {
        0 => told,
        _ => Told { rest: Rest::Delay(65_535), ..told },
    };
    let wrong = |function: &'static str| {
        let name = format!("a refused delay that is told by {function}");
        Wrong::of(name, Telling { function, altered: delayed }, &[function])
    };
    vec![wrong("in_milliseconds"), wrong("in_jiffies")]
}

/// The same of searches.
fn search_tellers() -> Vec<Wrong> {
    let searched = |told: Told| match told.number {
        0 => told,
        _ => Told { rest: Rest::Cost { bytes: 1, turns: 0 }, ..told },
    };
    vec![Wrong::of(
        "a refused search that tells bytes",
        Telling { function: "search_row", altered: searched },
        &["search_row"],
    )]
}

/// The same of players.
pub fn player_tellers() -> Vec<Wrong> {
    let started = |told: Told| match told.rest {
        Rest::Player(player) if told.number == 16 => {
            Told { rest: Rest::Player(Player { frames: 1, ..player }), ..told }
        }
        _ => told,
    };
    let ticked = |told: Told| match told.number {
        0 => told,
        _ => Told { rest: Rest::Event(1), ..told },
    };
    let replayed = |told: Told| match told.number {
        3 => Told { rest: Rest::Length(1), ..told },
        _ => told,
    };
    vec![
        Wrong::of(
            "a refused start that gives a record",
            Telling { function: "start_player", altered: started },
            &["start_player"],
        ),
        Wrong::of("a refused tick that tells a drawn frame", Telling { function: "tick", altered: ticked }, &["tick"]),
        Wrong::of(
            "a refused replay that tells a length",
            Telling { function: "replay", altered: replayed },
            &["replay"],
        ),
    ]
}

/// A reel's check that reads the trailer too, which only a check before and after its writing shows.
struct ReadsTrailer;

impl Subject for ReadsTrailer {
    fn call(&self, call: &dyn Call, lent: &mut Lent) -> Told {
        let told = call.model(&MODEL, lent);
        if call.row().function != "check_reel" || told.number != 0 {
            return told;
        }
        let [bytes, ..]: [_; 5] = lent.slices();
        MODEL.check_trailer(bytes).into()
    }
}

pub fn of_frames() -> Models {
    with!(frames: frames::ALL)
}

/// Readings of a frame of an FLI.
pub fn of_fli_frames() -> Models {
    with!(frames: frames::FLI)
}

/// Those of them that a reel, a rewrite and a player show too.
fn of_foreign_kinds() -> Models {
    named(&["Kind7ReadInFli", "Kind18SteppedOverInFli", "KindBeforeItsSizes", "KindAfterItsBody"], of_fli_frames())
}

/// Ways to take the number of a format.
fn of_numbers() -> Models {
    with!(formats: formats::TOLD)
}

/// Those of a frame's readings that take spare bytes otherwise.
fn of_spare_bytes() -> Models {
    of_frames().into_iter().filter(|(name, _)| name.contains("Spare")).collect()
}

pub fn seen_in_reading(base: u64) -> Vec<Wrong> {
    let mut all = models(of_frames(), &["read_frame"]);
    all.extend(trespassers(&READING));
    see(&mut all, &listed(&FAMILIES[..SINGLE]), 4_000, base);
    let mut fli = models(of_fli_frames(), &["read_frame"]);
    fli.extend(in_call("read_frame", of_numbers()));
    see(&mut fli, &listed(&FLI_FAMILIES[..FLI_SHOWN]), 300, base);
    all.extend(fli);
    all
}

pub fn seen_in_writing(base: u64) -> Vec<Wrong> {
    let mut writes = models(with!(house: house::WRITING), &["write_frame"]);
    writes.extend(trespassers(&WRITING));
    see(&mut writes, &listed(&WRITE_FAMILIES[..SINGLE_WRITES]), 3_000, base);
    let mut rewrites = models(with!(house: house::REWRITING), &["rewrite_frame"]);
    rewrites.extend(in_call("rewrite_frame", of_spare_bytes()));
    rewrites.extend(trespassers(&REWRITING));
    see(&mut rewrites, &listed(&REWRITE_FAMILIES[..SINGLE_REWRITES]), 3_000, base);
    writes.extend(rewrites);
    let least = [with!(house: house::SEARCHING), named(&["RepeatAtEveryEqualPair"], with!(house: house::WRITING))];
    let mut searches = models(least.concat(), &["search_row"]);
    searches.extend(search_tellers());
    see(&mut searches, &listed(&SEARCH_FAMILIES), 30_000, base);
    writes.extend(searches);
    writes.extend(seen_in_fli_writing(base));
    writes
}

/// Readings of the house form that an FLI must show too.
const HOUSE_OF_BOTH: [&str; 10] = [
    "AlwaysCopy",
    "TieForCopy",
    "TieForShortest",
    "CopyBeforeBrun",
    "IgnoredByteZero",
    "DeltaWhenAsLong",
    "NeverDelta",
    "ColoursInOnePacket",
    "ColourAfterPicture",
    "WritesWhenShort",
];

fn seen_in_fli_writing(base: u64) -> Vec<Wrong> {
    let of_both = named(&HOUSE_OF_BOTH, with!(house: house::WRITING));
    let mut writes = models(with!(house: house::FLI), &["write_frame"]);
    writes.extend(in_call("write_frame", of_numbers()));
    writes.extend(in_words("in an FLI", of_both, &["write_frame"]));
    see(&mut writes, &listed(&FLI_WRITE_FAMILIES), 60, base);
    let rewriting: [Models; 3] =
        [of_numbers(), of_foreign_kinds(), named(&["FlcDeltaInFli"], with!(house: house::FLI))];
    let mut rewrites = in_call("rewrite_frame", rewriting.concat());
    rewrites.extend(in_words("in an FLI", with!(house: house::REWRITING), &["rewrite_frame"]));
    see(&mut rewrites, &listed(&FLI_REWRITE_FAMILIES), 60, base);
    writes.extend(rewrites);
    writes
}

/// Wrong playing must show in a check and in a close.
pub fn seen_in_reels(base: u64) -> Vec<Wrong> {
    let wrong: [Models; 4] = [
        with!(headers: headers::ACCEPTED, headers::REELS),
        with!(top_level: top_level::CHUNKS, top_level::WALKS),
        with!(checking: reels::CHECKING),
        with!(building: reels::BUILDING),
    ];
    let playing: [Models; 3] =
        [with!(playing: reels::PLAYING), named(&["KeepsHalfReadFrame"], of_frames()), of_spare_bytes()];
    let mut all = models(wrong.concat(), &["check_reel", "open_reel", "add_frame", "close_reel"]);
    all.extend(in_call("check_reel", playing.concat()));
    all.extend(in_call("close_reel", playing.concat()));
    all.extend(trespassers(&REELS));
    see(&mut all, &listed(&reel_families::FAMILIES[..reel_families::SMALL]), 100, base);
    all.extend(seen_in_fli_reels(base));
    all
}

fn seen_in_fli_reels(base: u64) -> Vec<Wrong> {
    let built: [Models; 2] = [with!(building: reels::FLI), with!(headers: headers::FLI_WRITTEN)];
    let checked: [Models; 3] = [with!(headers: headers::FLI), with!(formats: formats::MAGIC), of_foreign_kinds()];
    let delays: [Models; 2] = [with!(formats: formats::DELAYS), with!(formats: formats::FROM_JIFFIES)];
    let mut all = models(built.concat(), &["open_fli", "add_frame", "close_reel"]);
    all.extend(in_call("check_reel", checked.concat()));
    all.extend(in_words("in an FLI", with!(checking: reels::CHECKING), &["check_reel"]));
    all.extend(in_call("add_frame", of_numbers()));
    all.extend(in_call("close_reel", [of_numbers(), of_foreign_kinds()].concat()));
    all.extend(models(delays.concat(), &["in_milliseconds", "in_jiffies"]));
    all.extend(delay_tellers());
    all.extend(trespassers(&FLI));
    see(&mut all, &listed(&reel_families::FLI_FAMILIES), 100, base);
    all
}

/// Those of some models that have these names.
fn named(names: &[&str], models: Models) -> Models {
    models.into_iter().filter(|(name, _)| names.contains(&&name[..])).collect()
}

/// Wrong models that must be seen in one call, by names that tell it.
fn in_call(call: &'static str, wrong: Models) -> Vec<Wrong> {
    in_words(&format!("in {call}"), wrong, &[call])
}

/// Wrong models by names with these words behind them.
fn in_words(words: &str, wrong: Models, functions: &[&'static str]) -> Vec<Wrong> {
    models(wrong.into_iter().map(|(name, model)| (format!("{name} {words}"), model)).collect(), functions)
}

/// A wrong walk through a reel must show in each call that walks.
pub fn seen_in_trailers(base: u64) -> Vec<Wrong> {
    let accepted: Models = with!(headers: headers::ACCEPTED);
    let chunks: Models = with!(top_level: top_level::CHUNKS);
    let walks: Models = with!(top_level: top_level::WALKS, top_level::UNOPENED);
    let (read, steps): (Models, Models) = (with!(headers: headers::READ), with!(top_level: top_level::STEPS));
    let walking = [accepted.clone(), chunks.clone(), walks].concat();
    let trailers_and_listings: [Models; 2] = [with!(trailers: trailers::ALL), with!(listings: listings::ALL)];
    let mut all = models(trailers_and_listings.concat(), &["check_trailer", "write_trailer", "list"]);
    all.extend(trespassers(&TRAILERS));
    all.extend(tellers());
    all.push(Wrong::of("a reel's check that reads the trailer", ReadsTrailer, &[]));
    for (call, wrong) in [
        ("check_trailer", walking.clone()),
        ("write_trailer", walking.clone()),
        ("list", walking),
        ("read_header", [accepted, read].concat()),
        ("next_frame", [chunks, steps].concat()),
    ] {
        all.extend(in_call(call, wrong));
    }
    see(&mut all, &listed(&trailer_families::FAMILIES), 100, base);
    let told: [Models; 2] =
        [with!(headers: headers::FLI, headers::FLI_SPEEDS), with!(formats: formats::MAGIC, formats::FROM_JIFFIES)];
    let mut fli = models(with!(trailers: trailers::FLI_CHECKED), &["check_trailer"]);
    fli.extend(models(with!(trailers: trailers::FLI_WRITTEN), &["write_trailer"]));
    fli.extend(models(with!(listings: listings::FLI), &["list"]));
    fli.extend(in_call("read_header", told.concat()));
    see(&mut fli, &listed(&trailer_families::FLI_FAMILIES), 100, base);
    all.extend(fli);
    all
}

/// A wrong clock must show in a tick and in a replay, a wrong check in a start, a wrong step to the next frame in both.
pub fn seen_in_players(base: u64) -> Vec<Wrong> {
    let clocks: Models = with!(players: players::CLOCKS);
    let chunks: Models = with!(top_level: top_level::CHUNKS);
    let playing: Models = with!(playing: reels::PLAYING);
    let half_read = named(&["KeepsHalfReadFrame"], of_frames());
    let frame_counts = named(&["HeaderOf4001Frames", "HeaderOfNoFrames"], with!(headers: headers::ACCEPTED));
    let fields = ["SlicesBeforeFlags", "SpeedReadAsWord", "SpeedReadAtOffset18", "RingCountedAsFrame", "WidthAsHeight"];
    let starts: [Models; 8] = [
        with!(players: players::STARTS),
        with!(headers: headers::ACCEPTED),
        named(&fields, with!(headers: headers::READ, headers::REELS)),
        chunks.clone(),
        with!(top_level: top_level::WALKS),
        with!(checking: reels::CHECKING),
        playing.clone(),
        half_read.clone(),
    ];
    let ticks: [Models; 5] =
        [clocks.clone(), with!(players: players::TICKS), chunks, named(&["PlaceWithinFrame"], playing), half_read];
    let replays: [Models; 3] = [clocks, with!(players: players::REPLAYS), frame_counts];
    let mut all = in_call("start_player", starts.concat());
    all.extend(in_call("tick", ticks.concat()));
    all.extend(in_call("replay", replays.concat()));
    all.extend(trespassers(&PLAYERS));
    all.extend(player_tellers());
    see(&mut all, &listed(&player_families::FAMILIES[..player_families::SMALL]), 100, base);
    let starts: [Models; 4] = [
        with!(headers: headers::FLI, headers::FLI_SPEEDS),
        with!(formats: formats::MAGIC, formats::FROM_JIFFIES),
        with!(players: players::FLI_STARTS),
        of_foreign_kinds(),
    ];
    let ticks: [Models; 3] = [with!(players: players::FLI_TICKS), of_numbers(), of_foreign_kinds()];
    let mut fli = in_call("start_player", starts.concat());
    fli.extend(in_call("tick", ticks.concat()));
    see(&mut fli, &listed(&player_families::FLI_FAMILIES), 100, base);
    all.extend(fli);
    all
}

/// A refused map that tells rows.
pub fn map_tellers() -> Vec<Wrong> {
    let mapped = |told: Told| match told.number {
        3 => Told { rest: Rest::Length(1), ..told },
        _ => told,
    };
    vec![Wrong::of("a refused map that tells rows", Telling { function: "tile_map", altered: mapped }, &["tile_map"])]
}

pub fn seen_in_tiles(base: u64) -> Vec<Wrong> {
    let mut all = models(with!(tiles: tiles::MAPS), &["tile_map"]);
    all.extend(models(with!(tiles: tiles::MARKS), &["marked_tiles"]));
    all.extend(trespassers(&TILES));
    all.extend(map_tellers());
    see(&mut all, &listed(&tile_families::FAMILIES[..tile_families::SMALL]), 1_000, base);
    all
}
