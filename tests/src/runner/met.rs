//! What a run has met: answers, call by call and of each format apart, the kinds of frames, the lines of listings, what ticks
//! did, and how frames were read; and what it should have met and didn't.

use super::calls::{Row, PLAIN};
use super::compare::Agreed;
use super::inputs::Case;
use super::told::Rest;
use crate::frames::{is_known, UNKNOWN};
use crate::model::{size_at, word_at, Format, FRAME_HEADER, MOST_DEPTH};
use crate::ways::{marks, Ways};
use std::collections::BTreeMap;

const PROGRESS: u64 = 20_000;

/// A row for cases that are more than a call, and for what a listing's only or first line tells.
const fn besides(name: &'static str, unit: &'static str, numbers: &'static [u32], in_fli: &'static [u32]) -> Row {
    Row { function: name, name, unit, numbers, in_fli, ..PLAIN }
}

/// Reels that were played.
pub const PLAY: Row = besides("play", "reels of three laps", &[0], &[0]);
/// A whole-reel check before and after a trailer was written: done, damaged in several ways, astray.
pub const AROUND: Row = besides("check of a reel before and after its trailer", "reels", &[0, 4, 7, 9, 16], &[]);
/// Players that were started and ticked, and a replay of the same readings.
pub const LIVE: Row = besides("live player and replay", "lists of readings", &[0], &[0]);
/// Whole listings: one that ends with `ok` is 0, a line `refused N PLACE` is N.
pub const LISTING: Row = besides("listing", "texts", &[0, 2, 3, 4, 5, 6, 14, 15], &[4, 5]);

/// What a tick can do, by its number.
const EVENTS: [&str; 3] = ["nothing due", "drawn", "set back"];

struct Tally {
    row: &'static Row,
    format: Format,
    calls: u64,
    numbers: BTreeMap<u32, u64>,
    kinds: BTreeMap<u16, u64>,
}

impl Tally {
    /// One for each format.
    fn both(row: &'static Row) -> [Tally; 2] {
        Format::BOTH.map(|format| Tally { row, format, calls: 0, numbers: BTreeMap::new(), kinds: BTreeMap::new() })
    }

    /// What it counts, in words.
    fn name(&self) -> String {
        match self.format {
            Format::Flc => self.row.name.to_string(),
            Format::Fli => format!("{} in FLI", self.row.name),
        }
    }

    fn count(&mut self, number: u32) {
        self.calls += 1;
        *self.numbers.entry(number).or_default() += 1;
        if self.calls % PROGRESS == 0 {
            println!("{}: {} {} so far", self.name(), self.calls, self.row.unit);
        }
    }

    fn print(&self) {
        if self.calls == 0 {
            return;
        }
        println!("{}: {} {}", self.name(), self.calls, self.row.unit);
        for (number, times) in &self.numbers {
            match number {
                0 => println!("  done       {times}"),
                _ => println!("  refused {number:2} {times}"),
            }
        }
        for (kind, times) in &self.kinds {
            match *kind {
                UNKNOWN => println!("  {} with an unknown kind {times}", self.row.verb),
                _ => println!("  {} with kind {kind:2} {times}", self.row.verb),
            }
        }
    }
}

/// What a run must meet, by the rows of its calls.
pub struct Met {
    tallies: Vec<Tally>,
    listings: [Tally; 2],
    /// How many lines of each depth were listed.
    depths: [u64; MOST_DEPTH + 1],
    /// How many ticks did each thing that one can do.
    events: [u64; EVENTS.len()],
    /// How the frames of flic_read_frame were read: in two passes or in one.
    ways: Ways,
}

impl Met {
    pub fn nothing(rows: &[&'static Row]) -> Met {
        let tallies = rows.iter().flat_map(|row| Tally::both(row)).collect();
        let (depths, events) = ([0; MOST_DEPTH + 1], [0; EVENTS.len()]);
        Met { tallies, listings: Tally::both(&LISTING), depths, events, ways: Ways::default() }
    }

    pub fn count(&mut self, case: &Case, agreed: &Agreed) {
        let row = match case {
            Case::Play(_) => &PLAY,
            Case::Around(_) => &AROUND,
            Case::Live(_) => &LIVE,
            _ => case.call().expect("all other cases are one call").row(),
        };
        let format = case.format();
        let is_its = |tally: &&mut Tally| tally.row.function == row.function && tally.format == format;
        let tally = self.tallies.iter_mut().find(is_its).expect("a run names the rows of its families");
        tally.count(agreed.told.number);
        if let Case::Read(case) = case {
            marks(format, &case.bytes, &agreed.told).into_iter().for_each(|mark| self.ways.count(mark));
        }
        if agreed.told.number == 0 && !agreed.left.is_empty() {
            let frame = case.call().and_then(|call| call.frame(&agreed.left));
            for kind in frame.map_or(Vec::new(), kinds_of_accepted) {
                *tally.kinds.entry(if is_known(kind) { kind } else { UNKNOWN }).or_default() += 1;
            }
            if let Case::List(_) = case {
                let text = &agreed.left[1][..agreed.told.length() as usize];
                self.count_lines(format, std::str::from_utf8(text).expect("a listing is text"));
            }
            if let Rest::Event(event) = agreed.told.rest {
                self.events[event as usize] += 1;
            }
        }
    }

    fn count_lines(&mut self, format: Format, text: &str) {
        let listings = self.listings.iter_mut().find(|tally| tally.format == format).expect("one for each format");
        let mut lines = text.lines();
        let first: Vec<&str> = lines.next().map_or(Vec::new(), |line| line.split(' ').collect());
        match first[..] {
            ["refused", number, _] => listings.count(number.parse().expect("a refusal's line tells its number")),
            _ => listings.count(0),
        }
        for line in lines.filter(|line| *line != "ok") {
            let depth = line.split(' ').next().and_then(|depth| depth.parse::<usize>().ok());
            self.depths[depth.expect("a chunk's line begins with its depth")] += 1;
        }
    }

    fn lists(&self) -> bool {
        self.makes("list")
    }

    fn makes(&self, function: &str) -> bool {
        self.tallies.iter().any(|tally| tally.row.function == function)
    }

    pub fn calls(&self) -> u64 {
        self.tallies.iter().map(|tally| tally.calls).sum()
    }

    pub fn print(&self) {
        self.tallies.iter().for_each(Tally::print);
        if self.lists() {
            self.listings.iter().for_each(Tally::print);
            (0..).zip(self.depths).for_each(|(depth, lines): (usize, u64)| println!("  depth {depth}    {lines}"));
        }
        if self.makes("tick") {
            EVENTS.iter().zip(self.events).for_each(|(event, ticks)| println!("  {event:11} {ticks}"));
        }
        if self.makes("read_frame") {
            self.ways.print();
        }
    }

    /// The answers, kinds, lines, depths, events and ways of reading that should have been met and weren't, in words.
    pub fn missing(&self) -> Vec<String> {
        let mut missing = Vec::new();
        for tally in self.tallies.iter().chain(self.lists().then_some(&self.listings).into_iter().flatten()) {
            let Tally { row, format, numbers, kinds, .. } = tally;
            let unmet = row.numbers_of(*format).iter().filter(|number| !numbers.contains_key(number));
            missing.extend(unmet.map(|number| format!("{}: answer {number}", tally.name())));
            let unmet = row.kinds_of(*format).iter().filter(|kind| !kinds.contains_key(kind));
            missing.extend(unmet.map(|kind| format!("{}: kind {kind}", tally.name())));
        }
        let unlisted = (0..).zip(self.depths).filter(|(_, lines)| self.lists() && *lines == 0);
        missing.extend(unlisted.map(|(depth, _): (usize, u64)| format!("depth {depth}")));
        let undone = EVENTS.iter().zip(self.events).filter(|(_, ticks)| self.makes("tick") && *ticks == 0);
        missing.extend(undone.map(|(event, _)| format!("a tick: {event}")));
        if self.makes("read_frame") {
            missing.extend(self.ways.missing());
        }
        missing
    }
}

/// The kinds of the sub-chunks of a frame that was accepted, in file order.
fn kinds_of_accepted(bytes: &[u8]) -> Vec<u16> {
    let mut kinds = Vec::new();
    let mut place = FRAME_HEADER;
    for _ in 0..word_at(bytes, 6) {
        kinds.push(word_at(bytes, place + 4));
        place += size_at(bytes, place);
    }
    kinds
}
