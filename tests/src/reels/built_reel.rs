//! A reel that the model opened and added to, of which every call is known.

use super::make::{check_of, close_of, play};
use crate::fli_pictures::change_rows;
use crate::model::{Format, FILE_HEADER, MODEL};
use crate::rng::Rng;
use crate::runner::calls::{AddCase, OpenCase, OpenFliCase};
use crate::runner::inputs::{Case, PlayCase, Sink};
use crate::sizes::{long_or_exact, size_of, small_size};
use crate::states::{lend, next_state, State};
use crate::write_cases::ample_room;
use flic_boundary::Reel;

/// One accepted add: the state it was handed, the one it asked for, and where its frame begins.
pub struct Added {
    pub shown: State,
    pub next: State,
    pub place: usize,
}

/// A reel that was opened and added to, and not closed yet.
pub struct Built {
    pub format: Format,
    pub width: usize,
    pub height: usize,
    /// The delay that it was opened with: milliseconds, or of an FLI jiffies.
    pub speed: u32,
    pub adds: Vec<Added>,
    /// The reel up to its record's end.
    pub bytes: Vec<u8>,
}

impl Built {
    pub fn opened(rng: &mut Rng, format: Format, width: usize, height: usize) -> Built {
        let delay = rng.draw() as u32;
        let mut bytes = rng.bytes(FILE_HEADER);
        let (speed, outcome) = match format {
            Format::Flc => (delay, MODEL.open_reel(width as u64, height as u64, delay, &mut bytes)),
            Format::Fli => {
                let jiffies = delay % 65_536;
                (jiffies, MODEL.open_fli(width as u64, height as u64, jiffies, &mut bytes))
            }
        };
        outcome.answer.expect("an open of a right size is done");
        Built { format, width, height, speed, adds: Vec::new(), bytes }
    }

    /// A reel whose adds were each handed the state that the one before asked for.
    pub fn in_order(rng: &mut Rng, format: Format, width: usize, height: usize, frames: usize) -> Built {
        let mut built = Built::opened(rng, format, width, height);
        let mut shown = State::blank(width * height);
        for _ in 0..frames {
            let next = next_state(rng, format, &shown, width, height);
            built.add(shown, next.clone());
            shown = next;
        }
        built
    }

    /// A reel of few bytes: of an FLI some rows are changed in each frame.
    pub fn small(rng: &mut Rng, format: Format, frames: usize) -> Built {
        let (width, height) = size_of(rng, format, small_size);
        if format == Format::Flc {
            return Built::in_order(rng, format, width, height, frames);
        }
        let mut built = Built::opened(rng, format, width, height);
        let mut shown = State::blank(width * height);
        for _ in 0..frames {
            let mut next = shown.clone();
            change_rows(rng, &mut next.picture);
            built.add(shown, next.clone());
            shown = next;
        }
        built
    }

    pub fn add(&mut self, shown: State, next: State) {
        let place = self.bytes.len();
        let record = self.record(self.adds.len());
        self.bytes.resize(place + ample_room(self.pixels()), 0);
        let outcome = MODEL.add_frame(record, &mut self.bytes, shown.shown(), next.shown());
        outcome.answer.expect("an add with ample room is done");
        self.bytes.truncate(outcome.reel.end as usize);
        self.adds.push(Added { shown, next, place });
    }

    pub fn pixels(&self) -> usize {
        self.width * self.height
    }

    /// The record after so many adds.
    pub fn record(&self, frames: usize) -> Reel {
        let end = self.adds.get(frames).map_or(self.bytes.len(), |add| add.place);
        let (width, height) = (self.width as u64, self.height as u64);
        Reel { width, height, frames: frames as u64, end: end as u64, closed: 0, format: self.format.number() }
    }

    /// The record after the last add.
    pub fn last_record(&self) -> Reel {
        self.record(self.adds.len())
    }

    /// The closed reel and its record.
    pub fn closed(&self) -> (Reel, Vec<u8>) {
        let mut bytes = self.bytes.clone();
        bytes.resize(bytes.len() + ample_room(self.pixels()), 0);
        let (mut first, mut second) = (State::blank(self.pixels()), State::blank(self.pixels()));
        let outcome = MODEL.close_reel(self.last_record(), &mut bytes, first.work(), second.work());
        outcome.answer.expect("a close of built frames with ample room is done");
        bytes.truncate(outcome.reel.end as usize);
        (outcome.reel, bytes)
    }

    /// The open reel with `room` bytes of chance after the record's end.
    pub fn with_room(&self, rng: &mut Rng, room: usize) -> Vec<u8> {
        [self.bytes.clone(), rng.bytes(room)].concat()
    }

    pub fn open_case(&self, rng: &mut Rng) -> Case {
        let length = some_excess(rng, FILE_HEADER);
        let bytes = rng.bytes(length);
        let (width, height, delay) = (self.width as u64, self.height as u64, self.speed);
        match self.format {
            Format::Flc => Case::Open(OpenCase { width, height, speed: delay, bytes }),
            Format::Fli => Case::OpenFli(OpenFliCase { width, height, jiffies: delay, bytes }),
        }
    }

    /// The add number `which`, as it was accepted, into bytes that have `room` after the record's end.
    pub fn add_case(&self, rng: &mut Rng, which: usize, room: usize) -> Case {
        let Added { shown, next, place } = &self.adds[which];
        let bytes = [self.bytes[..*place].to_vec(), rng.bytes(room)].concat();
        let (lent_shown, lent_next) = (long_or_exact(rng, self.pixels()), long_or_exact(rng, self.pixels()));
        let (shown, next) = (lend(rng, shown, lent_shown), lend(rng, next, lent_next));
        Case::Add(AddCase { reel: self.record(which), bytes, shown, next })
    }

    /// How many bytes the frame of an add takes.
    pub fn length_of(&self, which: usize) -> usize {
        (self.record(which + 1).end - self.record(which).end) as usize
    }

    /// The open, the adds, the close, a second close and the check of this reel, and its playing, which shows `states`.
    pub fn whole_life(&self, rng: &mut Rng, states: Vec<State>, sink: Sink) {
        sink(self.open_case(rng));
        for which in 0..self.adds.len() {
            let room = some_excess(rng, self.length_of(which));
            sink(self.add_case(rng, which, room));
        }
        let (record, bytes) = self.closed();
        let room = some_excess(rng, bytes.len() - self.bytes.len());
        let lent = self.with_room(rng, room);
        sink(close_of(rng, self.last_record(), lent));
        let after = some_excess(rng, 0);
        let lent = [bytes.clone(), rng.bytes(after)].concat();
        sink(close_of(rng, record, lent.clone()));
        sink(check_of(rng, lent));
        let Built { format, width, height, .. } = *self;
        sink(Case::Play(PlayCase { bytes, format, width, height, states }));
    }

    /// The states that the adds asked for.
    pub fn asked(&self) -> Vec<State> {
        self.adds.iter().map(|add| add.next.clone()).collect()
    }

    /// The states that the frames show, whatever was asked for.
    pub fn states_shown(&self) -> Vec<State> {
        let mut shown = State::blank(self.pixels());
        let mut states = Vec::new();
        for add in &self.adds {
            play(self.format, self.width, self.height, &mut shown, &self.bytes[add.place..]);
            states.push(shown.clone());
        }
        states
    }
}

/// A length of what is needed or a little more.
fn some_excess(rng: &mut Rng, needed: usize) -> usize {
    needed + rng.pick(&[0, 0, 1, 7, 40])
}
