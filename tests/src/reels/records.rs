//! Families of records: altered ones handed to add and close, and every room around what those need.

use super::built_reel::Built;
use super::make::{add_of, close_of};
use crate::model::{Format, FILE_HEADER, MAX_FRAMES};
use crate::rng::Rng;
use crate::runner::calls::{AddCase, CloseCase};
use crate::runner::inputs::{Case, Sink};
use crate::sizes::{exact, short_lengths, wrong_size};
use crate::states::any_state;
use crate::write_cases::ample_room;
use flic_boundary::Reel;

fn small_built(rng: &mut Rng, format: Format) -> Built {
    let frames = rng.between(1, 4);
    Built::small(rng, format, frames)
}

/// Ends at the limits of a header, of the record and of the bytes.
fn ends(record: Reel, length: u64) -> Vec<u64> {
    let end = record.end;
    let near = [0, 1, 127, 128, 129, 143, 144, end - 1, end, end + 1, end + 16, length - 1, length, length + 1];
    let far = [u32::MAX.into(), 1 << 32, u64::MAX - 15, u64::MAX];
    [&near[..], &far].concat()
}

fn frame_counts(record: Reel) -> [u64; 10] {
    let (right, most) = (record.frames, MAX_FRAMES);
    [0, 1, right - 1, right, right + 1, most - 1, most, most + 1, 65_537, u64::MAX]
}

const CLOSED: [u32; 4] = [1, 2, 1 << 31, u32::MAX];

/// Numbers of formats, of which only the first is FLC.
const FORMATS: [u32; 6] = [0, 1, 2, 256, 1 << 31, u32::MAX];

/// A record with each of its fields altered in turn, added to and closed; and one whose header holds chance, which neither reads.
pub fn records(rng: &mut Rng, format: Format, sink: Sink) {
    let built = small_built(rng, format);
    let room = rng.pick(&[0, 16, ample_room(built.pixels())]);
    let bytes = built.with_room(rng, room);
    let record = built.last_record();
    let mut altered = Vec::new();
    altered.extend(ends(record, bytes.len() as u64).into_iter().map(|end| Reel { end, ..record }));
    altered.extend(frame_counts(record).map(|frames| Reel { frames, ..record }));
    altered.extend(CLOSED.map(|closed| Reel { closed, ..record }));
    altered.extend(FORMATS.map(|format| Reel { format, ..record }));
    for _ in 0..6 {
        let (width, height) = wrong_size(rng, format);
        altered.push(Reel { width, height, ..record });
    }
    for (width, height) in [(record.width + 1, record.height), (1, 1), (320, 1), (1, 200)] {
        altered.push(Reel { width, height, ..record });
        altered.push(Reel { width, height, format: rng.pick(&FORMATS), ..record });
    }
    for reel in altered {
        sink(add_of(rng, reel, bytes.clone()));
        sink(close_of(rng, reel, bytes.clone()));
    }
    let mut other_header = bytes;
    rng.fill(&mut other_header[..FILE_HEADER]);
    sink(add_of(rng, record, other_header.clone()));
    sink(close_of(rng, record, other_header));
    let (closed, whole) = built.closed();
    sink(add_of(rng, closed, whole.clone()));
    sink(close_of(rng, closed, whole));
}

/// What can be wrong with an add or a close before its frames are looked at.
#[derive(Clone, Copy, PartialEq, Eq)]
enum Fault {
    Closed,
    Format,
    Frames,
    Size,
    Slices,
    End,
}

const FAULTS: [Fault; 6] = [Fault::Closed, Fault::Format, Fault::Frames, Fault::Size, Fault::Slices, Fault::End];

/// Every two faults at once, in an add and in a close, with any room.
pub fn record_faults(rng: &mut Rng, format: Format, sink: Sink) {
    let built = small_built(rng, format);
    for (at, one) in FAULTS.iter().enumerate() {
        for other in &FAULTS[at..] {
            two_faults(rng, &built, [*one, *other], sink);
        }
    }
}

fn two_faults(rng: &mut Rng, built: &Built, faults: [Fault; 2], sink: Sink) {
    let room = rng.pick(&[0, 15, 16, ample_room(built.pixels())]);
    let bytes = built.with_room(rng, room);
    let mut reel = built.last_record();
    let mut both = [exact(built.pixels()); 2];
    for fault in faults {
        match fault {
            Fault::Closed => reel.closed = rng.pick(&CLOSED),
            Fault::Format => reel.format = rng.pick(&FORMATS),
            Fault::Frames => reel.frames = rng.pick(&frame_counts(built.last_record())),
            Fault::Size => (reel.width, reel.height) = wrong_size(rng, built.format),
            Fault::Slices => both[rng.below(2)] = short_lengths(rng, built.pixels()),
            Fault::End => reel.end = rng.pick(&ends(built.last_record(), bytes.len() as u64)),
        }
    }
    let (first, second) = (any_state(rng, both[0]), any_state(rng, both[1]));
    let (shown, next) = (first.clone(), second.clone());
    sink(Case::Add(AddCase { reel, bytes: bytes.clone(), shown, next }));
    sink(Case::Close(CloseCase { reel, bytes, first, second }));
}

/// Every room from none to two bytes more than the last add and the close need, of an FLI those around the header's and the
/// whole, and bytes that end before the record.
pub fn rooms(rng: &mut Rng, format: Format, sink: Sink) {
    let built = small_built(rng, format);
    let last = built.adds.len() - 1;
    let few = |room: &usize, needed: usize| format == Format::Flc || *room < 18 || *room + 2 > needed;
    let needed = built.length_of(last);
    for room in (0..=needed + 2).filter(|room| few(room, needed)) {
        sink(built.add_case(rng, last, room));
    }
    let ring = built.closed().1.len() - built.bytes.len();
    for room in (0..=ring + 2).filter(|room| few(room, ring)) {
        let bytes = built.with_room(rng, room);
        sink(close_of(rng, built.last_record(), bytes));
    }
    for length in [0, 1, 127, 128, 129, built.bytes.len() - 1] {
        let bytes = built.bytes[..length].to_vec();
        sink(add_of(rng, built.last_record(), bytes.clone()));
        sink(close_of(rng, built.last_record(), bytes));
    }
}
