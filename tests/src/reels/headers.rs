//! Families of file headers: opened ones, changed ones, those with several faults, and reels cut anywhere; and of delays.

use super::built_reel::Built;
use super::make::check_of;
use crate::damage::{changed_values, set_size, set_word};
use crate::model::{field, Format, FILE_HEADER, MODEL};
use crate::rng::Rng;
use crate::runner::calls::{CheckCase, JiffiesCase, MillisecondsCase, OpenCase, OpenFliCase};
use crate::runner::inputs::{Case, Sink};
use crate::sizes::{exact, right_size, short_lengths, small_size, wrong_or_right, wrong_size};
use crate::states::any_state;

const SPEEDS: [u32; 7] = [0, 1, 70, 255, 65_535, 65_536, u32::MAX];

/// Sizes in range and out of it, and every length of bytes around a header's.
pub fn opens(rng: &mut Rng, sink: Sink) {
    let mut open = |rng: &mut Rng, width: u64, height: u64, room: usize| {
        let bytes = rng.bytes(room);
        let speed = rng.pick(&SPEEDS);
        sink(Case::Open(OpenCase { width, height, speed, bytes }));
    };
    for room in 0..=FILE_HEADER + 2 {
        let (width, height) = small_size(rng);
        let (width, height) = if rng.once_in(3) { wrong_or_right(rng, Format::Flc, width, height) } else { (4, 3) };
        open(rng, width, height, room);
    }
    for _ in 0..20 {
        let (width, height) = right_size(rng);
        let (width, height) = wrong_or_right(rng, Format::Flc, width, height);
        let room = FILE_HEADER + rng.below(200);
        open(rng, width, height, room);
    }
    for (width, height) in [(320, 200), (320, 199), (319, 200), (320, 1), (1, 200), (321, 200), (320, 201)] {
        open(rng, width, height, 200);
    }
}

/// Jiffies around none, a second's and the most that a header holds.
const JIFFIES: [u32; 12] = [0, 1, 5, 7, 70, 255, 65_534, 65_535, 65_536, 65_537, 1 << 31, u32::MAX];

/// The same of an FLI: its size and others, jiffies in range and out of it, and every length of bytes.
pub fn fli_opens(rng: &mut Rng, sink: Sink) {
    for room in (0..=FILE_HEADER + 2).chain([200; 60]) {
        let (width, height) = if rng.once_in(3) { wrong_size(rng, Format::Fli) } else { (320, 200) };
        let (jiffies, bytes) = (rng.pick(&JIFFIES), rng.bytes(room));
        sink(Case::OpenFli(OpenFliCase { width, height, jiffies, bytes }));
    }
}

/// Delays in either unit: all jiffies that a header holds and what they become, the milliseconds beside those, and some of
/// all others.
pub fn delays(rng: &mut Rng, sink: Sink) {
    for jiffies in (0..=65_600).chain(JIFFIES) {
        sink(Case::Milliseconds(MillisecondsCase(jiffies)));
        let milliseconds = MODEL.in_milliseconds(jiffies).map_or(jiffies, |delay| delay.0 as u32);
        for near in [milliseconds.wrapping_sub(1), milliseconds, milliseconds.wrapping_add(1)] {
            sink(Case::Jiffies(JiffiesCase(near)));
        }
    }
    for _ in 0..2_000 {
        let any = (rng.draw() as u32) >> rng.below(32);
        sink(Case::Milliseconds(MillisecondsCase(any)));
        sink(Case::Jiffies(JiffiesCase(any)));
    }
}

/// A closed reel of few bytes.
pub fn small_reel(rng: &mut Rng, format: Format) -> Vec<u8> {
    let most = if format == Format::Flc { 400 } else { 700 };
    loop {
        let frames = rng.between(1, 3);
        let bytes = Built::small(rng, format, frames).closed().1;
        if bytes.len() < most {
            return bytes;
        }
    }
}

/// Words around the limits that a file header's checks have.
const WORDS: [(usize, &[u16]); 6] = [
    (field::MAGIC, &[0xAF11, 0xAF12, 0xAF13, 0xAF10, 0x11AF, 0x12AF, 0]),
    (field::WIDTH, &[0, 1, 319, 320, 321, 0x8001, u16::MAX]),
    (field::HEIGHT, &[0, 1, 199, 200, 201, 0x8001, u16::MAX]),
    (field::DEPTH, &[0, 1, 7, 9, 16, 0x0108]),
    (field::FRAMES, &[0, 2, 3_999, 4_000, 4_001, u16::MAX]),
    (field::FLAGS, &[0, 1, 2, 3, 4, 7, 0x0100, 0x0103, u16::MAX]),
];

/// Each byte of a file header, changed to several values, and each word to those around its limits; chance in all that isn't
/// read.
pub fn header_bytes(rng: &mut Rng, format: Format, sink: Sink) {
    let whole = small_reel(rng, format);
    for at in 0..FILE_HEADER {
        for value in changed_values(whole[at], false) {
            let mut changed = whole.clone();
            changed[at] = value;
            sink(check_of(rng, changed));
        }
    }
    for (offset, words) in WORDS {
        for word in words {
            let mut changed = whole.clone();
            set_word(&mut changed, offset, *word);
            sink(check_of(rng, changed));
        }
    }
    let mut filled = whole;
    let from = if format == Format::Flc { field::SPEED } else { field::SPEED + 2 };
    rng.fill(&mut filled[from..FILE_HEADER]);
    sink(check_of(rng, filled));
}

/// What can be wrong before the chunks of a reel are looked at.
#[derive(Clone, Copy, PartialEq, Eq)]
enum Fault {
    Word((usize, &'static [u16])),
    SmallSize,
    LargeSize,
    Slices,
    Cut,
}

/// Every two faults of a file header at once, short slices among them.
pub fn header_faults(rng: &mut Rng, format: Format, sink: Sink) {
    let mut faults: Vec<Fault> = WORDS.into_iter().map(Fault::Word).collect();
    faults.extend([Fault::SmallSize, Fault::LargeSize, Fault::Slices, Fault::Cut]);
    let built = Built::small(rng, format, 1);
    let whole = built.closed().1;
    for (at, one) in faults.iter().enumerate() {
        for other in &faults[at..] {
            sink(two_faults(rng, &whole, built.pixels(), [*one, *other]));
        }
    }
}

fn two_faults(rng: &mut Rng, whole: &[u8], pixels: usize, faults: [Fault; 2]) -> Case {
    let mut bytes = whole.to_vec();
    let mut both = [exact(pixels); 2];
    let length = whole.len() as u32;
    let mut kept = whole.len();
    for fault in faults {
        match fault {
            Fault::Word((offset, words)) => set_word(&mut bytes, offset, rng.pick(words)),
            Fault::SmallSize => set_size(&mut bytes, field::SIZE, rng.pick(&[0, 127, 128, 134, length - 1])),
            Fault::LargeSize => set_size(&mut bytes, field::SIZE, rng.pick(&[length + 1, 1 << 31, u32::MAX])),
            Fault::Slices => both[rng.below(2)] = short_lengths(rng, pixels),
            Fault::Cut => kept = rng.pick(&[0, 3, 127, 128, whole.len() - 1]),
        }
    }
    bytes.truncate(kept);
    Case::Check(CheckCase { bytes, first: any_state(rng, both[0]), second: any_state(rng, both[1]) })
}

/// Every beginning of a reel, as it is and with its size field set to the cut.
pub fn cuts(rng: &mut Rng, format: Format, sink: Sink) {
    let whole = small_reel(rng, format);
    for length in 0..=whole.len() {
        let mut cut = whole[..length].to_vec();
        sink(check_of(rng, cut.clone()));
        if length >= 4 {
            set_size(&mut cut, field::SIZE, length as u32);
            sink(check_of(rng, cut));
        }
        let mut whole = whole.clone();
        set_size(&mut whole, field::SIZE, length as u32);
        sink(check_of(rng, whole));
    }
}
