//! Makes the cases of the damage run: a reel or a frame by the builders of the other tests, damaged.

use super::case::Case;
use super::mutate::damaged;
use super::numbers;
use flic_boundary::Reel;
use flic_tests::cases::foreign_frames;
use flic_tests::damage::{chance_frame, kind_in_turn};
use flic_tests::fli_pictures::change_rows;
use flic_tests::frames::{faulty_fli_frames, frame_of, Maker};
use flic_tests::model::{kind, Format, MODEL};
use flic_tests::reels::built_reel::Built;
use flic_tests::reels::chunks;
use flic_tests::reels::loose_reel::{any_frame, Loose};
use flic_tests::reels::make::{pixels_of, reel_size};
use flic_tests::rng::{mix, Rng};
use flic_tests::runner::inputs;
use flic_tests::sizes::{right_size, size_of, small_size};
use flic_tests::states::{any_state, lend, next_state, state, State};
use flic_tests::trailers::make::{checks_of, trailer_of};
use flic_tests::trailers::nested;
use flic_tests::write_cases::ample_room;
use std::ops::Range;

/// Bytes that are right or nearly so, and what goes with them.
struct Sound {
    format: Format,
    width: usize,
    height: usize,
    reel: Reel,
    bytes: Vec<u8>,
    /// Where frames stand, of which one is read and rewritten.
    frames: Vec<Range<usize>>,
}

impl Sound {
    fn of_chunks(format: Format, reel: Reel, bytes: Vec<u8>, first: usize, chunks: &[Vec<u8>]) -> Sound {
        let (width, height) = (reel.width as usize, reel.height as usize);
        let mut start = first;
        let frames = chunks
            .iter()
            .map(|chunk| {
                start += chunk.len();
                start - chunk.len()..start
            })
            .collect();
        Sound { format, width, height, reel, bytes, frames }
    }

    fn of_loose(loose: &Loose, bytes: Vec<u8>) -> Sound {
        Sound::of_chunks(loose.format, loose.record(), bytes, loose.place_of(0), &loose.chunks)
    }
}

/// A size for a reel: small, and now and then any.
fn some_size(rng: &mut Rng) -> (usize, usize) {
    match rng.below(40) {
        0 => right_size(rng),
        1 => wide_size(rng),
        2..=12 => reel_size(rng),
        _ => small_size(rng),
    }
}

/// Rows that the longest packets fit in.
fn wide_size(rng: &mut Rng) -> (usize, usize) {
    (rng.between(100, 320), rng.between(1, 4))
}

fn sound(rng: &mut Rng, format: Format) -> Sound {
    match rng.below(12) {
        0 | 1 => built(rng, format),
        2 | 3 => open(rng, format),
        4..=6 if format == Format::Flc => loose(rng, format),
        4 => loose(rng, format),
        5..=8 => framed(rng, format),
        9 => bare(rng, format),
        10 => checked(rng, format),
        _ if format == Format::Fli => foreign(rng),
        _ => nest(rng),
    }
}

/// A closed reel as the builder leaves it, often with its trailer.
fn built(rng: &mut Rng, format: Format) -> Sound {
    let frames = rng.between(1, 4);
    let built = some_built(rng, format, frames);
    let (closed, mut bytes) = built.closed();
    let places: Vec<usize> = (0..=frames).map(|frame| built.record(frame).end as usize).collect();
    let mut ranges: Vec<Range<usize>> = places.windows(2).map(|pair| pair[0]..pair[1]).collect();
    ranges.push(built.bytes.len()..bytes.len());
    if format == Format::Flc && rng.once_in(2) {
        bytes.extend(trailer_of(&bytes));
    }
    let reel = if rng.once_in(4) { closed } else { built.last_record() };
    Sound { format, width: built.width, height: built.height, reel, bytes, frames: ranges }
}

/// A reel with so many frames, of an FLI of few bytes.
fn some_built(rng: &mut Rng, format: Format, frames: usize) -> Built {
    if format == Format::Fli {
        return Built::small(rng, format, frames);
    }
    let (width, height) = some_size(rng);
    Built::in_order(rng, format, width, height, frames)
}

/// A reel that isn't closed, with its record and some room.
fn open(rng: &mut Rng, format: Format) -> Sound {
    let frames = rng.between(0, 4);
    let built = some_built(rng, format, frames);
    let ample = ample_room(built.pixels());
    let room = rng.pick(&[0, 1, 15, 16, 40, ample, ample]);
    let bytes = built.with_room(rng, room);
    let ranges = (0..frames).map(|frame| built.record(frame).end as usize..built.record(frame + 1).end as usize);
    let (width, height) = (built.width, built.height);
    Sound { format, width, height, reel: built.last_record(), frames: ranges.collect(), bytes }
}

/// A reel of frames of all kinds, with others between them, whole or open.
fn loose(rng: &mut Rng, format: Format) -> Sound {
    let (width, height) = size_of(rng, format, some_size);
    let frames = rng.between(1, 3);
    let mut loose = Loose::ringed(rng, format, width, height, frames);
    if rng.once_in(2) {
        let which = rng.below(loose.chunks.len());
        loose.chunks[which] = any_frame(rng, format, width, height, Some(20)).bytes();
    }
    if rng.once_in(3) {
        loose.add_others(rng);
    }
    if rng.once_in(3) {
        loose.chunks.pop();
        let room = rng.pick(&[0, 16, ample_room(width * height)]);
        let bytes = [loose.open_bytes(), rng.bytes(room)].concat();
        return Sound::of_loose(&loose, bytes);
    }
    let after = rng.pick(&[0, 0, 20, 60]);
    let bytes = [loose.bytes(), rng.bytes(after)].concat();
    Sound::of_loose(&loose, bytes)
}

/// One frame of a kind in a reel of its own.
fn framed(rng: &mut Rng, format: Format) -> Sound {
    let is_wide = rng.once_in(3);
    let (width, height) = size_of(rng, format, if is_wide { wide_size } else { some_size });
    let slips = match format {
        Format::Flc => rng.pick(&[None, None, Some(6), Some(30)]),
        Format::Fli => rng.pick(&[None, Some(3), Some(6), Some(30)]),
    };
    let any = kind_in_turn(rng.draw());
    let some_kind = match format {
        Format::Flc if is_wide => rng.pick(&[kind::LC, kind::SS2, kind::BRUN, any]),
        Format::Fli if is_wide => rng.pick(&[kind::COLOR, kind::COLOR256, kind::LC, any]),
        _ => any,
    };
    let kinds = vec![some_kind; rng.pick(if format == Format::Flc { &[1, 1, 1, 2] } else { &[1, 1, 2, 3] })];
    let frame = match format {
        Format::Fli if rng.once_in(3) => short_fault(rng, any),
        _ => Maker { rng, format, width, height, slips }.frame_of_kinds(&kinds).bytes(),
    };
    let chunks = vec![frame, frame_of(&[])];
    let loose = Loose { format, width, height, frames: 1, chunks, after: Vec::new() };
    Sound::of_loose(&loose, loose.bytes())
}

/// A frame of few bytes with a fault in it, of each number in turn, or chance.
fn short_fault(rng: &mut Rng, kind: u16) -> Vec<u8> {
    let mut faults = faulty_fli_frames();
    match rng.below(2) {
        0 => faults.swap_remove(rng.below(faults.len())).1,
        _ => chance_frame(kind, rng, 60).bytes(),
    }
}

/// A frame with a kind that an FLI may not hold, in an FLI of its own.
fn foreign(rng: &mut Rng) -> Sound {
    let (format, (width, height)) = (Format::Fli, size_of(rng, Format::Fli, small_size));
    let mut frames = foreign_frames(rng);
    let frame = frames.swap_remove(rng.below(frames.len()));
    let loose = Loose { format, width, height, frames: 1, chunks: vec![frame, frame_of(&[])], after: Vec::new() };
    Sound::of_loose(&loose, loose.bytes())
}

/// A frame alone.
fn bare(rng: &mut Rng, format: Format) -> Sound {
    let (width, height) = size_of(rng, format, some_size);
    let bytes = any_frame(rng, format, width, height, None).bytes();
    let chunks = [bytes.clone()];
    Sound::of_chunks(format, record(format, width, height, bytes.len()), bytes, 0, &chunks)
}

/// The record of a reel of one frame that ends here.
fn record(format: Format, width: usize, height: usize, end: usize) -> Reel {
    let (width, height) = (width as u64, height as u64);
    Reel { width, height, frames: 1, end: end as u64, closed: 0, format: format.number() }
}

/// A reel of the reel tests' families of wrong chunks.
fn checked(rng: &mut Rng, format: Format) -> Sound {
    let family = rng.pick(&[chunks::others, chunks::damaged, chunks::chance]);
    let case = checks_of(rng, format, family).pop().expect("these families give checks");
    of_bytes(rng, format, case.bytes)
}

/// A reel of chunks that hold chunks.
fn nest(rng: &mut Rng) -> Sound {
    let mut bytes = Vec::new();
    nested::trees(rng, &mut |case| {
        if let inputs::Case::List(case) = case {
            bytes = case.bytes;
        }
    });
    if bytes.len() > 4_000 {
        return built(rng, Format::Flc);
    }
    of_bytes(rng, Format::Flc, bytes)
}

fn of_bytes(rng: &mut Rng, format: Format, bytes: Vec<u8>) -> Sound {
    let (width, height) = size_of(rng, format, small_size);
    Sound { format, width, height, reel: record(format, width, height, bytes.len()), bytes, frames: Vec::new() }
}

/// One case in so many is of FLI, whose pictures take their time.
const FLI_CASES: usize = 12;

/// The case of a seed.
pub fn case(seed: u64) -> Case {
    let rng = &mut Rng::new(seed);
    let format = if rng.once_in(FLI_CASES) { Format::Fli } else { Format::Flc };
    let sound = sound(rng, format);
    let other = self::sound(rng, Format::Flc).bytes;
    let bytes = match format {
        Format::Fli if rng.once_in(2) => sound.bytes.clone(),
        _ => damaged(rng, &sound.bytes, &other),
    };
    let (width, height) = numbers::size(rng, sound.width, sound.height);
    let reel = numbers::record(rng, sound.reel, bytes.len());
    let pixels = pixels_of(width, height).max(sound.width * sound.height);
    let (first, second) = pairs(rng, &sound, pixels);
    let frame = frame_range(rng, &sound, bytes.len());
    let needed = MODEL.text(&bytes).len();
    let list_room = if rng.once_in(8) { rng.below(needed) } else { needed + rng.pick(&[0, 0, 1, 40]) };
    let ample = ample_room(pixels);
    let frame_room = match rng.below(8) {
        0 => rng.pick(&[0, 1, 5, 6, 15, 16, 17]),
        1 => rng.below(ample),
        2 => rng.below(200),
        _ => ample + rng.below(9),
    };
    Case {
        seed: mix(seed, 1),
        format: numbers::format(rng, sound.format),
        width,
        height,
        speed: rng.pick(&[0, 1, 70, 65_535, 65_536, u32::MAX]),
        reel,
        frame_room,
        list_room,
        frame,
        first,
        second,
        bytes,
    }
}

/// What shows and what comes next: states as the writing tests have them, or chance.
fn pairs(rng: &mut Rng, sound: &Sound, pixels: usize) -> (State, State) {
    let (first, second) = (numbers::pair(rng, pixels), numbers::pair(rng, pixels));
    let Sound { format, width, height, .. } = *sound;
    if rng.once_in(if format == Format::Flc { 4 } else { 20 }) {
        return (any_state(rng, first), any_state(rng, second));
    }
    let shown = if rng.once_in(3) { State::blank(width * height) } else { state(rng, format, width, height) };
    let mut next = next_state(rng, format, &shown, width, height);
    if format == Format::Fli && rng.once_in(2) {
        next = shown.clone();
        change_rows(rng, &mut next.picture);
    }
    (lend(rng, &shown, first), lend(rng, &next, second))
}

/// Where a frame stands after the damage, as nearly as the frames from before tell.
fn frame_range(rng: &mut Rng, sound: &Sound, length: usize) -> Range<usize> {
    if sound.frames.is_empty() {
        let start = rng.pick(&[0, 128]).min(length);
        return start..length;
    }
    let Range { start, end } = sound.frames[rng.below(sound.frames.len())].clone();
    let start = start.min(length);
    let end = if rng.once_in(2) { end + length.saturating_sub(sound.bytes.len()) } else { length };
    start..end.clamp(start, length)
}
