//! The seeded inputs of the writing and rewriting tests, in families; a family and a seed give the same inputs again.

use crate::cases::{FAMILIES, FLI_FAMILIES, FOREIGN, SINGLE};
use crate::fli_pictures::{self, change_rows, ground, lay_run, GAPS, HEIGHT, RUNS, WIDTH};
use crate::frames::{faulty_fli_frames, frame_of, Chunk, Maker};
use crate::model::encode::House;
use crate::model::{kind, Document, Format, MODEL, PALETTE_BYTES};
use crate::rng::Rng;
use crate::runner::calls::{Call, ReadCase, RewriteCase, SearchCase, WriteCase};
use crate::runner::inputs::Family;
use crate::sizes::{
    exact, lengths, long_lengths, long_or_exact, number_of, right_size, short_lengths, size_of, small_size,
    wrong_or_right, Lengths,
};
use crate::states::{any_state, lend, next_palette, next_picture, next_state, palette, picture, state, State};
use Format::{Flc, Fli};

pub const WRITE_FAMILIES: [Family<WriteCase>; 6] = [
    Family { name: "write-small", batches: 60_000, emit: write_small },
    Family { name: "write-sizes", batches: 8_000, emit: write_sizes },
    Family { name: "write-wide", batches: 8_000, emit: write_wide },
    Family { name: "write-colours", batches: 6_000, emit: write_colours },
    Family { name: "write-lent", batches: 6_000, emit: |rng, sink| write_lent(rng, Flc, sink) },
    Family { name: "write-rooms", batches: 250, emit: |rng, sink| write_rooms(rng, Flc, sink) },
];

pub const FLI_WRITE_FAMILIES: [Family<WriteCase>; 7] = [
    Family { name: "fli-write-rows", batches: 1_200, emit: write_rows },
    Family { name: "fli-write-lent", batches: 800, emit: |rng, sink| write_lent(rng, Fli, sink) },
    Family { name: "fli-write-runs", batches: 15, emit: write_runs },
    Family { name: "fli-write-even", batches: 20, emit: write_even },
    Family { name: "fli-write-noise", batches: 8, emit: write_noise },
    Family { name: "fli-write-pictures", batches: 150, emit: write_pictures },
    Family { name: "fli-write-rooms", batches: 8, emit: |rng, sink| write_rooms(rng, Fli, sink) },
];

/// How many of the writing families give one input a batch.
pub const SINGLE_WRITES: usize = 5;

pub const REWRITE_FAMILIES: [Family<RewriteCase>; 7] = [
    Family { name: "rewrite-valid", batches: 12_000, emit: rewrite_valid },
    Family { name: "rewrite-damaged", batches: 40_000, emit: |rng, sink| rewrite_damaged(rng, Flc, sink) },
    Family { name: "rewrite-lent", batches: 6_000, emit: |rng, sink| rewrite_lent(rng, Flc, sink) },
    Family { name: "rewrite-rooms", batches: 200, emit: rewrite_rooms },
    Family { name: "rewrite-changes", batches: 60, emit: rewrite_changes },
    Family { name: "rewrite-spare", batches: 60, emit: rewrite_spare },
    Family { name: "rewrite-heavy", batches: 60, emit: rewrite_heavy },
];

pub const FLI_REWRITE_FAMILIES: [Family<RewriteCase>; 6] = [
    Family { name: "fli-rewrite-faults", batches: 20, emit: rewrite_faults },
    Family { name: "fli-rewrite-short", batches: 600, emit: rewrite_short },
    Family { name: "fli-rewrite-damaged", batches: 600, emit: |rng, sink| rewrite_damaged(rng, Fli, sink) },
    Family { name: "fli-rewrite-lent", batches: 500, emit: |rng, sink| rewrite_lent(rng, Fli, sink) },
    Family { name: "fli-rewrite-same", batches: 50, emit: rewrite_same },
    Family { name: "not-in-fli-rewritten", batches: 15, emit: rewrite_not_in_fli },
];

/// How many of the rewriting families give one input a batch.
pub const SINGLE_REWRITES: usize = 3;

pub const SEARCH_FAMILIES: [Family<SearchCase>; 3] = [
    Family { name: "search-rows", batches: 60_000, emit: search_rows },
    Family { name: "search-lengths", batches: 12, emit: search_lengths },
    Family { name: "search-worst", batches: 40, emit: search_worst },
];

/// How many of the searching families give one input a batch.
pub const SINGLE_SEARCHES: usize = 1;

const COLOUR_CHUNK_MOST: usize = 6 + 2 + 128 * 2 + 768;

/// Room for any house frame of this size.
pub fn ample_room(pixels: usize) -> usize {
    16 + COLOUR_CHUNK_MOST + 6 + pixels
}

/// The length of the house frame between two states, by the model.
fn house_length(format: Format, width: usize, height: usize, previous: &State, next: &State) -> usize {
    let length = MODEL.house_frame(format, width, height, previous.shown(), next.shown()).len();
    assert!(
        length <= ample_room(width * height),
        "ample room holds any house frame: raise COLOUR_CHUNK_MOST if it doesn't"
    );
    length
}

/// A length of output: ample, exact, longer by little, or too short.
fn some_room(rng: &mut Rng, ample: usize, needed: impl Fn() -> usize) -> usize {
    match rng.below(12) {
        0 => needed(),
        1 => needed() + 1,
        2 => needed() - 1,
        3 => rng.below(needed()),
        _ => ample + rng.below(9),
    }
}

fn write_case(
    rng: &mut Rng,
    format: Format,
    (width, height): (usize, usize),
    previous: &State,
    next: &State,
    room: usize,
) -> WriteCase {
    let pixels = width * height;
    let (lent_previous, lent_next) = (long_or_exact(rng, pixels), long_or_exact(rng, pixels));
    WriteCase {
        format: number_of(rng, format),
        width: width as u64,
        height: height as u64,
        previous: lend(rng, previous, lent_previous),
        next: lend(rng, next, lent_next),
        out: rng.bytes(room),
    }
}

fn write_at(rng: &mut Rng, sink: &mut dyn FnMut(WriteCase), width: usize, height: usize) {
    let previous = state(rng, Flc, width, height);
    let next = next_state(rng, Flc, &previous, width, height);
    let room = some_room(rng, ample_room(width * height), || house_length(Flc, width, height, &previous, &next));
    sink(write_case(rng, Flc, (width, height), &previous, &next, room));
}

/// Small pictures, in which lengths often come out even.
fn write_small(rng: &mut Rng, sink: &mut dyn FnMut(WriteCase)) {
    let (width, height) = if rng.once_in(3) { (rng.between(10, 30), rng.between(1, 3)) } else { small_size(rng) };
    write_at(rng, sink, width, height);
}

fn write_sizes(rng: &mut Rng, sink: &mut dyn FnMut(WriteCase)) {
    let (width, height) = right_size(rng);
    write_at(rng, sink, width, height);
}

/// Rows wide enough for packets and gaps at their limits.
fn write_wide(rng: &mut Rng, sink: &mut dyn FnMut(WriteCase)) {
    let (width, height) = (rng.between(250, 320), rng.between(1, 3));
    write_at(rng, sink, width, height);
}

fn write_colours(rng: &mut Rng, sink: &mut dyn FnMut(WriteCase)) {
    let previous = state(rng, Flc, 1, 1);
    let next = State { picture: previous.picture.clone(), palette: next_palette(rng, &previous.palette) };
    sink(write_case(rng, Flc, (1, 1), &previous, &next, ample_room(1)));
}

/// Slices too short or empty, and sizes out of range.
fn write_lent(rng: &mut Rng, format: Format, sink: &mut dyn FnMut(WriteCase)) {
    let (width, height) = size_of(rng, format, right_size);
    let room = rng.pick(&[0, 15, 2000]);
    let pixels = width * height;
    let mut both = [exact(pixels), exact(pixels)];
    let short = rng.below(2);
    both[short] = short_lengths(rng, pixels);
    let (lent_width, lent_height) = wrong_or_right(rng, format, width, height);
    sink(WriteCase {
        format: number_of(rng, format),
        width: lent_width,
        height: lent_height,
        previous: any_state(rng, both[0]),
        next: any_state(rng, both[1]),
        out: rng.bytes(room),
    });
}

/// Every length of output from none to two more than needed, of an FLI those around the header's and the whole.
fn write_rooms(rng: &mut Rng, format: Format, sink: &mut dyn FnMut(WriteCase)) {
    let (width, height) = size_of(rng, format, small_size);
    let previous = state(rng, format, width, height);
    let next = next_state(rng, format, &previous, width, height);
    let needed = house_length(format, width, height, &previous, &next);
    let few = |room: &usize| format == Flc || !(18..needed - 2).contains(room);
    for room in (0..=needed + 2).filter(few) {
        sink(write_case(rng, format, (width, height), &previous, &next, room));
    }
}

/// A write of an FLI between two pictures, with palettes that may differ, and most often ample room.
fn write_fli(rng: &mut Rng, sink: &mut dyn FnMut(WriteCase), previous: Vec<u8>, next: Vec<u8>) {
    let previous = State { picture: previous, palette: palette(rng) };
    let next = State { picture: next, palette: next_palette(rng, &previous.palette) };
    let needed = || house_length(Fli, WIDTH, HEIGHT, &previous, &next);
    let room = some_room(rng, ample_room(WIDTH * HEIGHT), needed);
    sink(write_case(rng, Fli, (WIDTH, HEIGHT), &previous, &next, room));
}

/// Some rows changed, or another picture.
fn write_rows(rng: &mut Rng, sink: &mut dyn FnMut(WriteCase)) {
    let previous = fli_pictures::picture(rng);
    let next = fli_pictures::next_picture(rng, &previous);
    write_fli(rng, sink, previous, next);
}

/// Each run of equal pixels after each gap, at the row's begin or behind a changed pixel, alone or with others behind it: a
/// row each, with rows between them that stay.
fn write_runs(rng: &mut Rng, sink: &mut dyn FnMut(WriteCase)) {
    let pairs = GAPS.iter().flat_map(|gap| RUNS.map(|run| (*gap, run))).collect::<Vec<_>>();
    for pairs in pairs.chunks(28) {
        let previous = ground(rng);
        let mut next = previous.clone();
        let mut y = rng.below(3);
        for (gap, run) in pairs {
            let row = &mut next[y * WIDTH..(y + 1) * WIDTH];
            let begin = if rng.once_in(3) { lay_run(rng, row, 0, 1) } else { 0 };
            let mut x = lay_run(rng, row, begin + gap, *run);
            for _ in 0..rng.pick(&[0, 0, 1, 3]) {
                let more = rng.pick(&[1, 2, 3, 4, 127, 128]);
                x = lay_run(rng, row, x, more);
            }
            y += rng.pick(&[1, 1, 2, 6]);
        }
        write_fli(rng, sink, previous, next);
    }
}

/// Deltas that have as many bytes as the BRUN chunk, some fewer, or more. A flat row takes 7 bytes of BRUN and 10 of kind 12;
/// below such rows one pixel is changed, of 3 bytes or 5 by its gap, and its row moves down, a byte for each row between.
/// Then a picture of which the full chunks come out even.
fn write_even(rng: &mut Rng, sink: &mut dyn FnMut(WriteCase)) {
    let (flat, other) = (rng.between(1, 127) as u8, rng.between(128, 255) as u8);
    let next = vec![flat; WIDTH * HEIGHT];
    for rows in [133, 134, 135] {
        let even = 7 * HEIGHT - (4 + 10 * rows + 1 + 3) + rows;
        for last in even - 4..=even + 2 {
            let mut previous = next.clone();
            previous[..WIDTH * rows].fill(other);
            previous[WIDTH * last + rng.below(WIDTH)] = other;
            write_fli(rng, sink, previous, next.clone());
        }
    }
    let (previous, next) = (ground(rng), brun_as_copy(rng));
    write_fli(rng, sink, previous, next);
}

/// A picture of which BRUN takes as many bytes as COPY: in each row 6 equal pixels, and 314 to be copied in 3 packets.
fn brun_as_copy(rng: &mut Rng) -> Vec<u8> {
    let first = rng.byte();
    let row = (0..WIDTH).map(|x| first.wrapping_add(x.saturating_sub(5) as u8)).collect::<Vec<u8>>();
    row.repeat(HEIGHT)
}

/// The same of noise, which COPY stores: most rows are changed, and then pixel after pixel up to where the two come out even.
fn write_noise(rng: &mut Rng, sink: &mut dyn FnMut(WriteCase)) {
    let next = rng.bytes(WIDTH * HEIGHT);
    let full = MODEL.house.full_chunk(WIDTH, &next).len();
    let (mut previous, mut changed) = (next.clone(), 190 * WIDTH);
    previous[..changed].iter_mut().for_each(|pixel| *pixel ^= 1);
    loop {
        let delta = MODEL.house.delta_chunk(Fli, WIDTH, &previous, &next).len();
        if delta > full + 1 {
            return;
        }
        if delta + 1 >= full {
            write_fli(rng, sink, previous.clone(), next.clone());
        }
        let step = (full.saturating_sub(delta) / 2).max(1);
        previous[changed..changed + step].iter_mut().for_each(|pixel| *pixel ^= 1);
        changed += step;
    }
}

/// Pictures of any make, of which many have only different rows.
fn write_pictures(rng: &mut Rng, sink: &mut dyn FnMut(WriteCase)) {
    let previous = if rng.once_in(2) { picture(rng, WIDTH, HEIGHT) } else { ground(rng) };
    let next = next_picture(rng, &previous, WIDTH, HEIGHT);
    write_fli(rng, sink, previous, next);
}

/// The batch of a reading family, as frames to be rewritten.
fn frames_of(rng: &mut Rng, family: &Family<ReadCase>, sink: &mut dyn FnMut(&mut Rng, ReadCase)) {
    let seed = rng.draw();
    (family.emit)(&mut Rng::new(seed), &mut |case| sink(rng, case));
}

/// What a frame shows next, if it is accepted.
fn next_of(case: &ReadCase) -> Option<State> {
    let mut next = case.shown.clone();
    MODEL.read_frame(&case.bytes, case.format, case.width, case.height, next.work()).ok()?;
    Some(next)
}

/// The size of a frame that is accepted.
fn played_size(case: &ReadCase) -> Option<(usize, usize)> {
    next_of(case).map(|_| (case.width as usize, case.height as usize))
}

/// Gives a case's picture and palette a make, where the slices are as long as needed.
fn remake(rng: &mut Rng, case: &mut ReadCase) {
    if let Some((width, height)) = played_size(case) {
        let State { picture, palette } = state(rng, case.format(), width, height);
        case.shown.picture[..width * height].copy_from_slice(&picture);
        case.shown.palette[..PALETTE_BYTES].copy_from_slice(&palette);
    }
}

/// How many bytes the frame takes in house form; 16 if it is refused.
fn rewritten_length(case: &ReadCase) -> usize {
    match next_of(case) {
        Some(next) => house_length(case.format(), case.width as usize, case.height as usize, &case.shown, &next),
        None => 16,
    }
}

fn work_lengths(rng: &mut Rng, case: &ReadCase) -> Lengths {
    match played_size(case) {
        Some((width, height)) => lengths(rng, width * height),
        None => long_lengths(rng, case.shown.picture.len()),
    }
}

fn rewrite_case(rng: &mut Rng, case: ReadCase, room: usize, work: Lengths) -> RewriteCase {
    RewriteCase {
        format: case.format,
        width: case.width,
        height: case.height,
        previous: case.shown,
        work: any_state(rng, work),
        out: rng.bytes(room),
        bytes: case.bytes,
    }
}

fn rewrite_of(rng: &mut Rng, mut case: ReadCase, sink: &mut dyn FnMut(RewriteCase)) {
    remake(rng, &mut case);
    let room = some_room(rng, ample_room(case.shown.picture.len()), || rewritten_length(&case));
    let work = work_lengths(rng, &case);
    sink(rewrite_case(rng, case, room, work));
}

fn rewrite_valid(rng: &mut Rng, sink: &mut dyn FnMut(RewriteCase)) {
    frames_of(rng, &FAMILIES[0], &mut |rng, case| rewrite_of(rng, case, sink));
}

fn rewrite_damaged(rng: &mut Rng, format: Format, sink: &mut dyn FnMut(RewriteCase)) {
    let families: &[Family<ReadCase>] = if format == Flc { &FAMILIES } else { &FLI_FAMILIES };
    let family = &families[rng.between(1, SINGLE - 1)];
    frames_of(rng, family, &mut |rng, case| rewrite_of(rng, case, sink));
}

/// Truncated and changed frames, of those families that give many.
fn rewrite_changes(rng: &mut Rng, sink: &mut dyn FnMut(RewriteCase)) {
    let family = &FAMILIES[rng.between(SINGLE, SINGLE + 1)];
    frames_of(rng, family, &mut |rng, case| rewrite_of(rng, case, sink));
}

/// Spare bytes behind bodies of every kind, which come before the last of the reading families.
fn rewrite_spare(rng: &mut Rng, sink: &mut dyn FnMut(RewriteCase)) {
    let family = &FAMILIES[FAMILIES.len() - 2];
    frames_of(rng, family, &mut |rng, case| rewrite_of(rng, case, sink));
}

/// Frames with a heavy sub-chunk, which is the last of the reading families.
fn rewrite_heavy(rng: &mut Rng, sink: &mut dyn FnMut(RewriteCase)) {
    let family = &FAMILIES[FAMILIES.len() - 1];
    frames_of(rng, family, &mut |rng, case| rewrite_of(rng, case, sink));
}

/// Previous and working slices too short or empty, and sizes out of range.
fn rewrite_lent(rng: &mut Rng, format: Format, sink: &mut dyn FnMut(RewriteCase)) {
    let (width, height) = size_of(rng, format, small_size);
    let pixels = width * height;
    let mut both = [exact(pixels), exact(pixels)];
    let short = rng.below(2);
    both[short] = short_lengths(rng, pixels);
    let bytes = Maker { rng, format, width, height, slips: None }.frame().bytes();
    let (lent_width, lent_height) = wrong_or_right(rng, format, width, height);
    let shown = any_state(rng, both[0]);
    let format = number_of(rng, format);
    let case = ReadCase { bytes, format, width: lent_width, height: lent_height, shown };
    let room = rng.pick(&[0, 15, 2000]);
    sink(rewrite_case(rng, case, room, both[1]));
}

/// A small valid frame, rewritten into every length of output from none to two more than needed.
fn rewrite_rooms(rng: &mut Rng, sink: &mut dyn FnMut(RewriteCase)) {
    let (width, height) = small_size(rng);
    let bytes = Maker { rng, format: Flc, width, height, slips: None }.frame().bytes();
    let previous = state(rng, Flc, width, height);
    let (width, height) = (width as u64, height as u64);
    let case = ReadCase { bytes, format: 0, width, height, shown: previous };
    for room in 0..=rewritten_length(&case) + 2 {
        let work = long_or_exact(rng, case.shown.picture.len());
        sink(rewrite_case(rng, case.clone(), room, work));
    }
}

/// A frame of an FLI of few bytes, against a picture of few different rows.
fn rewrite_short(rng: &mut Rng, sink: &mut dyn FnMut(RewriteCase)) {
    let count = rng.between(0, 3);
    let mut maker = Maker { rng, format: Fli, width: WIDTH, height: HEIGHT, slips: None };
    let mut chunks = Vec::new();
    for _ in 0..count {
        let kind = maker.kind();
        let chunk = match kind {
            kind::LC => some_rows(maker.rng),
            kind::BRUN | kind::COPY => full(maker.rng, kind),
            _ => maker.chunk(kind),
        };
        chunks.push(chunk);
    }
    let bytes = frame_of(&chunks);
    rewrite_fli(rng, bytes, sink);
}

/// Each fault of a frame of an FLI.
fn rewrite_faults(rng: &mut Rng, sink: &mut dyn FnMut(RewriteCase)) {
    for (_, bytes) in faulty_fli_frames() {
        rewrite_fli(rng, bytes, sink);
    }
}

/// A rewrite of this frame of an FLI.
fn rewrite_fli(rng: &mut Rng, bytes: Vec<u8>, sink: &mut dyn FnMut(RewriteCase)) {
    let shown = any_state(rng, exact(WIDTH * HEIGHT));
    let case = ReadCase { bytes, format: number_of(rng, Fli), width: WIDTH as u64, height: HEIGHT as u64, shown };
    rewrite_of(rng, case, sink);
}

/// A kind 12 of a few rows, which isn't always in house form: they come from a picture that doesn't show.
fn some_rows(rng: &mut Rng) -> Chunk {
    let (mut previous, next) = (ground(rng), ground(rng));
    let (mut rows, from) = (next.clone(), rng.below(HEIGHT - 8));
    previous[..from * WIDTH].copy_from_slice(&next[..from * WIDTH]);
    previous[(from + 8) * WIDTH..].copy_from_slice(&next[(from + 8) * WIDTH..]);
    change_rows(rng, &mut rows[from * WIDTH..(from + 8) * WIDTH]);
    Chunk { kind: kind::LC, body: Document.lc_body(WIDTH, &previous, &rows) }
}

/// A full chunk of a picture of few different rows.
fn full(rng: &mut Rng, kind: u16) -> Chunk {
    let picture = fli_pictures::picture(rng);
    let body = if kind == kind::BRUN { Document.brun_body(WIDTH, &picture) } else { picture };
    Chunk { kind, body }
}

/// Frames of an FLI that lead from one state to the same next one on several ways: "The bytes written are equal exactly when
/// both frames give the same next picture and palette."
fn rewrite_same(rng: &mut Rng, sink: &mut dyn FnMut(RewriteCase)) {
    let previous = state(rng, Fli, WIDTH, HEIGHT);
    let next = next_state(rng, Fli, &previous, WIDTH, HEIGHT);
    let of = |kind, body: Vec<u8>| Chunk { kind, body };
    let colours = of(kind::COLOR256, [&[1, 0, 0, 0], &next.palette[..]].concat());
    let (copy, brun) = (of(kind::COPY, next.picture.clone()), of(kind::BRUN, Document.brun_body(WIDTH, &next.picture)));
    let delta = of(kind::LC, Document.lc_body(WIDTH, &previous.picture, &next.picture));
    let over_black = of(kind::LC, Document.lc_body(WIDTH, &vec![0; WIDTH * HEIGHT], &next.picture));
    let black = of(kind::BLACK, Vec::new());
    let house = MODEL.house_frame(Fli, WIDTH, HEIGHT, previous.shown(), next.shown());
    let ways = [
        vec![colours.clone(), copy.clone()],
        vec![brun, colours.clone()],
        vec![delta.clone(), colours.clone()],
        vec![colours.clone(), black, over_black],
        vec![copy, colours, delta],
    ];
    let number = number_of(rng, Fli);
    for bytes in ways.iter().map(|chunks| frame_of(chunks)).chain([house]) {
        let (width, height) = (WIDTH as u64, HEIGHT as u64);
        let case = ReadCase { bytes, format: number, width, height, shown: previous.clone() };
        let room = ample_room(WIDTH * HEIGHT);
        sink(rewrite_case(rng, case, room, exact(WIDTH * HEIGHT)));
    }
}

/// Some of the frames that hold what an FLI may not.
fn rewrite_not_in_fli(rng: &mut Rng, sink: &mut dyn FnMut(RewriteCase)) {
    let family = &FLI_FAMILIES[FOREIGN];
    frames_of(rng, family, &mut |rng, case| {
        if rng.once_in(4) {
            rewrite_of(rng, case, sink);
        }
    });
}

/// A row as pictures have them.
fn search_rows(rng: &mut Rng, sink: &mut dyn FnMut(SearchCase)) {
    let (width, _) = right_size(rng);
    sink(SearchCase(picture(rng, width, 1)));
}

/// A row of each length, those that no picture has too.
fn search_lengths(rng: &mut Rng, sink: &mut dyn FnMut(SearchCase)) {
    for length in (0..=700).chain([65_536]) {
        sink(SearchCase(picture(rng, length, 1)));
    }
}

/// Rows in which copies and repeats cost the same or nearly so, in pieces that end around the limits of packets.
fn search_worst(rng: &mut Rng, sink: &mut dyn FnMut(SearchCase)) {
    for length in [126, 127, 128, 129, 130, 254, 255, 256, 257, 258, 318, 319, 320] {
        for run in [1, 2, 3, 4, 126, 127, 128] {
            let (shift, every) = (rng.below(4), rng.between(2, 5));
            let runs = |x: usize| ((x + shift) / run) as u8;
            sink(SearchCase((0..length).map(runs).collect()));
            let broken = |x: usize| if x % every == 0 { x as u8 } else { runs(x) };
            sink(SearchCase((0..length).map(broken).collect()));
        }
    }
}
