//! The seeded inputs of the reading and rewriting tests, in families; a family and a seed give the same inputs again.

use crate::damage;
use crate::frames::{frame_of, Chunk, Frame, Maker, KINDS, NOT_IN_FLI, SPARE, UNKNOWN};
use crate::model::{kind, Format, CHUNK_HEADER, FRAME_HEADER, PALETTE_BYTES};
use crate::rng::Rng;
use crate::runner::calls::ReadCase;
use crate::runner::inputs::Family;
use crate::sizes::{
    lengths, long_lengths, number_of, right_size, short_lengths, size_of, small_size, wrong_or_right, Lengths,
};
use crate::states::State;
use crate::ways;
use Format::{Flc, Fli};

/// The families of one input a batch, then those of many.
pub const FAMILIES: [Family<ReadCase>; 13] = [
    Family { name: "valid", batches: 120_000, emit: |rng, sink| valid(rng, Flc, sink) },
    Family { name: "slipped", batches: 150_000, emit: |rng, sink| slipped(rng, Flc, sink) },
    Family { name: "headers", batches: 30_000, emit: |rng, sink| headers(rng, Flc, sink) },
    Family { name: "bytes", batches: 40_000, emit: |rng, sink| bytes(rng, Flc, sink) },
    Family { name: "bodies", batches: 30_000, emit: |rng, sink| bodies(rng, Flc, sink) },
    Family { name: "chance-bodies", batches: 80_000, emit: |rng, sink| chance_bodies(rng, Flc, sink) },
    Family { name: "chance-bytes", batches: 10_000, emit: |rng, sink| chance_bytes(rng, Flc, sink) },
    Family { name: "lent", batches: 15_000, emit: |rng, sink| lent(rng, Flc, sink) },
    Family { name: "truncations", batches: 400, emit: |rng, sink| truncations(rng, Flc, sink) },
    Family { name: "changes", batches: 200, emit: |rng, sink| changes(rng, Flc, sink) },
    Family { name: "all-values", batches: 30, emit: |rng, sink| all_values(rng, Flc, sink) },
    Family { name: "spare", batches: 500, emit: |rng, sink| spare(rng, Flc, sink) },
    Family { name: "heavy", batches: 400, emit: |rng, sink| heavy(rng, Flc, sink) },
];

/// The same of FLI, and frames that hold what an FLI may not: those that show most come first.
pub const FLI_FAMILIES: [Family<ReadCase>; 14] = [
    Family { name: "fli-valid", batches: 2_500, emit: |rng, sink| valid(rng, Fli, sink) },
    Family { name: "fli-slipped", batches: 4_000, emit: |rng, sink| slipped(rng, Fli, sink) },
    Family { name: "fli-headers", batches: 800, emit: |rng, sink| headers(rng, Fli, sink) },
    Family { name: "fli-bytes", batches: 800, emit: |rng, sink| bytes(rng, Fli, sink) },
    Family { name: "fli-bodies", batches: 1_000, emit: |rng, sink| bodies(rng, Fli, sink) },
    Family { name: "fli-chance-bodies", batches: 6_000, emit: |rng, sink| chance_bodies(rng, Fli, sink) },
    Family { name: "fli-chance-bytes", batches: 400, emit: |rng, sink| chance_bytes(rng, Fli, sink) },
    Family { name: "fli-lent", batches: 1_000, emit: |rng, sink| lent(rng, Fli, sink) },
    Family { name: "not-in-fli", batches: 80, emit: not_in_fli },
    Family { name: "fli-heavy", batches: 80, emit: |rng, sink| heavy(rng, Fli, sink) },
    Family { name: "fli-spare", batches: 12, emit: |rng, sink| spare(rng, Fli, sink) },
    Family { name: "fli-truncations", batches: 10, emit: |rng, sink| truncations(rng, Fli, sink) },
    Family { name: "fli-changes", batches: 6, emit: |rng, sink| changes(rng, Fli, sink) },
    Family { name: "fli-all-values", batches: 2, emit: |rng, sink| all_values(rng, Fli, sink) },
];

/// How many of the families of a format give one input a batch.
pub const SINGLE: usize = 8;

/// Of FLI, which family holds what an FLI may not, and how many the self-check goes through.
pub const FOREIGN: usize = SINGLE;
pub const FLI_SHOWN: usize = SINGLE + 3;

fn case(rng: &mut Rng, bytes: Vec<u8>, format: Format, width: u64, height: u64, lengths: Lengths) -> ReadCase {
    let picture = rng.bytes(lengths.picture);
    let palette = rng.bytes(lengths.palette);
    let format = number_of(rng, format);
    ReadCase { bytes, format, width, height, shown: State { picture, palette } }
}

fn case_of_size(rng: &mut Rng, bytes: Vec<u8>, format: Format, width: usize, height: usize) -> ReadCase {
    let lengths = lengths(rng, width * height);
    case(rng, bytes, format, width as u64, height as u64, lengths)
}

fn frame(rng: &mut Rng, format: Format, width: usize, height: usize, slips: Option<usize>) -> Frame {
    Maker { rng, format, width, height, slips }.frame()
}

fn valid(rng: &mut Rng, format: Format, sink: &mut dyn FnMut(ReadCase)) {
    let (width, height) = size_of(rng, format, right_size);
    let bytes = frame(rng, format, width, height, None).bytes();
    sink(case_of_size(rng, bytes, format, width, height));
}

fn slipped(rng: &mut Rng, format: Format, sink: &mut dyn FnMut(ReadCase)) {
    let (width, height) = size_of(rng, format, right_size);
    let slips = rng.pick(&[6, 20, 80, 400]);
    let bytes = frame(rng, format, width, height, Some(slips)).bytes();
    sink(case_of_size(rng, bytes, format, width, height));
}

/// One case of a valid frame that `harm` has damaged.
fn harmed(rng: &mut Rng, format: Format, sink: &mut dyn FnMut(ReadCase), harm: fn(&Frame, &mut Rng) -> Vec<u8>) {
    let (width, height) = size_of(rng, format, right_size);
    let whole = frame(rng, format, width, height, None);
    let bytes = harm(&whole, rng);
    sink(case_of_size(rng, bytes, format, width, height));
}

fn headers(rng: &mut Rng, format: Format, sink: &mut dyn FnMut(ReadCase)) {
    harmed(rng, format, sink, damage::wrong_header);
}

fn bytes(rng: &mut Rng, format: Format, sink: &mut dyn FnMut(ReadCase)) {
    harmed(rng, format, sink, damage::wrong_bytes);
}

fn bodies(rng: &mut Rng, format: Format, sink: &mut dyn FnMut(ReadCase)) {
    harmed(rng, format, sink, damage::wrong_body);
}

fn chance_bodies(rng: &mut Rng, format: Format, sink: &mut dyn FnMut(ReadCase)) {
    let of_flc = if rng.once_in(3) { right_size } else { small_size };
    let (width, height) = size_of(rng, format, of_flc);
    let kind = damage::kind_in_turn(rng.draw());
    let mut frame = damage::chance_frame(kind, rng, 60);
    if rng.once_in(2) {
        frame.chunks.iter_mut().for_each(|chunk| chunk.trim(width, height, rng.below(2)));
    }
    sink(case_of_size(rng, frame.bytes(), format, width, height));
}

fn chance_bytes(rng: &mut Rng, format: Format, sink: &mut dyn FnMut(ReadCase)) {
    let (width, height) = size_of(rng, format, right_size);
    let bytes = damage::chance_bytes(rng);
    sink(case_of_size(rng, bytes, format, width, height));
}

/// Sizes out of range and slices too short, longer or empty, with frames that are right or not.
fn lent(rng: &mut Rng, format: Format, sink: &mut dyn FnMut(ReadCase)) {
    let (width, height) = size_of(rng, format, right_size);
    let pixels = width * height;
    let slips = rng.pick(&[None, Some(6)]);
    let whole = frame(rng, format, width, height, slips).bytes();
    let bytes = if rng.once_in(4) { Vec::new() } else { whole };
    let lengths = match rng.below(4) {
        0 => long_lengths(rng, pixels),
        _ => short_lengths(rng, pixels),
    };
    let (width, height) = wrong_or_right(rng, format, width, height);
    sink(case(rng, bytes, format, width, height, lengths));
}

/// A valid frame of few bytes, most often of one sub-chunk.
fn short_frame(rng: &mut Rng, format: Format, width: usize, height: usize, most: usize) -> Frame {
    loop {
        let mut maker = Maker { rng, format, width, height, slips: None };
        let mut kinds = vec![maker.kind()];
        if maker.rng.once_in(4) {
            kinds.push(maker.kind());
        }
        let frame = maker.frame_of_kinds(&kinds);
        if frame.bytes().len() <= most {
            return frame;
        }
    }
}

/// Every beginning of a frame, and the frame with its last body cut everywhere.
fn truncations(rng: &mut Rng, format: Format, sink: &mut dyn FnMut(ReadCase)) {
    let (width, height) = size_of(rng, format, small_size);
    let whole = short_frame(rng, format, width, height, 200);
    let bytes = whole.bytes();
    for length in 0..=bytes.len() {
        sink(case_of_size(rng, bytes[..length].to_vec(), format, width, height));
    }
    for cut in damage::every_cut_body(&whole) {
        sink(case_of_size(rng, cut, format, width, height));
    }
}

/// A body of each kind, right or with a fault of its own, with none, one, two and many spare bytes behind it: alone, in
/// front of another sub-chunk that is right, has a fault, is sloppy too or isn't there, and behind a right one.
pub fn spare_frames(rng: &mut Rng, format: Format, width: usize, height: usize) -> Vec<Frame> {
    let mut frames = Vec::new();
    for kind in KINDS {
        let slips = rng.pick(&[None, None, Some(4)]);
        let mut maker = Maker { rng, format, width, height, slips };
        let mut chunk = maker.chunk(kind);
        chunk.trim(width, height, 0);
        maker.slips = None;
        let other = maker.kind();
        let right = maker.chunk(other);
        maker.slips = maker.rng.pick(&[None, Some(3)]);
        let next = maker.chunk(other);
        for spare in SPARE {
            let mut first = chunk.clone();
            first.body.extend(rng.bytes(spare));
            let mut second = next.clone();
            if rng.once_in(4) {
                second.body.extend(rng.bytes(2));
            }
            let orders = [vec![first.clone()], vec![first.clone(), second], vec![right.clone(), first]];
            frames.extend(orders.map(|chunks| Frame { chunks, ..Frame::default() }));
        }
    }
    frames
}

fn spare(rng: &mut Rng, format: Format, sink: &mut dyn FnMut(ReadCase)) {
    let (width, height) = size_of(rng, format, small_size);
    for frame in spare_frames(rng, format, width, height) {
        let mut bytes = frame.bytes();
        if rng.once_in(8) {
            let count = frame.chunks.len() as u16 + 1;
            damage::set_word(&mut bytes, 6, count);
        }
        sink(case_of_size(rng, bytes, format, width, height));
    }
}

/// Frames with many bytes in packets, and some with just too few: behind or around a heavy sub-chunk one of each kind, right
/// or with a slip, right up to its end, cut before it or with bytes behind it; and the heavy one itself cut. Of an FLI each of
/// these in turn.
fn heavy(rng: &mut Rng, format: Format, sink: &mut dyn FnMut(ReadCase)) {
    let of_flc = if rng.once_in(8) { right_size } else { small_size };
    let (width, height) = size_of(rng, format, of_flc);
    for kind in KINDS {
        let harms = match format {
            Flc => vec![(rng.below(4), rng.pick(&[0, 1, 2, 3]))],
            Fli => vec![(0, 1), (1, 2), (2, 2), (3, 0)],
        };
        for (harm, count) in harms {
            let slips = rng.pick(&[None, Some(4)]);
            let mut maker = Maker { rng, format, width, height, slips };
            let (first, mut last) = (maker.frame_of_kinds(&[kind]).chunks, maker.chunk(kind));
            let mut heavy = ways::heavy(rng, format, width);
            match harm {
                0 => heavy.body.truncate(heavy.body.len() - count),
                1 => last.body.truncate(last.body.len().saturating_sub(count)),
                2 => last.body.extend(rng.bytes(count)),
                _ => {}
            }
            let chunks = match rng.below(3) {
                0 => vec![heavy, last],
                1 => [first, vec![heavy, last]].concat(),
                _ => [first, vec![last, heavy]].concat(),
            };
            let bytes = frame_of(&chunks);
            sink(case_of_size(rng, bytes, format, width, height));
        }
    }
}

fn changes(rng: &mut Rng, format: Format, sink: &mut dyn FnMut(ReadCase)) {
    every_change(rng, format, sink, false);
}

fn all_values(rng: &mut Rng, format: Format, sink: &mut dyn FnMut(ReadCase)) {
    every_change(rng, format, sink, true);
}

/// A frame with each of its bytes changed, one at a time.
fn every_change(rng: &mut Rng, format: Format, sink: &mut dyn FnMut(ReadCase), every_value: bool) {
    let (width, height) = size_of(rng, format, small_size);
    let whole = short_frame(rng, format, width, height, if every_value { 50 } else { 120 }).bytes();
    let lengths = Lengths { picture: width * height, palette: PALETTE_BYTES };
    let before = case(rng, whole, format, width as u64, height as u64, lengths);
    for at in 0..before.bytes.len() {
        for value in damage::changed_values(before.bytes[at], every_value) {
            let mut changed = before.clone();
            changed.bytes[at] = value;
            sink(changed);
        }
    }
}

/// Kinds of FLI whose bodies are short.
const SHORT_KINDS: [u16; 5] = [kind::COLOR256, kind::COLOR, kind::LC, kind::BLACK, UNKNOWN];

/// Frames of a kind that an FLI may not hold at every place among others that it may: with a right body, a broken one and none,
/// with sizes around the limits, behind and before a fault of another, and where the count says one more.
pub fn foreign_frames(rng: &mut Rng) -> Vec<Vec<u8>> {
    let (width, height) = size_of(rng, Fli, small_size);
    let mut maker = Maker { rng, format: Fli, width, height, slips: None };
    let mut right = Vec::new();
    for _ in 0..maker.rng.between(1, 3) {
        let kind = maker.rng.pick(&SHORT_KINDS);
        right.push(maker.chunk(kind));
    }
    let fault = Chunk { kind: kind::COPY, body: Vec::new() };
    let mut frames = Vec::new();
    for kind in NOT_IN_FLI {
        let whole = maker.chunk(kind);
        let broken = Chunk { kind, body: damage::chance_body(maker.rng, 20) };
        for at in 0..=right.len() {
            for chunk in [whole.clone(), broken.clone(), Chunk { kind, body: Vec::new() }] {
                let among = [&right[..at], &[chunk], &right[at..]].concat();
                let behind = [&right[..at], std::slice::from_ref(&fault), &among[at..]].concat();
                let before = [&among[..=at], std::slice::from_ref(&fault), &right[at..]].concat();
                let place = FRAME_HEADER + right[..at].iter().map(|one| CHUNK_HEADER + one.body.len()).sum::<usize>();
                let frame = frame_of(&among);
                let (size, left) = (CHUNK_HEADER + among[at].body.len(), frame.len() - place);
                for wrong in [0, 5, 6, size + 1, left, left + 1, 1 << 31] {
                    let mut frame = frame.clone();
                    damage::set_size(&mut frame, place, wrong as u32);
                    frames.push(frame);
                }
                let mut one_more = frame.clone();
                damage::set_word(&mut one_more, 6, among.len() as u16 + 1);
                let mut cut = frame[..place + CHUNK_HEADER - 1].to_vec();
                let length = cut.len() as u32;
                damage::set_size(&mut cut, 0, length);
                frames.extend([frame, frame_of(&behind), frame_of(&before), one_more, cut]);
            }
        }
    }
    frames
}

/// Each of these told as FLI, and some as FLC.
fn not_in_fli(rng: &mut Rng, sink: &mut dyn FnMut(ReadCase)) {
    let (width, height) = size_of(rng, Fli, small_size);
    for bytes in foreign_frames(rng) {
        let format = if rng.once_in(8) { Flc } else { Fli };
        sink(case_of_size(rng, bytes, format, width, height));
    }
}

#[cfg(test)]
mod tests {
    use super::*;
    use crate::runner::inputs::same_again;

    #[test]
    fn a_seed_gives_its_batch_again() {
        FAMILIES.iter().chain(&FLI_FAMILIES).for_each(same_again);
    }
}
