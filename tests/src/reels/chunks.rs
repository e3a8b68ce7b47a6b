//! Families of top-level chunks: stepped over, of wrong sizes, half there, and frames that are damaged.

use super::loose_reel::{any_frame, chunk_of, other_chunk, Loose};
use super::make::{check_of, close_of};
use crate::cases::{foreign_frames, spare_frames};
use crate::damage::{self, set_size, set_word, wrong_size_field};
use crate::frames::faulty_fli_frames;
use crate::model::{field, kind, Format, FILE_HEADER, FRAME_TYPE, PREFIX_TYPE};
use crate::rng::Rng;
use crate::runner::inputs::Sink;
use crate::sizes::{right_size, size_of, small_size};
use crate::write_cases::ample_room;

/// Right reels with chunks between the frames that are stepped over, and anything after the ring.
pub fn others(rng: &mut Rng, format: Format, sink: Sink) {
    let mut loose = Loose::small(rng, format);
    loose.add_others(rng);
    let length = rng.pick(&[0, 0, 1, 5, 40]);
    loose.after = rng.bytes(length);
    sink(check_of(rng, loose.bytes()));
    loose.frames += 1;
    sink(check_of(rng, loose.bytes()));
}

/// Wrong sizes in each top-level header of a reel, frames and others.
pub fn chunk_sizes(rng: &mut Rng, format: Format, sink: Sink) {
    let mut loose = Loose::small(rng, format);
    loose.add_others(rng);
    let length = rng.pick(&[0, 20]);
    loose.after = rng.bytes(length);
    let whole = loose.bytes();
    for which in 0..loose.chunks.len() {
        let place = loose.place_of(which);
        let right = loose.chunks[which].len();
        if right < 6 {
            continue;
        }
        let left = whole.len() - loose.after.len() - place;
        let chance = wrong_size_field(rng, right, 6, left);
        for size in [0, 5, 6, 15, 16, right as u32 + 1, left as u32, left as u32 + 1, u32::MAX, chance] {
            let mut wrong = whole.clone();
            set_size(&mut wrong, place, size);
            sink(check_of(rng, wrong));
        }
    }
}

/// 0 to 20 bytes where a chunk should begin, of a frame and of others, with every size around the limits, checked and
/// closed.
pub fn left_over(rng: &mut Rng, format: Format, sink: Sink) {
    let mut loose = Loose::small(rng, format);
    let kept = rng.below(loose.chunks.len());
    loose.chunks.truncate(kept);
    if rng.once_in(2) {
        loose.chunks.push(other_chunk(rng));
    }
    loose.chunks.push(Vec::new());
    let last = loose.chunks.len() - 1;
    let length = rng.pick(&[0, 30]);
    loose.after = rng.bytes(length);
    for left in 0..=20 {
        for kind in [FRAME_TYPE, PREFIX_TYPE, kind::PSTAMP] {
            for size in [0, 5, 6, 15, 16, left, left + 1, u32::MAX] {
                loose.chunks[last] = chunk_of(rng, kind, size, left as usize);
                if kind == FRAME_TYPE && left >= 8 {
                    set_word(&mut loose.chunks[last], 6, 0);
                }
                sink(check_of(rng, loose.bytes()));
                sink(close_of(rng, loose.record(), loose.open_bytes()));
            }
        }
    }
}

/// A frame with something wrong in it, most of the time.
pub fn wrong_frame(rng: &mut Rng, format: Format, width: usize, height: usize) -> Vec<u8> {
    let whole = any_frame(rng, format, width, height, None);
    match rng.below(8) {
        0 => damage::wrong_header(&whole, rng),
        1 => damage::wrong_bytes(&whole, rng),
        2 => damage::wrong_body(&whole, rng),
        3 => {
            let kind = damage::kind_in_turn(rng.draw());
            damage::chance_frame(kind, rng, 60).bytes()
        }
        _ => {
            let slips = rng.pick(&[6, 20, 80]);
            any_frame(rng, format, width, height, Some(slips)).bytes()
        }
    }
}

/// A good start, then a frame or ring that is damaged: checked, and closed.
pub fn damaged(rng: &mut Rng, format: Format, sink: Sink) {
    let of_flc = if rng.once_in(8) { right_size } else { small_size };
    let (width, height) = size_of(rng, format, of_flc);
    let frames = rng.between(1, 4);
    let mut loose = Loose::ringed(rng, format, width, height, frames);
    let which = rng.below(loose.chunks.len());
    loose.chunks[which] = wrong_frame(rng, format, width, height);
    sink(check_of(rng, loose.bytes()));
    if rng.once_in(2) {
        loose.chunks.pop();
    } else {
        loose.frames += 1;
    }
    let room = rng.pick(&[0, 16, ample_room(width * height)]);
    let bytes = [loose.open_bytes(), rng.bytes(room)].concat();
    sink(close_of(rng, loose.record(), bytes));
}

/// Spare bytes behind bodies of every kind, in one of the frames or in the ring: checked, and closed.
pub fn spare(rng: &mut Rng, format: Format, sink: Sink) {
    let whole = Loose::small(rng, format);
    for frame in spare_frames(rng, format, whole.width, whole.height) {
        let mut loose = whole.clone();
        let which = rng.below(loose.chunks.len());
        loose.chunks[which] = frame.bytes();
        sink(check_of(rng, loose.bytes()));
        loose.frames += 1;
        let room = rng.pick(&[0, ample_room(loose.width * loose.height)]);
        let bytes = [loose.open_bytes(), rng.bytes(room)].concat();
        sink(close_of(rng, loose.record(), bytes));
    }
}

/// Each fault of a frame of an FLI, in one of the frames or in the ring: checked, and closed.
pub fn fli_faults(rng: &mut Rng, format: Format, sink: Sink) {
    let whole = Loose::small(rng, format);
    for (_, frame) in faulty_fli_frames() {
        let mut loose = whole.clone();
        let which = rng.below(loose.chunks.len());
        loose.chunks[which] = frame;
        sink(check_of(rng, loose.bytes()));
        loose.frames += 1;
        sink(close_of(rng, loose.record(), loose.open_bytes()));
    }
}

/// Frames with a kind that an FLI may not hold, in one of the frames or in the ring: checked, and closed.
pub fn foreign(rng: &mut Rng, format: Format, sink: Sink) {
    let whole = Loose::small(rng, format);
    for frame in foreign_frames(rng) {
        if !rng.once_in(8) {
            continue;
        }
        let mut loose = whole.clone();
        let which = rng.below(loose.chunks.len());
        loose.chunks[which] = frame;
        sink(check_of(rng, loose.bytes()));
        sink(close_of(rng, loose.record(), loose.open_bytes()));
    }
}

/// Bytes of chance after a right header, checked and closed.
pub fn chance(rng: &mut Rng, format: Format, sink: Sink) {
    let mut loose = Loose::small(rng, format);
    let kept = rng.below(loose.chunks.len());
    loose.chunks.truncate(kept);
    loose.chunks.push(damage::chance_bytes(rng));
    sink(check_of(rng, loose.bytes()));
    sink(close_of(rng, loose.record(), loose.open_bytes()));
    let length = rng.below(2 * FILE_HEADER);
    let mut bytes = rng.bytes(length);
    if length >= FILE_HEADER {
        set_word(&mut bytes, field::MAGIC, format.magic());
        set_size(&mut bytes, field::SIZE, length as u32);
    }
    sink(check_of(rng, bytes));
}
