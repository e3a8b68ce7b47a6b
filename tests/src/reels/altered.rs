//! Families of open reels that were altered before the close: any byte, and frames made shorter, longer, or other.

use super::built_reel::Built;
use super::loose_reel::{other_chunk, Loose};
use super::make::{check_of, close_of};
use crate::damage::{changed_values, set_size, set_word};
use crate::model::{Format, FRAME_TYPE, PREFIX_TYPE};
use crate::rng::Rng;
use crate::runner::inputs::Sink;
use crate::write_cases::ample_room;
use flic_boundary::Reel;

/// Each byte of an open reel, the header's too, changed to several values; of an FLI some.
pub fn open_bytes(rng: &mut Rng, format: Format, sink: Sink) {
    let frames = rng.between(1, 3);
    let built = Built::small(rng, format, frames);
    let room = ample_room(built.pixels());
    let whole = built.with_room(rng, room);
    let step = if format == Format::Flc { 1 } else { rng.between(5, 9) };
    for at in (0..built.bytes.len().min(500)).step_by(step) {
        for value in changed_values(whole[at], false) {
            let mut changed = whole.clone();
            changed[at] = value;
            sink(close_of(rng, built.last_record(), changed));
        }
    }
}

/// Frames that were cut, lengthened, retyped, or have others between them; the record may follow or stay.
pub fn frame_edges(rng: &mut Rng, format: Format, sink: Sink) {
    let mut loose = Loose::small(rng, format);
    loose.chunks.pop();
    let before = loose.record();
    alter(rng, &mut loose);
    let bytes = [loose.open_bytes(), rng.bytes(200)].concat();
    let mut ends = vec![before.end, loose.record().end];
    for near in [1, 5, 6, 15, 16] {
        ends.push(before.end + near);
        ends.push(before.end - near);
    }
    for end in ends {
        let reel = Reel { end, ..before };
        sink(close_of(rng, reel, bytes.clone()));
        sink(close_of(rng, Reel { frames: before.frames + 1, ..reel }, bytes.clone()));
    }
    sink(check_of(rng, loose.bytes()));
}

fn alter(rng: &mut Rng, loose: &mut Loose) {
    let which = rng.below(loose.chunks.len());
    let chunk = &mut loose.chunks[which];
    let length = chunk.len();
    match rng.below(7) {
        0 => chunk.truncate(length - rng.between(1, length.min(20))),
        1 => {
            let kept = length - rng.between(1, length - 1).min(6);
            chunk.truncate(kept.max(4));
            set_size(chunk, 0, kept as u32);
        }
        2 => {
            let more = rng.between(1, 20);
            chunk.extend(rng.bytes(more));
        }
        3 => {
            let more = rng.between(1, 20);
            chunk.extend(rng.bytes(more));
            set_size(chunk, 0, (length + more) as u32);
        }
        4 => set_word(chunk, 4, rng.pick(&[PREFIX_TYPE, 18, FRAME_TYPE ^ 1, 0])),
        5 => {
            let other = other_chunk(rng);
            loose.chunks.insert(which, other);
        }
        _ => {}
    }
}
