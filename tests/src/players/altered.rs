//! Families of bytes that were altered between the start and a tick: changed, cut, damaged, or lengthened.

use super::make::{delays, due, lively, Whole};
use crate::cases::{foreign_frames, spare_frames};
use crate::damage::{changed_values, set_size, set_word};
use crate::frames::faulty_fli_frames;
use crate::model::{kind, Format, FILE_HEADER, FRAME_TYPE, PREFIX_TYPE};
use crate::reels::chunks::wrong_frame;
use crate::reels::headers::small_reel;
use crate::reels::loose_reel::{any_frame, chunk_of, other_chunk};
use crate::rng::Rng;
use crate::runner::inputs::{Case, Sink};
use flic_boundary::Player;

/// A lively reel of few bytes.
fn small(rng: &mut Rng, format: Format) -> Whole {
    if format == Format::Fli {
        let whole = Whole::of(small_reel(rng, format));
        return whole.at_speed(rng.pick(delays(format)));
    }
    loop {
        let whole = lively(rng, format);
        if whole.bytes.len() < 700 {
            return whole;
        }
    }
}

/// Each byte of the file header and from the record's place to the end of the frame that is due, changed to several
/// values.
pub fn changed_bytes(rng: &mut Rng, format: Format, sink: Sink) {
    let whole = small(rng, format);
    let player = whole.any_standing(rng);
    let end = whole.spans.iter().find(|span| span.start as u64 >= player.place).map_or(0, |span| span.end);
    let header = (0..FILE_HEADER).step_by(rng.between(3, 9));
    for at in header.chain(player.place as usize..end) {
        for value in changed_values(whole.bytes[at], false) {
            let mut changed = whole.bytes.clone();
            changed[at] = value;
            sink(Case::Tick(whole.tick_of(rng, player, changed, due(&player))));
        }
    }
}

/// Every beginning of the bytes, with any frame standing.
pub fn cuts(rng: &mut Rng, format: Format, sink: Sink) {
    let whole = small(rng, format);
    for length in 0..=whole.bytes.len() {
        let player = whole.any_standing(rng);
        sink(Case::Tick(whole.tick_of(rng, player, whole.bytes[..length].to_vec(), due(&player))));
    }
}

/// Bytes put where a player looks for its next frame, and nothing behind them, or what stood there.
fn put(rng: &mut Rng, whole: &Whole, player: &Player, chunks: &[u8]) -> Vec<u8> {
    let place = player.place as usize;
    let kept = if rng.once_in(2) { &whole.bytes[place..] } else { &[] };
    [&whole.bytes[..place], chunks, kept].concat()
}

/// A frame that is damaged where the next one is looked for, at times behind others that are stepped over.
pub fn damaged(rng: &mut Rng, format: Format, sink: Sink) {
    let whole = lively(rng, format);
    let player = whole.any_standing(rng);
    let mut chunks = wrong_frame(rng, format, whole.header.width, whole.header.height);
    if rng.once_in(3) {
        chunks = [other_chunk(rng), chunks].concat();
    }
    let bytes = put(rng, &whole, &player, &chunks);
    sink(Case::Tick(whole.tick_of(rng, player, bytes, due(&player))));
}

/// Frames with spare bytes behind bodies of every kind, where the next one is looked for.
pub fn spare(rng: &mut Rng, format: Format, sink: Sink) {
    let whole = lively(rng, format);
    let player = whole.any_standing(rng);
    for frame in spare_frames(rng, format, whole.header.width, whole.header.height) {
        let bytes = put(rng, &whole, &player, &frame.bytes());
        sink(Case::Tick(whole.tick_of(rng, player, bytes, due(&player))));
    }
}

/// Each fault of a frame of an FLI, where the next one is looked for.
pub fn fli_faults(rng: &mut Rng, format: Format, sink: Sink) {
    let whole = lively(rng, format);
    let player = whole.any_standing(rng);
    for (_, frame) in faulty_fli_frames() {
        let bytes = put(rng, &whole, &player, &frame);
        sink(Case::Tick(whole.tick_of(rng, player, bytes, due(&player))));
    }
}

/// Frames with a kind that an FLI may not hold, where the next one is looked for.
pub fn foreign(rng: &mut Rng, format: Format, sink: Sink) {
    let whole = lively(rng, format);
    let player = whole.any_standing(rng);
    for frame in foreign_frames(rng) {
        if rng.once_in(8) {
            let bytes = put(rng, &whole, &player, &frame);
            sink(Case::Tick(whole.tick_of(rng, player, bytes, due(&player))));
        }
    }
}

/// 0 to 20 bytes where the next chunk should begin, of a frame and of others, with every size around the limits.
pub fn left_over(rng: &mut Rng, format: Format, sink: Sink) {
    let whole = small(rng, format);
    let player = whole.any_standing(rng);
    let before = if rng.once_in(2) { other_chunk(rng) } else { Vec::new() };
    for left in 0..=20 {
        for kind in [FRAME_TYPE, PREFIX_TYPE, kind::PSTAMP] {
            for size in [0, 5, 6, 15, 16, left, left + 1, u32::MAX] {
                let mut chunk = chunk_of(rng, kind, size, left as usize);
                if kind == FRAME_TYPE && left >= 8 {
                    set_word(&mut chunk, 6, 0);
                }
                let bytes = [&whole.bytes[..player.place as usize], &before, &chunk].concat();
                sink(Case::Tick(whole.tick_of(rng, player, bytes, due(&player))));
            }
        }
    }
}

/// A player whose place is the end of the ring or of the size: what stands behind it counts, up to the end of the bytes,
/// whatever the size field says.
pub fn behind(rng: &mut Rng, format: Format, sink: Sink) {
    let whole = lively(rng, format);
    let last = rng.draw() as u32;
    let size = whole.header.size;
    let ring = whole.spans[whole.header.frames];
    let more = any_frame(rng, format, whole.header.width, whole.header.height, None).bytes();
    let mut bytes = [&whole.bytes[..size], &more].concat();
    set_size(&mut bytes, 0, rng.pick(&[size as u32, size as u32, 0, u32::MAX]));
    for place in [size, ring.end, ring.start] {
        for number in [1, whole.frames(), whole.frames() + 1] {
            let player = Player { place: place as u64, ..whole.standing(number, last) };
            sink(Case::Tick(whole.tick_of(rng, player, bytes.clone(), due(&player))));
            sink(Case::Tick(whole.tick(rng, player, due(&player))));
        }
    }
}
