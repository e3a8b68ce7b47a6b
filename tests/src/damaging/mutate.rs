//! Damages bytes: flipped, set to values at limits, put in, taken out, doubled, or taken from another reel.

use super::spans::Spans;
use flic_tests::damage::{set_size, set_word};
use flic_tests::rng::Rng;

/// Bytes, words and sizes at limits that the format has.
const BYTES: [u8; 9] = [0, 1, 5, 6, 15, 16, 127, 128, 255];
const WORDS: [u16; 27] = [
    0, 1, 3, 4, 5, 6, 7, 8, 11, 12, 13, 15, 16, 18, 127, 128, 200, 255, 256, 320, 4_000, 4_001, 0x8000, 0xAF11, 0xAF12,
    0xF100, 0xF1FA,
];
const SIZES: [u32; 13] = [0, 1, 5, 6, 15, 16, 127, 128, 255, 65_535, 65_536, 1 << 31, u32::MAX];

/// Up to how many bytes are put in or doubled at once.
const MOST: usize = 24;
/// Bytes that damage doesn't grow beyond.
pub const MOST_BYTES: usize = 300_000;

/// Damages bytes some times; half of the time sizes are made right again, so that the damage gets deeper.
pub fn damaged(rng: &mut Rng, whole: &[u8], other: &[u8]) -> Vec<u8> {
    let mut bytes = whole.to_vec();
    let mut spans = Spans::of(&bytes);
    let times = match rng.below(16) {
        0 | 1 => 0,
        2..=8 => 1,
        9..=13 => rng.between(2, 4),
        _ => rng.between(5, 12),
    };
    let mends = rng.once_in(2);
    for _ in 0..times {
        once(rng, &mut bytes, &mut spans, other);
    }
    if mends {
        spans.mend(&mut bytes);
    }
    bytes
}

/// A place, as often at a chunk's header or just behind it as anywhere.
fn place(rng: &mut Rng, bytes: &[u8], spans: &Spans) -> usize {
    let anywhere = rng.below(bytes.len() + 1);
    if spans.all.is_empty() || rng.once_in(2) {
        return anywhere;
    }
    let span = spans.all[rng.below(spans.all.len())];
    let near = match rng.below(8) {
        0 => span.end,
        1 => span.end.saturating_sub(rng.between(1, 4)),
        2 => span.start + 4,
        3 => span.start + 6,
        4 => span.start,
        _ => span.start + rng.below(24),
    };
    near.min(bytes.len())
}

fn put_in(bytes: &mut Vec<u8>, spans: &mut Spans, at: usize, new: &[u8]) {
    if bytes.len() + new.len() <= MOST_BYTES {
        bytes.splice(at..at, new.iter().copied());
        spans.put_in(at, new.len());
    }
}

fn take_out(bytes: &mut Vec<u8>, spans: &mut Spans, at: usize, count: usize) {
    let count = count.min(bytes.len() - at);
    bytes.drain(at..at + count);
    spans.taken_out(at, count);
}

fn some_length(rng: &mut Rng) -> usize {
    if rng.once_in(2) {
        1
    } else {
        rng.between(2, MOST)
    }
}

fn once(rng: &mut Rng, bytes: &mut Vec<u8>, spans: &mut Spans, other: &[u8]) {
    let at = place(rng, bytes, spans);
    let left = bytes.len() - at;
    match rng.below(14) {
        0 | 1 if left >= 1 => bytes[at] ^= 1 << rng.below(8),
        2..=4 if left >= 1 => bytes[at] = rng.pick(&BYTES),
        5 if left >= 1 => bytes[at] = rng.byte(),
        6 if left >= 2 => set_word(bytes, at, rng.pick(&WORDS)),
        7 if left >= 4 => {
            let near = [left as u32, (left as u32).wrapping_add(1), left as u32 - 1, bytes.len() as u32];
            let size = if rng.once_in(2) { rng.pick(&near) } else { rng.pick(&SIZES) };
            set_size(bytes, at, size);
        }
        8 => {
            let count = some_length(rng);
            let new = if rng.once_in(2) { vec![rng.pick(&BYTES); count] } else { rng.bytes(count) };
            put_in(bytes, spans, at, &new);
        }
        9 => {
            let count = some_length(rng);
            take_out(bytes, spans, at, count);
        }
        10 => double(rng, bytes, spans, at),
        11 => swap_in(rng, bytes, spans, at, other),
        12 if rng.once_in(3) => take_out(bytes, spans, at, left),
        13 if !spans.all.is_empty() => chunk(rng, bytes, spans),
        _ => {
            let step = rng.pick(&[1, 255]);
            if let Some(byte) = bytes.get_mut(at) {
                *byte = byte.wrapping_add(step);
            }
        }
    }
}

/// Doubles the bytes from a place on.
fn double(rng: &mut Rng, bytes: &mut Vec<u8>, spans: &mut Spans, at: usize) {
    let count = some_length(rng).min(bytes.len() - at);
    let new = bytes[at..at + count].to_vec();
    put_in(bytes, spans, at, &new);
}

/// Takes bytes from another reel: over those that stand here, or between them.
fn swap_in(rng: &mut Rng, bytes: &mut Vec<u8>, spans: &mut Spans, at: usize, other: &[u8]) {
    let others = Spans::of(other);
    let from = place(rng, other, &others);
    let count = if rng.once_in(2) { some_length(rng) } else { rng.between(1, 200) };
    let part = &other[from..other.len().min(from + count)];
    if rng.once_in(2) {
        let shared = part.len().min(bytes.len() - at);
        bytes[at..at + shared].copy_from_slice(&part[..shared]);
    } else {
        put_in(bytes, spans, at, part);
    }
}

/// Takes a whole chunk out, doubles it, or puts it elsewhere.
fn chunk(rng: &mut Rng, bytes: &mut Vec<u8>, spans: &mut Spans) {
    let span = spans.all[rng.below(spans.all.len())];
    if span.start == 0 || span.end > bytes.len() {
        return;
    }
    let part = bytes[span.start..span.end].to_vec();
    let turn = rng.below(3);
    if turn != 0 {
        take_out(bytes, spans, span.start, part.len());
    }
    if turn != 1 {
        let at = place(rng, bytes, spans);
        put_in(bytes, spans, at, &part);
    }
}
