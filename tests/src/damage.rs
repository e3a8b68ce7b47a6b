//! Damages frames: headers, single bytes, lengths, and bodies of nothing but chance.

use crate::frames::{Chunk, Frame, KINDS, UNKNOWN};
use crate::model::{FRAME_HEADER, FRAME_TYPE, PREFIX_TYPE};
use crate::rng::Rng;

const COUNT_OFFSET: usize = 6;
const TYPE_OFFSET: usize = 4;

pub fn set_word(bytes: &mut [u8], offset: usize, word: u16) {
    bytes[offset..offset + 2].copy_from_slice(&word.to_le_bytes());
}

pub fn set_size(bytes: &mut [u8], offset: usize, size: u32) {
    bytes[offset..offset + 4].copy_from_slice(&size.to_le_bytes());
}

/// A size field around the limits that a header's checks have.
pub fn wrong_size_field(rng: &mut Rng, right: usize, least: usize, enclosed: usize) -> u32 {
    match rng.below(8) {
        0 => rng.below(least + 1) as u32,
        1 => (least - 1) as u32,
        2 => least as u32,
        3 => right as u32 + 1,
        4 => (right as u32).wrapping_sub(1),
        5 => enclosed as u32 + rng.below(2) as u32,
        6 => rng.pick(&[u32::MAX, 1 << 31, 1 << 24, 1 << 16]),
        _ => rng.draw() as u32,
    }
}

/// The offset of one of the frame's sub-chunk headers, if there is one.
fn some_chunk_offset(frame: &Frame, rng: &mut Rng) -> Option<(usize, usize)> {
    if frame.chunks.is_empty() {
        return None;
    }
    let which = rng.below(frame.chunks.len());
    let before: usize = frame.chunks[..which].iter().map(|chunk| 6 + chunk.body.len()).sum();
    Some((FRAME_HEADER + before, 6 + frame.chunks[which].body.len()))
}

/// Damages one header field of a frame, the frame's own or a sub-chunk's.
pub fn wrong_header(frame: &Frame, rng: &mut Rng) -> Vec<u8> {
    let mut bytes = frame.bytes();
    let whole = bytes.len();
    let right = whole - frame.after.len();
    match rng.below(6) {
        0 | 1 => {
            let size = wrong_size_field(rng, right, FRAME_HEADER, whole);
            set_size(&mut bytes, 0, size);
        }
        2 => {
            let more = rng.pick(&[1, 2, 3, 1000]);
            set_word(&mut bytes, COUNT_OFFSET, frame.chunks.len() as u16 + more);
        }
        3 => {
            let wrong = rng.pick(&[PREFIX_TYPE, 0xFAF1, 0, FRAME_TYPE ^ 1, FRAME_TYPE ^ 0x8000, FRAME_TYPE & 0xFF]);
            set_word(&mut bytes, TYPE_OFFSET, wrong);
            if rng.once_in(2) {
                set_size(&mut bytes, 0, 3);
            }
        }
        _ => {
            if let Some((offset, size)) = some_chunk_offset(frame, rng) {
                let wrong = wrong_size_field(rng, size, 6, right - offset);
                set_size(&mut bytes, offset, wrong);
            }
        }
    }
    bytes
}

/// Changes a frame's bytes at chance: values, cuts, removals, insertions.
pub fn wrong_bytes(frame: &Frame, rng: &mut Rng) -> Vec<u8> {
    let mut bytes = frame.bytes();
    for _ in 0..rng.between(1, 3) {
        let at = rng.below(bytes.len().max(1));
        match rng.below(5) {
            0 => bytes.truncate(at),
            1 if !bytes.is_empty() => {
                bytes.remove(at);
            }
            2 => bytes.insert(at, rng.byte()),
            _ if !bytes.is_empty() => bytes[at] = odd_byte(rng),
            _ => {}
        }
    }
    bytes
}

/// Exchanges kinds between bodies, or cuts a body at any place, all sizes being right.
pub fn wrong_body(frame: &Frame, rng: &mut Rng) -> Vec<u8> {
    let mut damaged = frame.clone();
    if !damaged.chunks.is_empty() {
        let which = rng.below(damaged.chunks.len());
        let chunk = &mut damaged.chunks[which];
        if rng.once_in(2) {
            chunk.kind = rng.pick(&KINDS);
        } else {
            let kept = rng.below(chunk.body.len() + 1);
            chunk.body.truncate(kept);
        }
    }
    damaged.bytes()
}

/// A byte that is often at a limit.
pub fn odd_byte(rng: &mut Rng) -> u8 {
    match rng.below(4) {
        0 => rng.pick(&[0, 1, 2, 3, 0x3F, 0x40, 0x7F, 0x80, 0x81, 0xBF, 0xC0, 0xFE, 0xFF]),
        1 => rng.below(6) as u8,
        _ => rng.byte(),
    }
}

/// A body of chance, of which many bytes are small, so that it goes some way before it fails.
pub fn chance_body(rng: &mut Rng, most: usize) -> Vec<u8> {
    let length = rng.below(most + 1);
    let small = rng.between(1, 9);
    (0..length).map(|_| if rng.below(10) < small { rng.below(3) as u8 } else { odd_byte(rng) }).collect()
}

/// A right header with bodies of chance, `kind` first.
pub fn chance_frame(kind: u16, rng: &mut Rng, most: usize) -> Frame {
    let mut chunks = vec![Chunk { kind, body: chance_body(rng, most) }];
    if rng.once_in(4) {
        let second = rng.pick(&KINDS);
        chunks.push(Chunk { kind: second, body: chance_body(rng, most) });
    }
    Frame { chunks, ..Frame::default() }
}

/// Bytes of chance, at times behind a frame's type.
pub fn chance_bytes(rng: &mut Rng) -> Vec<u8> {
    let length = rng.below(60);
    let mut bytes = rng.bytes(length);
    if bytes.len() >= FRAME_HEADER && rng.once_in(2) {
        let size = rng.below(length + 4) as u32;
        set_size(&mut bytes, 0, size);
        set_word(&mut bytes, TYPE_OFFSET, FRAME_TYPE);
        let count = rng.below(4) as u16;
        set_word(&mut bytes, COUNT_OFFSET, count);
    }
    bytes
}

/// The frame with its only body cut to every length, sizes being right: the body ends too early.
pub fn every_cut_body(frame: &Frame) -> Vec<Vec<u8>> {
    let whole = frame.chunks.last().map_or(0, |chunk| chunk.body.len());
    let mut cut = frame.clone();
    let mut all = Vec::new();
    for kept in (0..=whole).rev() {
        if let Some(chunk) = cut.chunks.last_mut() {
            chunk.body.truncate(kept);
        }
        all.push(cut.bytes());
    }
    all
}

/// The values tried for each byte of a frame.
pub fn changed_values(value: u8, every: bool) -> Vec<u8> {
    if every {
        return (0..=255).collect();
    }
    vec![value ^ 1, value ^ 0x40, value ^ 0x80, value.wrapping_add(1), value.wrapping_sub(1), 0, 0x7F, 0xFF]
}

/// One of the kinds in turn, for tests that want each.
pub fn kind_in_turn(turn: u64) -> u16 {
    let kind = KINDS[(turn % KINDS.len() as u64) as usize];
    if kind == UNKNOWN {
        19
    } else {
        kind
    }
}
