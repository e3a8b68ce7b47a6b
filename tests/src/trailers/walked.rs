//! Families of what the walk before a trailer or a listing may meet: the reel tests' file headers and top-level chunks.

use super::make::{checks_of, each_call, trailer_length, ReelFamily};
use crate::model::{Format, FILE_HEADER, MODEL};
use crate::reels::{chunks, headers};
use crate::rng::Rng;
use crate::runner::inputs::Sink;

/// Each call on the reels of a family of the reel tests, with nothing, anything or a trailer after what is there.
fn walked(rng: &mut Rng, format: Format, family: ReelFamily, sink: Sink) {
    for case in checks_of(rng, format, family) {
        let mut bytes = case.bytes;
        let room = match rng.below(4) {
            0 | 1 => 0,
            2 => rng.between(1, 24),
            _ if bytes.len() < FILE_HEADER => 0,
            _ => trailer_length(&bytes).min(300),
        };
        bytes.extend(rng.bytes(room));
        if rng.once_in(2) {
            let length = MODEL.write_trailer(&mut bytes).unwrap_or(bytes.len());
            bytes.truncate(length);
        }
        each_call(rng, bytes, sink);
    }
}

pub fn header_bytes(rng: &mut Rng, format: Format, sink: Sink) {
    walked(rng, format, headers::header_bytes, sink);
}

pub fn header_faults(rng: &mut Rng, format: Format, sink: Sink) {
    walked(rng, format, headers::header_faults, sink);
}

pub fn cuts(rng: &mut Rng, format: Format, sink: Sink) {
    walked(rng, format, headers::cuts, sink);
}

pub fn others(rng: &mut Rng, format: Format, sink: Sink) {
    walked(rng, format, chunks::others, sink);
}

pub fn chunk_sizes(rng: &mut Rng, format: Format, sink: Sink) {
    walked(rng, format, chunks::chunk_sizes, sink);
}

pub fn left_over(rng: &mut Rng, format: Format, sink: Sink) {
    walked(rng, format, chunks::left_over, sink);
}

pub fn damaged(rng: &mut Rng, format: Format, sink: Sink) {
    walked(rng, format, chunks::damaged, sink);
}

pub fn chance(rng: &mut Rng, format: Format, sink: Sink) {
    walked(rng, format, chunks::chance, sink);
}
