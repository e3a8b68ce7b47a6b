//! Families of starts: the reel tests' file headers, chunks, rings and slices, each reel being started.

use crate::model::Format;
use crate::reels::{built, chunks, headers, lent, rings};
use crate::rng::Rng;
use crate::runner::calls::{CheckCase, StartCase};
use crate::runner::inputs::Sink;
use crate::trailers::make::{checks_of, ReelFamily};

/// A start for each whole-reel check of a family of the reel tests.
fn started(rng: &mut Rng, format: Format, family: ReelFamily, sink: Sink) {
    for CheckCase { bytes, first, second } in checks_of(rng, format, family) {
        let now = rng.draw() as u32;
        sink(StartCase { bytes, now, first, second }.into());
    }
}

pub fn built(rng: &mut Rng, format: Format, sink: Sink) {
    started(rng, format, built::built, sink);
}

pub fn header_bytes(rng: &mut Rng, format: Format, sink: Sink) {
    started(rng, format, headers::header_bytes, sink);
}

pub fn header_faults(rng: &mut Rng, format: Format, sink: Sink) {
    started(rng, format, headers::header_faults, sink);
}

pub fn cuts(rng: &mut Rng, format: Format, sink: Sink) {
    started(rng, format, headers::cuts, sink);
}

pub fn others(rng: &mut Rng, format: Format, sink: Sink) {
    started(rng, format, chunks::others, sink);
}

pub fn chunk_sizes(rng: &mut Rng, format: Format, sink: Sink) {
    started(rng, format, chunks::chunk_sizes, sink);
}

pub fn left_over(rng: &mut Rng, format: Format, sink: Sink) {
    started(rng, format, chunks::left_over, sink);
}

pub fn damaged(rng: &mut Rng, format: Format, sink: Sink) {
    started(rng, format, chunks::damaged, sink);
}

pub fn spare(rng: &mut Rng, format: Format, sink: Sink) {
    started(rng, format, chunks::spare, sink);
}

pub fn chance(rng: &mut Rng, format: Format, sink: Sink) {
    started(rng, format, chunks::chance, sink);
}

pub fn rings(rng: &mut Rng, format: Format, sink: Sink) {
    started(rng, format, rings::rings, sink);
}

pub fn slices(rng: &mut Rng, format: Format, sink: Sink) {
    started(rng, format, lent::slices, sink);
}

pub fn foreign(rng: &mut Rng, format: Format, sink: Sink) {
    started(rng, format, chunks::foreign, sink);
}

pub fn fli_faults(rng: &mut Rng, format: Format, sink: Sink) {
    started(rng, format, chunks::fli_faults, sink);
}
