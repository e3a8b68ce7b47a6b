//! The family of whole-reel checks around the writing of a trailer: reels that are right, damaged, or go astray.

use super::make::{checks_of, ReelFamily};
use crate::model::Format;
use crate::reels::{built, chunks, rings};
use crate::rng::Rng;
use crate::runner::inputs::{AroundCase, Sink};

const REELS: [ReelFamily; 4] = [built::built, chunks::others, chunks::damaged, rings::rings];

/// Reels with room after them for their trailers, and now and then without.
pub fn around(rng: &mut Rng, sink: Sink) {
    let family = rng.pick(&REELS);
    for mut case in checks_of(rng, Format::Flc, family) {
        let room = rng.pick(&[0, 300, 300, 320]);
        case.bytes.extend(rng.bytes(room));
        sink(AroundCase(case).into());
    }
}
