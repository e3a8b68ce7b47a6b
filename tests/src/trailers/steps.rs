//! Families of steps to the next frame: from every offset of a reel and past it, and in every beginning of one.

use crate::model::{Format, FILE_HEADER};
use crate::reels::loose_reel::Loose;
use crate::rng::Rng;
use crate::runner::calls::StepCase;
use crate::runner::inputs::{Case, Sink};

/// Offsets that no bytes reach, some of which are right but for their high half.
const FAR: [u64; 8] = [
    u32::MAX as u64,
    1 << 32,
    (1 << 32) + FILE_HEADER as u64,
    1 << 63,
    u64::MAX - 16,
    u64::MAX - 6,
    u64::MAX - 5,
    u64::MAX,
];

/// A reel of few bytes with chunks between its frames that are stepped over, and where its chunks begin.
fn small_loose(rng: &mut Rng) -> (Vec<u8>, Vec<usize>) {
    loop {
        let mut loose = Loose::small(rng, Format::Flc);
        loose.add_others(rng);
        let bytes = loose.bytes();
        if bytes.len() < 500 {
            return (bytes, (0..loose.chunks.len()).map(|which| loose.place_of(which)).collect());
        }
    }
}

/// From every offset of a reel, from those behind it, and from those that are far away.
pub fn offsets(rng: &mut Rng, sink: Sink) {
    let (bytes, _) = small_loose(rng);
    let near = 0..bytes.len() as u64 + 20;
    for at in near.chain(FAR) {
        sink(Case::Step(StepCase { bytes: bytes.clone(), at }));
    }
}

/// In every beginning of a reel: from its first chunk, from any chunk, and from offsets around the cut.
pub fn cut_reels(rng: &mut Rng, sink: Sink) {
    let (bytes, places) = small_loose(rng);
    for length in 0..=bytes.len() {
        let around = [0, 5, 6, 7, 15, 16, 17].map(|left| length.saturating_sub(left));
        for at in [FILE_HEADER, rng.pick(&places), length + 1].into_iter().chain(around) {
            sink(Case::Step(StepCase { bytes: bytes[..length].to_vec(), at: at as u64 }));
        }
    }
}
