//! What the families of trailers and listings share: calls on bytes that are at hand, and reels with their trailers.

use crate::model::{field, word_at, Format, FILE_HEADER, MODEL};
use crate::rng::Rng;
use crate::runner::calls::{CheckCase, CheckTrailerCase, HeaderCase, ListCase, StepCase, WriteTrailerCase};
use crate::runner::inputs::{Case, Sink};

/// How many bytes the index and the trailer of a reel take.
pub fn trailer_length(reel: &[u8]) -> usize {
    4 * (word_at(reel, field::FRAMES) as usize + 1) + 8
}

/// The index and the trailer of a reel that ends at its size and that the walk accepts.
pub fn trailer_of(reel: &[u8]) -> Vec<u8> {
    let mut bytes = [reel, &vec![0; trailer_length(reel)]].concat();
    MODEL.write_trailer(&mut bytes).expect("a trailer with room for it is written");
    bytes.split_off(reel.len())
}

/// A listing of these bytes, most often with room for its text.
pub fn list_of(rng: &mut Rng, bytes: Vec<u8>) -> Case {
    let needed = MODEL.text(&bytes).len();
    let room = if rng.once_in(20) { rng.below(needed) } else { needed + rng.pick(&[0, 0, 1, 40]) };
    Case::List(ListCase { bytes, out: rng.bytes(room) })
}

/// Each of the calls on the same bytes.
pub fn each_call(rng: &mut Rng, bytes: Vec<u8>, sink: Sink) {
    sink(CheckTrailerCase(bytes.clone()).into());
    sink(WriteTrailerCase(bytes.clone()).into());
    sink(HeaderCase(bytes.clone()).into());
    steps_of(&bytes, sink);
    sink(list_of(rng, bytes));
}

/// How many steps are made from frame to frame.
const MOST_STEPS: usize = 6;

/// Steps from frame to frame up to the first refusal, and one from any offset, which the length decides; where the
/// header is refused, through all the bytes.
fn steps_of(bytes: &[u8], sink: Sink) {
    let reel = &bytes[..MODEL.read_header(bytes).map_or(bytes.len(), |header| header.size)];
    let mut step = |at: usize| sink(Case::Step(StepCase { bytes: reel.to_vec(), at: at as u64 }));
    step(Rng::new(reel.len() as u64).below(reel.len() + 8));
    let mut at = FILE_HEADER;
    for _ in 0..MOST_STEPS {
        step(at);
        match MODEL.next_frame(reel, at as u64) {
            Ok(frame) => at = frame.end,
            Err(_) => return,
        }
    }
}

/// A family of the reel tests.
pub type ReelFamily = fn(&mut Rng, Format, &mut dyn FnMut(Case));

/// The whole-reel checks among the inputs of a family of the reel tests.
pub fn checks_of(rng: &mut Rng, format: Format, family: ReelFamily) -> Vec<CheckCase> {
    let mut checks = Vec::new();
    family(rng, format, &mut |case| {
        if let Case::Check(case) = case {
            checks.push(case);
        }
    });
    checks
}
