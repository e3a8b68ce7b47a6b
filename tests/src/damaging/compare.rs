//! One case as calls of all entry points.

use super::case::Case;
use super::guarded::GuardPages;
use flic_tests::model::MAX_HEIGHT;
use flic_tests::rng::{mix, Rng};
use flic_tests::runner::calls::{
    AddCase, Call, CheckCase, CheckTrailerCase, CloseCase, HeaderCase, JiffiesCase, ListCase, MarkedCase,
    MillisecondsCase, OpenCase, OpenFliCase, ReadCase, ReplayCase, RewriteCase, SearchCase, StartCase, StepCase,
    TickCase, TileMapCase, WriteCase, WriteTrailerCase, ROWS,
};
use flic_tests::runner::compare::{Comparer, Difference, Library};
use flic_tests::states::State;

/// The library, with slices against guard pages.
pub const LIBRARY: Comparer = Comparer { subject: &Library, lender: &GuardPages(None) };

/// A difference, and the entry point in which it was met.
pub type Found = (&'static str, Difference);

/// The calls of a case with their seeds, in the order of the rows.
pub fn calls(case: &Case) -> Vec<(Box<dyn Call>, u64)> {
    let Case { format, width, height, speed, reel, .. } = *case;
    let seeds: [u64; ROWS.len()] = std::array::from_fn(|row| mix(case.seed, row as u64));
    let state = || (case.first.clone(), case.second.clone());
    let (bytes, frame) = (|| case.bytes.clone(), || case.frame_bytes().to_vec());
    let out = |row: usize, room| Rng::new(seeds[row]).bytes(room);
    let (shown, _) = state();
    let (previous, next) = state();
    let (before, work) = state();
    let (first, second) = state();
    let (showing, coming) = state();
    let (one, other) = state();
    let (standing, beside) = state();
    let ((player, now), (start, readings)) = (case.ticked(), case.readings());
    let words = (readings.len() + case.frame_room % 8).saturating_sub(2);
    let numbers = (0..words).map(|word| mix(seeds[15], word as u64) as u32).collect();
    let (ticked, _) = state();
    let (State { picture: old, .. }, State { picture: new, .. }) = state();
    let tile_rows = height.min(MAX_HEIGHT).div_ceil(8) as usize;
    let marks = (0..(tile_rows + case.frame_room % 8).saturating_sub(2)).map(|word| mix(seeds[16], word as u64));
    let calls: [Box<dyn Call>; ROWS.len()] = [
        Box::new(ReadCase { bytes: frame(), format, width, height, shown }),
        Box::new(WriteCase { format, width, height, previous, next, out: out(1, case.frame_room) }),
        Box::new(RewriteCase {
            bytes: frame(),
            format,
            width,
            height,
            previous: before,
            work,
            out: out(2, case.frame_room),
        }),
        Box::new(CheckCase { bytes: bytes(), first, second }),
        Box::new(OpenCase { width, height, speed, bytes: bytes() }),
        Box::new(AddCase { reel, bytes: bytes(), shown: showing, next: coming }),
        Box::new(CloseCase { reel, bytes: bytes(), first: one, second: other }),
        Box::new(CheckTrailerCase(bytes())),
        Box::new(WriteTrailerCase(bytes())),
        Box::new(ListCase { bytes: bytes(), out: out(9, case.list_room) }),
        Box::new(HeaderCase(bytes())),
        Box::new(StepCase { bytes: bytes(), at: case.offset() }),
        Box::new(SearchCase(frame())),
        Box::new(StartCase { bytes: bytes(), now: start, first: standing, second: beside }),
        Box::new(TickCase { player: player.into(), bytes: bytes(), now, shown: ticked }),
        Box::new(ReplayCase { speed, frames: reel.frames, start, readings, numbers }),
        Box::new(TileMapCase { width, height, previous: old, next: new, words: marks.collect() }),
        Box::new(MarkedCase(seeds[17] & seeds[16] & seeds[15])),
        Box::new(OpenFliCase { width, height, jiffies: speed, bytes: bytes() }),
        Box::new(MillisecondsCase(delay(seeds[19], speed))),
        Box::new(JiffiesCase(delay(seeds[20], speed))),
    ];
    calls.into_iter().zip(seeds).collect()
}

/// The case's delay, or any other.
fn delay(seed: u64, speed: u32) -> u32 {
    let rng = &mut Rng::new(seed);
    if rng.once_in(2) {
        speed
    } else {
        (rng.draw() as u32) >> rng.below(32)
    }
}
