//! Shows that the damage run can fail: everything wrong is seen, and a touched guard page ends the process.

use super::compare::calls;
use super::guarded::GuardPages;
use super::make::case;
use super::twin::{reading_calls, twin};
use flic_tests::model::Format;
use flic_tests::rng::mix;
use flic_tests::runner::compare::Comparer;
use flic_tests::runner::lent::{Lender, Side};
use flic_tests::runner::wrongs::{ignoring, models, Deed, Wrong};
use flic_tests::wrong::{
    delay_tellers, map_tellers, of_fli_frames, of_frames, player_tellers, tellers, trespassers, Trespass, FLI, PLAYERS,
    READING, REELS, REWRITING, TILES, TRAILERS, WRITING,
};
use std::os::unix::process::ExitStatusExt;
use std::process::{Command, Stdio};

/// How many cases it may take until everything wrong was seen.
const CASES: u64 = 20_000;

const BEFORE: Deed = Deed::WritesBeside(Side::Before);
const AFTER: Deed = Deed::WritesBeside(Side::After);

/// Writes beside slices of each kind, besides those that other tests try.
const BESIDE: [Trespass; 12] = [
    ("a byte after a guarded picture", "read_frame", "picture", AFTER),
    ("a byte before a guarded picture", "read_frame", "picture", BEFORE),
    ("a byte after a guarded listing", "list", "output", AFTER),
    ("a byte before a guarded listing", "list", "output", BEFORE),
    ("a byte after a guarded reel", "add_frame", "reel", AFTER),
    ("a byte before a guarded reel", "add_frame", "reel", BEFORE),
    ("a byte after a guarded reel in a step", "next_frame", "reel", AFTER),
    ("a byte before a guarded reel in a step", "next_frame", "reel", BEFORE),
    ("a byte after a guarded palette in a tick", "tick", "palette", AFTER),
    ("a byte before a guarded palette in a tick", "tick", "palette", BEFORE),
    ("a byte before guarded numbers", "replay", "numbers", BEFORE),
    ("a byte after guarded readings", "replay", "readings", AFTER),
];

/// Something wrong, and the side of its slices on which the guard pages stand, if that matters: a write beside a slice
/// is seen where no guard page ends it.
type Guarded = (Wrong, Option<Side>);

fn all() -> Vec<Guarded> {
    let trespasses = [&READING[..], &WRITING, &REWRITING, &REELS, &FLI, &TRAILERS, &PLAYERS, &TILES, &BESIDE].concat();
    let sides = trespasses.iter().map(|(_, _, _, deed)| match deed {
        Deed::WritesBeside(Side::Before) => Some(Side::After),
        Deed::WritesBeside(Side::After) => Some(Side::Before),
        _ => None,
    });
    let mut all: Vec<Guarded> = trespassers(&trespasses).into_iter().zip(sides).collect();
    let readings = |wrong, format| models(wrong, &["read_frame"]).into_iter().map(move |wrong| wrong.of_format(format));
    let others = [tellers(), player_tellers(), delay_tellers(), map_tellers(), ignoring()];
    let frames = readings(of_frames(), Format::Flc).chain(readings(of_fli_frames(), Format::Fli));
    all.extend(others.into_iter().flatten().chain(frames).map(|wrong| (wrong, None)));
    all
}

/// Everything wrong, and after how many cases a run from this seed saw it.
pub fn seen_wrongs(base: u64) -> Vec<Wrong> {
    let mut wrongs = all();
    for number in 0..CASES {
        if wrongs.iter().all(|(wrong, _)| wrong.seen.is_some()) {
            break;
        }
        let case = case(mix(base, number));
        let mut calls = calls(&case);
        calls.extend(twin(&case).iter().flat_map(reading_calls));
        for (wrong, side) in wrongs.iter_mut().filter(|(wrong, _)| wrong.seen.is_none()) {
            let comparer = Comparer { subject: &*wrong.subject, lender: &GuardPages(*side) };
            let mut calls = calls.iter().filter(|(call, _)| wrong.concerns(&**call));
            if calls.any(|(call, seed)| comparer.call(&**call, *seed).is_err()) {
                wrong.seen = Some(number + 1);
            }
        }
    }
    wrongs.into_iter().map(|(wrong, _)| wrong).collect()
}

/// What a child of the self-check does to the byte outside a lent slice.
pub const TRESPASSES: [&str; 4] = ["read-after", "read-before", "write-after", "write-before"];

/// Touches the byte outside a lent slice, on the side of its guard page; only a fault of this test returns.
pub fn trespass(word: &str) {
    let side = if word.ends_with("after") { Side::After } else { Side::Before };
    GuardPages(Some(side)).lend(&[&[1, 2, 3]], &[], 0, &mut |lent| {
        let byte = lent.beside(0, side);
        // SAFETY: none; the system must end this process.
        unsafe {
            if word.starts_with("read") {
                byte.read_volatile();
            } else {
                byte.write_volatile(0);
            }
        }
    });
}

/// The trespasses that didn't end the process that made them.
pub fn unended() -> std::io::Result<Vec<&'static str>> {
    let program = std::env::current_exe()?;
    let mut unended = Vec::new();
    for word in TRESPASSES {
        let status = Command::new(&program).args(["--trespass", word]).stderr(Stdio::null()).status()?;
        if status.signal().is_none() {
            unended.push(word);
        }
    }
    Ok(unended)
}
