//! The sample reels: they are what the tool makes of their pictures, and one of them is wrong on purpose.

#[path = "../../examples/sample_pictures/board.rs"]
mod board;
#[path = "../../examples/sample_pictures/canvas.rs"]
mod canvas;
#[path = "../../src/tool/font.rs"]
mod font;
#[path = "../../examples/sample_pictures/pictures.rs"]
mod pictures;

use crate::bench::Bench;
use canvas::Canvas;
use std::fs;
use std::path::{Path, PathBuf};

fn sample(name: &str) -> PathBuf {
    Path::new(env!("CARGO_MANIFEST_DIR")).join("../../samples").join(name)
}

fn built(canvases: &[Canvas], options: &[&str]) -> Vec<u8> {
    built_as("reel.flc", canvases, options)
}

fn built_as(reel: &str, canvases: &[Canvas], options: &[&str]) -> Vec<u8> {
    let pictures: Vec<Vec<u8>> = canvases.iter().map(Canvas::ppm).collect();
    let bench = Bench::with_pictures(&pictures);
    let names: Vec<String> = (1..=pictures.len()).map(|number| format!("{number}.ppm")).collect();
    let words = ["build", reel].into_iter().chain(options.iter().copied()).chain(names.iter().map(String::as_str));
    bench.done(&words.collect::<Vec<&str>>());
    bench.read(reel)
}

#[test]
fn samples_are_what_the_tool_makes() {
    let menu = built(&pictures::menu(), &["--speed", "2000", "--trailer"]);
    assert!(fs::read(sample("menu.flc")).unwrap() == menu, "run samples/make");
    let fade = built(&pictures::fade(), &["--speed", "100"]);
    assert!(fs::read(sample("fade.flc")).unwrap() == fade, "run samples/make");
    let board = built(&board::board(), &["--speed", "250"]);
    assert!(fs::read(sample("board.flc")).unwrap() == board, "run samples/make");
    let board = built_as("reel.fli", &board::board(), &["--speed", "250"]);
    assert!(fs::read(sample("board.fli")).unwrap() == board, "run samples/make");
}

#[test]
fn the_wrong_ring_is_found() {
    let bench = Bench::new();
    let wrong = sample("wrong-ring.flc");
    let run = bench.run(&["check", wrong.to_str().unwrap()]);
    assert_eq!(run.status, 1);
    assert!(run.out.contains("refused 16 at offset ") && run.out.contains(", in the ring: "), "{}", run.out);
}

/// A board, a sub-chunk a line: the frame's number from 1 on, and the kind.
fn kinds(name: &str) -> Vec<(usize, u16)> {
    let bytes = fs::read(sample(name)).unwrap();
    let word = |at: usize| u16::from_le_bytes([bytes[at], bytes[at + 1]]);
    let long = |at: usize| usize::from(word(at)) + (usize::from(word(at + 2)) << 16);
    let reel = flic::CheckedReel::new(&bytes).unwrap();
    let mut kinds = Vec::new();
    for (number, frame) in reel.frame_chunks().iter().enumerate() {
        let mut at = frame.offset + 16;
        for _ in 0..word(frame.offset + 6) {
            kinds.push((number + 1, word(at + 4)));
            at += long(at);
        }
    }
    kinds
}

#[test]
fn the_board_makes_day_of_night_by_colours() {
    let bytes = fs::read(sample("board.flc")).unwrap();
    let reel = flic::CheckedReel::new(&bytes).unwrap();
    assert_eq!((reel.size().to_string().as_str(), reel.header().frames), ("320 by 200", 48));
    let states: Vec<flic::State> = reel.frames().map(|frame| frame.state).collect();
    // The window's upper left corner: as dark as can be at midnight, light at noon, always the same entry.
    let at = 36 * 320 + 14;
    let sum =
        |hour: usize| states[2 * hour].rgb()[3 * at..3 * at + 3].iter().map(|level| u32::from(*level)).sum::<u32>();
    assert!(sum(0) < 60 && sum(12) > 300, "{} {}", sum(0), sum(12));
    assert!(states.iter().all(|state| state.picture.pixels()[at] == states[0].picture.pixels()[at]));
    // After frame 1 no frame has a whole picture, and those at dawn and dusk have colours too.
    let full = kinds("board.flc")
        .iter()
        .filter(|(_, kind)| [13, 15, 16].contains(kind))
        .map(|(number, _)| *number)
        .collect::<Vec<_>>();
    assert_eq!(full, [1]);
    let coloured = kinds("board.flc").iter().filter(|(_, kind)| *kind == 4).count();
    assert!((12..=20).contains(&coloured), "{coloured}");
}

#[test]
fn the_board_has_levels_that_the_old_boards_have() {
    for canvas in board::board() {
        let ppm = canvas.ppm();
        let is_one_of_64 = |level: &u8| *level == (*level & !3) | *level >> 6;
        assert!(ppm[15..].iter().all(is_one_of_64));
    }
}

#[test]
fn the_board_of_an_fli_shows_the_same_by_other_deltas() {
    let states = |name: &str| -> Vec<flic::State> {
        let bytes = fs::read(sample(name)).unwrap();
        flic::CheckedReel::new(&bytes).unwrap().frames().map(|frame| frame.state).collect()
    };
    assert!(states("board.flc") == states("board.fli"));
    let other = |kind: u16| if kind == 7 { 12 } else { kind };
    let expected: Vec<(usize, u16)> =
        kinds("board.flc").into_iter().map(|(number, kind)| (number, other(kind))).collect();
    assert_eq!(kinds("board.fli"), expected);
}
