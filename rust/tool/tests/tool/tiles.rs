//! `flic tiles`, and what `flic info` says of tiles.

use crate::bench::Bench;
use crate::pictures::{full_size, pictures, ppm};

/// Pictures of 33 by 9 pixels: 5 by 2 tiles, one pixel of which is white.
fn moving(pixels: &[(usize, usize)]) -> Vec<Vec<u8>> {
    let picture = |at: &(usize, usize)| ppm(33, 9, |x, y| if (x, y) == *at { [255; 3] } else { [0; 3] });
    pixels.iter().map(picture).collect()
}

#[test]
fn a_line_for_each_frame_and_the_ring() {
    let bench = Bench::with_reel(&moving(&[(0, 0), (32, 8), (31, 8)]));
    let text = bench.done(&["tiles", "reel.flc"]);
    let lines: Vec<&str> = text.lines().skip(1).collect();
    let expected =
        ["frame 2: 2 of 10 tiles, rows 0-1", "frame 3: 2 of 10 tiles, rows 1", "the ring: 2 of 10 tiles, rows 0-1"];
    assert_eq!(lines, expected);
    assert!(text.starts_with("frame 1: "), "{text}");
}

#[test]
fn the_tiles_drawn_behind_each_line() {
    let bench = Bench::with_reel(&moving(&[(0, 0), (32, 8)]));
    let text = bench.done(&["tiles", "--map", "reel.flc"]);
    let drawing = "frame 2: 2 of 10 tiles, rows 0-1\n#....\n....#\nthe ring: 2 of 10 tiles, rows 0-1\n#....\n....#\n";
    assert!(text.ends_with(drawing), "{text}");
}

#[test]
fn info_has_the_share_of_a_frame() {
    let bench = Bench::with_reel(&moving(&[(0, 0), (32, 8)]));
    let text = bench.done(&["info", "reel.flc"]);
    assert!(text.ends_with("\na frame redraws 20.0% of the tiles of 8 by 8 pixels: see flic tiles\n"), "{text}");
}

#[test]
fn a_refused_reel_has_no_tiles() {
    let bench = Bench::with_reel(&pictures(2));
    let bytes = bench.read("reel.flc");
    bench.write("reel.flc", &bytes[..200]);
    let run = bench.run(&["tiles", "reel.flc"]);
    assert_eq!((run.status, run.out.as_str()), (1, ""));
    assert!(run.err.starts_with("flic: reel.flc: refused 4 at offset 0, in the file header: "), "{}", run.err);
}

#[test]
fn an_fli_redraws_what_the_same_flc_redraws() {
    let bench = Bench::with_fli(&full_size(3));
    bench.done(&["convert", "reel.fli", "reel.flc"]);
    let text = bench.done(&["tiles", "reel.fli", "--map"]);
    assert_eq!(text, bench.done(&["tiles", "reel.flc", "--map"]));
    assert!(text.contains("frame 2: ") && text.contains(" of 1000 tiles, rows "), "{text}");
}
