//! `flic diff`.

use crate::bench::Bench;
use crate::pictures::{full_size, pictures, ppm};
use std::path::Path;

/// A bench with reels of 6 by 4 pixels: `a.flc`, `b.flc` with two other pixels in frame 2, and `c.flc` with a frame more.
fn bench() -> Bench {
    let bench = Bench::new();
    let colour = |at: usize| [(at * 30) as u8, 9, 9];
    bench.write("1.ppm", &ppm(6, 4, |x, _| colour(x)));
    bench.write("2.ppm", &ppm(6, 4, |x, y| colour(x + y)));
    bench.write("2b.ppm", &ppm(6, 4, |x, y| if x < 2 && y == 3 { [1, 2, 3] } else { colour(x + y) }));
    bench.done(&["build", "a.flc", "--speed", "70", "1.ppm", "2.ppm"]);
    bench.done(&["build", "b.flc", "--speed", "70", "1.ppm", "2b.ppm"]);
    bench.done(&["build", "c.flc", "--speed", "80", "1.ppm", "2.ppm", "1.ppm"]);
    bench
}

fn sample(name: &str) -> String {
    Path::new(env!("CARGO_MANIFEST_DIR")).join("../../samples").join(name).to_str().unwrap().to_string()
}

#[test]
fn the_same_reel_shows_the_same() {
    let bench = Bench::with_reel(&pictures(3));
    bench.done(&["rewrite", "reel.flc", "house.flc"]);
    let said = bench.done(&["diff", "reel.flc", "house.flc"]);
    assert_eq!(said, "reel.flc and house.flc show the same: 3 frames and the ring\n");
}

#[test]
fn frames_that_differ_are_named_with_their_pixels_and_colours() {
    let bench = bench();
    let run = bench.run(&["diff", "a.flc", "b.flc"]);
    let said = "flic: a.flc and b.flc: 1 of 3 pictures differ\n";
    assert_eq!((run.status, run.err.as_str()), (1, said));
    assert_eq!(run.out, "frame 2: 2 pixels and 2 palette colours differ\n");
}

#[test]
fn another_number_of_frames_and_another_speed_are_said() {
    let bench = bench();
    let run = bench.run(&["diff", "a.flc", "c.flc"]);
    assert_eq!((run.status, run.err.as_str()), (1, ""));
    assert_eq!(run.out, "a.flc: 2 frames; c.flc: 3 frames\na.flc: 70 ms a frame; c.flc: 80 ms a frame\n");
}

#[test]
fn another_size_is_all_that_is_said() {
    let bench = bench();
    let run = bench.run(&["diff", "a.flc", &sample("fade.flc")]);
    assert_eq!(run.status, 1);
    assert!(run.out.starts_with("a.flc: 6 by 4; ") && run.out.contains("fade.flc: 96 by 48\n"), "{}", run.out);
    assert!(!run.out.contains("frame 1:"), "{}", run.out);
}

#[test]
fn a_wrong_ring_is_compared_and_said_to_be_refused() {
    let bench = Bench::new();
    let run = bench.run(&["diff", &sample("menu.flc"), &sample("wrong-ring.flc")]);
    assert_eq!(run.status, 1);
    assert_eq!(run.out, "the ring: 188 pixels and 1 palette colour differ\n");
    assert!(run.err.contains("wrong-ring.flc: refused 16 at offset "), "{}", run.err);
    assert!(run.err.ends_with(": 1 of 4 pictures differ\n"), "{}", run.err);
}

#[test]
fn what_cannot_be_read_is_named() {
    let bench = bench();
    let cut = bench.read("a.flc");
    bench.write("cut.flc", &cut[..cut.len() - 1]);
    assert!(bench.fails(1, &["diff", "a.flc", "cut.flc"]).starts_with("flic: cut.flc: refused 4 at offset 0"));
    assert!(bench.fails(1, &["diff", "no.flc", "a.flc"]).starts_with("flic: no.flc: can't be read: "));
    assert!(bench.fails(2, &["diff", "a.flc"]).starts_with("flic: B is missing\n"));
}

#[test]
fn an_fli_and_an_flc_are_compared_by_what_they_show() {
    let bench = Bench::with_fli(&full_size(3));
    let build = |out: &str, speed: &str, third: &str| {
        bench.done(&["build", out, "--speed", speed, "1.ppm", "2.ppm", third]);
    };
    build("same.flc", "71", "3.ppm");
    let formats = "reel.fli: an FLI; same.flc: an FLC\n";
    let same = format!("{formats}reel.fli and same.flc show the same: 3 frames and the ring\n");
    assert_eq!(bench.done(&["diff", "reel.fli", "same.flc"]), same);
    build("same.flc", "70", "3.ppm");
    let run = bench.run(&["diff", "reel.fli", "same.flc"]);
    let delays = "reel.fli: 5 jiffies, 71 ms a frame; same.flc: 70 ms a frame\n";
    let same = "reel.fli and same.flc show the same pictures: 3 frames and the ring\n";
    assert_eq!((run.status, run.out, run.err.as_str()), (1, format!("{formats}{delays}{same}"), ""));
    build("other.flc", "71", "2.ppm");
    let run = bench.run(&["diff", "reel.fli", "other.flc"]);
    assert_eq!((run.status, run.err.as_str()), (1, "flic: reel.fli and other.flc: 1 of 4 pictures differ\n"));
    assert!(run.out.starts_with("reel.fli: an FLI; other.flc: an FLC\nframe 3: "), "{}", run.out);
}

#[cfg(feature = "png")]
mod with_png {
    use super::*;

    /// Red, green and blue of every pixel of a PNG file, read back by building a reel from it.
    fn pixels(bench: &Bench, name: &str) -> Vec<u8> {
        bench.done(&["build", "read.flc", "--speed", "70", name]);
        let picture = bench.frames("read.flc", "1").swap_remove(0);
        let header = picture.iter().enumerate().filter(|(_, byte)| **byte == b'\n').nth(2).unwrap().0 + 1;
        picture[header..].to_vec()
    }

    #[test]
    fn differences_are_marked_on_pictures() {
        let bench = bench();
        let run = bench.run(&["diff", "a.flc", "b.flc", "--png", "out"]);
        assert_eq!(run.err, "flic: a.flc and b.flc: 1 of 3 pictures differ; see out\n");
        assert_eq!(bench.names("out"), ["0002.png"]);
        // Three pictures of 6 by 4 with gaps of 8.
        let (width, rows) = (3 * 6 + 4 * 8, pixels(&bench, "out/0002.png"));
        assert_eq!(rows.len(), width * (4 + 2 * 8) * 3);
        let pixel = |x: usize, y: usize| &rows[3 * (y * width + x)..][..3];
        let marked: Vec<(usize, usize)> =
            (0..width * 20).map(|at| (at % width, at / width)).filter(|(x, y)| pixel(*x, *y) == [255, 0, 0]).collect();
        assert_eq!(marked, [(36, 11), (37, 11)]);
        assert_eq!((pixel(8, 11), pixel(22, 11)), (&[90, 9, 9][..], &[1, 2, 3][..]));
    }

    #[test]
    fn a_directory_that_holds_something_is_left_alone() {
        let bench = bench();
        let err = bench.fails(1, &["diff", "a.flc", "b.flc", "--png", "."]);
        assert!(err.contains("isn't empty"), "{err}");
    }

    #[test]
    fn no_empty_directory_is_left() {
        let bench = bench();
        bench.fails(1, &["diff", "a.flc", "no.flc", "--png", "out"]);
        let before = bench.names(".");
        bench.done(&["diff", "a.flc", "a.flc", "--png", "out"]);
        assert_eq!(bench.names("."), before);
        std::fs::create_dir(bench.path("mine")).unwrap();
        bench.done(&["diff", "a.flc", "a.flc", "--png", "mine"]);
        assert!(bench.names("mine").is_empty());
    }
}
