//! `flic convert`.

use crate::bench::{grouped, Bench};
use crate::pictures::{full_size, pictures};
use crate::reels::{chunk, sized, sloppy};
use flic::{CheckedReel, Format, State};
use std::os::unix::fs::symlink;
use std::path::Path;

fn states(bytes: &[u8]) -> Vec<State> {
    CheckedReel::new(bytes).unwrap().frames().map(|frame| frame.state).collect()
}

/// A bench with `reel.flc` of 320 by 200, of this speed.
fn bench(speed: &str) -> Bench {
    let bench = Bench::with_pictures(&full_size(3));
    bench.done(&["build", "reel.flc", "--speed", speed, "1.ppm", "2.ppm", "3.ppm"]);
    bench
}

#[test]
fn each_frame_has_the_same_picture_and_palette() {
    let bench = bench("100");
    let flc = bench.read("reel.flc");
    let said = bench.done(&["convert", "reel.flc", "new.fli"]);
    let fli = bench.read("new.fli");
    let lines = format!(
        "reel.flc: 100 ms a frame become 7 jiffies, exactly\nnew.fli: an FLI of 3 frames and the ring, {} bytes\n",
        grouped(fli.len())
    );
    assert_eq!(said, lines);
    assert_eq!((states(&fli), bench.read("reel.flc")), (states(&flc), flc.clone()));
    assert_eq!(CheckedReel::new(&fli).unwrap().format(), Format::Fli);
    // As the pictures themselves give it, and back again.
    bench.done(&["build", "built.fli", "--jiffies", "7", "1.ppm", "2.ppm", "3.ppm"]);
    assert_eq!(bench.read("built.fli"), fli);
    let said = bench.done(&["convert", "new.fli", "back.flc"]);
    assert!(
        said.starts_with("new.fli: 7 jiffies a frame become 100 ms, exactly\nback.flc: an FLC of 3 frames "),
        "{said}"
    );
    assert_eq!(bench.read("back.flc"), flc);
}

#[test]
fn what_becomes_of_the_delay_is_said() {
    let bench = bench("250");
    let delay = |from: &str, to: &str| bench.done(&["convert", from, to]).lines().next().unwrap().to_string();
    assert_eq!(delay("reel.flc", "a.fli"), "reel.flc: 250 ms a frame become 18 jiffies, rounded up: 257 ms");
    assert_eq!(delay("a.fli", "a.flc"), "a.fli: 18 jiffies a frame become 257 ms, rounded down");
    // From jiffies to milliseconds and back nothing changes.
    assert_eq!(delay("a.flc", "b.fli"), "a.flc: 257 ms a frame become 18 jiffies, rounded up: 257 ms");
    assert_eq!(bench.read("b.fli"), bench.read("a.fli"));
    bench.done(&["build", "slow.flc", "--speed", "936215", "1.ppm"]);
    let err = bench.fails(1, &["convert", "slow.flc", "slow.fli"]);
    let expected =
        "flic: slow.flc: shows a frame for 936215 ms, and an FLI for 936214 ms at most: write its pictures with \
                    flic frames, and make an FLI of them with flic build --fli and another --speed\n";
    assert_eq!(err, expected);
}

#[test]
fn what_is_not_kept_is_said() {
    let bench = bench("100");
    let flc = bench.read("reel.flc");
    let mut other = sloppy(&flc);
    // A postage stamp in frame 1, behind the prefix; a date.
    other.splice(154..154, chunk(18, &[7; 20]));
    other[138 + 6] += 1;
    let frame = u32::from_le_bytes(other[138..142].try_into().unwrap()) + 26;
    other[138..142].copy_from_slice(&frame.to_le_bytes());
    other[22..26].copy_from_slice(&((1996u32 - 1980) << 25 | 3 << 21 | 14 << 16).to_le_bytes());
    bench.write("other.flc", &sized(other));
    bench.done(&["trailer", "write", "other.flc"]);
    let said = bench.done(&["convert", "other.flc", "new.fli"]);
    let lost =
        "1 chunk of kind 18 (postage stamp) in frames, 4 chunks of kind 99 (unknown) in frames, 1 chunk of kind 61696 \
                (prefix) outside frames, 20 bytes after the ring, the trailer, created 1996-03-14 00:00:00";
    assert!(said.contains(&format!("\nother.flc: not kept: {lost}\nnew.fli: ")), "{said}");
    bench.done(&["convert", "reel.flc", "plain.fli"]);
    let plain = bench.read("plain.fli");
    assert_eq!(bench.read("new.fli"), plain);
    let mut fli = plain.clone();
    fli[127] = 1;
    bench.write("marked.fli", &[&fli[..], &[0; 9]].concat());
    let said = bench.done(&["convert", "marked.fli", "new.flc"]);
    let lost = "9 bytes behind the reel that aren't its trailer, bytes 18 to 127 of the header, which no one reads";
    assert!(said.contains(&format!("\nmarked.fli: not kept: {lost}\nnew.flc: ")), "{said}");
    assert_eq!(bench.read("new.flc"), flc);
}

#[test]
fn what_cannot_be_converted_is_said_with_what_to_do() {
    let small = Bench::with_reel(&pictures(2));
    let err = small.fails(1, &["convert", "reel.flc", "reel.fli"]);
    let expected =
        "flic: reel.flc: is 37 by 21, and an FLI is 320 by 200: write its pictures with flic frames, and make an \
                    FLI of them with flic build --fli --scale 320x200\n";
    assert_eq!(err, expected);
    let bench = Bench::with_fli(&full_size(2));
    let err = bench.fails(1, &["convert", "reel.fli", "other.fli"]);
    assert_eq!(err, "flic: reel.fli: is an FLI already: copy it, or write it anew with flic rewrite\n");
    for out in ["other", "other.png", "reel"] {
        let err = bench.fails(2, &["convert", "reel.fli", out]);
        let expected = format!("flic: {out} ends neither in .fli nor in .flc: name OUT by what it is to be\n");
        assert!(err.starts_with(&expected), "{err}");
    }
    let cut = bench.read("reel.fli");
    bench.write("cut.fli", &cut[..cut.len() - 1]);
    assert!(bench.fails(1, &["convert", "cut.fli", "cut.flc"]).starts_with("flic: cut.fli: refused 4 at offset 0, "));
    assert!(bench.fails(1, &["convert", "no.fli", "no.flc"]).starts_with("flic: no.fli: can't be read: "));
    assert!(bench.fails(2, &["convert", "reel.fli"]).starts_with("flic: OUT.fli or OUT.flc is missing\n"));
}

#[test]
fn never_in_place_and_nothing_is_lost() {
    let bench = bench("100");
    let flc = bench.read("reel.flc");
    symlink("reel.flc", bench.path("link.fli")).unwrap();
    for options in [&[][..], &["--force"]] {
        let err = bench.fails(1, &[&["convert", "reel.flc", "link.fli"], options].concat());
        assert_eq!(err, "flic: link.fli: is IN and OUT: nothing is converted in place, give another name\n");
    }
    bench.write("mine.fli", b"mine");
    let err = bench.fails(1, &["convert", "reel.flc", "mine.fli", "--force"]);
    assert!(err.starts_with("flic: mine.fli: is there already and isn't an FLC or FLI file"), "{err}");
    bench.done(&["convert", "reel.flc", "new.fli"]);
    let fli = bench.read("new.fli");
    bench.write("theirs.fli", &sloppy(&fli));
    let err = bench.fails(1, &["convert", "reel.flc", "theirs.fli"]);
    assert!(err.starts_with("flic: theirs.fli: is there already, 3 frames and the ring, "), "{err}");
    let said = bench.done(&["convert", "reel.flc", "theirs.fli", "--force"]);
    assert!(said.contains(", in place of 3 frames and the ring, "), "{said}");
    assert_eq!(
        (bench.read("theirs.fli"), bench.read("reel.flc"), bench.read("mine.fli")),
        (fli, flc, b"mine".to_vec())
    );
}

#[test]
fn from_standard_input_and_to_standard_output() {
    let bench = bench("100");
    bench.done(&["convert", "reel.flc", "new.fli"]);
    let run = bench.run_with(&["convert", "-", "piped.fli"], &bench.read("reel.flc"));
    assert!(
        run.out.starts_with("standard input: 100 ms a frame become 7 jiffies, exactly\n"),
        "{}{}",
        run.out,
        run.err
    );
    assert_eq!(bench.read("piped.fli"), bench.read("new.fli"));
    // The format is the one that IN hasn't.
    for (from, to) in [("reel.flc", "new.fli"), ("new.fli", "reel.flc")] {
        let output = bench.command(&["convert", from, "-"]).output().unwrap();
        assert_eq!(output.stdout, bench.read(to));
        let err = String::from_utf8(output.stderr).unwrap();
        assert!(err.contains("\nstandard output: an FL") && err.starts_with(from), "{err}");
    }
}

#[test]
fn the_sample_board_is_the_same_in_both_formats() {
    let sample = |name: &str| Path::new(env!("CARGO_MANIFEST_DIR")).join("../../samples").join(name);
    let bench = Bench::new();
    bench.done(&["convert", sample("board.flc").to_str().unwrap(), "board.fli"]);
    assert!(bench.read("board.fli") == std::fs::read(sample("board.fli")).unwrap(), "run samples/make");
}
