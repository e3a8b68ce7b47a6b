//! `flic build`.

use crate::bench::Bench;
use crate::pictures::{full_size, pictures, ppm};
use crate::reels::sloppy;
use std::collections::HashSet;
use std::os::unix::fs::symlink;

#[test]
fn says_what_was_made() {
    let bench = Bench::with_pictures(&pictures(2));
    let said = bench.done(&["build", "reel.flc", "--speed", "1234", "1.ppm", "2.ppm", "--trailer"]);
    let bytes = bench.read("reel.flc");
    assert_eq!((said.as_str(), bytes.len()), ("reel.flc: 2 frames and the ring, 2,087 bytes\n", 2_087));
    assert_eq!(bytes[16..20], 1234u32.to_le_bytes());
    assert!(bench.done(&["trailer", "check", "reel.flc"]).contains("a trailer of 20 bytes"));
    assert_eq!(bench.names("."), ["1.ppm", "2.ppm", "reel.flc"]);
}

#[test]
fn the_same_pictures_give_the_same_bytes() {
    let (one, other) = (Bench::with_reel(&pictures(4)), Bench::with_reel(&pictures(4)));
    assert_eq!(one.read("reel.flc"), other.read("reel.flc"));
}

#[test]
fn all_four_forms_of_pictures_can_be_mixed() {
    let bench = Bench::new();
    bench.write("1.ppm", b"P6\n2 1\n255\n\x01\x02\x03\x09\x09\x09");
    bench.write("2.ppm", b"P3 # plain\n2 1 255\n4 5 6 7 8 9\n");
    bench.write("3.pgm", b"P5 2 1 255\n\x10\x20");
    bench.write("4.pgm", b"P2 2 1 255 17 255");
    bench.done(&["build", "reel.flc", "--speed=0", "1.ppm", "2.ppm", "3.pgm", "4.pgm"]);
    let shown: Vec<Vec<u8>> = bench.frames("reel.flc", "1").iter().map(|picture| picture[11..].to_vec()).collect();
    let first = [1, 2, 3, 9, 9, 9];
    assert_eq!(shown, [first, [4, 5, 6, 7, 8, 9], [16, 16, 16, 32, 32, 32], [17, 17, 17, 255, 255, 255], first]);
}

#[test]
fn a_fade_is_made_of_colours_alone() {
    let faded =
        |step: usize| ppm(40, 20, |x, y| [(200 - 15 * step - x / 8 * 15) as u8, (y % 3 * 5 * (12 - step)) as u8, 0]);
    let pictures: Vec<Vec<u8>> = (0..8).map(faded).collect();
    let bench = Bench::with_reel(&pictures);
    let listed = bench.done(&["list", "reel.flc"]);
    let kinds: Vec<&str> =
        listed.lines().filter(|line| line.starts_with("1 ")).map(|line| line.split(' ').nth(2).unwrap()).collect();
    assert_eq!(kinds[1..].iter().filter(|kind| **kind != "4").collect::<Vec<_>>().len(), 1, "{listed}");
    assert_eq!(bench.frames("reel.flc", "1")[..8], pictures);
}

#[test]
fn wrong_pictures_are_named() {
    let bench = Bench::with_pictures(&pictures(2));
    bench.write("colours.ppm", &ppm(37, 21, |x, y| [x as u8, y as u8, 7]));
    bench.write("small.ppm", &ppm(37, 20, |_, _| [0; 3]));
    bench.write("large.ppm", &ppm(321, 1, |_, _| [0; 3]));
    bench.write("bad.ppm", b"P6\n37 21\n255\nfew");
    bench.write("other.bmp", b"BM");
    let error = |picture: &str| bench.fails(1, &["build", "reel.flc", "--speed", "70", "1.ppm", picture, "2.ppm"]);
    assert_eq!(error("colours.ppm"), "flic: colours.ppm: has 777 colours: give --colours 256, or reduce them first\n");
    let sizes = "flic: small.ppm: is 37 by 20, but 1.ppm is 37 by 21: give --scale 37x21, or pictures of one size\n";
    assert_eq!(error("small.ppm"), sizes);
    let large = "flic: large.ppm: is 321 by 1; a board takes 1 to 320 by 1 to 200: give --scale 320x200, or ";
    assert!(error("large.ppm").starts_with(large));
    assert!(error("bad.ppm").starts_with("flic: bad.ppm: is cut short: it has 3 of 2331 bytes of pixels"));
    assert!(error("other.bmp").starts_with("flic: other.bmp: isn't a PNG, PPM (P6, P3) or PGM (P5, P2) picture"));
    assert!(error("missing.ppm").starts_with("flic: missing.ppm: can't be read: "));
}

#[test]
fn what_is_missing_is_wrong_usage() {
    let bench = Bench::with_pictures(&pictures(1));
    assert!(bench.fails(2, &["build", "reel.flc", "--speed", "70"]).starts_with("flic: no PICTURE is given"));
    assert!(bench.fails(2, &["build", "--speed", "70"]).starts_with("flic: OUT is missing"));
    assert!(bench.fails(2, &["build", "reel.flc", "1.ppm"]).starts_with("flic: --speed MS is missing"));
    assert!(bench.fails(2, &["build", "reel.flc", "1.ppm", "--speed", "fast"]).contains("not fast"));
}

#[test]
fn more_than_4000_pictures_are_refused() {
    let bench = Bench::with_pictures(&pictures(1));
    let mut words = vec!["build", "reel.flc", "--speed", "70"];
    words.extend(["1.ppm"; 4_001]);
    assert_eq!(bench.fails(1, &words), "flic: 4001 pictures are too many: a reel takes 4000\n");
}

#[test]
fn a_directory_that_is_not_there_leaves_nothing() {
    let bench = Bench::with_pictures(&pictures(1));
    let err = bench.fails(1, &["build", "no/reel.flc", "--speed", "70", "1.ppm"]);
    assert!(err.starts_with("flic: no/reel.flc: can't be written: "), "{err}");
    assert!(err.ends_with("nothing was written\n"), "{err}");
    let err = bench.fails(1, &["build", "reel/", "--speed", "70", "1.ppm"]);
    assert!(err.starts_with("flic: reel/: can't be written: "), "{err}");
}

#[test]
fn only_a_reel_is_replaced() {
    let pictures = pictures(2);
    let bench = Bench::with_reel(&pictures);
    let err = bench.fails(1, &["build", "1.ppm", "--speed", "70", "2.ppm"]);
    assert!(err.starts_with("flic: 1.ppm: is there already and isn't an FLC or FLI file"), "{err}");
    assert_eq!(bench.read("1.ppm"), pictures[0]);
    assert!(bench.fails(1, &["build", ".", "--speed", "70", "2.ppm"]).starts_with("flic: .: is a directory"));

    let before = bench.read("reel.flc");
    bench.write("bad.ppm", b"P6");
    bench.fails(1, &["build", "reel.flc", "--speed", "70", "2.ppm", "bad.ppm"]);
    assert_eq!(bench.read("reel.flc"), before);
    let said = bench.done(&["build", "reel.flc", "--speed", "70", "2.ppm"]);
    let after = bench.read("reel.flc");
    let expected = format!(
        "reel.flc: 1 frame and the ring, {} bytes, in place of 2 frames and the ring, 2,067 bytes\n",
        after.len()
    );
    assert_eq!(said, expected);
    assert_ne!(after, before);
}

#[test]
fn what_may_not_be_written_or_read_is_not_replaced() {
    let bench = Bench::with_reel(&pictures(2));
    let before = bench.read("reel.flc");
    bench.protect("reel.flc");
    let error = |out: &str| bench.fails(1, &["build", out, "--speed", "70", "2.ppm"]);
    assert!(error("reel.flc").starts_with("flic: reel.flc: is write-protected: "));
    assert_eq!(bench.read("reel.flc"), before);

    symlink("missing.flc", bench.path("link.flc")).unwrap();
    assert!(error("link.flc").starts_with("flic: link.flc: is a link that leads nowhere: "));
    assert!(bench.path("link.flc").is_symlink());

    // A file that no one can read from its front.
    assert!(error("/proc/self/mem").starts_with("flic: /proc/self/mem: can't be read: "));
}

#[test]
fn a_reel_that_another_tool_made_is_replaced_only_by_force() {
    let bench = Bench::with_reel(&pictures(3));
    let sloppy = sloppy(&bench.read("reel.flc"));
    bench.write("reel.flc", &sloppy);
    let err = bench.fails(1, &["build", "reel.flc", "--speed", "70", "1.ppm"]);
    assert!(err.starts_with("flic: reel.flc: is there already, 3 frames and the ring, 6,526 bytes, "), "{err}");
    assert!(err.ends_with("replace it with --force, or give another name\n"), "{err}");
    assert_eq!(bench.read("reel.flc"), sloppy);
    bench.write("reel.flc", &sloppy[..1_000]);
    let err = bench.fails(1, &["build", "reel.flc", "--speed", "70", "1.ppm"]);
    assert!(err.contains("is there already, an FLC file of 1,000 bytes that a check refuses, "), "{err}");
    let said = bench.done(&["build", "reel.flc", "--speed", "70", "1.ppm", "--force"]);
    assert!(said.ends_with(" bytes, in place of an FLC file of 1,000 bytes that a check refuses\n"), "{said}");
    // What isn't a reel isn't replaced by force either.
    let err = bench.fails(1, &["build", "1.ppm", "--speed", "70", "2.ppm", "--force"]);
    assert!(err.starts_with("flic: 1.ppm: is there already and isn't an FLC or FLI file"), "{err}");
    // An empty file holds nothing.
    bench.write("reel.flc", b"");
    let said = bench.done(&["build", "reel.flc", "--speed", "70", "1.ppm"]);
    assert!(!said.contains("in place of"), "{said}");
}

#[test]
fn pictures_of_other_programs_are_taken() {
    let bench = Bench::new();
    bench.write("dos.ppm", b"P6\r\n# made with care\r\n2 1\r\n255\r\n\x01\x02\x03\x09\x09\x09");
    bench.write("deep.ppm", b"P6 2 1 65535\n\x01\x01\x02\x02\x03\x03\xFF\xFF\x00\x00\x80\x80");
    bench.write("few.pgm", b"P2\r\n2 1\r\n15\r\n0 15\r\n");
    bench.done(&["build", "reel.flc", "--speed", "70", "dos.ppm", "deep.ppm", "few.pgm"]);
    let shown: Vec<Vec<u8>> = bench.frames("reel.flc", "1").iter().map(|picture| picture[11..].to_vec()).collect();
    assert_eq!(shown[..3], [[1, 2, 3, 9, 9, 9], [1, 2, 3, 255, 0, 128], [0, 0, 0, 255, 255, 255]]);
}

/// The colours of the frames of a reel, the ring left out.
fn shown(bench: &Bench) -> Vec<Vec<[u8; 3]>> {
    let colours = |picture: &Vec<u8>| {
        let header = picture.iter().enumerate().filter(|(_, byte)| **byte == b'\n').nth(2).unwrap().0 + 1;
        picture[header..].chunks(3).map(|pixel| [pixel[0], pixel[1], pixel[2]]).collect()
    };
    let mut frames: Vec<Vec<[u8; 3]>> = bench.frames("reel.flc", "1").iter().map(colours).collect();
    frames.pop();
    frames
}

fn count(pixels: &[[u8; 3]]) -> usize {
    pixels.iter().collect::<HashSet<_>>().len()
}

#[test]
fn pictures_are_scaled_where_it_is_asked_for() {
    let bench = Bench::new();
    let quarters = |x: usize, y: usize| [(x / 320 * 100) as u8, (y / 240 * 200) as u8, (x % 2 * 90) as u8];
    bench.write("large.ppm", &ppm(640, 480, quarters));
    bench.write("small.ppm", &ppm(2, 2, |x, y| [(x * 100) as u8, (y * 200) as u8, 0]));
    let build = ["build", "reel.flc", "--speed", "70", "large.ppm", "small.ppm"];
    let err = bench.fails(1, &build);
    assert!(err.starts_with("flic: large.ppm: is 640 by 480; ") && err.contains("give --scale 320x200"), "{err}");
    let scaled = |options: &[&str]| {
        bench.done(&[&build, options].concat());
        shown(&bench)
    };
    // Of the columns that alternate, the odd ones stand under the centres.
    let nearest = scaled(&["--scale", "320x200"]);
    let expected = |blue: u8| -> Vec<[u8; 3]> {
        (0..64_000).map(|at| [(at % 320 / 160 * 100) as u8, (at / 320 / 100 * 200) as u8, blue]).collect()
    };
    assert!(nearest == [expected(90), expected(0)]);
    let average = scaled(&["--scale", "320x200", "--average"]);
    assert!(average == [expected(45), expected(0)]);
}

#[test]
fn colours_are_reduced_where_it_is_asked_for() {
    let bench = Bench::new();
    let many =
        |shift: usize| ppm(64, 64, move |x, y| [(x * 4) as u8, (y * 4) as u8, if x < 8 { shift as u8 } else { 9 }]);
    bench.write("1.ppm", &many(9));
    bench.write("2.ppm", &many(80));
    bench.write("few.ppm", &ppm(64, 64, |x, _| [x as u8, 1, 2]));
    let build = ["build", "reel.flc", "--speed", "70", "1.ppm", "2.ppm", "few.ppm"];
    assert_eq!(bench.fails(1, &build), "flic: 1.ppm: has 4096 colours: give --colours 256, or reduce them first\n");
    for (options, most) in [(&["--colours", "256"][..], 256), (&["--colours", "16", "--dither"][..], 16)] {
        bench.done(&[&build, options].concat());
        let frames = shown(&bench);
        let counts: Vec<usize> = frames.iter().map(|frame| count(frame)).collect();
        assert!(counts[0] <= most && counts[0] > most / 2 && counts[1] <= most, "{counts:?}");
        // What stands still in both pictures is the same in both frames.
        let differ = (0..4_096).filter(|at| at % 64 >= 8 && frames[0][*at] != frames[1][*at]).count();
        assert_eq!(differ, 0, "{options:?}");
        let near = |at: usize| {
            (0..3).all(|level| frames[0][at][level].abs_diff([(at % 64 * 4) as u8, (at / 64 * 4) as u8, 9][level]) < 80)
        };
        assert!((0..4_096).all(near), "{options:?}");
    }
    // A picture that has no more than were asked for is left alone.
    bench.done(&[&build[..], &["--colours", "64"]].concat());
    assert!(shown(&bench)[2] == (0..4_096).map(|at| [(at % 64) as u8, 1, 2]).collect::<Vec<_>>());
}

#[test]
fn what_is_asked_for_wrongly_is_said() {
    let bench = Bench::with_pictures(&pictures(1));
    let error =
        |options: &[&str]| bench.fails(2, &[&["build", "reel.flc", "--speed", "70", "1.ppm"], options].concat());
    for size in ["320", "320x", "0x1", "321x200", "320x201", "x", "a b", "3,2"] {
        let err = error(&["--scale", size]);
        assert!(err.starts_with("flic: --scale takes a size from 1x1 to 320x200"), "{err}");
    }
    assert!(error(&["--average"]).starts_with("flic: --average is for --scale WxH\n"));
    assert!(error(&["--dither"]).starts_with("flic: --dither is for --colours N\n"));
    assert!(error(&["--colours", "257"]).starts_with("flic: --colours takes 2 to 256, not 257\n"));
    assert!(error(&["--colours", "1"]).starts_with("flic: --colours takes a whole number from 2 to "));
}

#[test]
fn an_fli_by_its_name_or_by_its_option() {
    let pictures = full_size(3);
    let bench = Bench::with_fli(&pictures);
    let fli = bench.read("reel.fli");
    // Magic, frames, 320 by 200, depth 8, flags 0, 5 jiffies, and nothing more in the header.
    assert_eq!(fli[4..18], [0x11, 0xAF, 3, 0, 0x40, 1, 200, 0, 8, 0, 0, 0, 5, 0]);
    assert_eq!(fli[18..128], [0; 110]);
    let mut shown = pictures.clone();
    shown.push(pictures[0].clone());
    assert_eq!(bench.frames("reel.fli", "1"), shown);
    for words in [&["A.FLI"][..], &["a.fli", "--fli"], &["reel", "--fli"]] {
        let said = bench.done(&[&["build"], words, &["--jiffies", "5", "1.ppm", "2.ppm", "3.ppm"]].concat());
        assert_eq!(said.lines().count(), 1, "{said}");
        assert_eq!(bench.read(words[0]), fli, "{words:?}");
    }
    let output = bench.command(&["build", "-", "--fli", "--jiffies", "5", "1.ppm", "2.ppm", "3.ppm"]).output().unwrap();
    assert_eq!(output.stdout, fli);
    let err = bench.fails(2, &["build", "new.flc", "--fli", "--jiffies", "5", "1.ppm"]);
    let expected =
        "flic: --fli makes an FLI, and new.flc is a name for an FLC: give one that ends in .fli, or leave --fli out\n";
    assert!(err.starts_with(expected), "{err}");
}

#[test]
fn a_delay_in_milliseconds_becomes_jiffies_and_is_said_where_it_is_not_exact() {
    let bench = Bench::with_pictures(&full_size(1));
    let jiffies = |speed: &str| {
        let said = bench.done(&["build", "reel.fli", "--speed", speed, "1.ppm", "--force"]);
        let bytes = bench.read("reel.fli");
        (u16::from_le_bytes([bytes[16], bytes[17]]), said.lines().next().unwrap_or_default().to_string())
    };
    let (count, said) = jiffies("100");
    assert!(count == 7 && said.starts_with("reel.fli: 1 frame and the ring, "), "{count}: {said}");
    assert_eq!(jiffies("250"), (18, "reel.fli: 250 ms a frame become 18 jiffies, rounded up: 257 ms".to_string()));
    assert_eq!(jiffies("257"), (18, "reel.fli: 257 ms a frame become 18 jiffies, rounded up: 257 ms".to_string()));
    assert_eq!(jiffies("1"), (1, "reel.fli: 1 ms a frame become 1 jiffy, rounded up: 14 ms".to_string()));
    assert_eq!((jiffies("0").0, jiffies("936214").0), (0, 65_535));
    let error = |words: &[&str]| bench.fails(2, &[&["build", "reel.fli", "1.ppm"], words].concat());
    assert!(error(&["--speed", "936215"]).starts_with("flic: --speed takes 0 to 936214 for an FLI, not 936215\n"));
    assert!(error(&["--jiffies", "65536"]).starts_with("flic: --jiffies takes 0 to 65535, not 65536\n"));
    assert!(error(&["--jiffies", "x"]).starts_with("flic: --jiffies takes a whole number from 0 to "));
    assert!(error(&[]).starts_with("flic: --speed MS or --jiffies J is missing: "));
    let both = "flic: --speed and --jiffies are two ways to say one thing: give one\n";
    assert!(error(&["--jiffies", "5", "--speed", "70"]).starts_with(both));
    let err = bench.fails(2, &["build", "reel.flc", "--jiffies", "5", "1.ppm"]);
    assert!(err.starts_with("flic: --jiffies is for an FLI: give --speed MS, or make an FLI with --fli\n"), "{err}");
}

#[test]
fn what_an_fli_cannot_have_is_said() {
    let bench =
        Bench::with_pictures(&[full_size(1).remove(0), ppm(320, 199, |_, _| [0; 3]), ppm(640, 400, |_, _| [9; 3])]);
    let build = ["build", "reel.fli", "--jiffies", "5"];
    let error = |status, words: &[&str]| bench.fails(status, &[&build, words].concat());
    let advice = "an FLI is 320 by 200: give --scale 320x200, or scale it first\n";
    assert_eq!(error(1, &["2.ppm"]), format!("flic: 2.ppm: is 320 by 199; {advice}"));
    assert_eq!(error(1, &["1.ppm", "3.ppm"]), format!("flic: 3.ppm: is 640 by 400; {advice}"));
    let scale = error(2, &["3.ppm", "--scale", "160x100"]);
    let expected = "flic: --scale takes 320x200 for an FLI, whose pictures are of no other size, not 160x100\n";
    assert!(scale.starts_with(expected), "{scale}");
    let trailer = error(2, &["1.ppm", "--trailer"]);
    assert!(trailer.starts_with("flic: --trailer is for an FLC: an FLI has none, "), "{trailer}");
    bench.done(&[&build[..], &["1.ppm", "2.ppm", "3.ppm", "--scale", "320x200"]].concat());
    assert_eq!(bench.done(&["check", "reel.fli"]), "reel.fli: ok\n");
}
