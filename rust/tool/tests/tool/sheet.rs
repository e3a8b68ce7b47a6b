//! `flic sheet`.

use crate::bench::Bench;
use crate::pictures::{full_size, pictures, ppm};

/// The sheet's width and height, and red, green and blue of every pixel, read back by building a reel from it.
fn read(bench: &Bench, name: &str) -> (usize, usize, Vec<[u8; 3]>) {
    bench.done(&["build", "read.flc", "--speed", "70", name]);
    let picture = bench.frames("read.flc", "1").swap_remove(0);
    let ends: Vec<usize> = picture.iter().enumerate().filter(|(_, byte)| **byte == b'\n').map(|(at, _)| at).collect();
    let size = String::from_utf8(picture[ends[0] + 1..ends[1]].to_vec()).unwrap();
    let (width, height) = size.split_once(' ').unwrap();
    let pixels = picture[ends[2] + 1..].chunks(3).map(|pixel| [pixel[0], pixel[1], pixel[2]]).collect();
    (width.parse().unwrap(), height.parse().unwrap(), pixels)
}

#[test]
fn every_frame_stands_on_the_sheet_and_the_ring_is_framed() {
    let bench = Bench::new();
    let plain = |level: u8| ppm(60, 30, move |x, _| [level, (x * 4) as u8, 200]);
    bench.write("1.ppm", &plain(10));
    bench.write("2.ppm", &plain(90));
    bench.done(&["build", "reel.flc", "--speed", "70", "1.ppm", "2.ppm"]);
    let said = bench.done(&["sheet", "reel.flc", "sheet.png", "--columns", "2"]);
    // Cells of 68 by 48, with a gap of 8 in front.
    assert_eq!(said, "sheet.png: 2 frames and the ring, 144 by 104\n");
    let (width, height, pixels) = read(&bench, "sheet.png");
    assert_eq!((width, height), (144, 104));
    let pixel = |x: usize, y: usize| pixels[y * width + x];
    for (x, y, level) in [(8, 8, 10), (76, 8, 90), (8, 56, 10)] {
        for at in 0..60 * 30 {
            assert_eq!(pixel(x + at % 60, y + at / 60), [level, (at % 60 * 4) as u8, 200], "{level}: {at}");
        }
    }
    let red = [230, 40, 40];
    assert!((6..70).all(|x| pixel(x, 54) == red && pixel(x, 87) == red), "the ring's frame");
    assert!((6..70).all(|x| pixel(x, 6) != red), "frame 1 has none");
    // The numbers stand below: a 1 and a 2 in the letters of the sheet.
    let line = |x: usize, y: usize| -> String {
        (x..x + 5).map(|x| if pixel(x, y) == [220; 3] { '#' } else { '.' }).collect()
    };
    assert_eq!((line(8, 41), line(76, 41), line(76, 47)), ("..#..".into(), ".###.".into(), "#####".into()));
}

#[test]
fn many_frames_are_made_smaller() {
    let bench = Bench::new();
    bench.write("1.ppm", &ppm(320, 200, |_, _| [9; 3]));
    let mut words = vec!["build", "reel.flc", "--speed", "70"];
    words.extend(["1.ppm"; 1_000]);
    bench.done(&words);
    let said = bench.done(&["sheet", "reel.flc", "sheet.png"]);
    let (_, size) = said.trim_end().rsplit_once(", ").unwrap();
    let (width, height) = size.split_once(" by ").unwrap();
    let sides: [usize; 2] = [width.parse().unwrap(), height.parse().unwrap()];
    assert!(sides.iter().all(|side| (1_000..=8_008).contains(side)), "{said}");
}

#[test]
fn only_a_sheet_is_replaced_without_being_asked() {
    let bench = Bench::with_reel(&pictures(2));
    bench.write("mine.png", b"mine");
    let err = bench.fails(1, &["sheet", "reel.flc", "mine.png"]);
    assert_eq!(err, "flic: mine.png: is there already: give another name, or --force to replace it\n");
    assert_eq!(bench.read("mine.png"), b"mine");
    bench.done(&["sheet", "reel.flc", "mine.png", "--force"]);
    let first = bench.read("mine.png");
    bench.done(&["sheet", "reel.flc", "mine.png", "--columns", "1"]);
    assert_ne!(bench.read("mine.png"), first);
    bench.done(&["frames", "reel.flc", "out", "--png"]);
    assert!(bench.run(&["sheet", "reel.flc", "out/lap1-0001.png"]).err.contains("is there already"));
    assert!(bench.fails(1, &["sheet", "reel.flc", "out"]).contains("is a directory"));
    assert!(bench.fails(1, &["sheet", "1.ppm", "new.png"]).starts_with("flic: 1.ppm: refused 5 at offset 0"));
}

#[test]
fn a_sheet_of_an_fli_is_that_of_the_same_flc() {
    let bench = Bench::with_fli(&full_size(3));
    bench.done(&["convert", "reel.fli", "reel.flc"]);
    bench.done(&["sheet", "reel.fli", "fli.png"]);
    bench.done(&["sheet", "reel.flc", "flc.png"]);
    assert_eq!(bench.read("fli.png"), bench.read("flc.png"));
}
