//! PNG pictures, in and out.

use crate::bench::Bench;
use crate::pictures::{pictures, ppm};

const MAGIC: &[u8] = b"\x89PNG\r\n\x1a\n";

/// The chunks of a PNG file: name and data.
fn chunks(bytes: &[u8]) -> Vec<(String, Vec<u8>)> {
    let mut rest = bytes.strip_prefix(MAGIC).expect("a PNG file");
    let mut chunks = Vec::new();
    while !rest.is_empty() {
        let length = u32::from_be_bytes(rest[..4].try_into().unwrap()) as usize;
        let name = String::from_utf8(rest[4..8].to_vec()).unwrap();
        chunks.push((name, rest[8..8 + length].to_vec()));
        rest = &rest[12 + length..];
    }
    chunks
}

/// A PNG file with levels that aren't compressed, written apart from the crate.
fn png(width: u32, height: u32, colours: u8, levels: &[u8]) -> Vec<u8> {
    let each = levels.len() / height as usize;
    let rows: Vec<u8> = levels.chunks(each).flat_map(|row| [&[0], row].concat()).collect();
    let mut data = vec![0x78, 0x01];
    for (at, block) in rows.chunks(65_535).enumerate() {
        data.push(u8::from((at + 1) * 65_535 >= rows.len()));
        data.extend((block.len() as u16).to_le_bytes());
        data.extend((!(block.len() as u16)).to_le_bytes());
        data.extend(block);
    }
    data.extend(adler(&rows).to_be_bytes());
    let header = [&width.to_be_bytes()[..], &height.to_be_bytes(), &[8, colours, 0, 0, 0]].concat();
    [MAGIC, &chunk(b"IHDR", &header), &chunk(b"IDAT", &data), &chunk(b"IEND", &[])].concat()
}

fn chunk(name: &[u8], data: &[u8]) -> Vec<u8> {
    let held = [name, data].concat();
    [&(data.len() as u32).to_be_bytes()[..], &held, &crc(&held).to_be_bytes()].concat()
}

fn crc(bytes: &[u8]) -> u32 {
    let step = |sum: u32, _| if sum & 1 == 1 { sum >> 1 ^ 0xEDB8_8320 } else { sum >> 1 };
    !bytes.iter().fold(!0, |sum, byte| (0..8).fold(sum ^ u32::from(*byte), step))
}

fn adler(bytes: &[u8]) -> u32 {
    let (one, two) = bytes.iter().fold((1, 0), |(one, two), byte| {
        let one = (one + u32::from(*byte)) % 65_521;
        (one, (two + one) % 65_521)
    });
    two << 16 | one
}

#[test]
fn frames_are_written_with_the_palette_of_the_reel() {
    let bench = Bench::with_reel(&pictures(3));
    let said = bench.done(&["frames", "reel.flc", "out", "--png", "--laps", "2"]);
    assert_eq!(said, "reel.flc: 7 pictures in out\n");
    assert_eq!(bench.names("out")[..2], ["lap1-0001.png", "lap1-0002.png"]);
    assert_eq!((bench.names("out").len(), bench.names("out")[6].as_str()), (7, "lap2-0004-ring.png"));
    let chunks = chunks(&bench.read("out/lap1-0001.png"));
    let held = |name: &str| &chunks.iter().find(|(found, _)| found == name).unwrap().1;
    // 37 by 21, 8 bits, indexed.
    assert_eq!(held("IHDR")[..10], [0, 0, 0, 37, 0, 0, 0, 21, 8, 3]);
    assert_eq!(held("PLTE").len(), 768);
    // The first colours of picture 1, as the reel's first frame stores them.
    let palette: Vec<&[u8]> = held("PLTE").chunks(3).collect();
    assert!(palette.contains(&&[10, 20, 30][..]) && palette.contains(&&[0, 0, 90][..]), "{palette:?}");
}

#[test]
fn a_reel_built_from_its_png_frames_is_the_same() {
    let pictures = pictures(4);
    let bench = Bench::with_reel(&pictures);
    bench.done(&["frames", "reel.flc", "out", "--png"]);
    let names: Vec<String> = (1..=4).map(|number| format!("out/lap1-{number:04}.png")).collect();
    let mut words = vec!["build", "again.flc", "--speed", "70"];
    words.extend(names.iter().map(String::as_str));
    bench.done(&words);
    assert_eq!(bench.read("again.flc"), bench.read("reel.flc"));
    assert_eq!(bench.frames("again.flc", "1")[..4], pictures);
}

#[test]
fn png_ppm_and_pgm_can_be_mixed() {
    let bench = Bench::new();
    bench.write("1.png", &png(2, 1, 2, &[1, 2, 3, 9, 9, 9]));
    bench.write("2.ppm", b"P3 2 1 255 4 5 6 7 8 9");
    bench.write("3.png", &png(2, 1, 0, &[16, 32]));
    bench.write("4.png", &png(2, 1, 6, &[1, 2, 3, 255, 4, 5, 6, 255]));
    bench.done(&["build", "reel.flc", "--speed=0", "1.png", "2.ppm", "3.png", "4.png"]);
    let shown: Vec<Vec<u8>> = bench.frames("reel.flc", "1").iter().map(|picture| picture[11..].to_vec()).collect();
    let first = [1, 2, 3, 9, 9, 9];
    assert_eq!(shown, [first, [4, 5, 6, 7, 8, 9], [16, 16, 16, 32, 32, 32], [1, 2, 3, 4, 5, 6], first]);
}

#[test]
fn a_large_photograph_is_scaled_and_reduced() {
    let bench = Bench::new();
    let levels: Vec<u8> =
        (0..800 * 600 * 3).map(|at: usize| (at / 3 % 800 / 4 + at % 3 * 20 + at / 2_400 / 20) as u8).collect();
    bench.write("photo.png", &png(800, 600, 2, &levels));
    let build = ["build", "reel.flc", "--speed", "70", "photo.png"];
    let err = bench.fails(1, &build);
    assert!(err.starts_with("flic: photo.png: is 800 by 600; ") && err.contains("--scale 320x200"), "{err}");
    let said = bench.done(&[&build[..], &["--scale", "320x200", "--average", "--colours", "64", "--dither"]].concat());
    assert!(said.starts_with("reel.flc: 1 frame and the ring, "), "{said}");
    assert_eq!(bench.done(&["check", "reel.flc"]), "reel.flc: ok\n");
}

#[test]
fn wrong_png_pictures_are_named() {
    let bench = Bench::with_pictures(&[ppm(2, 1, |_, _| [0; 3])]);
    let right = png(2, 1, 6, &[1, 2, 3, 255, 4, 5, 6, 254]);
    bench.write("clear.png", &right);
    bench.write("cut.png", &right[..right.len() / 2]);
    let mut bent = png(2, 1, 0, &[16, 32]);
    bent[40] ^= 1;
    bench.write("bent.png", &bent);
    bench.write("huge.png", &png(60_000, 60_000, 2, &[0; 60_000]));
    let error = |picture: &str| bench.fails(1, &["build", "reel.flc", "--speed", "70", "1.ppm", picture]);
    assert!(error("clear.png").starts_with("flic: clear.png: has transparent pixels"));
    assert!(error("cut.png").starts_with("flic: cut.png: is a damaged PNG ("));
    assert!(error("bent.png").starts_with("flic: bent.png: is a damaged PNG ("));
    assert!(error("huge.png").starts_with("flic: huge.png: is 60000 by 60000, which no picture is"));
}
