//! `flic rewrite`.

use crate::bench::Bench;
use crate::pictures::{full_size, pictures};
use crate::reels::sloppy;
use std::fs;
use std::os::unix::fs::{chown, MetadataExt, PermissionsExt};

#[test]
fn the_frames_stay_and_the_bytes_are_the_builder_s() {
    let bench = Bench::with_reel(&pictures(3));
    let built = bench.read("reel.flc");
    let sloppy = sloppy(&built);
    bench.write("sloppy.flc", &sloppy);
    assert_eq!(bench.done(&["check", "sloppy.flc"]), "sloppy.flc: ok\n");

    let said = bench.done(&["rewrite", "sloppy.flc", "house.flc"]);
    let lost = "4 chunks of kind 99 (unknown) in frames, 1 chunk of kind 61696 (prefix) outside frames, 20 bytes after the ring";
    assert_eq!(said, format!("sloppy.flc: not kept: {lost}\nhouse.flc: 2,719 bytes, 6,526 before\n"));
    assert_eq!(bench.read("house.flc"), built);
    assert_eq!(bench.frames("house.flc", "2"), bench.frames("sloppy.flc", "2"));
    assert_eq!(bench.read("sloppy.flc"), sloppy);
}

#[test]
fn a_reel_can_take_its_own_place() {
    let bench = Bench::with_reel(&pictures(3));
    let built = bench.read("reel.flc");
    bench.write("sloppy.flc", &sloppy(&built));
    let err = bench.fails(1, &["rewrite", "sloppy.flc", "sloppy.flc"]);
    let expected =
        "flic: sloppy.flc: is there already, 3 frames and the ring, 6,526 bytes, and isn't as flic writes them: \
                    replace it with --force, or give another name\n";
    assert_eq!(err, expected);
    let said = bench.done(&["rewrite", "sloppy.flc", "sloppy.flc", "--force"]);
    assert!(said.ends_with("2,719 bytes, 6,526 before, in place of 3 frames and the ring, 6,526 bytes\n"), "{said}");
    assert_eq!(bench.read("sloppy.flc"), built);
    // What is as the tool writes it can be written again.
    let said = bench.done(&["rewrite", "sloppy.flc", "sloppy.flc"]);
    assert_eq!(said, "sloppy.flc: 2,719 bytes, 2,719 before, in place of 3 frames and the ring, 2,719 bytes\n");
}

#[test]
fn a_trailer_is_kept() {
    let bench = Bench::with_reel(&pictures(3));
    bench.write("sloppy.flc", &sloppy(&bench.read("reel.flc")));
    bench.done(&["trailer", "write", "sloppy.flc"]);
    bench.done(&["rewrite", "sloppy.flc", "house.flc"]);
    assert_eq!(bench.done(&["trailer", "check", "house.flc"]), "house.flc: ok, a trailer of 24 bytes\n");
}

#[test]
fn a_refused_reel_leaves_nothing() {
    let bench = Bench::with_reel(&pictures(3));
    let built = bench.read("reel.flc");
    bench.write("cut.flc", &built[..300]);
    bench.fails(1, &["rewrite", "cut.flc", "house.flc"]);
    bench.fails(1, &["rewrite", "cut.flc", "reel.flc"]);
    bench.fails(1, &["rewrite", "reel.flc", "no/house.flc"]);
    assert_eq!(bench.read("reel.flc"), built);
    let err = bench.fails(1, &["rewrite", "reel.flc", "1.ppm"]);
    assert!(err.starts_with("flic: 1.ppm: is there already and isn't an FLC or FLI file"), "{err}");
}

#[test]
fn dates_and_makers_that_are_lost_are_said() {
    let bench = Bench::with_reel(&pictures(1));
    let mut bytes = bench.read("reel.flc");
    let date = (1996u32 - 1980) << 25 | 3 << 21 | 14 << 16 | 15 << 11 | 9 << 5 | 13;
    bytes[22..26].copy_from_slice(&date.to_le_bytes());
    bytes[34..38].copy_from_slice(&0x1234u32.to_le_bytes());
    bytes[38..42].copy_from_slice(&[6, 0, 5, 0]);
    bench.write("dated.flc", &bytes);
    let said = bench.done(&["rewrite", "dated.flc", "house.flc"]);
    let expected = "dated.flc: not kept: created 1996-03-14 15:09:26, updater 00001234, aspect 6:5\nhouse.flc: ";
    assert!(said.starts_with(expected), "{said}");
    assert_eq!(bench.read("house.flc"), bench.read("reel.flc"));
}

#[test]
fn owner_and_mode_are_kept() {
    let bench = Bench::with_reel(&pictures(2));
    let reel = bench.path("reel.flc");
    fs::set_permissions(&reel, fs::Permissions::from_mode(0o640)).unwrap();
    // Only the system's owner can give a file away.
    let is_root = chown(&reel, Some(1234), Some(4321)).is_ok();
    let before = fs::metadata(&reel).unwrap();
    bench.done(&["rewrite", "reel.flc", "reel.flc"]);
    let after = fs::metadata(&reel).unwrap();
    assert_eq!((after.uid(), after.gid(), after.mode()), (before.uid(), before.gid(), before.mode()));
    assert_eq!(after.uid() == 1234, is_root);
}

#[test]
fn a_file_whose_owner_cannot_be_kept_stays_as_it_is() {
    let bench = Bench::with_reel(&pictures(2));
    let reel = bench.path("reel.flc");
    if !bench.may_become_nobody() {
        return;
    }
    chown(&reel, Some(1234), Some(4321)).unwrap();
    bench.open_to_all(".");
    bench.open_to_all("reel.flc");
    let before = fs::metadata(&reel).unwrap();
    let run = bench.run_as_nobody(&["rewrite", "reel.flc", "reel.flc"]);
    let expected =
        "flic: reel.flc: can't be written: it belongs to another user or group; give another name, or run this \
                    as its owner; what was there is as it was\n";
    assert_eq!((run.status, run.err.as_str()), (1, expected));
    let after = fs::metadata(&reel).unwrap();
    assert_eq!((after.ino(), after.uid(), bench.names(".").len()), (before.ino(), 1234, 3));
}

#[test]
fn an_fli_stays_an_fli() {
    let bench = Bench::with_fli(&full_size(3));
    let built = bench.read("reel.fli");
    let mut sloppy = sloppy(&built);
    sloppy[99] = 7;
    bench.write("sloppy.fli", &[&sloppy[..], &[5; 30]].concat());
    let said = bench.done(&["rewrite", "sloppy.fli", "house.fli"]);
    let lost = "4 chunks of kind 99 (unknown) in frames, 1 chunk of kind 61696 (prefix) outside frames, 20 bytes after the \
                ring, 30 bytes behind the reel that aren't its trailer, bytes 18 to 127 of the header, which no one reads";
    assert!(said.starts_with(&format!("sloppy.fli: not kept: {lost}\nhouse.fli: ")), "{said}");
    assert_eq!(bench.read("house.fli"), built);
    bench.done(&["rewrite", "house.fli", "house.fli"]);
    assert_eq!(bench.read("house.fli"), built);
    let err = bench.fails(1, &["rewrite", "reel.fli", "new.flc"]);
    let expected =
        "flic: new.flc: is a name for an FLC, and reel.fli is an FLI: give one that ends in .fli, or make an FLC \
                    of it with flic convert\n";
    assert_eq!(err, expected);
    // A name that stands for nothing will do.
    bench.done(&["rewrite", "reel.fli", "reel"]);
    assert_eq!(bench.read("reel"), built);
}
