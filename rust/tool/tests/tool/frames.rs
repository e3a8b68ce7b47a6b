//! `flic frames`.

use crate::bench::Bench;
use crate::pictures::{full_size, pictures};
use crate::reels::sized;
use flic::{write_frame, CheckedReel, Format};
use std::fs;
use std::os::unix::fs::PermissionsExt;
use std::process::{Command, Stdio};
use std::thread;
use std::time::{Duration, Instant};

#[test]
fn two_laps_show_the_pictures_that_went_in() {
    for count in 1..=4 {
        let pictures = pictures(count);
        let bench = Bench::with_reel(&pictures);
        let mut expected = pictures.clone();
        expected.push(pictures[0].clone());
        assert_eq!(bench.frames("reel.flc", "1"), expected, "{count}");
        expected.extend_from_within(1..);
        assert_eq!(bench.frames("reel.flc", "2"), expected, "{count}");
    }
}

#[test]
fn names_sort_in_the_order_of_play() {
    let bench = Bench::with_reel(&pictures(2));
    assert_eq!(bench.done(&["frames", "reel.flc", "out", "--laps", "10"]), "reel.flc: 21 pictures in out\n");
    let names = bench.names("out");
    assert_eq!(
        names[..5],
        ["lap01-0001.ppm", "lap01-0002.ppm", "lap01-0003-ring.ppm", "lap02-0002.ppm", "lap02-0003-ring.ppm"]
    );
    assert_eq!((names.len(), names[20].as_str()), (21, "lap10-0003-ring.ppm"));
}

#[test]
fn a_refused_reel_makes_no_directory() {
    let bench = Bench::with_reel(&pictures(2));
    let bytes = bench.read("reel.flc");
    bench.write("reel.flc", &bytes[..200]);
    let err = bench.fails(1, &["frames", "reel.flc", "out"]);
    assert!(err.starts_with("flic: reel.flc: refused 4 at offset 0, in the file header: "), "{err}");
}

#[test]
fn a_directory_that_holds_something_is_left_alone() {
    let bench = Bench::with_reel(&pictures(2));
    fs::create_dir(bench.path("out")).unwrap();
    bench.write("out/.hidden", b"mine");
    let err = bench.fails(1, &["frames", "reel.flc", "out"]);
    assert_eq!(err, "flic: out: isn't empty, it holds .hidden: give a new or an empty directory\n");
    assert_eq!((bench.names("out"), bench.read("out/.hidden")), (vec![".hidden".to_string()], b"mine".to_vec()));
    let err = bench.fails(1, &["frames", "reel.flc", "no/such"]);
    assert!(err.starts_with("flic: no/such: the directory can't be made: "), "{err}");
    let err = bench.fails(1, &["frames", "reel.flc", "1.ppm"]);
    assert!(err.starts_with("flic: 1.ppm: the directory can't be made: "), "{err}");
    assert!(err.ends_with("; give another name\n"), "{err}");
}

#[test]
fn laps_are_counted_from_1() {
    let bench = Bench::with_reel(&pictures(1));
    let err = bench.fails(2, &["frames", "reel.flc", "out", "--laps", "0"]);
    assert!(err.starts_with("flic: --laps takes a whole number from 1 to "), "{err}");
}

#[test]
fn of_a_refused_reel_the_frames_before_the_fault_are_written() {
    let pictures = pictures(4);
    let bench = Bench::with_reel(&pictures);
    let right = bench.read("reel.flc");
    let reel = CheckedReel::new(&right).unwrap();
    let chunks = reel.frame_chunks();
    let first = reel.frames().next().unwrap().state;
    let mut damaged = right.clone();
    damaged[chunks[2].offset + 16] = 5;
    damaged[chunks[2].offset + 17..chunks[2].offset + 20].fill(0);
    let mut open = right.clone();
    open[14] = 0;
    let wrong_ring = sized([&right[..chunks[4].offset], &write_frame(Format::Flc, &first, &first).unwrap()].concat());
    let cases = [
        (right[..chunks[3].offset + 1].to_vec(), 3, "refused 4 at offset 0, in the file header: "),
        (damaged, 2, "refused 6 at offset "),
        (open, 4, "refused 14 at offset 0, in the file header: it was never closed"),
        (wrong_ring, 4, "refused 16 at offset "),
    ];
    for (bytes, count, fault) in cases {
        bench.write("bad.flc", &bytes);
        let run = bench.run(&["frames", "bad.flc", "out", "--laps", "3"]);
        assert_eq!(
            (run.status, run.out),
            (1, format!("bad.flc: {count} pictures in out, of the frames before the fault\n"))
        );
        assert!(run.err.starts_with(&format!("flic: bad.flc: {fault}")), "{}", run.err);
        let names: Vec<String> = (1..=count).map(|number| format!("lap1-{number:04}.ppm")).collect();
        assert_eq!(bench.names("out"), names);
        for (name, picture) in names.iter().zip(&pictures) {
            assert!(bench.read(&format!("out/{name}")) == *picture, "{name}");
        }
        fs::remove_dir_all(bench.path("out")).unwrap();
    }
}

#[test]
fn a_refused_reel_longer_than_is_read_at_once_is_written_too() {
    let bench = Bench::with_reel(&pictures(2));
    let mut bytes = bench.read("reel.flc");
    let mut other = vec![7; 3_000_000];
    other[..4].copy_from_slice(&3_000_000u32.to_le_bytes());
    bytes.splice(128..128, other);
    bytes[14] = 0;
    bench.write("reel.flc", &bytes);
    let run = bench.run(&["frames", "reel.flc", "out"]);
    assert_eq!((run.status, run.out.as_str()), (1, "reel.flc: 2 pictures in out, of the frames before the fault\n"));
}

#[test]
fn a_directory_that_cannot_be_filled_is_left_as_it_was() {
    let bench = Bench::with_reel(&pictures(2));
    // No file may get longer than a block, and a picture has 2,344 bytes.
    let limited = |directory: &str| {
        let script =
            format!("trap '' XFSZ; ulimit -f 1; exec {} frames reel.flc {directory}", env!("CARGO_BIN_EXE_flic"));
        let output = Command::new("sh").args(["-c", &script]).current_dir(bench.path(".")).output().unwrap();
        assert_eq!(output.status.code(), Some(1));
        String::from_utf8(output.stderr).unwrap()
    };
    let err = limited("out");
    assert!(err.starts_with("flic: out/lap1-0001.ppm: can't be written: "), "{err}");
    assert!(err.ends_with("; out is removed again\n"), "{err}");
    assert_eq!(bench.names("."), ["1.ppm", "2.ppm", "reel.flc"]);
    fs::create_dir(bench.path("out")).unwrap();
    let err = limited("out");
    assert!(err.ends_with("; out is empty again\n") && bench.names("out").is_empty(), "{err}");
}

#[test]
fn a_signal_leaves_nothing() {
    let bench = Bench::with_reel(&pictures(2));
    for signal in ["INT", "TERM", "HUP"] {
        let mut command = bench.command(&["frames", "reel.flc", "out", "--laps", "4000000000"]);
        let child = command.stdout(Stdio::piped()).stderr(Stdio::piped()).spawn().unwrap();
        let start = Instant::now();
        let new = format!(".out.{}-0.tmp/lap0000000002-0002.ppm", child.id());
        while !bench.path(&new).exists() && start.elapsed() < Duration::from_secs(30) {
            thread::sleep(Duration::from_millis(1));
        }
        // Until all of it is there, nothing is.
        assert_eq!(bench.names("out"), [""; 0]);
        let kill = format!("kill -{signal} {}", child.id());
        assert!(Command::new("sh").args(["-c", &kill]).status().unwrap().success());
        let output = child.wait_with_output().unwrap();
        let err = String::from_utf8(output.stderr).unwrap();
        assert_eq!(
            (output.status.code(), err.as_str()),
            (Some(1), "flic: out: ended by a signal; out is removed again\n")
        );
        assert_eq!(bench.names("."), ["1.ppm", "2.ppm", "reel.flc"]);
    }
}

#[test]
fn a_directory_without_permission_is_said_to_be_one() {
    let bench = Bench::with_reel(&pictures(1));
    if !bench.may_become_nobody() {
        return;
    }
    bench.open_to_all(".");
    bench.open_to_all("reel.flc");
    for (mode, expected) in [
        (0o000, "flic: out: can't be read: Permission denied (os error 13); check who may read and write there\n"),
        (0o555, "flic: out/lap1-0001.ppm: can't be written: Permission denied (os error 13); check who may read and write there; out is empty again\n"),
    ] {
        let _ = fs::create_dir(bench.path("out"));
        fs::set_permissions(bench.path("out"), fs::Permissions::from_mode(mode)).unwrap();
        let run = bench.run_as_nobody(&["frames", "reel.flc", "out"]);
        assert_eq!((run.status, run.err.as_str()), (1, expected));
    }
    fs::set_permissions(bench.path("."), fs::Permissions::from_mode(0o755)).unwrap();
    let run = bench.run_as_nobody(&["frames", "reel.flc", "other"]);
    let expected = "flic: other: the directory can't be made: Permission denied (os error 13); check who may read and write there\n";
    assert_eq!((run.status, run.err.as_str()), (1, expected));
}

#[test]
fn an_fli_shows_the_pictures_that_went_in_lap_after_lap() {
    let pictures = full_size(3);
    let bench = Bench::with_fli(&pictures);
    let lap = [&pictures[1..], &pictures[..1]].concat();
    assert_eq!(bench.frames("reel.fli", "3"), [&pictures[..1], &lap, &lap, &lap].concat());
    // Of a cut one the frames before the cut.
    let bytes = bench.read("reel.fli");
    let second = CheckedReel::new(&bytes).unwrap().frame_chunks()[1];
    bench.write("cut.fli", &bytes[..second.end()]);
    let run = bench.run(&["frames", "cut.fli", "out"]);
    assert_eq!((run.status, run.out.as_str()), (1, "cut.fli: 2 pictures in out, of the frames before the fault\n"));
    assert_eq!(
        (bench.read("out/lap1-0001.ppm"), bench.read("out/lap1-0002.ppm")),
        (pictures[0].clone(), pictures[1].clone())
    );
}
