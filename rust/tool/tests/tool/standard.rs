//! Standard input and output in place of files.

use crate::bench::Bench;
use crate::pictures::{noise, pictures};
use std::fs::{self, File};
use std::process::{Command, Stdio};

#[test]
fn a_reel_is_read_from_standard_input() {
    let bench = Bench::with_reel(&pictures(2));
    let reel = bench.read("reel.flc");
    let run = |words: &[&str]| {
        let run = bench.run_with(words, &reel);
        assert_eq!((run.status, run.err.as_str()), (0, ""), "{words:?}");
        run.out
    };
    assert_eq!(run(&["check", "-"]), "standard input: ok\n");
    assert_eq!(run(&["trailer", "check", "-"]), "standard input: ok, without a trailer\n");
    assert_eq!(run(&["list", "-"]), bench.done(&["list", "reel.flc"]));
    assert_eq!(run(&["info", "-"]), bench.done(&["info", "reel.flc"]));
    assert_eq!(run(&["frames", "-", "out"]), "standard input: 3 pictures in out\n");
    assert_eq!(bench.names("out").len(), 3);
    run(&["rewrite", "-", "other.flc"]);
    assert_eq!(bench.read("other.flc"), reel);

    let cut = bench.run_with(&["check", "-"], &reel[..100]);
    assert!(cut.out.starts_with("standard input: refused 4 at offset 0, "), "{}", cut.out);
    let piece = bench.run_with(&["frames", "-", "piece"], &reel[..reel.len() - 1]);
    assert_eq!(piece.out, "standard input: 2 pictures in piece, of the frames before the fault\n");
    let replay = bench.run_with(&["replay", "-"], b"0\n");
    assert!(replay.status == 2 && replay.err.starts_with("flic: standard input has the readings: "), "{}", replay.err);
}

#[test]
fn a_reel_is_written_to_standard_output_and_said_beside_it() {
    let bench = Bench::with_reel(&pictures(2));
    let reel = bench.read("reel.flc");
    let written = |words: &[&str], input: &[u8], expected: &[u8]| {
        bench.write("input", input);
        let from = File::open(bench.path("input")).unwrap();
        let output = bench.command(words).stdin(from).output().unwrap();
        assert!(output.status.success() && output.stdout == expected, "{words:?}");
        String::from_utf8(output.stderr).unwrap()
    };
    let build = written(&["build", "-", "--speed", "70", "1.ppm", "2.ppm"], b"", &reel);
    assert_eq!(build, "standard output: 2 frames and the ring, 2,067 bytes\n");
    let build = written(&["build", "-", "--speed", "70", "-", "2.ppm"], &bench.read("1.ppm"), &reel);
    assert_eq!(build, "standard output: 2 frames and the ring, 2,067 bytes\n");
    let rewrite = written(&["rewrite", "-", "-"], &reel, &reel);
    assert_eq!(rewrite, "standard output: 2,067 bytes, 2,067 before\n");
    let mut open = reel.clone();
    open[14] = 0;
    let repair = written(&["repair", "-", "-"], &open, &reel);
    assert!(repair.starts_with("standard input: refused 14 at offset 0, "), "{repair}");
    assert!(repair.ends_with("\nstandard output: 2 frames and the ring, 2,067 bytes\n"), "{repair}");
    bench.done(&["trailer", "write", "reel.flc"]);
    let trailer = written(&["trailer", "write", "-"], &reel, &bench.read("reel.flc"));
    assert_eq!(trailer, "standard output: a trailer of 20 bytes\n");
    bench.write("reel.flc", &reel);
    bench.done(&["page", "reel.flc", "page.html"]);
    let page = written(&["page", "reel.flc", "-"], b"", &bench.read("page.html"));
    assert!(page.starts_with("standard output: 2 frames and the ring, "), "{page}");
}

#[test]
fn where_it_cannot_be_written_that_is_said() {
    let bench = Bench::with_reel(&pictures(1));
    let full = fs::OpenOptions::new().write(true).open("/dev/full").unwrap();
    let mut command = bench.command(&["rewrite", "reel.flc", "-"]);
    let output = command.stdout(full).stderr(Stdio::piped()).output().unwrap();
    let err = String::from_utf8(output.stderr).unwrap();
    assert!(
        err.starts_with("flic: standard output: can't be written: ") && err.ends_with("; make room first\n"),
        "{err}"
    );
    assert_eq!(output.status.code(), Some(1));
    let err = bench.fails(2, &["frames", "reel.flc", "-"]);
    assert!(err.starts_with("flic: DIR is a directory, and - is none: give its name\n"), "{err}");
}

#[test]
fn a_reader_that_goes_away_ends_it_quietly() {
    // More than a pipe holds.
    let bench = Bench::with_reel(&[noise(1), noise(2)]);
    let script = format!("{} rewrite reel.flc - | true", env!("CARGO_BIN_EXE_flic"));
    let output = Command::new("sh").args(["-c", &script]).current_dir(bench.path(".")).output().unwrap();
    assert_eq!(String::from_utf8(output.stderr).unwrap(), "");
}

#[test]
fn a_file_of_that_name_is_read_with_its_folder() {
    let bench = Bench::with_reel(&pictures(1));
    bench.write("-", &bench.read("reel.flc"));
    assert_eq!(bench.done(&["check", "./-"]), "./-: ok\n");
}
