//! `flic play` where there is no terminal; tests/terminal has the rest.

use crate::bench::{Bench, Run};
use crate::pictures::pictures;
use std::fs::OpenOptions;
use std::process::Stdio;

#[test]
fn without_a_terminal_it_says_what_to_do_instead() {
    let bench = Bench::with_reel(&pictures(2));
    let expected =
        "flic: standard output isn't a terminal: play in one that shows 24-bit colours, or write the pictures \
                    with flic frames FILE DIR\n";
    assert_eq!(bench.fails(1, &["play", "reel.flc"]), expected);
    let null = || OpenOptions::new().read(true).write(true).open("/dev/null").unwrap();
    let run = bench.command(&["play", "reel.flc"]).stdin(null()).stdout(null()).stderr(Stdio::piped()).output();
    assert_eq!(Run::of(run.unwrap()).err, expected);
}

#[test]
fn laps_and_speed_are_numbers() {
    let bench = Bench::with_reel(&pictures(1));
    let error = |option: &str, value: &str| bench.fails(2, &["play", "reel.flc", option, value]);
    assert!(error("--laps", "0").starts_with("flic: --laps takes a whole number from 1 to 4294967295, not 0\n"));
    assert!(error("--speed", "fast").starts_with("flic: --speed takes a whole number from 0 to 4294967295, not fast\n"));
    assert!(bench.fails(2, &["play", "reel.flc", "more.flc"]).starts_with("flic: more.flc is one word too many\n"));
}
