//! The command line itself: help, and what is wrong with it.

use crate::bench::{Bench, Run};
use crate::pictures::pictures;
use std::fs::OpenOptions;

const COMMANDS: [&str; 16] = [
    "check", "info", "list", "play", "replay", "frames", "tiles", "sheet", "page", "diff", "build", "repair",
    "rewrite", "convert", "trailer", "manual",
];

#[test]
fn help_for_the_tool_and_for_each_command() {
    let bench = Bench::new();
    let help = bench.done(&["--help"]);
    for command in COMMANDS {
        assert!(help.contains(&format!("\n  {command} ")), "{help}");
        let usage = format!("usage: flic {command} ");
        assert!(bench.done(&[command, "--help"]).starts_with(&usage));
        assert!(bench.done(&[command, "file", "-h"]).starts_with(&usage));
        assert_eq!(bench.done(&["help", command]), bench.done(&[command, "--help"]));
    }
    assert_eq!(bench.done(&["help"]), help);
    let err = bench.fails(2, &["help", "chek"]);
    assert!(err.starts_with("flic: there is no command chek: did you mean check?\n"), "{err}");
}

#[test]
fn wrong_usage_has_status_2_and_a_hint() {
    let bench = Bench::new();
    let error = |words: &[&str]| bench.fails(2, words);
    assert_eq!(error(&[]), "flic: a command is missing\nusage: flic COMMAND ..\nflic --help lists the commands\n");
    assert!(error(&["chek", "a"]).starts_with("flic: there is no command chek: did you mean check?\n"));
    assert!(error(&["paint", "a"]).starts_with("flic: there is no command paint\n"));
    let lap = error(&["frames", "a", "b", "--lap", "2"]);
    assert!(
        lap.starts_with("flic: there is no option --lap: did you mean --laps?\nusage: flic frames FILE DIR"),
        "{lap}"
    );
    assert!(error(&["info", "-v", "a"]).starts_with("flic: there is no option -v\n"));
    assert!(error(&["frames", "a", "b", "--laps"]).starts_with("flic: --laps needs a value behind it\n"));
    assert!(error(&["rewrite", "a", "b", "c"]).starts_with("flic: c is one word too many\n"));
    for command in COMMANDS.iter().filter(|command| **command != "manual") {
        assert!(error(&[command]).contains("is missing"), "{command}");
    }
    assert!(error(&["manual", "csh"]).starts_with("flic: csh isn't man, bash, zsh or fish\n"));
    assert!(error(&["manual", "zsh", "fish"]).starts_with("flic: fish is one word too many\n"));
}

#[test]
fn a_file_whose_name_looks_like_an_option() {
    let bench = Bench::new();
    bench.write("--help", b"");
    let run = bench.run(&["check", "--", "--help"]);
    assert_eq!(run.status, 1);
    assert!(run.out.starts_with("--help: refused 4 at offset 0"), "{}", run.out);
    bench.write("-1.flc", b"");
    let err = bench.fails(2, &["check", "-1.flc"]);
    assert!(err.starts_with("flic: there is no option -1.flc; if the file is meant, write ./-1.flc\n"), "{err}");
}

#[test]
fn the_rest_is_done_where_standard_error_is_full() {
    let bench = Bench::with_reel(&pictures(1));
    let full = || OpenOptions::new().write(true).open("/dev/full").unwrap();
    let run = |words: &[&str]| Run::of(bench.command(words).stderr(full()).output().unwrap());
    let checked = run(&["check", "missing.flc", "reel.flc"]);
    assert_eq!((checked.status, checked.out.as_str()), (1, "reel.flc: ok\n1 ok, 0 refused, 1 not checked\n"));
    assert_eq!((run(&["info", "missing.flc"]).status, run(&["chek"]).status), (1, 2));
}

#[test]
fn a_name_that_a_terminal_would_act_on_is_escaped() {
    let bench = Bench::with_reel(&pictures(1));
    let (name, shown) = ("a\n\x1b[2J: ok.flc", r"a\n\u{1b}[2J: ok.flc");
    bench.write(name, &bench.read("reel.flc"));
    assert_eq!(bench.done(&["check", name]), format!("{shown}: ok\n"));
    bench.write(name, b"");
    assert!(bench.run(&["check", name]).out.starts_with(&format!("{shown}: refused 4 ")));
    for words in [&["info", "\x1b"][..], &["\x1b"], &["list", "-\x1b"], &["list", "reel.flc", "\x1b"]] {
        let err = bench.run(words).err;
        assert!(!err.contains('\x1b') && err.contains(r"\u{1b}"), "{err}");
    }
    bench.done(&["frames", "reel.flc", "out\x1b"]);
    assert!(bench.fails(1, &["frames", "reel.flc", "out\x1b"]).starts_with(r"flic: out\u{1b}: isn't empty"));
}
