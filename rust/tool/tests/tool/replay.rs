//! `flic replay`.

use crate::bench::{Bench, Run};
use crate::pictures::{full_size, pictures};

/// What a replay of a reel of three frames, 70 milliseconds each, says of these lines.
fn replayed(input: &str) -> Run {
    Bench::with_reel(&pictures(3)).run_with(&["replay", "reel.flc"], input.as_bytes())
}

#[test]
fn a_number_for_each_tick() {
    // Started 100 before the clock rolls over. Each tick, what shows after it, and the time gone since the last draw.
    let ticks: [(u32, u32); 15] = [
        (4_294_967_265, 1), // 69
        (4_294_967_266, 2), // 70
        (39, 2),
        (40, 3),
        (250, 4), // 210: late, and the ring
        (250, 2), // 140: the next ticks catch up
        (250, 3),
        (251, 3),
        (100, 3), // set back: the time begins anew
        (169, 3),
        (170, 4),
        (2_147_483_817, 2), // one short of half the range
        (2_147_483_888, 2), // half the range: set back
        (2_147_483_957, 2),
        (2_147_483_958, 3),
    ];
    let input: String = ticks.iter().map(|(tick, _)| format!("\n{tick}")).collect();
    let run = replayed(&format!("4294967196{input}\n"));
    let expected: String = ticks.iter().map(|(_, number)| format!("{number}\n")).collect();
    assert_eq!((run.status, run.out, run.err), (0, expected, String::new()));
}

#[test]
fn the_first_line_is_no_tick() {
    assert_eq!((replayed("5").out.as_str(), replayed("5\n75\n").out.as_str()), ("", "2\n"));
}

#[test]
fn a_bad_line_is_named_and_nothing_is_printed() {
    let error = |input: &str| {
        let run = replayed(input);
        assert_eq!((run.status, run.out.as_str()), (1, ""), "{input:?}");
        run.err
    };
    let advice = "give one whole number a line, 0 to 4294967295\n";
    assert_eq!(error("0\n70\n7o\n"), format!("flic: standard input: line 3 is no reading: '7o': {advice}"));
    assert_eq!(error("0\n\n70\n"), format!("flic: standard input: line 2 is no reading: '': {advice}"));
    assert_eq!(error("4294967296"), format!("flic: standard input: line 1 is no reading: '4294967296': {advice}"));
    let empty = "flic: standard input is empty: its first line is the reading at which the board was started\n";
    assert_eq!(error(""), empty);
}

#[test]
fn a_refused_reel_has_no_player() {
    let bench = Bench::with_reel(&pictures(2));
    let bytes = bench.read("reel.flc");
    bench.write("reel.flc", &bytes[..200]);
    let run = bench.run_with(&["replay", "reel.flc"], b"0\n70\n");
    assert_eq!((run.status, run.out.as_str()), (1, ""));
    assert!(run.err.starts_with("flic: reel.flc: refused 4 at offset 0, in the file header: "), "{}", run.err);
}

#[test]
fn an_fli_is_replayed_in_milliseconds() {
    // 5 jiffies are 71 milliseconds.
    let run = Bench::with_fli(&full_size(2)).run_with(&["replay", "reel.fli"], b"1000\n1070\n1071\n1141\n1142\n1213\n");
    assert_eq!((run.status, run.out.as_str(), run.err.as_str()), (0, "1\n2\n2\n3\n2\n", ""));
}
