//! `flic info`.

use crate::bench::Bench;
use crate::pictures::{full_size, pictures};

/// The bytes in each row of the table, the whole file's last.
fn bytes_column(text: &str) -> Vec<usize> {
    let rows = text.lines().filter(|line| line.ends_with('%'));
    rows.map(|row| row.split_whitespace().rev().nth(1).unwrap().parse().unwrap()).collect()
}

#[test]
fn fields_and_shares() {
    let bench = Bench::with_reel(&pictures(3));
    bench.done(&["trailer", "write", "reel.flc"]);
    let text = bench.done(&["info", "reel.flc"]);
    for line in ["frames   3 and the ring", "width    37", "height   21", "speed    70 ms a frame", "aspect   1:1"] {
        assert!(text.lines().any(|found| found == line), "{line}: {text}");
    }
    let (whole, parts) = bytes_column(&text).split_last().map(|(whole, parts)| (*whole, parts.to_vec())).unwrap();
    assert_eq!((parts.iter().sum::<usize>(), whole), (whole, bench.read("reel.flc").len()));
    assert!(text.contains("trailer "), "{text}");
}

#[test]
fn what_is_no_reel_has_no_header() {
    let bench = Bench::with_pictures(&pictures(1));
    let run = bench.run(&["info", "1.ppm"]);
    assert_eq!((run.status, run.out.as_str()), (1, ""));
    assert!(run.err.starts_with("flic: 1.ppm: refused 5 at offset 0, in the file header: "), "{}", run.err);
}

#[test]
fn a_refused_file_shows_its_header() {
    let bench = Bench::with_reel(&pictures(3));
    let mut bytes = bench.read("reel.flc");
    bytes[14] = 0;
    bench.write("reel.flc", &bytes);
    let run = bench.run(&["info", "reel.flc"]);
    assert_eq!(run.status, 1);
    assert!(run.out.contains("flags    0 (not closed)"), "{}", run.out);
    assert!(run.err.starts_with("flic: reel.flc: refused 14 at offset 0, in the file header: "), "{}", run.err);
}

#[test]
fn a_wrong_trailer_is_said_behind_the_shares() {
    let bench = Bench::with_reel(&pictures(1));
    let bytes = bench.read("reel.flc");
    bench.write("reel.flc", &[&bytes[..], &[7; 9]].concat());
    let run = bench.run(&["info", "reel.flc"]);
    assert!(run.status == 1 && run.out.contains("\nbehind the reel, not its trailer "), "{}", run.out);
    assert!(run.err.starts_with("flic: reel.flc: refused 17 at offset 0, in the trailer: the 9 bytes "), "{}", run.err);
}

#[test]
fn as_json() {
    let bench = Bench::with_reel(&pictures(3));
    let text = bench.done(&["info", "--json", "reel.flc"]);
    let start = r#"{"file":"reel.flc","ok":true,"refusal":null,"header":{"format":"FLC","size":2719,"magic":44818,"frames":3,"width":37,"height":21,"depth":8,"flags":3,"jiffies":null,"speed":70,"created":0,"#;
    assert!(text.starts_with(start), "{text}");
    assert!(
        text.contains(
            r#""shares":[{"name":"file header","count":1,"bytes":128},{"name":"frame headers","count":4,"bytes":64},"#
        ),
        "{text}"
    );
    bench.write("reel.flc", b"GIF89a");
    let run = bench.run(&["info", "--json", "reel.flc"]);
    assert!(
        run.out.contains(r#""found":"this is a GIF""#) && run.out.ends_with("\"header\":null,\"shares\":[]}\n"),
        "{}",
        run.out
    );
    assert_eq!((run.status, run.err.as_str()), (1, ""));
}

#[test]
fn an_fli_has_its_delay_in_both_units() {
    let bench = Bench::with_fli(&full_size(3));
    let text = bench.done(&["info", "reel.fli"]);
    let fields: Vec<&str> = text.lines().take_while(|line| !line.is_empty()).collect();
    let expected = [
        "format   FLI",
        &format!("size     {} bytes", bench.read("reel.fli").len()),
        "magic    AF11",
        "frames   3 and the ring",
        "width    320",
        "height   200",
        "depth    8",
        "flags    0",
        "delay    5 jiffies a frame",
        "speed    71 ms a frame",
    ];
    assert_eq!(fields, expected);
    assert!(text.contains("\nkind 12: LC, delta ") && !text.contains("kind 7"), "{text}");
    let (whole, parts) = bytes_column(&text).split_last().map(|(whole, parts)| (*whole, parts.to_vec())).unwrap();
    assert_eq!((parts.iter().sum::<usize>(), whole), (whole, bench.read("reel.fli").len()));
    let json = bench.done(&["info", "--json", "reel.fli"]);
    assert!(json.contains(r#""header":{"format":"FLI","size":"#), "{json}");
    let rest = r#""flags":0,"jiffies":5,"speed":71,"created":null,"creator":null,"updated":null,"updater":null,"aspect_x":null,"aspect_y":null,"oframe1":null,"oframe2":null}"#;
    assert!(json.contains(rest), "{json}");
}

#[test]
fn a_refused_fli_shows_its_header() {
    let bench = Bench::with_fli(&full_size(1));
    let mut bytes = bench.read("reel.fli");
    bytes[14] = 3;
    bench.write("reel.fli", &bytes);
    let run = bench.run(&["info", "reel.fli"]);
    assert!(run.status == 1 && run.out.contains("\nflags    3\ndelay    5 jiffies a frame\n"), "{}", run.out);
    assert!(run.err.starts_with("flic: reel.fli: refused 14 at offset 0, in the file header: "), "{}", run.err);
}
