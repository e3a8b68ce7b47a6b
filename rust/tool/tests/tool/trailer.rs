//! `flic trailer`.

use crate::bench::Bench;
use crate::pictures::{full_size, pictures, ppm};

#[test]
fn written_and_then_right() {
    let bench = Bench::with_reel(&[ppm(1, 1, |_, _| [0; 3])]);
    let bare = bench.read("reel.flc");
    assert_eq!(bench.done(&["trailer", "check", "reel.flc"]), "reel.flc: ok, without a trailer\n");
    assert_eq!(bench.done(&["trailer", "write", "reel.flc"]), "reel.flc: a trailer of 16 bytes\n");
    assert_eq!(bench.done(&["trailer", "check", "reel.flc"]), "reel.flc: ok, a trailer of 16 bytes\n");
    let trailer = [128, 0, 0, 0, 144, 0, 0, 0, 16, 0, 0, 0, 2, 0, 1, 0];
    assert_eq!(bench.read("reel.flc"), [&bare[..], &trailer].concat());
    assert_eq!(bench.names("."), ["1.ppm", "reel.flc"]);
}

#[test]
fn something_else_is_refused_and_makes_way() {
    let bench = Bench::with_reel(&pictures(2));
    let bare = bench.read("reel.flc");
    bench.write("reel.flc", &[&bare[..], &[7; 50]].concat());
    let err = bench.fails(1, &["trailer", "check", "reel.flc"]);
    assert!(err.starts_with("flic: reel.flc: refused 17 at offset 0, in the trailer: "), "{err}");
    let said = bench.done(&["trailer", "write", "reel.flc"]);
    assert_eq!(said, "reel.flc: a trailer of 20 bytes, in place of 50 bytes that weren't its trailer\n");
    assert_eq!(bench.done(&["trailer", "check", "reel.flc"]), "reel.flc: ok, a trailer of 20 bytes\n");
    assert_eq!(bench.read("reel.flc")[..bare.len()], bare);
}

#[test]
fn a_damaged_reel_stays_as_it_is() {
    let bench = Bench::with_reel(&pictures(2));
    let mut damaged = bench.read("reel.flc");
    damaged[128] = 15;
    damaged[129..132].fill(0);
    bench.write("reel.flc", &damaged);
    for task in ["check", "write"] {
        let err = bench.fails(1, &["trailer", task, "reel.flc"]);
        assert!(err.starts_with("flic: reel.flc: refused 6 at offset 128, in frame 1 of 2: "), "{err}");
    }
    assert_eq!(bench.read("reel.flc"), damaged);
}

#[test]
fn a_reel_that_is_write_protected_stays_as_it_is() {
    let bench = Bench::with_reel(&pictures(2));
    let before = bench.read("reel.flc");
    bench.protect("reel.flc");
    let err = bench.fails(1, &["trailer", "write", "reel.flc"]);
    assert_eq!(err, "flic: reel.flc: is write-protected: make it writable first, or give another name\n");
    assert_eq!(bench.read("reel.flc"), before);
}

#[test]
fn other_tasks_are_wrong_usage() {
    let bench = Bench::with_reel(&pictures(1));
    assert!(bench.fails(2, &["trailer", "remove", "reel.flc"]).starts_with("flic: remove isn't check or write\n"));
    assert!(bench.fails(2, &["trailer", "check"]).starts_with("flic: FILE is missing\n"));
}

#[test]
fn an_fli_has_none() {
    let bench = Bench::with_fli(&full_size(1));
    let before = bench.read("reel.fli");
    for task in ["check", "write"] {
        let err = bench.fails(1, &["trailer", task, "reel.fli"]);
        let expected = "flic: reel.fli: refused 5 at offset 0, in the file header: this is an FLI, and listings and \
                        trailers are of FLC files only; ";
        assert!(err.starts_with(expected) && err.contains("flic convert FILE OUT.flc"), "{err}");
    }
    assert_eq!(bench.read("reel.fli"), before);
}
