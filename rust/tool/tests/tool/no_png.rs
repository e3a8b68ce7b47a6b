//! PNG, with a tool that was built without it.

use crate::bench::Bench;
use crate::pictures::pictures;

#[test]
fn what_needs_png_says_how_to_get_it() {
    let bench = Bench::with_reel(&pictures(1));
    bench.write("1.png", b"\x89PNG\r\n\x1a\n");
    let how = "install Debian's librust-png-dev, then run ./flic again";
    let err = bench.fails(1, &["build", "new.flc", "--speed", "70", "1.png"]);
    assert!(err.starts_with("flic: 1.png: is a PNG picture, and ") && err.contains(how), "{err}");
    let err = bench.fails(1, &["frames", "reel.flc", "out", "--png"]);
    assert!(err.starts_with("flic: --png can't be done: ") && err.contains(how), "{err}");
    let err = bench.fails(1, &["diff", "reel.flc", "reel.flc", "--png", "out"]);
    assert!(err.starts_with("flic: --png can't be done: ") && err.contains(how), "{err}");
    let err = bench.fails(1, &["sheet", "reel.flc", "out.png"]);
    assert!(err.starts_with("flic: flic sheet can't be done: ") && err.contains(how), "{err}");
}
