//! `flic page`; tests/browser looks at what it shows.

use crate::bench::{grouped, Bench};
use crate::pictures::{full_size, pictures};

#[test]
fn a_page_is_one_file_that_fetches_nothing() {
    let bench = Bench::with_reel(&pictures(3));
    let said = bench.done(&["page", "reel.flc", "page.html"]);
    let page = String::from_utf8(bench.read("page.html")).unwrap();
    assert_eq!(said, format!("page.html: 3 frames and the ring, {} bytes\n", grouped(page.len())));
    assert!(page.starts_with("<!DOCTYPE html>\n") && page.ends_with("</html>\n"));
    assert!(page.contains("<title>reel.flc</title>") && page.contains("reel.flc: 3 frames and the ring, 70 ms each"));
    assert!(!page.contains("{{"), "every part is filled in");
    for word in ["http:", "https:", "src=", "href=", "fetch("] {
        assert!(!page.contains(word), "{word}");
    }
    // A frame a line, the ring the last.
    let frames = page.lines().filter(|line| line.starts_with('"')).count();
    assert_eq!(frames, 4 + 1, "the frames, the ring and \"use strict\"");
}

#[test]
fn a_name_stays_a_name() {
    let bench = Bench::with_reel(&pictures(1));
    let name = "<script>alert('{{reel}}')&.flc";
    bench.write(name, &bench.read("reel.flc"));
    bench.done(&["page", name, "page.html"]);
    let page = String::from_utf8(bench.read("page.html")).unwrap();
    assert!(page.contains("<title>&lt;script&gt;alert('{{reel}}')&amp;.flc</title>"));
    assert_eq!(page.matches("<script>").count(), 1);
}

#[test]
fn only_a_page_is_replaced_without_being_asked() {
    let bench = Bench::with_reel(&pictures(2));
    bench.write("mine.html", b"<p>mine");
    let err = bench.fails(1, &["page", "reel.flc", "mine.html"]);
    assert_eq!(err, "flic: mine.html: is there already: give another name, or --force to replace it\n");
    bench.done(&["page", "reel.flc", "mine.html", "--force"]);
    bench.done(&["page", "reel.flc", "mine.html"]);
    bench.write("wrong.flc", b"not a reel");
    assert!(bench.fails(1, &["page", "wrong.flc", "new.html"]).starts_with("flic: wrong.flc: refused 4 at offset 0"));
}

#[test]
fn a_page_of_an_fli_plays_as_that_of_the_same_flc() {
    let bench = Bench::with_fli(&full_size(3));
    bench.done(&["convert", "reel.fli", "reel.flc"]);
    let page = |name: &str| {
        bench.done(&["page", name, "page.html"]);
        String::from_utf8(bench.read("page.html")).unwrap()
    };
    let of_fli = page("reel.fli");
    assert!(of_fli.contains("reel.fli: 3 frames and the ring, 71 ms each"));
    assert_eq!(of_fli.replace("reel.fli", "reel.flc"), page("reel.flc"));
}
