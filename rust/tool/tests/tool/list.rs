//! `flic list`.

use crate::bench::Bench;
use crate::pictures::{full_size, noise, pictures, ppm};
use crate::reels::{sized, sloppy};
use flic::{write_frame, CheckedReel, Format};

#[test]
fn the_blank_reel_of_document_01() {
    let bench = Bench::with_reel(&[ppm(1, 1, |_, _| [0; 3])]);
    let expected = "flic 1 1 1\n0 128 61946 16 frame 1\n0 144 61946 16 ring\nok\n";
    assert_eq!(bench.done(&["list", "reel.flc"]), expected);
}

/// The listing without the names.
fn bare(text: &str) -> String {
    let line = |line: &str| match line.starts_with(|first: char| first.is_ascii_digit()) {
        true => line.split(' ').take(4).collect::<Vec<&str>>().join(" "),
        false => line.to_string(),
    };
    text.lines().map(|text| line(text) + "\n").collect()
}

#[test]
fn but_for_the_names_it_is_the_codec_s_listing() {
    let bench = Bench::with_reel(&pictures(3));
    let right = bench.read("reel.flc");
    let sloppy = sloppy(&right);
    for bytes in [&right, &sloppy] {
        bench.write("reel.flc", bytes);
        let listed = bench.done(&["list", "reel.flc"]);
        assert_eq!(bare(&listed), flic::list(bytes).unwrap());
    }
    let listed = bench.done(&["list", "reel.flc"]);
    for line in
        ["0 128 61696 10 prefix", "1 154 4 778 colours, 256 levels", "1 932 99 15 unknown", "1 947 16 783 COPY, full"]
    {
        assert!(listed.lines().any(|found| found == line), "{line}: {listed}");
    }
}

#[test]
fn a_reel_of_any_size_is_listed() {
    let bench = Bench::with_reel(&[noise(1), noise(2), noise(3)]);
    let bytes = bench.read("reel.flc");
    assert!(bytes.len() > 2 * 65_536, "{}", bytes.len());
    let listed = bench.done(&["list", "reel.flc"]);
    let frames: Vec<String> = (1..)
        .zip(CheckedReel::new(&bytes).unwrap().frame_chunks())
        .map(|(number, frame)| {
            let name = if number == 4 { "ring".to_string() } else { format!("frame {number}") };
            format!("0 {} 61946 {} {name}", frame.offset, frame.size)
        })
        .collect();
    let found: Vec<&str> = listed.lines().filter(|line| line.starts_with("0 ")).collect();
    assert_eq!(found, frames);
    assert!(listed.starts_with("flic 320 200 3\n") && listed.ends_with("\nok\n"), "{listed}");
    bench.lengthen("reel.flc", 1 << 40);
    let run = bench.run(&["list", "reel.flc"]);
    assert_eq!((run.status, run.out), (1, listed.replace("\nok\n", "\nrefused 17 0\n")));
}

#[test]
fn what_the_check_refuses_is_listed_as_far_as_it_goes_and_not_ok() {
    let bench = Bench::with_reel(&pictures(2));
    let right = bench.read("reel.flc");
    let listed = bench.done(&["list", "reel.flc"]);
    let (first, ring) = {
        let reel = CheckedReel::new(&right).unwrap();
        let state = reel.frames().next().unwrap().state;
        (state, reel.frame_chunks()[2].offset)
    };
    let refused = |bytes: &[u8]| {
        bench.write("reel.flc", bytes);
        let run = bench.run(&["list", "reel.flc"]);
        assert_eq!(run.status, 1);
        (run.out, run.err)
    };
    let before_ring: String =
        listed.lines().take_while(|line| !line.ends_with(" ring")).map(|line| format!("{line}\n")).collect();

    let wrong_ring = sized([&right[..ring], &write_frame(Format::Flc, &first, &first).unwrap()].concat());
    let (out, err) = refused(&wrong_ring);
    assert_eq!(out, format!("{before_ring}0 {ring} 61946 16 ring\nrefused 16 {ring}\n"));
    assert!(err.starts_with(&format!("flic: reel.flc: refused 16 at offset {ring}, in the ring: ")), "{err}");

    let (out, err) = refused(&right[..ring + 3]);
    assert_eq!(out, format!("{before_ring}refused 4 0\n"));
    assert!(err.contains("it has "), "{err}");

    let mut many = right.clone();
    many[6] = 200;
    let (out, err) = refused(&many);
    let expected = listed.replace("flic 37 21 2", "flic 37 21 200").replace(" ring", " frame 3");
    assert_eq!(out, expected.replace("\nok\n", &format!("\nrefused 15 {}\n", right.len())));
    assert!(err.contains("in frame 4 of 200: it has 3 of 200 frames, and no ring"), "{err}");

    assert_eq!(refused(b"GIF89a").0, "refused 4 0\n");
}

#[test]
fn as_json() {
    let bench = Bench::with_reel(&[ppm(1, 1, |_, _| [0; 3])]);
    let expected = r#"{"file":"reel.flc","format":"FLC","ok":true,"refusal":null,"width":1,"height":1,"frames":1,"chunks":[{"depth":0,"offset":128,"kind":61946,"size":16,"name":"frame 1"},{"depth":0,"offset":144,"kind":61946,"size":16,"name":"ring"}]}"#;
    assert_eq!(bench.done(&["list", "reel.flc", "--json"]).trim_end(), expected);
    let bytes = bench.read("reel.flc");
    bench.write("reel.flc", &bytes[..100]);
    let run = bench.run(&["list", "reel.flc", "--json"]);
    assert!(
        run.out.starts_with(r#"{"file":"reel.flc","format":"FLC","ok":false,"refusal":{"number":4,"name":"Cut","#),
        "{}",
        run.out
    );
    assert!(run.out.ends_with("\"width\":null,\"height\":null,\"frames\":null,\"chunks\":[]}\n"), "{}", run.out);
    assert_eq!((run.status, run.err.as_str()), (1, ""));
}

#[test]
fn only_an_flc_is_listed() {
    let bench = Bench::with_fli(&full_size(2));
    let right = bench.read("reel.fli");
    let said =
        "flic: reel.fli: refused 5 at offset 0, in the file header: this is an FLI, and listings and trailers are of \
                FLC files only; flic info FILE says what it holds, and flic convert FILE OUT.flc makes an FLC of it\n";
    let mut damaged = right.clone();
    damaged[128] ^= 1;
    for bytes in [&right, &damaged] {
        bench.write("reel.fli", bytes);
        let run = bench.run(&["list", "reel.fli"]);
        assert_eq!((run.status, run.out.as_str(), run.err.as_str()), (1, "refused 5 0\n", said));
    }
    let run = bench.run(&["list", "reel.fli", "--json"]);
    let start = r#"{"file":"reel.fli","format":"FLI","ok":false,"refusal":{"number":5,"name":"WrongType","#;
    assert!(run.status == 1 && run.out.starts_with(start), "{}", run.out);
    assert!(run.out.ends_with("\"frames\":null,\"chunks\":[]}\n"), "{}", run.out);
}
