//! `flic check`.

use crate::bench::Bench;
use crate::pictures::{full_size, pictures};
use crate::reels::{in_form_of_flc, sized};
use flic::{write_frame, CheckedReel, Format};
use std::fs;
use std::os::unix::fs::{symlink, PermissionsExt};

/// The line that the check prints of `reel.flc` once it has these bytes, with exit status 1.
fn refusal(bench: &Bench, bytes: &[u8]) -> String {
    bench.write("reel.flc", bytes);
    let run = bench.run(&["check", "reel.flc"]);
    assert_eq!((run.status, run.err.as_str()), (1, ""), "{}", run.out);
    run.out
}

#[test]
fn a_built_reel_is_right() {
    let bench = Bench::with_reel(&pictures(3));
    assert_eq!(bench.done(&["check", "reel.flc"]), "reel.flc: ok\n");
    bench.done(&["trailer", "write", "reel.flc"]);
    assert_eq!(bench.done(&["check", "reel.flc"]), "reel.flc: ok\n");
}

#[test]
fn refusals_have_their_place_and_frame() {
    let bench = Bench::with_reel(&pictures(3));
    let right = bench.read("reel.flc");
    let frames = CheckedReel::new(&right).unwrap().frame_chunks().to_vec();

    let cut = refusal(&bench, &right[..right.len() - 1]);
    assert!(
        cut.starts_with("reel.flc: refused 4 at offset 0, in the file header: it has 2,718 of 2,719 bytes; "),
        "{cut}"
    );
    assert!(
        cut.ends_with("; copy the file anew, or save the frames that are there with flic repair IN OUT\n"),
        "{cut}"
    );

    for (frame, part) in frames.iter().zip(["frame 1 of 3", "frame 2 of 3", "frame 3 of 3", "the ring"]) {
        let mut damaged = right.clone();
        damaged[frame.offset + 16] = 5;
        damaged[frame.offset + 17..frame.offset + 20].fill(0);
        let start = format!("reel.flc: refused 6 at offset {}, in {part}: ", frame.offset + 16);
        let line = refusal(&bench, &damaged);
        assert!(line.starts_with(&start), "{line}");

        let mut damaged = right.clone();
        damaged[frame.offset + 3] = 1;
        let start = format!("reel.flc: refused 4 at offset {}, in {part}: ", frame.offset);
        let line = refusal(&bench, &damaged);
        assert!(line.starts_with(&start), "{line}");
    }
}

#[test]
fn a_ring_written_from_frame_1_to_itself_is_found() {
    let bench = Bench::with_reel(&pictures(3));
    let right = bench.read("reel.flc");
    let reel = CheckedReel::new(&right).unwrap();
    let ring = reel.frame_chunks()[3].offset;
    let first = reel.frames().next().unwrap().state;
    let mut wrong = right[..ring].to_vec();
    wrong.extend(write_frame(Format::Flc, &first, &first).unwrap());
    let size = wrong.len() as u32;
    wrong[..4].copy_from_slice(&size.to_le_bytes());
    let line = refusal(&bench, &wrong);
    assert!(line.starts_with(&format!("reel.flc: refused 16 at offset {ring}, in the ring: ")), "{line}");
}

#[test]
fn old_bytes_behind_a_chunk_are_found_and_a_byte_of_padding_is_not() {
    let bench = Bench::with_reel(&pictures(3));
    let right = bench.read("reel.flc");
    let ring = CheckedReel::new(&right).unwrap().frame_chunks()[3].offset;
    let size_at = |at: usize| u32::from_le_bytes(right[at..at + 4].try_into().unwrap());
    let last = (1..right[ring + 6]).fold(ring + 16, |at, _| at + size_at(at) as usize);
    let with_spare = |spare: u32| {
        let mut bytes = right.clone();
        for at in [0, ring, last] {
            bytes[at..at + 4].copy_from_slice(&(size_at(at) + spare).to_le_bytes());
        }
        bytes.resize(bytes.len() + spare as usize, 7);
        bytes
    };
    bench.write("reel.flc", &with_spare(1));
    assert_eq!(bench.done(&["check", "reel.flc"]), "reel.flc: ok\n");
    let line = refusal(&bench, &with_spare(2));
    let start = format!("reel.flc: refused 19 at offset {last}, in the ring: more than one spare byte stands");
    assert!(line.starts_with(&start) && line.ends_with("flic repair IN OUT takes them out\n"), "{line}");
}

#[test]
fn what_stands_behind_the_reel_is_checked() {
    let bench = Bench::with_reel(&pictures(1));
    let mut bytes = bench.read("reel.flc");
    bytes.push(0);
    let line = refusal(&bench, &bytes);
    let expected = "reel.flc: refused 17 at offset 0, in the trailer: the byte behind the reel isn't its trailer; ";
    assert!(line.starts_with(expected), "{line}");
}

#[test]
fn a_file_of_any_size_is_checked_and_played() {
    let bench = Bench::with_reel(&pictures(2));
    let frames = bench.frames("reel.flc", "1");
    bench.lengthen("reel.flc", 1 << 40);
    assert_eq!(bench.frames("reel.flc", "1"), frames);
    let run = bench.run(&["check", "reel.flc"]);
    assert!(run.out.starts_with("reel.flc: refused 17 at offset 0, in the trailer: "), "{}{}", run.out, run.err);
    let err = bench.fails(1, &["trailer", "check", "reel.flc"]);
    assert!(err.starts_with("flic: reel.flc: refused 17 at offset 0, in the trailer: "), "{err}");
}

#[test]
fn a_reel_longer_than_is_read_at_once_is_checked_and_played() {
    let bench = Bench::with_reel(&pictures(2));
    let frames = bench.frames("reel.flc", "1");
    let mut bytes = bench.read("reel.flc");
    // A chunk of an unknown kind before frame 1.
    let mut other = vec![7; 3_000_000];
    other[..4].copy_from_slice(&3_000_000u32.to_le_bytes());
    bytes.splice(128..128, other);
    let size = bytes.len() as u32;
    bytes[..4].copy_from_slice(&size.to_le_bytes());
    for length in [bytes.len() as u64, 1 << 33] {
        bench.write("reel.flc", &bytes);
        bench.lengthen("reel.flc", length);
        assert_eq!(bench.frames("reel.flc", "1"), frames, "{length}");
    }
    let err = bench.fails(1, &["trailer", "check", "reel.flc"]);
    assert!(err.starts_with("flic: reel.flc: refused 17 at offset 0, in the trailer: "), "{err}");
    let line = refusal(&bench, &bytes[..2_500_000]);
    assert!(line.starts_with("reel.flc: refused 4 at offset 0, in the file header: "), "{line}");
}

#[test]
fn every_file_is_told_of() {
    let bench = Bench::with_reel(&pictures(2));
    bench.write("empty.flc", b"");
    let run = bench.run(&["check", "missing.flc", "empty.flc", "reel.flc"]);
    assert_eq!(run.status, 1);
    assert!(run.err.starts_with("flic: missing.flc: can't be read: "), "{}", run.err);
    assert!(run.out.starts_with("empty.flc: refused 4 at offset 0, in the file header: "), "{}", run.out);
    assert!(run.out.ends_with("\nreel.flc: ok\n1 ok, 1 refused, 1 not checked\n"), "{}", run.out);
}

#[test]
fn a_refusal_says_what_was_found_and_what_to_do() {
    let bench = Bench::with_reel(&pictures(3));
    let right = bench.read("reel.flc");
    let with = |changes: &[(usize, u8)]| {
        let mut bytes = right.clone();
        changes.iter().for_each(|(at, byte)| bytes[*at] = *byte);
        bytes
    };
    let image = |front: &[u8]| [front, &[7; 200]].concat();
    let repair = "flic repair IN OUT makes a reel of the frames that are there";
    let cases: [(Vec<u8>, String); 19] = [
        (vec![], "4 at offset 0, in the file header: it is empty; copy the file anew".to_string()),
        (right[..100].to_vec(), "4 at offset 0, in the file header: it has 100 bytes, and a header alone has 128; copy the file anew".to_string()),
        (right[..200].to_vec(), "4 at offset 0, in the file header: it has 200 of 2,719 bytes; copy the file anew".to_string()),
        (right[..2_000].to_vec(), "4 at offset 0, in the file header: it has 2,000 of 2,719 bytes; copy the file anew, or save the frames that are there with flic repair IN OUT".to_string()),
        (with(&[(8, 0x80), (9, 2), (10, 0xE0), (11, 1)]), "2 at offset 0, in the file header: it is 640 by 480, and a board takes at most 320 by 200; make it anew from pictures of a size that the board takes".to_string()),
        (with(&[(8, 0)]), "2 at offset 0, in the file header: it is 0 by 21, and a board takes at least 1 by 1; make it anew from pictures of a size that the board takes".to_string()),
        (with(&[(12, 16)]), "14 at offset 0, in the file header: its depth is 16, and a board takes 8 bits a pixel; make the file anew".to_string()),
        (with(&[(14, 0)]), format!("14 at offset 0, in the file header: it was never closed: its flags are 0, not 3; {repair}")),
        (with(&[(6, 0)]), format!("14 at offset 0, in the file header: its header says that it has 0 frames, and a reel has 1 to 4,000; {repair}")),
        (with(&[(7, 0x20)]), format!("14 at offset 0, in the file header: its header says that it has 8,195 frames, and a reel has 1 to 4,000; {repair}")),
        (with(&[(0, 17), (1, 0)]), "6 at offset 0, in the file header: its header says that it has 17 bytes, less than the header itself; copy the file anew; if it stays, flic repair IN OUT keeps the frames that can be read".to_string()),
        (with(&[(6, 4)]), format!("15 at offset 2719, in the ring: all its frames are there, but no ring; {repair}")),
        (with(&[(6, 9)]), format!("15 at offset 2719, in frame 5 of 9: it has 4 of 9 frames, and no ring; {repair}")),
        (image(b"\x89PNG\r\n\x1a\n"), "5 at offset 0, in the file header: this is a PNG picture; make a reel from pictures with flic build".to_string()),
        (b"GIF89a".to_vec(), "4 at offset 0, in the file header: this is a GIF; write its pictures out with the tool that made it, then make a reel from them with flic build".to_string()),
        (image(b"P6\n320 200\n255\n"), "5 at offset 0, in the file header: this is a PPM picture; make a reel from pictures with flic build".to_string()),
        (with(&[(4, 0x11)]), "2 at offset 0, in the file header: it is 37 by 21, and an FLI is 320 by 200; make it anew from pictures of that size, or as an FLC".to_string()),
        (image(&[7]), "5 at offset 0, in the file header: this is neither an FLC nor an FLI: its magic is 0707, not AF12 or AF11; check which file it is".to_string()),
        ([&right[..], &[1, 2]].concat(), "17 at offset 0, in the trailer: the 2 bytes behind the reel aren't its trailer; write it anew with flic trailer write FILE".to_string()),
    ];
    for (bytes, expected) in cases {
        assert_eq!(refusal(&bench, &bytes), format!("reel.flc: refused {expected}\n"));
    }
}

/// A bench with the folder `boards`: two right reels, one of them deeper, a refused one, and other files.
fn boards() -> Bench {
    let bench = Bench::with_reel(&pictures(2));
    let right = bench.read("reel.flc");
    fs::create_dir_all(bench.path("boards/hall/old")).unwrap();
    bench.write("boards/hall/old/MENU.FLC", &right);
    bench.write("boards/a.flc", &right);
    bench.write("boards/cut.fli", &right[..200]);
    bench.write("boards/notes.txt", b"");
    bench.write("boards/.a.flc.1-0.tmp", b"");
    // A folder that is its own, and one that lies elsewhere.
    symlink("..", bench.path("boards/hall/up")).unwrap();
    bench
}

#[test]
fn folders_are_gone_down_into() {
    let bench = boards();
    let cut =
        "boards/cut.fli: refused 4 at offset 0, in the file header: it has 200 of 2,067 bytes; copy the file anew\n";
    let run = bench.run(&["check", "boards"]);
    let expected = format!("boards/a.flc: ok\n{cut}boards/hall/old/MENU.FLC: ok\n2 ok, 1 refused\n");
    assert_eq!((run.status, run.out, run.err.as_str()), (1, expected, ""));
    let run = bench.run(&["check", "-q", "boards", "reel.flc"]);
    assert_eq!((run.status, run.out.as_str(), run.err.as_str()), (1, cut, ""));
    fs::remove_file(bench.path("boards/cut.fli")).unwrap();
    assert_eq!(bench.done(&["check", "boards", "-q"]), "");
    assert!(bench.done(&["check", "boards", "reel.flc"]).ends_with("reel.flc: ok\n3 ok, 0 refused\n"));
    assert_eq!(bench.done(&["check", "boards/hall"]), "boards/hall/old/MENU.FLC: ok\n1 ok, 0 refused\n");
}

#[test]
fn a_folder_without_reels_is_not_ok() {
    let bench = boards();
    fs::create_dir(bench.path("empty")).unwrap();
    let run = bench.run(&["check", "empty"]);
    assert_eq!((run.status, run.out.as_str()), (1, "0 ok, 0 refused, 1 not checked\n"));
    assert_eq!(run.err, "flic: empty: holds no file .flc or .fli\n");
    if bench.may_become_nobody() {
        bench.open_to_all(".");
        fs::set_permissions(bench.path("boards/hall"), fs::Permissions::from_mode(0o700)).unwrap();
        let run = bench.run_as_nobody(&["check", "boards"]);
        assert_eq!(
            run.err,
            "flic: boards/hall: can't be read: Permission denied (os error 13); check who may read and write there\n"
        );
        assert!(run.status == 1 && run.out.ends_with("\n1 ok, 1 refused, 1 not checked\n"), "{}", run.out);
    }
}

#[test]
fn as_json() {
    let bench = boards();
    bench.write("boards/a\"\n.flc", b"GIF89a");
    let run = bench.run(&["check", "--json", "boards", "missing.flc"]);
    let expected = r#"{"files":[{"file":"boards/a\"\u000a.flc","format":null,"ok":false,"refusal":{"number":4,"name":"Cut","offset":0,"part":"the file header","found":"this is a GIF","advice":"write its pictures out with the tool that made it, then make a reel from them with flic build"},"error":null},{"file":"boards/a.flc","format":"FLC","ok":true,"refusal":null,"error":null},{"file":"boards/cut.fli","format":"FLC","ok":false,"refusal":{"number":4,"name":"Cut","offset":0,"part":"the file header","found":"it has 200 of 2,067 bytes","advice":"copy the file anew"},"error":null},{"file":"boards/hall/old/MENU.FLC","format":"FLC","ok":true,"refusal":null,"error":null},{"file":"missing.flc","format":null,"ok":false,"refusal":null,"error":"missing.flc: can't be read: No such file or directory (os error 2); check the name and the directory"}],"ok":2,"refused":2,"unread":1}"#;
    assert_eq!((run.status, run.out.trim_end(), run.err.as_str()), (1, expected, ""));
    let quiet = bench.run(&["check", "--json", "-q", "reel.flc"]);
    assert_eq!((quiet.status, quiet.out.as_str()), (0, "{\"files\":[],\"ok\":1,\"refused\":0,\"unread\":0}\n"));
}

/// The line that the check prints of `reel.fli` once it has these bytes, with exit status 1.
fn refusal_of_fli(bench: &Bench, bytes: &[u8]) -> String {
    bench.write("reel.fli", bytes);
    let run = bench.run(&["check", "reel.fli"]);
    assert_eq!((run.status, run.err.as_str()), (1, ""), "{}", run.out);
    run.out
}

#[test]
fn an_fli_is_checked_by_its_magic() {
    let bench = Bench::with_fli(&full_size(3));
    assert_eq!(bench.done(&["check", "reel.fli"]), "reel.fli: ok\n");
    let right = bench.read("reel.fli");
    // An FLI has no trailer, and nothing behind it is one.
    bench.write("reel.fli", &[&right[..], &[7; 50]].concat());
    assert_eq!(bench.done(&["check", "reel.fli"]), "reel.fli: ok\n");
    bench.write("reel.flc", &right);
    let other = "reel.flc: ok, but it is an FLI: rename it to end in .fli, or make an FLC of it with flic convert\n";
    assert_eq!(bench.done(&["check", "reel.flc"]), other);
    bench.done(&["build", "right.flc", "--speed", "70", "1.ppm"]);
    bench.write("Wrong.FLI", &bench.read("right.flc"));
    let other = "Wrong.FLI: ok, but it is an FLC: rename it to end in .flc, or make an FLI of it with flic convert\n";
    assert_eq!(bench.done(&["check", "Wrong.FLI"]), other);
    assert_eq!(bench.done(&["check", "Wrong.FLI", "-q"]), "");
}

#[test]
fn refusals_of_an_fli_say_what_an_fli_is() {
    let bench = Bench::with_fli(&full_size(3));
    let right = bench.read("reel.fli");
    let with = |at: usize, byte: u8| {
        let mut bytes = right.clone();
        bytes[at] = byte;
        refusal_of_fli(&bench, &bytes)
    };
    let repair = "flic repair IN OUT makes a reel of the frames that are there";
    let header = "reel.fli: refused";
    assert_eq!(
        with(14, 3),
        format!("{header} 14 at offset 0, in the file header: its flags are 3, and those of an FLI are 0; {repair}\n")
    );
    assert_eq!(with(6, 0), format!("{header} 14 at offset 0, in the file header: its header says that it has 0 frames, and a reel has 1 to 4,000; {repair}\n"));
    let size = "2 at offset 0, in the file header: it is 320 by 100, and an FLI is 320 by 200; make it anew from pictures of that size, or as an FLC";
    assert_eq!(with(10, 100), format!("{header} {size}\n"));
    assert!(with(4, 0x13).contains("refused 5 at offset 0, in the file header: this is neither an FLC nor an FLI"));
    // The delay and what stands behind it are the file's own affair.
    for at in [16, 17, 18, 127] {
        let mut bytes = right.clone();
        bytes[at] = 0x55;
        bench.write("reel.fli", &bytes);
        assert_eq!(bench.done(&["check", "reel.fli"]), "reel.fli: ok\n", "{at}");
    }
}

#[test]
fn what_only_an_flc_may_hold_is_found_in_an_fli() {
    let bench = Bench::with_fli(&full_size(3));
    let right = bench.read("reel.fli");
    let (wrong, places) = in_form_of_flc(&right);
    let advice = "a board that takes FLI can't draw it: flic repair IN OUT writes such frames anew as an FLI has them";
    let expected = format!(
        "reel.fli: refused 20 at offset {}, in frame 2 of 3: this is an FLI, and holds a chunk of kind 7 (SS2, delta), \
         which only an FLC may hold; {advice}\n",
        places[0]
    );
    assert_eq!(refusal_of_fli(&bench, &wrong), expected);
    // A postage stamp as the only thing in frame 1 before it: its count is one more.
    let mut stamped = right.clone();
    stamped.splice(144..144, [7, 0, 0, 0, 18, 0, 9]);
    (stamped[128], stamped[134]) = (stamped[128] + 7, stamped[134] + 1);
    let line = refusal_of_fli(&bench, &sized(stamped));
    assert!(line.starts_with("reel.fli: refused 20 at offset 144, in frame 1 of 3: "), "{line}");
    assert!(line.contains("kind 18 (postage stamp)"), "{line}");
}

#[test]
fn json_has_the_format() {
    let bench = Bench::with_fli(&full_size(1));
    let text = bench.done(&["check", "--json", "reel.fli"]);
    let expected = r#"{"files":[{"file":"reel.fli","format":"FLI","ok":true,"refusal":null,"error":null}],"ok":1,"#;
    assert!(text.starts_with(expected), "{text}");
}
