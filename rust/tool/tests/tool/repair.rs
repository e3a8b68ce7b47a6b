//! `flic repair`.

use crate::bench::{grouped, Bench};
use crate::pictures::{full_size, pictures, ppm};
use crate::reels::{chunk, frame_of, in_form_of_flc, lengthened, sized, sloppy};
use flic::{write_frame, CheckedReel, Chunk, Format};
use std::os::unix::fs::symlink;

/// A bench with `reel.flc` of so many frames, its bytes, and where its frames and its ring lie.
fn reel(count: usize) -> (Bench, Vec<u8>, Vec<Chunk>) {
    let bench = Bench::with_reel(&pictures(count));
    let bytes = bench.read("reel.flc");
    let chunks = CheckedReel::new(&bytes).unwrap().frame_chunks().to_vec();
    (bench, bytes, chunks)
}

/// What a repair says of these bytes, as `in.flc`; what it leaves is right, and `in.flc` is as it was.
fn repaired(bench: &Bench, bytes: &[u8], options: &[&str]) -> String {
    repaired_as(bench, ["in.flc", "out.flc"], bytes, options)
}

fn repaired_as(bench: &Bench, [file, out]: [&str; 2], bytes: &[u8], options: &[&str]) -> String {
    bench.write(file, bytes);
    let said = bench.done(&[&["repair", file, out, "--force"], options].concat());
    assert_eq!(bench.done(&["check", out]), format!("{out}: ok\n"));
    assert_eq!(bench.read(file), bytes);
    said
}

/// A reel whose every frame is whole, so that none needs the one before.
fn whole_frames(bytes: &[u8]) -> (Vec<u8>, Vec<Chunk>) {
    let frames =
        CheckedReel::new(bytes).unwrap().frames().flat_map(|frame| frame_of(&frame.state)).collect::<Vec<u8>>();
    let whole = sized([&bytes[..128], &frames].concat());
    let chunks = CheckedReel::new(&whole).unwrap().frame_chunks().to_vec();
    (whole, chunks)
}

#[test]
fn a_wrong_ring_is_made_anew() {
    let (bench, right, chunks) = reel(3);
    let first = CheckedReel::new(&right).unwrap().frames().next().unwrap().state;
    let wrong = sized([&right[..chunks[3].offset], &write_frame(Format::Flc, &first, &first).unwrap()].concat());
    bench.write("in.flc", &wrong);
    let check = bench.run(&["check", "in.flc"]).out;
    assert!(check.ends_with(": flic repair IN OUT makes the ring anew\n"), "{check}");
    let said = repaired(&bench, &wrong, &[]);
    let fault = format!(
        "in.flc: refused 16 at offset {}, in the ring: the ring doesn't lead back to frame 1: ",
        chunks[3].offset
    );
    assert!(said.starts_with(&fault), "{said}");
    assert!(
        said.ends_with(" differ\n  the ring is made anew\nout.flc: 3 frames and the ring, 2,719 bytes\n"),
        "{said}"
    );
    assert_eq!(bench.read("out.flc"), right);
}

#[test]
fn a_cut_reel_keeps_the_frames_that_are_there() {
    let (bench, right, chunks) = reel(3);
    let pictures = pictures(3);
    for (frames, chunk) in chunks.iter().enumerate() {
        for length in [chunk.end() - 1, chunk.end(), chunk.end() + 1] {
            let Some(cut) = right.get(..length).filter(|cut| cut.len() < right.len()) else { continue };
            let whole = if length < chunk.end() { frames } else { frames + 1 };
            bench.write("in.flc", cut);
            if whole == 0 {
                let err = bench.fails(1, &["repair", "in.flc", "out.flc"]);
                assert!(err.ends_with("; no frame of it can be kept: copy the file anew\n"), "{err}");
                continue;
            }
            let said = repaired(&bench, cut, &[]);
            let fault = "in.flc: refused 4 at offset 0, in the file header: it has ";
            assert!(said.starts_with(fault) && said.contains(" of 2,719 bytes\n"), "{said}");
            assert!(said.contains("\n  the ring isn't there, and is made anew\n"), "{said}");
            let shown = bench.frames("out.flc", "1");
            assert_eq!(shown, [&pictures[..whole], &pictures[..1]].concat(), "{length}");
        }
    }
    let said = repaired(&bench, &right[..chunks[1].end() + 5], &[]);
    let place = chunks[1].end();
    assert!(said.contains(&format!("\n  frame 3 is lost: no further one is found from offset {place} on\n")), "{said}");
}

#[test]
fn a_reel_that_was_never_closed_is_closed() {
    let (bench, right, chunks) = reel(3);
    let mut open = right[..chunks[3].offset].to_vec();
    for field in [0..4, 6..8, 14..16] {
        open[field].fill(0);
    }
    let said = repaired(&bench, &open, &[]);
    assert!(
        said.starts_with("in.flc: refused 6 at offset 0, in the file header: its header says that it has 0 bytes, "),
        "{said}"
    );
    assert_eq!(bench.read("out.flc"), right);

    let mut open = right.clone();
    open[14] = 0;
    let said = repaired(&bench, &open, &[]);
    assert!(
        said.starts_with(
            "in.flc: refused 14 at offset 0, in the file header: it was never closed: its flags are 0, not 3\n"
        ),
        "{said}"
    );
    assert_eq!(bench.read("out.flc"), right);
}

#[test]
fn a_wrong_count_of_frames_is_put_right() {
    let (bench, right, _) = reel(4);
    for (count, line) in [
        (200, "the header speaks of 200 frames, and 4 are there"),
        (5, "the header speaks of 5 frames, and 4 are there"),
        (2, "the header speaks of 2 frames, and 4 are there"),
        (1, "the header speaks of 1 frame, and 4 are there"),
    ] {
        let mut wrong = right.clone();
        wrong[6] = count;
        let said = repaired(&bench, &wrong, &[]);
        assert!(said.contains(&format!("\n  {line}\n")), "{said}");
        assert_eq!(bench.read("out.flc"), right, "{count}");
    }
    let mut wrong = right.clone();
    wrong[6..8].fill(0);
    repaired(&bench, &wrong, &[]);
    assert_eq!(bench.read("out.flc"), right);
}

#[test]
fn the_longest_reel_is_repaired() {
    let bench = Bench::with_pictures(&[ppm(1, 1, |_, _| [0; 3]), ppm(1, 1, |_, _| [9; 3])]);
    let mut words = vec!["build", "reel.flc", "--speed", "70"];
    words.extend(["1.ppm", "2.ppm"].repeat(2_000));
    bench.done(&words);
    let right = bench.read("reel.flc");
    for count in [0u16, 7, 3_999, 4_001] {
        let mut wrong = right.clone();
        wrong[6..8].copy_from_slice(&count.to_le_bytes());
        repaired(&bench, &wrong, &[]);
        assert_eq!(bench.read("out.flc"), right, "{count}");
    }
}

#[test]
fn a_frame_that_cannot_be_read_is_dropped_and_those_drawn_on_it_are_named() {
    let (bench, right, chunks) = reel(5);
    let mut damaged = right.clone();
    // The first sub-chunk's size.
    damaged[chunks[1].offset + 16..chunks[1].offset + 20].copy_from_slice(&[5, 0, 0, 0]);
    let said = repaired(&bench, &damaged, &[]);
    let dropped = format!(
        "\n  frame 2 can't be read and is dropped: refused 6 at offset {}, a size is less than its own header\n",
        chunks[1].offset + 16
    );
    assert!(said.contains(&dropped), "{said}");
    let unsure =
        "\n  frames 3 to 5 are kept, but made to be drawn on a picture that is gone: look, or leave out with --sure\n";
    assert!(said.contains(unsure) && said.contains("\nout.flc: 4 frames and the ring, "), "{said}");
    assert_eq!(bench.frames("out.flc", "1")[0], pictures(1)[0]);

    let said = repaired(&bench, &damaged, &["--sure"]);
    assert!(said.contains("\n  frames 3 to 5 are dropped too, made to be drawn on a picture that is gone\n"), "{said}");
    assert_eq!(bench.frames("out.flc", "1"), [&pictures(1)[..], &pictures(1)].concat());
}

#[test]
fn without_any_picture_nothing_is_written() {
    let (bench, right, chunks) = reel(3);
    let mut damaged = right.clone();
    damaged[chunks[0].offset + 16..chunks[0].offset + 20].copy_from_slice(&[5, 0, 0, 0]);
    bench.write("in.flc", &damaged);
    assert!(!bench.run(&["check", "in.flc"]).out.contains("repair"));
    for options in [&[][..], &["--sure"]] {
        let err = bench.fails(1, &[&["repair", "in.flc", "out.flc"], options].concat());
        assert!(err.starts_with("flic: in.flc: refused 6 at offset 144, in frame 1 of 3: "), "{err}");
        assert!(err.ends_with("; no frame of it can be kept: copy the file anew\n"), "{err}");
    }
}

#[test]
fn frames_that_draw_everything_are_sure_again() {
    let (bench, right, _) = reel(5);
    let (mut damaged, chunks) = whole_frames(&right);
    for damage in [1, 3] {
        damaged[chunks[damage].offset + 6] = 9;
    }
    for options in [&[][..], &["--sure"]] {
        let said = repaired(&bench, &damaged, options);
        assert!(said.contains("\n  frames 2, 4 can't be read and are dropped: refused 4 at offset "), "{said}");
        assert!(!said.contains("gone"), "{said}");
        let pictures = pictures(5);
        let kept = [0, 2, 4, 0].map(|at| pictures[at].clone());
        assert_eq!(bench.frames("out.flc", "1"), kept);
    }
}

#[test]
fn spare_bytes_are_taken_out() {
    let (bench, right, _) = reel(3);
    let (whole, chunks) = whole_frames(&right);
    let mut damaged = whole.clone();
    // From the back, so that the offsets before stay right: spare bytes behind the colours and behind the pixels.
    for (chunk, spare) in [(chunks[2], 300), (chunks[0], 2)] {
        let size_at = |bytes: &[u8], at: usize| u32::from_le_bytes(bytes[at..at + 4].try_into().unwrap()) as usize;
        let colours = chunk.offset + 16;
        let pixels = (0..2).fold(colours, |at, _| at + size_at(&damaged, at));
        for at in [pixels, colours] {
            let end = at + size_at(&damaged, at);
            damaged.splice(end..end, vec![7; spare]);
            damaged = lengthened(&damaged, at, spare as u32);
            damaged = lengthened(&damaged, chunk.offset, spare as u32);
        }
    }
    let damaged = sized(damaged);
    bench.write("in.flc", &damaged);
    let check = bench.run(&["check", "in.flc"]).out;
    assert!(
        check.starts_with("in.flc: refused 19 at offset ") && check.ends_with("flic repair IN OUT takes them out\n"),
        "{check}"
    );
    let said = repaired(&bench, &damaged, &[]);
    assert!(said.contains("\n  604 spare bytes taken out of frames 1, 3\n"), "{said}");
    assert_eq!(bench.read("out.flc"), right);
}

#[test]
fn other_chunks_are_dropped_or_kept() {
    let (bench, right, chunks) = reel(2);
    let [before, between, behind] = [chunk(0xF100, b"settings"), chunk(77, b"more"), chunk(78, b"last")];
    let bytes = [
        &right[..128],
        &before,
        &right[chunks[0].offset..chunks[0].end()],
        &between,
        &right[chunks[1].offset..],
        &behind,
    ];
    let mut wrong = sized(bytes.concat());
    wrong[14] = 0;
    let said = repaired(&bench, &wrong, &[]);
    let lost = "not kept: 1 chunk of kind 77 (unknown) outside frames, 1 chunk of kind 78 (unknown) outside frames, \
                1 chunk of kind 61696 (prefix) outside frames\n";
    assert!(said.contains(lost), "{said}");
    assert_eq!(bench.read("out.flc"), right);

    let said = repaired(&bench, &wrong, &["--keep-others"]);
    assert!(!said.contains("not kept"), "{said}");
    let mut expected = wrong.clone();
    expected[14] = 3;
    expected[80..84].copy_from_slice(&(128 + before.len() as u32).to_le_bytes());
    expected[84..88].copy_from_slice(&((chunks[1].offset + before.len() + between.len()) as u32).to_le_bytes());
    assert_eq!(bench.read("out.flc"), expected);
}

#[test]
fn a_trailer_is_kept_and_what_is_none_is_not() {
    let (bench, right, chunks) = reel(3);
    bench.done(&["trailer", "write", "reel.flc"]);
    let mut wrong = bench.read("reel.flc");
    wrong[chunks[3].offset + 6] = 0;
    repaired(&bench, &wrong, &[]);
    assert_eq!(bench.read("out.flc"), bench.read("reel.flc"));
    let said = repaired(&bench, &[&right[..], &[7; 50]].concat(), &[]);
    assert!(
        said.starts_with(
            "in.flc: refused 17 at offset 0, in the trailer: the 50 bytes behind the reel aren't its trailer\n"
        ),
        "{said}"
    );
    assert!(said.contains("\n  not kept: 50 bytes behind the reel that aren't its trailer\n"), "{said}");
    assert_eq!(bench.read("out.flc"), right);
}

#[test]
fn a_right_reel_is_said_to_be_right() {
    let (bench, right, _) = reel(2);
    let said = repaired(&bench, &sloppy(&right), &[]);
    assert!(said.starts_with("in.flc: ok, nothing has to be repaired\n  not kept: "), "{said}");
    assert_eq!(bench.read("out.flc"), right);
}

#[test]
fn never_in_place() {
    let (bench, right, _) = reel(2);
    bench.write("in.flc", &right[..1_500]);
    symlink("in.flc", bench.path("link.flc")).unwrap();
    for out in ["in.flc", "./in.flc", "link.flc"] {
        for options in [&[][..], &["--force"]] {
            let err = bench.fails(1, &[&["repair", "in.flc", out], options].concat());
            assert_eq!(err, format!("flic: {out}: is IN and OUT: nothing is repaired in place, give another name\n"));
        }
    }
    assert_eq!(bench.read("in.flc"), right[..1_500]);
    bench.write("other.flc", &right[..1_400]);
    let err = bench.fails(1, &["repair", "in.flc", "other.flc"]);
    assert!(
        err.starts_with("flic: other.flc: is there already, an FLC file of 1,400 bytes that a check refuses, "),
        "{err}"
    );
    assert_eq!(bench.read("other.flc"), right[..1_400]);
}

#[test]
fn what_is_no_reel_of_a_board_is_not_repaired() {
    let (bench, right, _) = reel(1);
    bench.write("large.ppm", &ppm(2, 1, |_, _| [0; 3]));
    let error = |name: &str| bench.fails(1, &["repair", name, "out.flc"]);
    assert!(error("large.ppm").contains("this is a PPM picture; make a reel from pictures with flic build"));
    for (at, number, found) in
        [(12, 14, "its depth is 9, "), (9, 2, "it is 2341 by 21, "), (4, 5, "its magic is AF09, not AF12 or AF11")]
    {
        let mut wrong = right.clone();
        wrong[at] = 9;
        bench.write("wrong.flc", &wrong);
        let err = error("wrong.flc");
        assert!(
            err.starts_with(&format!("flic: wrong.flc: refused {number} at offset 0, ")) && err.contains(found),
            "{err}"
        );
        assert!(!err.contains("repair"), "{err}");
    }
}

#[test]
fn whatever_is_bent_gives_a_right_reel_or_none() {
    let (bench, right, chunks) = reel(3);
    let headers = chunks.iter().flat_map(|chunk| chunk.offset..chunk.offset + 26);
    for at in (0..16).chain(headers) {
        let mut bent = right.clone();
        bent[at] ^= 0x55;
        bench.write("in.flc", &bent);
        let run = bench.run(&["repair", "in.flc", "out.flc", "--force"]);
        match run.status {
            0 => assert_eq!(bench.done(&["check", "out.flc"]), "out.flc: ok\n", "{at}"),
            1 => assert!(run.err.starts_with("flic: in.flc: refused "), "{at}: {}", run.err),
            other => panic!("{at}: {other}: {}", run.err),
        }
        assert_eq!(bench.read("in.flc"), bent);
    }
}

/// The bytes with the size field at this offset set.
fn with_size(bytes: &[u8], at: usize, size: u32) -> Vec<u8> {
    let mut bytes = bytes.to_vec();
    bytes[at..at + 4].copy_from_slice(&size.to_le_bytes());
    bytes
}

/// What is said of the chunk at which no frame could be read.
fn skipped(chunk: Chunk) -> String {
    format!("\n  {} bytes skipped from offset {} on, up to the next frame\n", grouped(chunk.size), chunk.offset)
}

#[test]
fn frames_behind_a_damaged_header_are_found() {
    let (bench, right, _) = reel(5);
    let (whole, chunks) = whole_frames(&right);
    let pictures = pictures(5);
    let kept = [0, 2, 3, 4, 0].map(|at| pictures[at].clone());
    let at = chunks[1].offset;
    for (size, number) in [(u32::MAX, 4), (1 << 20, 4), (15, 6), (0, 6)] {
        let said = repaired(&bench, &with_size(&whole, at, size), &[]);
        let dropped = format!("\n  frame 2 can't be read and is dropped: refused {number} at offset {at}, ");
        assert!(said.contains(&dropped) && said.contains(&skipped(chunks[1])), "{size}: {said}");
        assert!(!said.contains("gone") && !said.contains("lost"), "{said}");
        assert_eq!(bench.frames("out.flc", "1"), kept, "{size}");
    }
    // A size that ends within the frame.
    let said = repaired(&bench, &with_size(&whole, at, 30), &[]);
    assert!(said.contains("\n  frame 2 can't be read and is dropped: ") && said.contains(" skipped from "), "{said}");
    assert_eq!(bench.frames("out.flc", "1"), kept);
    // Where frames are drawn on each other, those behind it are named.
    let (bench, right, chunks) = reel(5);
    let damaged = with_size(&right, chunks[1].offset, u32::MAX);
    let said = repaired(&bench, &damaged, &[]);
    assert!(said.contains("\n  frames 3 to 5 are kept, but made to be drawn on a picture that is gone: "), "{said}");
    let said = repaired(&bench, &damaged, &["--sure"]);
    assert!(said.contains("\n  frames 3 to 5 are dropped too, ") && said.contains("\nout.flc: 1 frame "), "{said}");
    // The same where the type is damaged too: the header speaks of one frame more than is found.
    let mut typeless = damaged.clone();
    typeless[chunks[1].offset + 4..chunks[1].offset + 6].fill(0);
    let said = repaired(&bench, &typeless, &[]);
    assert!(said.contains("\n  frame 2 can't be read ") && said.contains("\n  frames 3 to 5 are kept, but"), "{said}");
    // They are listed too, and not written as if nothing lay before them.
    bench.write("in.flc", &damaged);
    let listed = bench.run(&["list", "in.flc"]).out;
    assert!(listed.contains(&format!("\n0 {} 61946 {} frame 3\n", chunks[2].offset, chunks[2].size)), "{listed}");
    assert!(!listed.contains("frame 2") && listed.contains(" ring\n"), "{listed}");
    let run = bench.run(&["frames", "in.flc", "pictures"]);
    assert_eq!(run.out, "in.flc: 1 picture in pictures, of the frames before the fault\n");
}

#[test]
fn bytes_that_are_no_chunk_are_skipped() {
    let (bench, right, chunks) = reel(3);
    let between = [&right[..chunks[1].offset], &[0xFA; 100], &right[chunks[1].offset..]].concat();
    let said = repaired(&bench, &sized(between), &[]);
    let skipped = skipped(Chunk { offset: chunks[1].offset, size: 100 });
    assert!(said.contains(&skipped) && !said.contains("dropped"), "{said}");
    assert_eq!(bench.read("out.flc"), right);
    // A chunk outside frames, whose size is wrong, and a frame whose header is, in one reel.
    let (whole, _) = whole_frames(&right);
    let prefix = chunk(0xF100, b"settings");
    let both = sized([&whole[..128], &prefix, &whole[128..]].concat());
    let frames = CheckedReel::new(&both).unwrap().frame_chunks().to_vec();
    let said = repaired(&bench, &with_size(&with_size(&both, 128, 1 << 30), frames[1].offset, 3), &[]);
    assert!(
        said.contains("\n  14 bytes skipped from offset 128 on, ") && said.contains("\n  frame 2 can't be read "),
        "{said}"
    );
    let pictures = pictures(3);
    assert_eq!(bench.frames("out.flc", "1"), [0, 2, 0].map(|at| pictures[at].clone()));
}

#[test]
fn nothing_is_looked_for_behind_the_ring() {
    let (bench, right, chunks) = reel(2);
    let mut more = sized([&right[..], &[9; 20], &right[chunks[0].offset..chunks[0].end()]].concat());
    more[14] = 0;
    let said = repaired(&bench, &more, &[]);
    assert!(!said.contains("skipped") && said.contains(" after the ring\n"), "{said}");
    assert_eq!(bench.read("out.flc"), right);
}

#[test]
fn pixels_that_look_like_a_frame_are_none() {
    let (bench, right, _) = reel(2);
    let (whole, chunks) = whole_frames(&right);
    let mut damaged = with_size(&whole, chunks[1].offset, u32::MAX);
    // In a COPY stands what could be a frame, but for what it holds: a COPY of four pixels.
    let header = [26, 0, 0, 0, 0xFA, 0xF1, 1, 0, 0, 0, 0, 0, 0, 0, 0, 0];
    let pixels = chunks[1].end() - 100;
    damaged[pixels..pixels + 26].copy_from_slice(&[&header[..], &chunk(16, &[1; 4])].concat());
    let said = repaired(&bench, &damaged, &[]);
    assert!(said.contains(&skipped(chunks[1])) && said.contains("\nout.flc: 1 frame and the ring, "), "{said}");
}

/// A bench with `reel.fli` of so many frames, its bytes, and where its frames and its ring lie.
fn fli(count: usize) -> (Bench, Vec<u8>, Vec<Chunk>) {
    let bench = Bench::with_fli(&full_size(count));
    let bytes = bench.read("reel.fli");
    let chunks = CheckedReel::new(&bytes).unwrap().frame_chunks().to_vec();
    (bench, bytes, chunks)
}

const FLI: [&str; 2] = ["in.fli", "out.fli"];

#[test]
fn an_fli_stays_an_fli() {
    let (bench, right, chunks) = fli(3);
    let first = CheckedReel::new(&right).unwrap().frames().next().unwrap().state;
    let ring = write_frame(Format::Fli, &first, &first).unwrap();
    let mut never_closed = right[..chunks[3].offset].to_vec();
    never_closed[..4].fill(0);
    never_closed[6..8].fill(0);
    let with = |at: usize, byte: u8| {
        let mut bytes = right.clone();
        bytes[at] = byte;
        bytes
    };
    let cases = [
        (sized([&right[..chunks[3].offset], &ring].concat()), "refused 16 at offset "),
        (right[..chunks[3].offset + 5].to_vec(), "refused 4 at offset 0, in the file header: "),
        (never_closed, "refused 6 at offset 0, in the file header: its header says that it has 0 bytes, "),
        (with(14, 3), "refused 14 at offset 0, in the file header: its flags are 3, and those of an FLI are 0\n"),
        (with(6, 200), "refused 15 at offset "),
        (with(6, 0), "refused 14 at offset 0, in the file header: its header says that it has 0 frames, "),
    ];
    for (bytes, fault) in cases {
        let said = repaired_as(&bench, FLI, &bytes, &[]);
        assert!(said.starts_with(&format!("in.fli: {fault}")), "{said}");
        assert!(said.contains("\nout.fli: 3 frames and the ring, "), "{said}");
        assert!(bench.read("out.fli") == right, "{fault}");
    }
    // Whatever its flags, where it ends is said by its size.
    let said = repaired_as(&bench, FLI, &[&with(14, 3)[..], &[7; 50]].concat(), &[]);
    assert!(said.contains("\n  not kept: 50 bytes behind the reel that aren't its trailer\n"), "{said}");
    let err = bench.fails(1, &["repair", "in.fli", "out.flc"]);
    let expected =
        "flic: out.flc: is a name for an FLC, and in.fli is an FLI: give one that ends in .fli, or make an FLC of \
                    it with flic convert\n";
    assert_eq!(err, expected);
}

#[test]
fn what_only_an_flc_may_hold_is_written_as_an_fli_has_it() {
    let (bench, right, _) = fli(4);
    let (wrong, places) = in_form_of_flc(&right);
    let said = repaired_as(&bench, FLI, &wrong, &["--sure"]);
    let fault = format!(
        "in.fli: refused 20 at offset {}, in frame 2 of 4: this is an FLI, and holds a chunk of kind 7 ",
        places[0]
    );
    assert!(said.starts_with(&fault), "{said}");
    let note = "\n  kind 7 or 18, which only an FLC may hold, in frames 2 to 4: drawn as in one, and written anew\n";
    assert!(said.contains(note) && !said.contains("dropped"), "{said}");
    assert!(bench.read("out.fli") == right);
    // A postage stamp is no part of a picture; spare bytes go too.
    let mut stamped = right.clone();
    stamped.splice(144..144, chunk(18, &[9; 40]));
    stamped[134] += 1;
    let stamped = sized(lengthened(&stamped, 128, 46));
    let said = repaired_as(&bench, FLI, &stamped, &[]);
    assert!(said.contains(", in frame 1: drawn as in one, and written anew\n"), "{said}");
    assert!(said.contains("\n  not kept: 1 chunk of kind 18 (postage stamp) in frames\n"), "{said}");
    assert!(bench.read("out.fli") == right);
    // What can't be read as an FLC's either is dropped.
    let mut damaged = wrong.clone();
    damaged[places[1] + 6..places[1] + 10].copy_from_slice(&[9, 0, 0, 0x40]);
    let said = repaired_as(&bench, FLI, &damaged, &["--sure"]);
    let dropped = format!("\n  frame 3 can't be read and is dropped: refused 11 at offset {}, ", places[1]);
    assert!(said.contains(&dropped) && said.contains(", in frames 2, 4: drawn"), "{said}");
}

#[test]
fn other_chunks_of_an_fli_are_kept_and_its_header_stays_empty() {
    let (bench, right, chunks) = fli(2);
    let wrong = [&right[..128], &chunk(77, b"more"), &right[128..chunks[2].offset]].concat();
    repaired_as(&bench, FLI, &wrong, &["--keep-others"]);
    let expected = sized([&right[..128], &chunk(77, b"more"), &right[128..]].concat());
    assert!(bench.read("out.fli") == expected);
    assert_eq!(bench.read("out.fli")[18..128], [0; 110]);
}

#[test]
fn whatever_is_bent_in_an_fli_gives_a_right_one_or_none() {
    let (bench, right, chunks) = fli(2);
    let headers = chunks.iter().flat_map(|chunk| chunk.offset..chunk.offset + 26);
    for at in (0..20).chain(headers) {
        let mut bent = right.clone();
        bent[at] ^= 0x55;
        bench.write("in.fli", &bent);
        let run = bench.run(&["repair", "in.fli", "out.fli", "--force"]);
        match run.status {
            0 => assert_eq!(bench.done(&["check", "out.fli"]), "out.fli: ok\n", "{at}"),
            1 => assert!(run.err.starts_with("flic: in.fli: refused "), "{at}: {}", run.err),
            other => panic!("{at}: {other}: {}", run.err),
        }
    }
}
