//! The pages of `flic page` in a browser, Chromium without a window. Ignored, since not every machine has one:
//! tests/browser/run runs them.

mod browser;

use browser::Pages;
use flic::{CheckedReel, Milliseconds, Reel, Size, State};
use std::fs;
use std::path::{Path, PathBuf};

/// Stops the page, steps it back to frame 1 and two laps on by its own buttons, and says after each step where it is and
/// what its canvas holds, in base64; `clear` where a pixel isn't opaque.
const STEPS: &str = "<script>
    const said = document.createElement('pre'), lines = [];
    said.id = 'said';
    function look() {
        const data = context.getImageData(0, 0, canvas.width, canvas.height).data;
        let levels = '', isOpaque = true;
        for (let at = 0; at < data.length; at += 4) {
            levels += String.fromCharCode(data[at], data[at + 1], data[at + 2]);
            isOpaque &&= data[at + 3] === 255;
        }
        lines.push(where.textContent + ': ' + (isOpaque ? btoa(levels) : 'clear') + '\\n');
    }
    pause.click();
    while (where.textContent !== 'lap 1, frame 1 of ' + (ring - 1)) document.getElementById('back').click();
    look();
    for (let count = 0; count < 2 * (ring - 1); count++) {
        document.getElementById('step').click();
        look();
    }
    document.getElementById('back').click();
    look();
    said.textContent = lines.join('');
    document.body.append(said);
</script>";

/// Writes down when each picture is drawn, in milliseconds since the page began to play, as it plays by itself.
const WATCH: &str = "<script>
    const said = document.createElement('pre');
    said.id = 'said';
    document.body.append(said);
    const began = last;
    new MutationObserver(() => {
        said.textContent += Math.round(performance.now() - began) + ' ' + where.textContent + '\\n';
    }).observe(where, {childList: true});
</script>";

fn repository() -> PathBuf {
    Path::new(env!("CARGO_MANIFEST_DIR")).join("../..")
}

fn files(directory: &str) -> Vec<PathBuf> {
    let entries = fs::read_dir(repository().join(directory)).unwrap().map(|entry| entry.unwrap().path());
    let is_reel = |file: &PathBuf| file.extension().is_some_and(|end| end == "flc" || end == "fli");
    let mut files: Vec<PathBuf> = entries.filter(is_reel).collect();
    files.sort();
    files
}

fn base64(bytes: &[u8]) -> String {
    let letters: Vec<char> = ('A'..='Z').chain('a'..='z').chain('0'..='9').chain(['+', '/']).collect();
    let mut text = String::new();
    for three in bytes.chunks(3) {
        let word = u32::from_be_bytes([0, three[0], three[1], three[2]]);
        text.extend((0..4).map(|at| letters[(word >> (18 - 6 * at) & 63) as usize]));
    }
    text
}

/// What a page must say of a reel with [`STEPS`].
fn expected(reel: &CheckedReel) -> String {
    let frames = usize::from(reel.header().frames);
    let line = |lap: usize, number: usize, state: &State| {
        let frame = if number > frames { "the ring".to_string() } else { format!("frame {number} of {frames}") };
        format!("lap {lap}, {frame}: {}\n", base64(&state.rgb()))
    };
    let played: Vec<String> =
        reel.laps().take(2 * frames + 1).map(|frame| line(frame.lap, frame.number, &frame.state)).collect();
    // One step back from the second ring.
    played.concat() + &played[played.len() - 2]
}

fn with(page: &str, script: &str) -> String {
    page.replace("</body>", &format!("{script}</body>"))
}

/// Compares two laps of each page with the library's frames.
fn compare(pages: &Pages, files: &[PathBuf]) {
    let made: Vec<String> = files.iter().map(|file| with(&pages.page(file), STEPS)).collect();
    let all = pages.said_of_all(&made);
    assert_eq!(all.len(), files.len());
    for (file, said) in files.iter().zip(all) {
        let (bytes, name) = (fs::read(file).unwrap(), file.display());
        let expected = expected(&CheckedReel::new(&bytes).unwrap());
        for (said, expected) in said.lines().zip(expected.lines()) {
            assert!(said == expected, "{name}: not as the library has it: {}", &said[..said.len().min(60)]);
        }
        assert_eq!(said.lines().count(), expected.lines().count(), "{name}");
    }
}

#[test]
#[ignore = "needs chromium"]
fn two_laps_show_what_the_library_shows() {
    let mut files = [files("samples"), files("tests/fitters/reels")].concat();
    // Samples that are wrong on purpose make no page.
    files.retain(|file| CheckedReel::new(fs::read(file).unwrap()).is_ok());
    assert!(files.len() > 50, "{}", files.len());
    assert!(files.iter().any(|file| file.ends_with("samples/board.fli")), "an FLI is among them");
    compare(&Pages::new(), &files);
}

#[test]
#[ignore = "needs chromium"]
fn pictures_of_noise_and_of_odd_widths_are_read() {
    let (pages, mut word) = (Pages::new(), 1u32);
    let mut random = || {
        word = word.wrapping_mul(1_664_525).wrapping_add(1_013_904_223);
        (word >> 24) as u8
    };
    let mut files = Vec::new();
    for (width, height) in [(320, 200), (319, 3), (1, 1), (1, 200), (320, 1)] {
        let size = Size::new(width, height).unwrap();
        let (mut reel, mut state) = (Reel::open(size, Milliseconds(40)).unwrap(), State::blank(size));
        for _ in 0..6 {
            // Some frames change much, some little, and some only colours.
            let share = random();
            state
                .picture
                .pixels_mut()
                .iter_mut()
                .for_each(|pixel| *pixel = if random() < share { random() } else { *pixel });
            (0..share).for_each(|_| state.palette.set_colour(random(), [random(), random(), random()]));
            reel.add(&state).unwrap();
        }
        // A gap that takes a packet of its own, from the first pixel of a row to the last.
        for pixel in [0, width.into()] {
            let pixel = &mut state.picture.pixels_mut()[usize::saturating_sub(pixel, 1)];
            *pixel = pixel.wrapping_add(1);
        }
        reel.add(&state).unwrap();
        files.push(pages.write(&format!("{width}-{height}.flc"), &reel.close().unwrap()));
    }
    compare(&pages, &files);
}

#[test]
#[ignore = "needs chromium"]
fn it_plays_by_itself_at_the_speed_of_the_reel() {
    let pages = Pages::new();
    // 3 frames of 2,000 milliseconds.
    let page = pages.page(&repository().join("samples/menu.flc"));
    let said = pages.said(&with(&page, WATCH), 15_000);
    let drawn: Vec<(u32, &str)> = said
        .lines()
        .map(|line| line.split_once(' ').unwrap())
        .map(|(time, place)| (time.parse().unwrap(), place))
        .collect();
    let places: Vec<&str> = drawn.iter().map(|(_, place)| *place).collect();
    let laps = ["lap 1, frame 2 of 3", "lap 1, frame 3 of 3", "lap 1, the ring", "lap 2, frame 2 of 3"];
    assert_eq!(places[..4], laps, "{said}");
    for (at, (time, _)) in drawn.iter().enumerate() {
        let due = 2_000 * (at as u32 + 1);
        assert!(time.abs_diff(due) <= 120, "picture {at}: {time} ms, due at {due}:\n{said}");
    }
}
