//! The tool in a terminal: tmux's, whose screen is looked at. Ignored, since not every machine has tmux:
//! tests/terminal/run runs them.

mod pane;
mod screen;

use flic::{CheckedReel, State};
use pane::Pane;
use screen::{full_size, mean_of_squares, Cell};
use std::fs;
use std::path::{Path, PathBuf};
use std::time::{Duration, Instant};

fn sample(name: &str) -> PathBuf {
    fs::canonicalize(Path::new(env!("CARGO_MANIFEST_DIR")).join("../../samples").join(name)).unwrap()
}

/// `flic play` of a sample, as a shell takes it.
fn play(name: &str, options: &str) -> String {
    format!("'{}' play '{}' {options}", env!("CARGO_BIN_EXE_flic"), sample(name).display())
}

/// What the frames of a sample and its ring show.
fn states(name: &str) -> Vec<State> {
    let bytes = fs::read(sample(name)).unwrap();
    let reel = CheckedReel::new(&bytes).unwrap();
    reel.frames().map(|frame| frame.state).collect()
}

/// The frames of a sample that are seen while it plays one lap after the other, and how long that takes.
fn seen(name: &str, speed: u32, laps: usize) -> (Vec<usize>, Duration) {
    let frames: Vec<Vec<Vec<Cell>>> = states(name).iter().map(full_size).collect();
    let start = Instant::now();
    let pane = Pane::new(170, 40, &play(name, &format!("--speed {speed} --laps {laps}")));
    let mut seen = Vec::new();
    while !pane.is_over() {
        let screen = pane.screen();
        // A screen that is being drawn is none of them.
        if let Some(at) = frames.iter().position(|frame| screen.starts_with(frame)) {
            if seen.last() != Some(&(at + 1)) {
                seen.push(at + 1);
            }
        }
    }
    let elapsed = start.elapsed();
    let ended = pane.ended();
    let count = if laps == 1 { "1 lap".to_string() } else { format!("{laps} laps") };
    assert_eq!(ended.said(), format!("{}: {count} played\nstatus 0", sample(name).display()));
    ended.assert_restored();
    (seen, elapsed)
}

#[test]
#[ignore = "needs tmux"]
fn each_frame_shows_its_colours_lap_after_lap() {
    // The ring shows frame 1 again.
    let (seen, elapsed) = seen("menu.flc", 1_000, 2);
    assert_eq!(seen, [1, 2, 3, 1, 2, 3]);
    assert!(elapsed >= Duration::from_secs(6), "{elapsed:?}");
}

#[test]
#[ignore = "needs tmux"]
fn colours_that_change_alone_are_seen() {
    let (seen, elapsed) = seen("fade.flc", 400, 1);
    assert_eq!(seen, (1..=12).collect::<Vec<usize>>());
    assert!(elapsed >= Duration::from_millis(4_800), "{elapsed:?}");
}

#[test]
#[ignore = "needs tmux"]
fn an_fli_shows_its_pixels() {
    let first = full_size(&states("board.fli")[0]);
    let pane = Pane::new(330, 110, &play("board.fli", "--speed 600000"));
    pane.until("frame 1", || pane.screen().starts_with(&first));
    assert_eq!(pane.text().lines().nth(100), Some("lap 1, frame 1 of 48; q ends"));
    pane.press(&["q"]);
    let ended = pane.ended();
    let said = format!("{}: ended in lap 1, at frame 1 of 48\nstatus 0", sample("board.fli").display());
    assert_eq!(ended.said(), said);
    ended.assert_restored();
}

#[test]
#[ignore = "needs tmux"]
fn q_and_ctrl_c_end_it_and_no_other_key_does() {
    let first = full_size(&states("menu.flc")[0]);
    for key in ["q", "C-c"] {
        let pane = Pane::new(170, 40, &play("menu.flc", "--speed 600000"));
        pane.until("frame 1", || pane.screen().starts_with(&first));
        assert!(pane.has_second_screen() && !pane.has_cursor());
        assert_eq!(pane.text().lines().nth(32), Some("lap 1, frame 1 of 3; q ends"));
        pane.press(&["x", "Enter", "Up", "C-z"]);
        pane.stays(Duration::from_millis(300), || pane.screen().starts_with(&first) && pane.has_second_screen());
        pane.press(&[key]);
        let ended = pane.ended();
        let said = format!("{}: ended in lap 1, at frame 1 of 3\nstatus 0", sample("menu.flc").display());
        assert_eq!(ended.said(), said, "{key}");
        ended.assert_restored();
    }
}

#[test]
#[ignore = "needs tmux"]
fn a_signal_ends_it_and_the_terminal_is_as_it_was() {
    for signal in ["TERM", "INT", "HUP"] {
        let pane = Pane::new(170, 40, &format!("sh -c 'echo $$ >pid; exec \"$@\"' - {}", play("menu.flc", "")));
        pane.until("the second screen", || pane.has_second_screen());
        pane.signal(signal);
        let ended = pane.ended();
        let said = format!("flic: {}: ended by a signal in lap 1, at frame 1 of 3", sample("menu.flc").display());
        assert!(ended.said().starts_with(&said), "{signal}: {}", ended.said());
        assert!(ended.said().ends_with("status 1"), "{signal}: {}", ended.said());
        ended.assert_restored();
    }
}

#[test]
#[ignore = "needs tmux"]
fn a_panic_is_seen_and_the_terminal_is_as_it_was() {
    let test = "tool::terminal::tests::a_panic_gives_the_terminal_back";
    let cargo = "cargo test --release --offline --quiet --bin flic -- --ignored --nocapture --exact";
    let pane = Pane::new(170, 40, &format!("cd '{}' && {cargo} {test}", env!("CARGO_MANIFEST_DIR")));
    let ended = pane.ended();
    assert!(ended.said().contains("\non purpose\n") && ended.said().contains("1 passed"), "{}", ended.said());
    assert!(ended.said().ends_with("status 0"), "{}", ended.said());
    ended.assert_restored();
}

#[test]
#[ignore = "needs tmux"]
fn a_smaller_terminal_shows_a_smaller_picture_until_it_grows() {
    let first = &states("menu.flc")[0];
    let pane = Pane::new(40, 12, &play("menu.flc", "--speed 600000"));
    // 160 by 64 pixels on 40 columns: each pixel stands for 4 by 4.
    let small = mean_of_squares(first, 4);
    pane.until("the small picture", || pane.screen().starts_with(&small));
    assert_eq!(pane.text().lines().nth(8), Some("lap 1, frame 1 of 3; q ends"));
    pane.resize(170, 40);
    pane.until("the whole picture", || pane.screen().starts_with(&full_size(first)));
    assert_eq!(pane.text().matches("q ends").count(), 1);
    pane.press(&["q"]);
    // Of a screen that grew meanwhile, tmux mixes what was there before with what was not.
    pane.ended().assert_restored();
}

#[test]
#[ignore = "needs tmux"]
fn one_row_shows_a_picture_without_a_line_below() {
    let pane = Pane::new(20, 1, &play("menu.flc", "--speed 600000"));
    pane.until("5 by 2 pixels", || pane.text().trim_end() == "▀▀▀▀▀");
    pane.press(&["q"]);
    pane.until("the end", || pane.is_over() && !pane.has_second_screen() && pane.has_cursor());
}

#[test]
#[ignore = "needs tmux"]
fn what_cannot_be_played_never_takes_the_terminal() {
    for (name, words) in [("wrong-ring.flc", "refused 16 at offset "), ("README.md", "refused 5 at offset 0")] {
        let ended = Pane::new(170, 40, &play(name, "")).ended();
        assert!(ended.said().starts_with(&format!("flic: {}: {words}", sample(name).display())), "{}", ended.said());
        ended.assert_restored();
    }
    let ended = Pane::new(170, 40, &format!("TERM=dumb {}", play("menu.flc", ""))).ended();
    assert!(ended.said().starts_with("flic: this terminal can't be drawn on (TERM is dumb): "), "{}", ended.said());
    let ended = Pane::new(170, 40, &format!("{} | cat", play("menu.flc", ""))).ended();
    assert!(ended.said().starts_with("flic: standard output isn't a terminal: "), "{}", ended.said());
}

#[test]
#[ignore = "needs tmux"]
fn progress_fits_the_terminal_and_is_wiped_away() {
    let name = "boards-".repeat(12) + "menu.flc";
    // A pipe that nothing comes out of for some seconds.
    let wait = format!("mkfifo {name}; sleep 5 >{name} & '{}' check {name}", env!("CARGO_BIN_EXE_flic"));
    let pane = Pane::new(50, 12, &wait);
    let line = || pane.text().lines().nth(1).unwrap_or_default().to_string();
    pane.until("the progress", || line().ends_with(" s"));
    assert!(line().starts_with("checking boa[") && line().len() == 49, "{}", line());
    assert_eq!(pane.text().lines().nth(2), Some(""));
    pane.resize(200, 12);
    pane.until("the whole name", || line().starts_with(&format!("checking {name} .. ")));
    let said = pane.ended().said().to_string();
    assert_eq!(
        said,
        format!("{name}: refused 4 at offset 0, in the file header: it is empty; copy the file anew\nstatus 1")
    );
}

#[test]
#[ignore = "needs tmux"]
fn no_reel_is_written_to_a_terminal() {
    let reel = sample("menu.flc");
    let pane = Pane::new(120, 12, &format!("'{}' rewrite '{}' -", env!("CARGO_BIN_EXE_flic"), reel.display()));
    let expected = "flic: standard output is a terminal: send it to a file or a program with > or |\nstatus 1";
    assert_eq!(pane.ended().said(), expected);
}
