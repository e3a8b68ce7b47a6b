//! `flic play`: a reel played in the terminal.

use super::Command;
use crate::tool::arguments::{Arguments, Opt};
use crate::tool::cells::Cells;
use crate::tool::failure::{wrong, Outcome};
use crate::tool::name::Shown;
use crate::tool::progress::Progress;
use crate::tool::say::say;
use crate::tool::terminal::{must_be_there, Measures, Met, Terminal};
use crate::tool::{files, refused};
use flic::{Event, Milliseconds, Player};
use std::time::Instant;

pub const COMMAND: Command = Command {
    name: "play",
    usage: "FILE [--laps N] [--speed MS]",
    summary: "plays a reel in the terminal",
    about: "\
Plays the reel in the terminal, as a board does: lap after lap, at the reel's own speed, until q or Ctrl-C is pressed.
A character shows two pixels, one above the other, so that a picture of 160 by 64 takes 160 columns and 32 rows; in a
smaller terminal it is scaled down. The terminal has to show 24-bit colours and UTF-8. Without one, flic frames writes
the pictures.",
    options: &[
        Opt { name: "--laps", value: Some("N"), about: "ends after so many laps, as the ring is drawn" },
        Opt {
            name: "--speed",
            value: Some("MS"),
            about: "for how many milliseconds a frame shows; 0 is as fast as can be",
        },
    ],
    run,
};

const CTRL_C: u8 = 3;
/// After so many milliseconds at the latest, the terminal is asked for its size again.
const LONGEST_WAIT: u32 = 100;

fn run(arguments: Arguments) -> Outcome {
    let laps = arguments.number("--laps", 1)?;
    let speed = arguments.number("--speed", 0)?;
    let [file] = arguments.exactly(["FILE"])?;
    must_be_there()?;
    let progress = Progress::new(format!("checking {}", file.shown()), 0);
    let bytes = files::read_reel(&file)?;
    let player = Player::start(&bytes[..], 0);
    drop(progress);
    let mut player = refused::accepted(&file, &bytes, player)?;
    player.set_speed(speed.map_or(player.speed(), Milliseconds));

    let mut show = Show { player, lap: 1, screen: None, terminal: Terminal::open()? };
    let end = show.until_the_end(laps.map(u64::from));
    let (lap, frame) = (show.lap, show.frame());
    drop(show);
    let file = file.shown();
    match end? {
        End::Laps => say(&format!("{file}: {lap} {} played\n", if lap == 1 { "lap" } else { "laps" })),
        End::Key => say(&format!("{file}: ended in lap {lap}, at {frame}\n")),
        End::Signal => wrong(format!("{file}: ended by a signal in lap {lap}, at {frame}; play it again")),
    }
}

/// Why a play ends.
enum End {
    Laps,
    Key,
    Signal,
}

/// A reel that plays, and what the terminal shows of it.
struct Show<'a> {
    player: Player<&'a [u8]>,
    lap: u64,
    screen: Option<(Measures, Cells)>,
    terminal: Terminal,
}

impl Show<'_> {
    /// The clock begins now, with the reading 0 at which the player was started.
    fn until_the_end(&mut self, laps: Option<u64>) -> Outcome<End> {
        let start = Instant::now();
        // A counter of 32 bits that rolls over, as a board's.
        let now = || start.elapsed().as_millis() as u32;
        let mut event = Event::Drawn;
        loop {
            let measures = self.terminal.measures();
            if event == Event::Drawn || self.screen.as_ref().is_none_or(|(had, _)| *had != measures) {
                self.draw(measures)?;
            }
            let wait = self.player.wait(now()).clamp(1, LONGEST_WAIT);
            match self.terminal.wait(wait as u16)? {
                Met::Keys(keys) if keys.iter().any(|key| [b'q', b'Q', CTRL_C].contains(key)) => return Ok(End::Key),
                Met::Signal => return Ok(End::Signal),
                Met::Keys(_) | Met::Nothing => {}
            }
            let was_ring = self.player.is_ring();
            event = self.player.tick(now()).or_else(|why| wrong(format!("the reel can't be played on: {why}")))?;
            if event == Event::Drawn {
                self.lap += u64::from(was_ring);
                if self.player.is_ring() && laps == Some(self.lap) {
                    return Ok(End::Laps);
                }
            }
        }
    }

    /// Brings a terminal of this size from what it shows to what the player shows, with a line below.
    fn draw(&mut self, measures: Measures) -> Outcome {
        let before = self.screen.take().filter(|(had, _)| *had == measures).map(|(_, cells)| cells);
        let wipe = if before.is_none() { "\x1b[2J" } else { "" };
        let has_line = measures.rows > 1;
        let room = Measures { rows: measures.rows - usize::from(has_line), ..measures };
        let cells = Cells::of(self.player.shown(), room);
        let mut text = format!("{wipe}{}", cells.text(before.as_ref()));
        if has_line {
            let line: String = self.line().chars().take(measures.columns).collect();
            text += &format!("\x1b[{};1H\x1b[K{line}", cells.rows() + 1);
        }
        self.screen = Some((measures, cells));
        self.terminal.show(&text)
    }

    fn line(&self) -> String {
        format!("lap {}, {}; q ends", self.lap, self.frame())
    }

    fn frame(&self) -> String {
        match self.player.is_ring() {
            true => "the ring".to_string(),
            false => format!("frame {} of {}", self.player.number(), self.player.frames()),
        }
    }
}
