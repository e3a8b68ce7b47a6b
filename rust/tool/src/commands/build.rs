//! `flic build`: a reel from pictures.

use super::Command;
use crate::tool::arguments::{Arguments, Opt};
use crate::tool::colours::state_showing;
use crate::tool::failure::{misused, wrong, Outcome};
use crate::tool::fitting::{self, Fitting};
use crate::tool::formats::{are_one_time, ending, made_jiffies, named};
use crate::tool::name::Shown;
use crate::tool::numbers::counted;
use crate::tool::progress::Progress;
use crate::tool::refused;
use crate::tool::target::{Target, FORCE};
use flic::{check_reel, write_trailer, Format, Jiffies, Milliseconds, Reel, Size, MOST_FRAMES};
use std::path::{Path, PathBuf};

pub const COMMAND: Command = Command {
    name: "build",
    usage: "OUT --speed MS | --jiffies J [--fli] [--trailer] [--scale WxH [--average]] [--colours N [--dither]] \
            [--force] PICTURE..",
    summary: "makes a reel from pictures",
    about: "\
Makes the reel OUT, which shows the pictures in their order and leads back to the first. A picture is a PNG, PPM (P6,
P3) or PGM (P5, P2) file with at most 256 colours; all are of one size within 320 by 200. At most 4,000 pictures.
An FLC or FLI file that is there already is replaced if it is as flic writes them, or with --force; another file isn't.

OUT is an FLC, or an FLI if its name ends in .fli or with --fli. The pictures of an FLI are 320 by 200, and a frame of
it shows for a number of jiffies, 1/70 seconds: those of --speed are rounded up, which is said.

Larger pictures and pictures with more colours are taken only with --scale and --colours. A picture with more than N
colours gets the N that median cut finds for all such pictures together, so that what stands still stays as it is.",
    options: &[
        Opt { name: "--speed", value: Some("MS"), about: "for how many milliseconds a frame shows" },
        Opt { name: "--jiffies", value: Some("J"), about: "for how many 1/70 seconds a frame of an FLI shows" },
        Opt { name: "--fli", value: None, about: "makes an FLI, for the boards that take nothing else" },
        Opt { name: "--trailer", value: None, about: "writes the index of frame offsets behind an FLC" },
        fitting::SCALE,
        fitting::AVERAGE,
        fitting::COLOURS,
        fitting::DITHER,
        FORCE,
    ],
    run,
};

fn run(arguments: Arguments) -> Outcome {
    let Some((out, images)) = arguments.files.split_first() else { return misused("OUT is missing".to_string()) };
    let delay = delay(&arguments, format(&arguments, out)?)?;
    if arguments.has("--trailer") && delay.format() == Format::Fli {
        return misused("--trailer is for an FLC: an FLI has none, and its boards look for none".to_string());
    }
    if images.is_empty() {
        return misused(format!("no PICTURE is given: name the pictures behind {}", out.shown()));
    }
    if images.len() > MOST_FRAMES {
        return wrong(format!("{} pictures are too many: a reel takes {MOST_FRAMES}", images.len()));
    }
    let target = Target::new(out, arguments.has(FORCE.name))?;
    let mut fitting = Fitting::asked(&arguments, delay.format(), images)?;
    let mut bytes = built(out, images, &delay, &mut fitting)?;
    refused::accepted(out, &bytes, check_reel(&bytes))?;
    if arguments.has("--trailer") {
        let written = write_trailer(&mut bytes);
        refused::accepted(out, &bytes, written)?;
    }
    let (frames, length) = (counted(images.len(), "frame"), counted(bytes.len(), "byte"));
    let told = delay.told().map_or(String::new(), |words| format!("{}: {words}\n", target.name()));
    target.deliver(&bytes, &told, &format!("{frames} and the ring, {length}"))
}

/// The format that is asked for.
fn format(arguments: &Arguments, out: &Path) -> Outcome<Format> {
    match (arguments.has("--fli"), named(out)) {
        (true, Some(Format::Flc)) => misused(format!(
            "--fli makes an FLI, and {} is a name for an FLC: give one that ends in {}, or leave --fli out",
            out.shown(),
            ending(Format::Fli)
        )),
        (true, _) => Ok(Format::Fli),
        (false, named) => Ok(named.unwrap_or(Format::Flc)),
    }
}

/// For how long a frame shows, by the format.
enum Delay {
    Flc(Milliseconds),
    Fli {
        jiffies: Jiffies,
        /// What was asked for, if that was in milliseconds.
        asked: Option<Milliseconds>,
    },
}

fn delay(arguments: &Arguments, format: Format) -> Outcome<Delay> {
    let speed = arguments.number("--speed", 0)?.map(Milliseconds);
    let jiffies = arguments.number("--jiffies", 0)?;
    match (format, speed, jiffies) {
        (_, Some(_), Some(_)) => misused("--speed and --jiffies are two ways to say one thing: give one".to_string()),
        (Format::Flc, None, Some(_)) => {
            misused("--jiffies is for an FLI: give --speed MS, or make an FLI with --fli".to_string())
        }
        (Format::Flc, None, None) => {
            misused("--speed MS is missing: for how many milliseconds does a frame show?".to_string())
        }
        (Format::Fli, None, None) => misused(
            "--speed MS or --jiffies J is missing: for how many milliseconds, or 1/70 seconds, does a frame show?"
                .to_string(),
        ),
        (Format::Flc, Some(speed), None) => Ok(Delay::Flc(speed)),
        (Format::Fli, Some(asked), None) => match asked.in_jiffies() {
            Ok(jiffies) => Ok(Delay::Fli { jiffies, asked: Some(asked) }),
            Err(_) => {
                let most = Jiffies(u16::MAX).in_milliseconds().0;
                misused(format!("--speed takes 0 to {most} for an FLI, not {}", asked.0))
            }
        },
        (Format::Fli, None, Some(jiffies)) => match u16::try_from(jiffies) {
            Ok(jiffies) => Ok(Delay::Fli { jiffies: Jiffies(jiffies), asked: None }),
            Err(_) => misused(format!("--jiffies takes 0 to {}, not {jiffies}", u16::MAX)),
        },
    }
}

impl Delay {
    fn format(&self) -> Format {
        match self {
            Delay::Flc(_) => Format::Flc,
            Delay::Fli { .. } => Format::Fli,
        }
    }

    fn open(&self, size: Size) -> flic::Result<Reel> {
        match self {
            Delay::Flc(speed) => Reel::open(size, *speed),
            Delay::Fli { jiffies, .. } => Reel::open_fli(*jiffies),
        }
    }

    /// What is said of it where it isn't as it was asked for.
    fn told(&self) -> Option<String> {
        match self {
            Delay::Fli { jiffies, asked: Some(asked) } if !are_one_time(*jiffies, *asked) => {
                Some(made_jiffies(*asked, *jiffies))
            }
            Delay::Flc(_) | Delay::Fli { .. } => None,
        }
    }
}

fn built(out: &Path, images: &[PathBuf], delay: &Delay, fitting: &mut Fitting) -> Outcome<Vec<u8>> {
    let progress = Progress::new(format!("building {}", out.shown()), images.len());
    let mut reel: Option<Reel> = None;
    for file in images {
        let (image, size) = fitting.read(file)?;
        let reel = match &mut reel {
            Some(reel) => reel,
            none => none.insert(refused::accepted(out, &[], delay.open(size))?),
        };
        if reel.size() != size {
            let (width, height) = (reel.size().width(), reel.size().height());
            let (this, first) = (image.measures(), images[0].shown());
            let words = format!("{}: is {this}, but {first} is {width} by {height}", file.shown());
            return wrong(format!("{words}: give --scale {width}x{height}, or pictures of one size"));
        }
        let state = state_showing(&image, reel.format(), reel.shown()).or_else(|colours| {
            let words = format!("{}: has {colours} colours", file.shown());
            wrong(format!("{words}: give --colours 256, or reduce them first"))
        })?;
        refused::accepted(file, &[], reel.add(&state))?;
        progress.step();
    }
    match reel {
        Some(reel) => refused::accepted(out, &[], reel.close()),
        None => misused("no PICTURE is given".to_string()),
    }
}
