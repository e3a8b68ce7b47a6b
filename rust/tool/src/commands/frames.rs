//! `flic frames`: every frame of a reel as a picture's file.

use super::Command;
use crate::tool::arguments::{Arguments, Opt};
use crate::tool::failure::{misused, wrong, Outcome};
use crate::tool::files::{is_standard, Source};
use crate::tool::folder::Folder;
use crate::tool::image::ppm;
use crate::tool::name::Shown;
use crate::tool::numbers::counted;
use crate::tool::png;
use crate::tool::progress::Progress;
use crate::tool::refused;
use crate::tool::salvage::{Fate, Part, Salvage};
use crate::tool::say::say;
use flic::{CheckedReel, Refused, State};
use std::path::Path;

pub const COMMAND: Command = Command {
    name: "frames",
    usage: "FILE DIR [--laps N] [--png]",
    summary: "writes every frame and the ring as pictures",
    about: "\
Plays the reel and writes what shows after each frame and after the ring as a PPM picture into DIR, which is made,
or is empty. Lap 1 begins with frame 1, every further lap with frame 2, since the ring shows frame 1 again:

    lap1-0001.ppm  lap1-0002.ppm  lap1-0003-ring.ppm  lap2-0002.ppm  lap2-0003-ring.ppm

Leave the ring out where a reel is built from them again: lap1-*[0-9].ppm are the frames of a lap.
PNG pictures are indexed, with the pixels and the palette that the reel has.
Of a refused reel the frames before the fault are written, with exit status 1. Where the pictures can't all be written,
or a signal ends it, none is left.",
    options: &[
        Opt { name: "--laps", value: Some("N"), about: "how many laps to play (1)" },
        Opt { name: "--png", value: None, about: "writes PNG pictures" },
    ],
    run,
};

fn run(arguments: Arguments) -> Outcome {
    let laps = arguments.number("--laps", 1)?.unwrap_or(1) as usize;
    let is_png = arguments.has("--png");
    let [file, directory] = arguments.exactly(["FILE", "DIR"])?;
    if is_standard(&directory) {
        return misused("DIR is a directory, and - is none: give its name".to_string());
    }
    if is_png {
        png::needed_for("--png")?;
    }
    let form = if is_png { Form::Png } else { Form::Ppm };
    let progress = Progress::new(format!("checking {}", file.shown()), 0);
    let mut source = Source::open(&file)?;
    source.read_reel()?;
    let reel = CheckedReel::new(&source.bytes);
    drop(progress);
    let why = match reel {
        Ok(reel) => return all_laps(&reel, laps, form, &file, &directory),
        Err(why) => why,
    };
    source.read_on()?;
    before_the_fault(&source.bytes, why, form, &file, &directory)
}

fn all_laps(reel: &CheckedReel, laps: usize, form: Form, file: &Path, directory: &Path) -> Outcome {
    let mut folder = Folder::begin(directory)?;
    let count = laps.saturating_mul(usize::from(reel.header().frames)).saturating_add(1);
    let progress = Progress::new(format!("writing pictures to {}", directory.shown()), count);
    for frame in reel.laps().take_while(|frame| frame.lap <= laps) {
        let ring = if frame.is_ring { "-ring" } else { "" };
        folder.add(&form.name(frame.lap, laps, frame.number, ring), &form.bytes(&frame.state)?)?;
        progress.step();
    }
    drop(progress);
    folder.finish()?;
    say(&format!("{}: {count} pictures in {}\n", file.shown(), directory.shown()))
}

/// Writes the frames up to the first that isn't accepted, and fails with the refusal.
fn before_the_fault(bytes: &[u8], why: Refused, form: Form, file: &Path, directory: &Path) -> Outcome {
    let refused = wrong(refused::line(file, bytes, why));
    let Ok(salvage) = Salvage::of(bytes) else { return refused };
    let mut pieces = salvage.pieces();
    let mut folder = None;
    let mut count = 0;
    while let Some(piece) = pieces.next().filter(|piece| piece.part == Part::Frame && piece.fate == Fate::Accepted) {
        let folder = match &mut folder {
            Some(folder) => folder,
            none => none.insert(Folder::begin(directory)?),
        };
        folder.add(&form.name(1, 1, piece.number, ""), &form.bytes(pieces.shown())?)?;
        count = piece.number;
    }
    let Some(folder) = folder else { return refused };
    folder.finish()?;
    let pictures = counted(count, "picture");
    say(&format!("{}: {pictures} in {}, of the frames before the fault\n", file.shown(), directory.shown()))?;
    refused
}

/// The form of the pictures.
#[derive(Clone, Copy)]
enum Form {
    Ppm,
    Png,
}

impl Form {
    fn bytes(self, state: &State) -> Outcome<Vec<u8>> {
        match self {
            Form::Ppm => Ok(ppm(state)),
            Form::Png => png::indexed(state),
        }
    }

    /// Lap and number with as many digits as the last have, so that the names sort.
    fn name(self, lap: usize, laps: usize, number: usize, ring: &str) -> String {
        let digits = laps.to_string().len();
        let end = match self {
            Form::Ppm => "ppm",
            Form::Png => "png",
        };
        format!("lap{lap:0digits$}-{number:04}{ring}.{end}")
    }
}
