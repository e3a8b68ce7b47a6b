//! `flic sheet`: all frames of a reel on one picture.

use super::Command;
use crate::tool::arguments::{Arguments, Opt};
use crate::tool::drawing::Colour;
use crate::tool::failure::Outcome;
use crate::tool::font::LETTER;
use crate::tool::image::Image;
use crate::tool::name::Shown;
use crate::tool::numbers::counted;
use crate::tool::progress::Progress;
use crate::tool::scale::{scaled, Way};
use crate::tool::target::say_beside;
use crate::tool::{files, outputs, png, refused};
use flic::{CheckedReel, Size};

pub const COMMAND: Command = Command {
    name: "sheet",
    usage: "FILE OUT.png [--columns N] [--force]",
    summary: "shows all frames on one picture",
    about: "\
Writes a contact sheet of the reel as a PNG picture: every frame with its number, and last, framed in red, the ring,
which must show frame 1 again. Frames are as large as they are, or made smaller by a whole number where the sheet would
have more than 8,000 pixels in a row or a column. A file that is there already is replaced if it is such a sheet.",
    options: &[
        Opt { name: "--columns", value: Some("N"), about: "how many frames stand in a row" },
        Opt { name: "--force", value: None, about: "replaces OUT.png, whatever it is" },
    ],
    run,
};

/// Stands in every sheet, so that it is known again.
const MARK: &str = "flic sheet";
const MOST_SIDE: usize = 8_000;
const GAP: usize = 8;
/// The line with the number, and the gap above it.
const LINE: usize = 10;
/// The wideness of a frame around a picture.
const EDGE: usize = 2;
const GROUND: Colour = [40, 40, 44];
const WORDS: Colour = [220, 220, 220];
const RING: Colour = [230, 40, 40];

fn run(arguments: Arguments) -> Outcome {
    let columns = arguments.number("--columns", 1)?;
    let is_forced = arguments.has("--force");
    let [file, out] = arguments.exactly(["FILE", "OUT.png"])?;
    png::needed_for("flic sheet")?;
    outputs::may_be_written(&out, MARK, is_forced)?;
    let bytes = files::read_reel(&file)?;
    let reel = refused::checked(&file, &bytes)?;

    let progress = Progress::new(format!("drawing {}", out.shown()), reel.frame_chunks().len());
    let sheet = drawn(&reel, columns.map(|columns| columns as usize), &progress);
    let bytes = png::coloured(&sheet, MARK)?;
    drop(progress);
    files::write(&out, &bytes)?;
    let (name, frames) = (files::target_name(&out), counted(reel.header().frames.into(), "frame"));
    say_beside(&out, &format!("{name}: {frames} and the ring, {}", sheet.measures()))
}

fn drawn(reel: &CheckedReel, columns: Option<usize>, progress: &Progress) -> Image {
    let plan = Plan::of(reel.size(), reel.frame_chunks().len(), columns);
    let mut sheet = Image::filled(plan.columns * plan.cell.0 + GAP, plan.rows * plan.cell.1 + GAP, GROUND);
    let mut laps = reel.laps();
    for at in 0..reel.frame_chunks().len() {
        let shown = laps.advance();
        let (x, y) = (GAP + at % plan.columns * plan.cell.0, GAP + at / plan.columns * plan.cell.1);
        let picture = scaled(&Image::of(shown.state), plan.size, Way::Average);
        let (label, colour) = match shown.is_ring {
            true => ("RING".to_string(), RING),
            false => (shown.number.to_string(), WORDS),
        };
        if shown.is_ring {
            sheet.fill(x - EDGE, y - EDGE, picture.width + 2 * EDGE, picture.height + 2 * EDGE, RING);
        }
        sheet.put(x, y, &picture);
        sheet.write(x, y + picture.height + LINE - 7, &label, colour);
        progress.step();
    }
    sheet
}

/// How frames are laid out on a sheet.
#[derive(Debug, PartialEq, Eq)]
struct Plan {
    columns: usize,
    rows: usize,
    /// The size of a frame there.
    size: Size,
    /// The width and height that a frame takes with its number and the gaps.
    cell: (usize, usize),
}

impl Plan {
    /// For so many frames: about as wide as high, if no columns are asked for.
    fn of(size: Size, count: usize, columns: Option<usize>) -> Plan {
        let plan = |by: u16| {
            let part = |side: u16| (side / by).max(1);
            let size = Size::new(part(size.width()), part(size.height())).expect("a smaller size is taken too");
            let cell = cell(size);
            let square = (1..=count).find(|columns| columns * cell.0 >= count.div_ceil(*columns) * cell.1);
            let columns = columns.or(square).unwrap_or(count).min(count);
            Plan { columns, rows: count.div_ceil(columns), size, cell }
        };
        let fits = |plan: &Plan| plan.columns * plan.cell.0 <= MOST_SIDE && plan.rows * plan.cell.1 <= MOST_SIDE;
        (1..=size.width().max(size.height())).map(plan).find(fits).unwrap_or_else(|| plan(u16::MAX))
    }
}

/// A number of four digits has room below a frame, however small that is.
fn cell(size: Size) -> (usize, usize) {
    (usize::from(size.width()).max(4 * LETTER) + GAP, usize::from(size.height()) + LINE + GAP)
}

#[cfg(test)]
mod tests {
    use super::*;

    fn plan(width: u16, height: u16, count: usize, columns: Option<usize>) -> Plan {
        Plan::of(Size::new(width, height).unwrap(), count, columns)
    }

    #[test]
    fn every_frame_has_its_place() {
        for (width, height) in [(320, 200), (1, 1), (1, 200), (320, 1), (160, 64)] {
            for count in [2, 3, 7, 41, 1_000, 4_001] {
                let plan = plan(width, height, count, None);
                assert!(plan.columns * plan.rows >= count && plan.columns * (plan.rows - 1) < count, "{plan:?}");
                assert!(plan.columns * plan.cell.0 <= MOST_SIDE, "{plan:?}");
                assert!(plan.rows * plan.cell.1 <= MOST_SIDE, "{plan:?}");
            }
        }
    }

    #[test]
    fn frames_are_as_large_as_they_are_where_there_is_room() {
        assert_eq!(plan(320, 200, 41, None).size, Size::new(320, 200).unwrap());
        assert_eq!(plan(160, 64, 4, None), plan(160, 64, 4, Some(2)));
        assert_eq!((plan(160, 64, 4, Some(9)).columns, plan(160, 64, 4, Some(3)).rows), (4, 2));
        let many = plan(320, 200, 4_001, None);
        assert!(many.size.width() < 320 && many.size.width() > 60, "{many:?}");
    }
}
