//! `flic rewrite`: a reel anew in house form.

use super::Command;
use crate::tool::arguments::Arguments;
use crate::tool::failure::Outcome;
use crate::tool::formats::may_be_named;
use crate::tool::house::{house, not_kept};
use crate::tool::name::Shown;
use crate::tool::numbers::{counted, grouped};
use crate::tool::progress::Progress;
use crate::tool::shares::{lost, shares};
use crate::tool::stored::{self, StoredHeader};
use crate::tool::target::{Target, FORCE};
use crate::tool::{files, refused};
use flic::CheckedReel;

pub const COMMAND: Command = Command {
    name: "rewrite",
    usage: "IN OUT [--force]",
    summary: "writes the same pictures in house form",
    about: "\
Writes the reel IN anew as OUT, in house form: the same format, pictures, palettes and delay, and a trailer if IN has
one. Other chunks, dates, and bytes behind the reel that aren't its trailer aren't kept; it is said which there were.
OUT may be IN. An FLC or FLI file that is there already is replaced if it is in house form, or with --force; another
file isn't. An FLI of an FLC, or the other way round, is made with flic convert.",
    options: &[FORCE],
    run,
};

fn run(arguments: Arguments) -> Outcome {
    let is_forced = arguments.has(FORCE.name);
    let [file, out] = arguments.exactly(["IN", "OUT"])?;
    let progress = Progress::new(format!("checking {}", file.shown()), 0);
    let before = files::read(&file)?;
    let reel = CheckedReel::new(&before);
    drop(progress);
    let reel = refused::accepted(&file, &before, reel)?;
    may_be_named(&out, &file, reel.format())?;
    let target = Target::new(&out, is_forced)?;
    let after = refused::accepted(&file, &before, house(&reel, &before, format!("writing {}", target.name())))?;
    let mut not_in_it = lost(&shares(reel.frame_chunks(), reel.header().size as usize, &before));
    if let (Some(before), Some(after)) = (StoredHeader::of(&before), StoredHeader::of(&after)) {
        not_in_it.extend(stored::lost(&before, &after));
    }
    let told = not_kept(not_in_it).map_or(String::new(), |line| format!("{}: {line}\n", file.shown()));
    target.deliver(&after, &told, &format!("{}, {} before", counted(after.len(), "byte"), grouped(before.len())))
}
