//! `flic convert`: a reel in the other format.

use super::Command;
use crate::tool::arguments::Arguments;
use crate::tool::failure::{misused, wrong, Outcome};
use crate::tool::formats::{made_jiffies, made_milliseconds, named};
use crate::tool::house::{has_trailer, house_in, not_kept};
use crate::tool::name::Shown;
use crate::tool::numbers::counted;
use crate::tool::progress::Progress;
use crate::tool::shares::{lost, shares};
use crate::tool::stored::{self, StoredHeader};
use crate::tool::target::{Target, FORCE};
use crate::tool::{files, refused};
use flic::{CheckedReel, Format, Header, Jiffies, Size};
use std::path::Path;

pub const COMMAND: Command = Command {
    name: "convert",
    usage: "IN OUT.fli|OUT.flc [--force]",
    summary: "makes an FLI of an FLC of 320 by 200, or an FLC of an FLI",
    about: "\
Writes the reel IN as OUT in the other format, which the end of OUT's name says: each frame has the same picture and
palette, which is compared before anything is written. An FLI is 320 by 200; a reel of another size is refused.

An FLC stores its delay in milliseconds, an FLI in jiffies of 1/70 second. Milliseconds become jiffies rounded up,
jiffies become milliseconds rounded down; it is said what became of what, and whether that is exact. A trailer, other
chunks, dates, and bytes behind the reel aren't kept; it is said which there were.
IN stays as it is, and OUT may not be IN. An FLC or FLI file that is there already is replaced if it is in house form,
or with --force; another file isn't. Where OUT is -, it has the format that IN hasn't.",
    options: &[FORCE],
    run,
};

fn run(arguments: Arguments) -> Outcome {
    let is_forced = arguments.has(FORCE.name);
    let [file, out] = arguments.exactly(["IN", "OUT.fli or OUT.flc"])?;
    if named(&out).is_none() && !files::is_standard(&out) {
        return misused(format!("{} ends neither in .fli nor in .flc: name OUT by what it is to be", out.shown()));
    }
    if files::are_one(&file, &out) {
        return wrong(format!("{}: is IN and OUT: nothing is converted in place, give another name", out.shown()));
    }
    let progress = Progress::new(format!("checking {}", file.shown()), 0);
    let before = files::read(&file)?;
    let reel = CheckedReel::new(&before);
    drop(progress);
    let reel = refused::accepted(&file, &before, reel)?;
    let to = other_than(reel.format());
    fits(&file, &out, &reel, to)?;
    let target = Target::new(&out, is_forced)?;
    let after = refused::accepted(&file, &before, house_in(to, &reel, format!("writing {}", target.name())))?;
    let written = refused::accepted(&out, &after, CheckedReel::new(&after))?;
    if let Some(number) = differing(&reel, &written) {
        let words = "this is a fault of flic, and nothing was written: keep the reel, and report it";
        return wrong(format!("{}: frame {number} isn't as it was; {words}", file.shown()));
    }
    let notes = [Some(delay(reel.header(), written.header())), not_kept(losses(&reel, &before, &after))];
    let told: String = notes.into_iter().flatten().map(|note| format!("{}: {note}\n", file.shown())).collect();
    let (frames, length) = (counted(reel.header().frames.into(), "frame"), counted(after.len(), "byte"));
    target.deliver(&after, &told, &format!("an {to} of {frames} and the ring, {length}"))
}

fn other_than(format: Format) -> Format {
    match format {
        Format::Flc => Format::Fli,
        Format::Fli => Format::Flc,
    }
}

/// Refuses what the other format can't have, with what to do.
fn fits(file: &Path, out: &Path, reel: &CheckedReel, to: Format) -> Outcome {
    let (name, from) = (file.shown(), reel.format());
    if named(out).is_some_and(|named| named != to) {
        return wrong(format!("{name}: is an {from} already: copy it, or write it anew with flic rewrite"));
    }
    if to == Format::Flc {
        return Ok(());
    }
    if reel.size() != Size::FLI {
        return wrong(format!(
            "{name}: is {}, and an FLI is {}: write its pictures with flic frames, and make an FLI of them with \
             flic build --fli --scale 320x200",
            reel.size(),
            Size::FLI
        ));
    }
    let speed = reel.header().speed;
    match speed.in_jiffies() {
        Ok(_) => Ok(()),
        Err(_) => wrong(format!(
            "{name}: shows a frame for {speed}, and an FLI for {} at most: write its pictures with flic frames, and make \
             an FLI of them with flic build --fli and another --speed",
            Jiffies(u16::MAX).in_milliseconds()
        )),
    }
}

/// The first frame, the ring counted too, that doesn't show the same in both.
fn differing(one: &CheckedReel, other: &CheckedReel) -> Option<usize> {
    let (mut laps, mut others) = (one.laps(), other.laps());
    let frames = one.frame_chunks().len().max(other.frame_chunks().len());
    (1..=frames).find(|_| {
        let (one, other) = (laps.advance(), others.advance());
        (one.number, one.is_ring, one.state) != (other.number, other.is_ring, other.state)
    })
}

/// What became of the delay.
fn delay(before: &Header, after: &Header) -> String {
    match (before.jiffies(), after.jiffies()) {
        (_, Some(jiffies)) => made_jiffies(before.speed, jiffies),
        (Some(jiffies), None) => made_milliseconds(jiffies, after.speed),
        (None, None) => before.speed.to_string(),
    }
}

/// What the new reel has nothing of.
fn losses(reel: &CheckedReel, before: &[u8], after: &[u8]) -> Vec<String> {
    let mut losses = lost(&shares(reel.frame_chunks(), reel.header().size as usize, before));
    if has_trailer(before) {
        losses.push("the trailer".to_string());
    }
    if let (Some(before), Some(after)) = (StoredHeader::of(before), StoredHeader::of(after)) {
        losses.extend(stored::lost(&before, &after));
    }
    losses
}

#[cfg(test)]
mod tests {
    use super::*;
    use flic::{Reel, State};

    fn reel(format: Format, pixels: &[u8]) -> Vec<u8> {
        let mut reel = Reel::open_as(format, Size::FLI, Jiffies(7).in_milliseconds()).unwrap();
        for pixel in pixels {
            let mut state = State::blank(Size::FLI);
            state.picture.pixels_mut()[9] = *pixel;
            reel.add(&state).unwrap();
        }
        reel.close().unwrap()
    }

    #[test]
    fn the_first_frame_that_shows_something_else_is_found() {
        let (one, same) = (reel(Format::Flc, &[1, 2, 3]), reel(Format::Fli, &[1, 2, 3]));
        let of = |other: &[u8]| differing(&CheckedReel::new(&one).unwrap(), &CheckedReel::new(other).unwrap());
        assert_eq!(of(&same), None);
        assert_eq!((of(&reel(Format::Fli, &[9, 2, 3])), of(&reel(Format::Fli, &[1, 2, 9]))), (Some(1), Some(3)));
        // A frame that shows what the ring shows is none.
        assert_eq!((of(&reel(Format::Fli, &[1, 2])), of(&reel(Format::Fli, &[1, 2, 3, 1]))), (Some(3), Some(4)));
    }
}
