//! `flic repair`: what can be read of a refused reel, as a reel that a board can play.

use super::check::checked;
use super::Command;
use crate::tool::arguments::{Arguments, Opt};
use crate::tool::failure::{wrong, Outcome};
use crate::tool::formats::may_be_named;
use crate::tool::house::not_kept;
use crate::tool::name::Shown;
use crate::tool::numbers::{counted, grouped, named};
use crate::tool::progress::Progress;
use crate::tool::refused::Told;
use crate::tool::salvage::{Fate, Part, Piece, Salvage, Skipped};
use crate::tool::shares::{lost, others as others_in, shares, What};
use crate::tool::stored::{self, StoredHeader, FRAME_KIND};
use crate::tool::target::{Target, FORCE};
use crate::tool::{files, house, refused};
use flic::{check_reel, write_trailer, CheckedReel, Chunk, Reel, Refused, FILE_HEADER};
use std::mem;

pub const COMMAND: Command = Command {
    name: "repair",
    usage: "IN OUT [--keep-others] [--sure] [--force]",
    summary: "saves what can be read of a refused reel, with a new ring",
    about: "\
Writes the frames of IN that can be read, in their order, as the reel OUT, with a new ring that leads from the last of
them back to the first, and says what was wrong and what isn't kept. OUT has the format of IN, and is checked; IN stays
as it is, and OUT may not be IN. A reel that was cut, never closed, whose ring doesn't lead back, or into which a tool
put old bytes plays again, with all frames that are whole. A frame of an FLI that holds what only an FLC may hold, kind
7 or 18, is drawn as an FLC's and written as an FLI has it.

A frame that can't be read is dropped; where a chunk's size is damaged, the next frame is looked for behind it. The
frames behind a dropped one were made to be drawn on its picture, and are drawn on the one before: it is said which, so
that they can be looked at, or left out with --sure. Where none is left that shows what it should, nothing is written.",
    options: &[
        Opt { name: "--keep-others", value: None, about: "keeps chunks outside frames, which are dropped otherwise" },
        Opt { name: "--sure", value: None, about: "drops frames that a dropped one can be seen in" },
        FORCE,
    ],
    run,
};

fn run(arguments: Arguments) -> Outcome {
    let (keeps_others, wants_sure) = (arguments.has("--keep-others"), arguments.has("--sure"));
    let is_forced = arguments.has(FORCE.name);
    let [file, out] = arguments.exactly(["IN", "OUT"])?;
    if files::are_one(&file, &out) {
        return wrong(format!("{}: is IN and OUT: nothing is repaired in place, give another name", out.shown()));
    }
    let target = Target::new(&out, is_forced)?;
    let progress = Progress::new(format!("checking {}", file.shown()), 0);
    let before = files::read(&file)?;
    let told = checked(&before).err().map(|why| Told::of(&before, why));
    drop(progress);
    let salvage = refused::accepted(&file, &before, Salvage::of(&before))?;
    may_be_named(&out, &file, salvage.format)?;

    let made = Repair::made(&salvage, &before, wants_sure, format!("repairing {}", file.shown()));
    let repair = refused::accepted(&file, &before, made)?;
    let fault = match &told {
        Some(told) => told.fault(),
        None => "ok, nothing has to be repaired".to_string(),
    };
    if !repair.has_sure {
        return wrong(format!("{}: {fault}; no frame of it can be kept: copy the file anew", file.shown()));
    }
    let mut notes = repair.notes(told.is_some(), wants_sure);
    let frames = counted(repair.reel.frames(), "frame");
    let mut losses = repair.losses(&before, keeps_others);
    let after = refused::accepted(&file, &before, repair.closed(&before, keeps_others))?;
    if let (Some(before), Some(after)) = (StoredHeader::of(&before), StoredHeader::of(&after)) {
        losses.extend(stored::lost(&before, &after));
    }
    notes.extend(not_kept(losses));
    let notes: String = notes.iter().map(|note| format!("  {note}\n")).collect();
    let words = format!("{frames} and the ring, {}", counted(after.len(), "byte"));
    target.deliver(&after, &format!("{}: {fault}\n{notes}", file.shown()), &words)
}

/// A reel that is built from what can be read, and what became of the parts of the old one.
struct Repair<'a> {
    salvage: &'a Salvage<'a>,
    reel: Reel,
    /// How many frames were found, whether they are kept or not.
    found: usize,
    dropped: Vec<(usize, Refused)>,
    /// Frames in which a dropped one can be seen.
    unsure: Vec<usize>,
    /// Frames that had spare bytes, and how many bytes.
    tidied: Vec<usize>,
    spare: usize,
    /// Frames of an FLI that hold what only an FLC may hold.
    of_flc: Vec<usize>,
    ring: Option<Fate>,
    /// The frames that are kept, and the ring.
    kept: Vec<Chunk>,
    /// Whether any of them shows what it should.
    has_sure: bool,
    /// The chunks outside frames that stand before each frame of the new reel, before its ring, and behind that.
    others: Vec<Vec<u8>>,
}

impl<'a> Repair<'a> {
    fn made(salvage: &'a Salvage<'a>, bytes: &[u8], wants_sure: bool, what: String) -> flic::Result<Repair<'a>> {
        let mut repair = Repair {
            salvage,
            reel: Reel::open_as(salvage.format, salvage.size, salvage.speed)?,
            found: 0,
            dropped: Vec::new(),
            unsure: Vec::new(),
            tidied: Vec::new(),
            spare: 0,
            of_flc: Vec::new(),
            ring: None,
            kept: Vec::new(),
            has_sure: false,
            others: Vec::new(),
        };
        let progress = Progress::new(what, salvage.found.len());
        let (mut pieces, mut at, mut pending) = (salvage.pieces(), FILE_HEADER, Vec::new());
        while let Some(piece) = pieces.next() {
            pending.extend(others_in(&bytes[at..piece.chunk.offset]));
            at = piece.chunk.end();
            if repair.takes(&piece, wants_sure) {
                repair.reel.add(pieces.shown())?;
                repair.others.push(mem::take(&mut pending));
            }
            progress.step();
        }
        repair.others.extend([pending, others_in(&bytes[at..repair.end().max(at)])]);
        Ok(repair)
    }

    /// Whether a chunk becomes a frame of the new reel.
    fn takes(&mut self, piece: &Piece, wants_sure: bool) -> bool {
        if piece.part == Part::Ring {
            self.ring = Some(piece.fate);
            self.kept.push(piece.chunk);
            return false;
        }
        self.found += 1;
        match piece.fate {
            Fate::Dropped(why) => self.dropped.push((piece.number, why)),
            Fate::Mended { spare, is_of_flc } => {
                self.tidied.extend((spare > 0).then_some(piece.number));
                self.spare += spare;
                self.of_flc.extend(is_of_flc.then_some(piece.number));
            }
            Fate::Accepted => {}
        }
        if piece.is_kept() && !piece.is_sure {
            self.unsure.push(piece.number);
        }
        let takes = piece.is_kept() && (piece.is_sure || !wants_sure);
        if takes {
            self.kept.push(piece.chunk);
            self.has_sure |= piece.is_sure;
        }
        takes
    }

    /// Where the reel ends. Without a ring, what stands behind its last frame is a part of the next.
    fn end(&self) -> usize {
        match self.ring {
            Some(_) => self.salvage.reel_end(),
            None => self.kept.last().map_or(FILE_HEADER, Chunk::end),
        }
    }

    /// What stood beside the frames that are kept and isn't in the new reel.
    fn losses(&self, bytes: &[u8], keeps_others: bool) -> Vec<String> {
        let mut shares = shares(&self.kept, self.end(), bytes);
        shares.retain(|share| match share.what {
            What::Other(kind) => kind != FRAME_KIND && !keeps_others,
            What::Behind => self.ring.is_some(),
            _ => true,
        });
        lost(&shares)
    }

    /// The reel closed and checked, with the chunks outside frames if they are kept, and a trailer if one was there.
    fn closed(self, before: &[u8], keeps_others: bool) -> flic::Result<Vec<u8>> {
        let mut bytes = house::closed(self.reel)?;
        if keeps_others {
            let frames = CheckedReel::new(&bytes)?.frame_chunks().to_vec();
            bytes = stored::with_others(&bytes, &frames, &self.others);
            check_reel(&bytes)?;
        }
        if house::has_trailer(before) {
            write_trailer(&mut bytes)?;
        }
        Ok(bytes)
    }

    /// What was done, a line each.
    fn notes(&self, was_refused: bool, wants_sure: bool) -> Vec<String> {
        let mut notes = Vec::new();
        if let Some((_, first)) = self.dropped.first() {
            let numbers: Vec<usize> = self.dropped.iter().map(|(number, _)| *number).collect();
            let (names, are) = named(&numbers);
            let (number, place, meaning) = (first.refusal.number(), first.place, first.refusal.meaning());
            notes.push(format!(
                "{names} can't be read and {are} dropped: refused {number} at offset {place}, {meaning}"
            ));
        }
        if !self.unsure.is_empty() {
            let (names, are) = named(&self.unsure);
            notes.push(match wants_sure {
                true => format!("{names} {are} dropped too, made to be drawn on a picture that is gone"),
                false => format!(
                    "{names} {are} kept, but made to be drawn on a picture that is gone: look, or leave out with --sure"
                ),
            });
        }
        if !self.tidied.is_empty() {
            let names = named(&self.tidied).0;
            notes.push(format!("{} taken out of {names}", counted(self.spare, "spare byte")));
        }
        if !self.of_flc.is_empty() {
            let names = named(&self.of_flc).0;
            notes.push(format!(
                "kind 7 or 18, which only an FLC may hold, in {names}: drawn as in one, and written anew"
            ));
        }
        for Skipped { chunk, .. } in &self.salvage.skipped {
            let skipped = counted(chunk.size, "byte");
            notes.push(format!("{skipped} skipped from offset {} on, up to the next frame", chunk.offset));
        }
        notes.extend(self.missing());
        if !was_refused {
            return notes;
        }
        notes.push(match self.ring {
            None => "the ring isn't there, and is made anew".to_string(),
            Some(Fate::Dropped(_)) => "the ring can't be read, and is made anew".to_string(),
            Some(_) => "the ring is made anew".to_string(),
        });
        notes
    }

    /// How the frames that were found differ from those that the header speaks of.
    fn missing(&self) -> Option<String> {
        let promised = self.salvage.promised?;
        if promised == self.found {
            return None;
        }
        if self.ring.is_some() || promised < self.found {
            let (said, found) = (counted(promised, "frame"), grouped(self.found));
            return Some(format!("the header speaks of {said}, and {found} are there"));
        }
        let (names, are) = named(&(self.found + 1..=promised).collect::<Vec<usize>>());
        let place = self.salvage.end.map_or(0, |end| end.place);
        Some(format!("{names} {are} lost: no further one is found from offset {place} on"))
    }
}
