//! How a refusal of a file is told: what was found there, in a sentence, and what to do.

use super::failure::{Failure, Outcome};
use super::foreign::foreign;
use super::name::Shown;
use super::numbers::{counted, grouped};
use super::progress::Progress;
use super::salvage::Salvage;
use super::stored::{self, kind_name, StoredHeader};
use flic::{
    part_of, CheckedReel, Format, Header, Part, Refusal, Refused, State, FILE_HEADER, MOST_FRAMES, TRAILER_MOST,
};
use std::fmt;
use std::path::Path;

/// A refusal of a file, in words.
#[derive(Clone, Debug, PartialEq, Eq)]
pub struct Told {
    pub refused: Refused,
    pub part: Part,
    pub found: String,
    pub advice: String,
}

impl Told {
    /// What is told of a refusal of these bytes.
    pub fn of(bytes: &[u8], refused: Refused) -> Told {
        let part = part_of(bytes, refused);
        let (found, advice) = match foreign(bytes).filter(|_| is_of_the_type(refused)) {
            Some(foreign) => (foreign.found, foreign.advice.to_string()),
            None => (found(bytes, refused, part), advice(bytes, refused.refusal)),
        };
        Told { refused, part, found, advice }
    }

    /// Number, place, part and what was found.
    pub fn fault(&self) -> String {
        let (number, place) = (self.refused.refusal.number(), self.refused.place);
        format!("refused {number} at offset {place}, in {}: {}", self.part, self.found)
    }
}

impl fmt::Display for Told {
    fn fmt(&self, f: &mut fmt::Formatter<'_>) -> fmt::Result {
        write!(f, "{}; {}", self.fault(), self.advice)
    }
}

/// The line that tells of it: number, place, the part of the reel in which it lies, what was found, and what to do.
pub fn line(file: &Path, bytes: &[u8], refused: Refused) -> String {
    format!("{}: {}", file.shown(), Told::of(bytes, refused))
}

/// The result of a call on a file's bytes, its refusal told as a failure.
pub fn accepted<T>(file: &Path, bytes: &[u8], result: flic::Result<T>) -> Outcome<T> {
    result.map_err(|refused| Failure::Wrong(line(file, bytes, refused)))
}

/// A file's bytes as a checked reel, its refusal told as a failure; shows that it is at work.
pub fn checked<'a>(file: &Path, bytes: &'a [u8]) -> Outcome<CheckedReel<'a>> {
    let progress = Progress::new(format!("checking {}", file.shown()), 0);
    let reel = CheckedReel::new(bytes);
    drop(progress);
    accepted(file, bytes, reel)
}

/// Whether the refusal may come from a file of another type: a short one is cut before its type is looked at.
fn is_of_the_type(refused: Refused) -> bool {
    matches!(refused.refusal, Refusal::Cut | Refusal::WrongType) && refused.place == 0
}

fn found(bytes: &[u8], refused: Refused, part: Part) -> String {
    let usual = || refused.refusal.meaning().to_string();
    let Some(header) = StoredHeader::of(bytes) else {
        return match refused.refusal {
            Refusal::Cut if bytes.is_empty() => "it is empty".to_string(),
            Refusal::Cut => format!("it has {}, and a header alone has {FILE_HEADER}", counted(bytes.len(), "byte")),
            _ => usual(),
        };
    };
    match refused.refusal {
        Refusal::Cut if part == Part::Header => {
            format!("it has {} of {} bytes", grouped(bytes.len()), grouped(header.size as usize))
        }
        Refusal::SmallSize if part == Part::Header => {
            format!(
                "its header says that it has {}, less than the header itself",
                counted(header.size as usize, "byte")
            )
        }
        Refusal::BadSize => {
            let limit = match header.format() {
                Some(Format::Fli) => "an FLI is 320 by 200",
                _ if header.width.min(header.height) == 0 => "a board takes at least 1 by 1",
                _ => "a board takes at most 320 by 200",
            };
            format!("it is {} by {}, and {limit}", header.width, header.height)
        }
        Refusal::WrongType if header.format() == Some(Format::Fli) => {
            "this is an FLI, and listings and trailers are of FLC files only".to_string()
        }
        Refusal::NotInFli => match stored::kind_at(bytes, refused.place as usize) {
            Some(kind) => format!(
                "this is an FLI, and holds a chunk of kind {kind} ({}), which only an FLC may hold",
                kind_name(kind)
            ),
            None => usual(),
        },
        Refusal::BadHeader => bad_header(&header),
        Refusal::FewFrames => few_frames(bytes, &header).unwrap_or_else(usual),
        Refusal::BadRing => bad_ring(bytes).unwrap_or_else(usual),
        Refusal::BadTrailer => behind(bytes).unwrap_or_else(usual),
        _ => usual(),
    }
}

fn bad_header(header: &StoredHeader) -> String {
    let frames = usize::from(header.frames);
    match header.depth {
        8 if !(1..=MOST_FRAMES).contains(&frames) && header.flags == header.flags_of_closed() => {
            format!(
                "its header says that it has {}, and a reel has 1 to {}",
                counted(frames, "frame"),
                grouped(MOST_FRAMES)
            )
        }
        8 if header.format() == Some(Format::Fli) => {
            format!("its flags are {}, and those of an FLI are {}", header.flags, header.flags_of_closed())
        }
        8 => format!("it was never closed: its flags are {}, not {}", header.flags, header.flags_of_closed()),
        depth => format!("its depth is {depth}, and a board takes 8 bits a pixel"),
    }
}

fn few_frames(bytes: &[u8], header: &StoredHeader) -> Option<String> {
    let (found, frames) = (Salvage::of(bytes).ok()?.found.len(), usize::from(header.frames));
    Some(match found >= frames {
        true => format!("{} there, but no ring", if frames == 1 { "its frame is" } else { "all its frames are" }),
        false => format!("it has {} of {}, and no ring", grouped(found), counted(frames, "frame")),
    })
}

fn bad_ring(bytes: &[u8]) -> Option<String> {
    let salvage = Salvage::of(bytes).ok()?;
    let mut pieces = salvage.pieces();
    pieces.by_ref().take(salvage.promised? + 1).for_each(drop);
    let (pixels, colours) =
        (pixels_apart(pieces.first(), pieces.shown()), colours_apart(pieces.first(), pieces.shown()));
    let what = match (pixels, colours) {
        (pixels, 0) => counted(pixels, "pixel"),
        (0, colours) => counted(colours, "colour"),
        _ => format!("{} and {}", counted(pixels, "pixel"), counted(colours, "colour")),
    };
    let verb = if pixels + colours == 1 { "differs" } else { "differ" };
    Some(format!("the ring doesn't lead back to frame 1: {what} {verb}"))
}

/// How many pixels have another number.
fn pixels_apart(one: &State, other: &State) -> usize {
    one.picture.pixels().iter().zip(other.picture.pixels()).filter(|(one, other)| one != other).count()
}

/// How many entries have another colour.
fn colours_apart(one: &State, other: &State) -> usize {
    (0..=u8::MAX).filter(|entry| one.palette.colour(*entry) != other.palette.colour(*entry)).count()
}

fn behind(bytes: &[u8]) -> Option<String> {
    Some(match bytes.len() - Header::read(bytes).ok()?.size as usize {
        1 => "the byte behind the reel isn't its trailer".to_string(),
        count @ ..=TRAILER_MOST => format!("the {} behind the reel aren't its trailer", counted(count, "byte")),
        _ => format!("over {} bytes stand behind the reel that aren't its trailer", grouped(TRAILER_MOST)),
    })
}

/// What the tool can do about it, and else what a person can.
fn advice(bytes: &[u8], refusal: Refusal) -> String {
    let repaired = match refusal {
        Refusal::Cut => "copy the file anew, or save the frames that are there with flic repair IN OUT",
        Refusal::SmallSize
        | Refusal::BodyEnds
        | Refusal::ZeroCount
        | Refusal::PastWidth
        | Refusal::PastHeight
        | Refusal::BadWord
        | Refusal::PastPalette
        | Refusal::OverLevel => "copy the file anew; if it stays, flic repair IN OUT keeps the frames that can be read",
        Refusal::BadHeader | Refusal::FewFrames => "flic repair IN OUT makes a reel of the frames that are there",
        Refusal::BadRing => {
            "a board would show a wrong picture from the second lap on: flic repair IN OUT makes the ring anew"
        }
        Refusal::SpareBytes => "the tool that wrote the file left old bytes in it: flic repair IN OUT takes them out",
        Refusal::NotInFli => {
            "a board that takes FLI can't draw it: flic repair IN OUT writes such frames anew as an FLI has them"
        }
        Refusal::BadTrailer => return "write it anew with flic trailer write FILE".to_string(),
        Refusal::BadSize if stored::format_of(bytes) == Some(Format::Fli) => {
            return "make it anew from pictures of that size, or as an FLC".to_string()
        }
        Refusal::BadSize => return "make it anew from pictures of a size that the board takes".to_string(),
        Refusal::WrongType if stored::format_of(bytes) == Some(Format::Fli) => {
            return "flic info FILE says what it holds, and flic convert FILE OUT.flc makes an FLC of it".to_string()
        }
        _ => return refusal.advice().to_string(),
    };
    match Salvage::of(bytes).is_ok_and(|salvage| salvage.has_frames()) {
        true => repaired.to_string(),
        false => refusal.advice().to_string(),
    }
}
