//! `flic diff`: in which frames two reels differ.

use super::Command;
use crate::tool::arguments::{Arguments, Opt};
use crate::tool::drawing::Colour;
use crate::tool::failure::{misused, wrong, Failure, Outcome};
use crate::tool::folder::Folder;
use crate::tool::formats::delay;
use crate::tool::image::Image;
use crate::tool::name::Shown;
use crate::tool::numbers::counted;
use crate::tool::progress::Progress;
use crate::tool::say::{complain, say};
use crate::tool::{files, png, refused};
use flic::{check_reel, next_frame, read_frame, Header, Refusal, Refused, Size, State, FILE_HEADER};
use std::path::{Path, PathBuf};

pub const COMMAND: Command = Command {
    name: "diff",
    usage: "A B [--png DIR]",
    summary: "says in which frames two reels differ",
    about: "\
Plays both reels and compares what shows after each frame and after the ring: a line for each that differs, with how
many pixels look different, and how many colours of the palette are others. Exit status 1 if anything differs, or the
size, the speed or the number of frames. A reel with a wrong ring is compared too, and said to be refused. An FLC and an
FLI are compared by what they show: that they are of two formats is said, and is no difference.

With --png every frame that differs is written to DIR, which is made, or is empty: A's picture, B's picture, and A's in
grey with the pixels in red that look different.",
    options: &[Opt { name: "--png", value: Some("DIR"), about: "writes pictures of the differences" }],
    run,
};

const GAP: usize = 8;
const GROUND: Colour = [40, 40, 44];
const MARKED: Colour = [255, 0, 0];

fn run(arguments: Arguments) -> Outcome {
    let directory = arguments.value("--png").map(PathBuf::from);
    let files = arguments.exactly(["A", "B"])?;
    if let Some(directory) = &directory {
        png::needed_for("--png")?;
        if files::is_standard(directory) {
            return misused("DIR is a directory, and - is none: give its name".to_string());
        }
    }
    let progress = Progress::new(format!("reading {} and {}", files[0].shown(), files[1].shown()), 0);
    let reels = [Reel::read(&files[0])?, Reel::read(&files[1])?];
    drop(progress);
    let folder = directory.as_deref().map(Folder::begin).transpose()?;
    let mut report = Report { folder, names: files.map(|file| file.shown()), differing: 0 };
    let others = report.other_differences(&reels)?;
    let compared = report.frames(&reels)?;
    // An empty one is left unfinished, and so isn't left.
    let filled = report.folder.take().filter(|_| report.differing > 0);
    filled.map(Folder::finish).transpose()?;
    report.sum(others, compared, directory.as_deref())
}

/// A reel whose frames can all be read, whether or not its ring leads back.
struct Reel {
    bytes: Vec<u8>,
    header: Header,
    size: Size,
    /// Set where the ring is wrong.
    refused: Option<String>,
}

impl Reel {
    fn read(file: &Path) -> Outcome<Reel> {
        let bytes = files::read_reel(file)?;
        let refused = match check_reel(&bytes) {
            Err(why @ Refused { refusal: Refusal::BadRing, .. }) => Some(refused::line(file, &bytes, why)),
            checked => refused::accepted(file, &bytes, checked).map(|()| None)?,
        };
        let header = refused::accepted(file, &bytes, Header::read(&bytes))?;
        let size = refused::accepted(file, &bytes, Size::new(header.width, header.height))?;
        Ok(Reel { bytes, header, size, refused })
    }

    /// What shows after each frame and after the ring.
    fn states(&self) -> impl Iterator<Item = State> + '_ {
        let (mut at, mut state) = (FILE_HEADER, State::blank(self.size));
        (0..=self.header.frames).map(move |_| {
            let reel = &self.bytes[..self.header.size as usize];
            let frame = next_frame(reel, at).expect("the check has found it");
            read_frame(&reel[frame.offset..frame.end()], self.header.format, &mut state)
                .expect("the check has read it");
            at = frame.end();
            state.clone()
        })
    }
}

/// How many pictures were compared, and whether these are all that both reels have.
struct Compared {
    count: usize,
    is_all: bool,
}

/// What is told of two reels.
struct Report<'a> {
    folder: Option<Folder<'a>>,
    names: [String; 2],
    differing: usize,
}

impl Report<'_> {
    /// Says what differs beside the frames; gives whether anything does.
    fn other_differences(&self, reels: &[Reel; 2]) -> Outcome<bool> {
        let [one, other] = reels;
        let are_other =
            [one.size != other.size, one.header.frames != other.header.frames, one.header.speed != other.header.speed];
        let words: [fn(&Reel) -> String; 3] = [
            |reel| reel.size.to_string(),
            |reel| counted(reel.header.frames.into(), "frame"),
            |reel| format!("{} a frame", delay(&reel.header)),
        ];
        // Which format it is, isn't seen on a board that takes both.
        if one.header.format != other.header.format {
            self.say_of_each(reels, |reel| format!("an {}", reel.header.format))?;
        }
        for (_, words) in are_other.iter().zip(words).filter(|(is_other, _)| **is_other) {
            self.say_of_each(reels, words)?;
        }
        reels.iter().filter_map(|reel| reel.refused.as_ref()).for_each(|line| complain(&format!("flic: {line}")));
        Ok(are_other.contains(&true) || reels.iter().any(|reel| reel.refused.is_some()))
    }

    fn say_of_each(&self, [one, other]: &[Reel; 2], words: fn(&Reel) -> String) -> Outcome {
        say(&format!("{}: {}; {}: {}\n", self.names[0], words(one), self.names[1], words(other)))
    }

    /// Says of each frame that both have whether it differs.
    fn frames(&mut self, reels: &[Reel; 2]) -> Outcome<Compared> {
        if reels[0].size != reels[1].size {
            return Ok(Compared { count: 0, is_all: false });
        }
        let pairs = reels[0].states().zip(reels[1].states());
        let frames = usize::from(reels[0].header.frames.min(reels[1].header.frames));
        // Where one has more frames, the other's ring is compared with none of them.
        let has_ring = reels[0].header.frames == reels[1].header.frames;
        let compared = frames + usize::from(has_ring);
        for (at, (one, other)) in pairs.take(compared).enumerate() {
            let name = if at < frames { format!("frame {}", at + 1) } else { "the ring".to_string() };
            if one != other {
                self.differing += 1;
                say(&format!("{name}: {}\n", Difference::of(&one, &other).words()))?;
                self.write(at + 1, at == frames, &one, &other)?;
            }
        }
        Ok(Compared { count: compared, is_all: has_ring })
    }

    fn write(&mut self, number: usize, is_ring: bool, one: &State, other: &State) -> Outcome {
        let Some(folder) = &mut self.folder else { return Ok(()) };
        let ring = if is_ring { "-ring" } else { "" };
        let bytes = png::coloured(&side_by_side(one, other), "flic diff")?;
        folder.add(&format!("{number:04}{ring}.png"), &bytes)
    }

    fn sum(&self, others: bool, compared: Compared, directory: Option<&Path>) -> Outcome {
        let [one, other] = &self.names;
        match self.differing {
            0 if !compared.is_all => Err(Failure::Said),
            0 => {
                let (what, frames) = (if others { " pictures" } else { "" }, counted(compared.count - 1, "frame"));
                say(&format!("{one} and {other} show the same{what}: {frames} and the ring\n"))?;
                match others {
                    true => Err(Failure::Said),
                    false => Ok(()),
                }
            }
            differing => {
                let words = format!("{one} and {other}: {differing} of {} pictures differ", compared.count);
                match directory {
                    Some(directory) => wrong(format!("{words}; see {}", directory.shown())),
                    None => wrong(words),
                }
            }
        }
    }
}

/// How two states differ.
#[derive(Debug, PartialEq, Eq)]
struct Difference {
    /// Pixels that look different.
    seen: usize,
    /// Pixels with another entry of the palette.
    stored: usize,
    /// Entries of the palette with another colour.
    colours: usize,
}

impl Difference {
    fn of(one: &State, other: &State) -> Difference {
        let pixels = one.picture.pixels().iter().zip(other.picture.pixels());
        let looks = |pixel: &(&u8, &u8)| one.palette.colour(*pixel.0) != other.palette.colour(*pixel.1);
        Difference {
            seen: pixels.clone().filter(looks).count(),
            stored: pixels.filter(|(one, other)| one != other).count(),
            colours: (0..=u8::MAX).filter(|entry| one.palette.colour(*entry) != other.palette.colour(*entry)).count(),
        }
    }

    fn words(&self) -> String {
        let colours = counted(self.colours, "palette colour");
        match self.seen {
            0 => {
                let stored = counted(self.stored, "pixel");
                format!("looks the same, but {stored} and {colours} are stored otherwise")
            }
            seen => format!("{} and {colours} differ", counted(seen, "pixel")),
        }
    }
}

/// Both pictures, and the first in grey with what looks different in red.
fn side_by_side(one: &State, other: &State) -> Image {
    let (one, other) = (Image::of(one), Image::of(other));
    let mut marked = one.clone();
    for (pixel, other) in marked.pixels.iter_mut().zip(&other.pixels) {
        *pixel = if pixel == other { grey(*pixel) } else { MARKED };
    }
    let mut all = Image::filled(3 * one.width + 4 * GAP, one.height + 2 * GAP, GROUND);
    for (at, image) in [&one, &other, &marked].into_iter().enumerate() {
        all.put(GAP + at * (one.width + GAP), GAP, image);
    }
    all
}

/// Half as light, so that the marks stand out.
fn grey(colour: Colour) -> Colour {
    let [red, green, blue] = colour.map(u32::from);
    [((2 * red + 5 * green + blue) / 16) as u8; 3]
}

#[cfg(test)]
mod tests {
    use super::*;

    fn state(pixels: [u8; 3], colours: [Colour; 3]) -> State {
        let mut state = State::blank(Size::new(3, 1).unwrap());
        state.picture.pixels_mut().copy_from_slice(&pixels);
        for (entry, colour) in colours.into_iter().enumerate() {
            state.palette.set_colour(entry as u8, colour);
        }
        state
    }

    #[test]
    fn what_looks_different_is_counted_apart_from_what_is_stored() {
        let (red, green) = ([200, 0, 0], [0, 200, 0]);
        let one = state([0, 1, 2], [red, green, red]);
        let swapped = state([1, 0, 2], [green, red, red]);
        assert_eq!(Difference::of(&one, &swapped), Difference { seen: 0, stored: 2, colours: 2 });
        let moved = state([0, 0, 2], [red, green, red]);
        assert_eq!(Difference::of(&one, &moved), Difference { seen: 1, stored: 1, colours: 0 });
        let marked = side_by_side(&one, &moved);
        let row = &marked.pixels[GAP * marked.width..];
        assert_eq!(row[GAP..GAP + 3], [red, green, red]);
        assert_eq!(row[3 * GAP + 6..3 * GAP + 9], [[25; 3], MARKED, [25; 3]]);
    }
}
