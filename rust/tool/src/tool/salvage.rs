//! What can be read of a file that the check refuses: its frames, found and judged by the codec one by one.

use super::mending::Mended;
use super::stored::{self, StoredHeader, FRAME_HEADER, FRAME_KIND};
use flic::{
    next_frame, read_frame, Chunk, Format, Header, Milliseconds, Refusal, Refused, Size, State, FILE_HEADER,
    MOST_FRAMES,
};

/// What is found in a file.
pub struct Salvage<'a> {
    bytes: &'a [u8],
    pub format: Format,
    pub size: Size,
    pub speed: Milliseconds,
    /// How many frames the header speaks of, if a reel can have so many.
    pub promised: Option<usize>,
    /// The frames, and the ring where it is there.
    pub found: Vec<Found>,
    /// Bytes that were skipped, since no chunk begins there, and why: behind them a frame was found again.
    pub skipped: Vec<Skipped>,
    /// Why no further frame is found.
    pub end: Option<Refused>,
    /// Whether the file was closed and has as many bytes as its header says.
    is_whole: bool,
}

/// A frame chunk.
#[derive(Clone, Copy, Debug, PartialEq, Eq)]
pub struct Found {
    pub chunk: Chunk,
    /// Set where nothing but its place is known, since its header is damaged: there may have been more than one.
    pub lost: Option<Refused>,
}

/// Bytes behind a chunk header that is damaged, up to the next frame.
#[derive(Clone, Copy, Debug, PartialEq, Eq)]
pub struct Skipped {
    pub chunk: Chunk,
    pub why: Refused,
}

impl<'a> Salvage<'a> {
    /// Refused where the header doesn't say what its frames are: they are of neither format, or of a size or depth that
    /// no board takes.
    pub fn of(bytes: &'a [u8]) -> flic::Result<Salvage<'a>> {
        let Header { format, width, height, speed, .. } = Header::read(&stored::mended(bytes))?;
        let size = Size::new(width, height)?;
        let (promised, reel) = match StoredHeader::of(bytes) {
            Some(stored) => (Some(stored.frames.into()), stored.reel().filter(|reel| *reel <= bytes.len())),
            None => (None, None),
        };
        let promised = promised.filter(|frames| (1..=MOST_FRAMES).contains(frames));
        let mut salvage = Salvage {
            bytes,
            format,
            size,
            speed,
            promised,
            found: Vec::new(),
            skipped: Vec::new(),
            end: None,
            is_whole: reel.is_some(),
        };
        salvage.find(reel.unwrap_or(bytes.len()));
        salvage.tell_lost();
        Ok(salvage)
    }

    /// Finds the frame chunks up to the reel's end.
    fn find(&mut self, mut end: usize) {
        let mut at = FILE_HEADER;
        while self.found.len() <= MOST_FRAMES {
            match next_frame(&self.bytes[..end], at) {
                Ok(chunk) => {
                    at = chunk.end();
                    self.found.push(Found { chunk, lost: None });
                }
                // The size in the header may be what is wrong.
                Err(Refused { refusal: Refusal::Cut, .. }) if end < self.bytes.len() && self.lacks_some() => {
                    end = self.bytes.len();
                }
                Err(why) => {
                    let from = why.place as usize;
                    let next = Some(from + 1).filter(|_| self.lacks_some()).and_then(|at| self.frame_from(at, end));
                    let Some(next) = next else { return self.end = Some(why) };
                    self.skipped.push(Skipped { chunk: Chunk { offset: from, size: next - from }, why });
                    at = next;
                }
            }
        }
    }

    /// Whether the header speaks of more frames, or of the ring, than are found.
    fn lacks_some(&self) -> bool {
        self.promised.is_none_or(|frames| self.found.len() <= frames)
    }

    /// Where the next frame begins, from an offset on at which no chunk need begin: by its type, and by what it holds,
    /// which the codec has to accept.
    fn frame_from(&self, at: usize, end: usize) -> Option<usize> {
        let bytes = &self.bytes[..end];
        let is_frame = |at: &usize| {
            let size = stored::size_at(bytes, *at);
            let frame = bytes[*at..].get(..size);
            frame.is_some_and(|frame| Mended::of(frame, self.format, self.size).refused(self.size).is_none())
        };
        let could_begin = at..end.saturating_sub(FRAME_HEADER - 1);
        could_begin.filter(|at| stored::kind_at(bytes, *at) == Some(FRAME_KIND)).find(is_frame)
    }

    /// Counts what was skipped as a frame where one began there, or where the header speaks of more than are found.
    fn tell_lost(&mut self) {
        let began = |skipped: &Skipped| stored::kind_at(self.bytes, skipped.chunk.offset) == Some(FRAME_KIND);
        let frames = self.found.len() + self.skipped.iter().filter(|skipped| began(skipped)).count();
        let lacks_more = self.promised.is_none_or(|promised| frames <= promised);
        let lost = self.skipped.iter().filter(|skipped| lacks_more || began(skipped));
        let lost: Vec<Found> = lost.map(|skipped| Found { chunk: skipped.chunk, lost: Some(skipped.why) }).collect();
        self.found.extend(lost);
        self.found.sort_by_key(|found| found.chunk.offset);
    }

    /// Reads the chunks from the front.
    pub fn pieces(&self) -> Pieces<'_> {
        let blank = State::blank(self.size);
        Pieces { salvage: self, shown: blank.clone(), first: None, blank, shadow: None, read: 0 }
    }

    /// Whether any frame is left that shows what it should.
    pub fn has_frames(&self) -> bool {
        self.pieces().any(|piece| piece.part == Part::Frame && piece.is_kept() && piece.is_sure)
    }

    /// Where the reel ends, and what stands behind it begins.
    pub fn reel_end(&self) -> usize {
        let last = self.found.last().map_or(FILE_HEADER, |found| found.chunk.end());
        let size = StoredHeader::of(self.bytes).and_then(|header| header.reel());
        size.unwrap_or(self.bytes.len()).clamp(last, self.bytes.len())
    }
}

/// What a chunk is.
#[derive(Clone, Copy, Debug, PartialEq, Eq)]
pub enum Part {
    Frame,
    Ring,
}

/// What becomes of a chunk.
#[derive(Clone, Copy, Debug, PartialEq, Eq)]
pub enum Fate {
    Accepted,
    /// Accepted after something was done to it.
    Mended {
        /// How many spare bytes were taken out.
        spare: usize,
        /// Whether it stands in an FLI, holds what only an FLC may hold, and was read as one's.
        is_of_flc: bool,
    },
    Dropped(Refused),
}

/// A frame chunk that was read.
#[derive(Clone, Copy, Debug, PartialEq, Eq)]
pub struct Piece {
    /// Counted from 1, the dropped ones too.
    pub number: usize,
    pub part: Part,
    pub chunk: Chunk,
    pub fate: Fate,
    /// Whether no dropped frame can be seen in what shows: all that it could have drawn was drawn anew since.
    pub is_sure: bool,
}

impl Piece {
    pub fn is_kept(&self) -> bool {
        !matches!(self.fate, Fate::Dropped(_))
    }
}

pub struct Pieces<'a> {
    salvage: &'a Salvage<'a>,
    shown: State,
    /// What frame 1 shows.
    first: Option<State>,
    blank: State,
    /// Another state, which the same frames were drawn on since one was dropped.
    shadow: Option<State>,
    read: usize,
}

impl Pieces<'_> {
    /// What shows after the last chunk that was accepted.
    pub fn shown(&self) -> &State {
        &self.shown
    }

    /// What the first frame that was accepted shows.
    pub fn first(&self) -> &State {
        self.first.as_ref().unwrap_or(&self.blank)
    }

    fn draw(&mut self, frame: &[u8]) -> Fate {
        let Salvage { format, size, .. } = *self.salvage;
        let mended = Mended::of(frame, format, size);
        if let Err(why) = read_frame(&mended.frame, mended.format, &mut self.shown) {
            return self.drop(why);
        }
        self.shadow = self.shadow.take().and_then(|mut shadow| {
            let drawn = read_frame(&mended.frame, mended.format, &mut shadow);
            Some(shadow).filter(|shadow| drawn.is_err() || *shadow != self.shown)
        });
        match (frame.len() - mended.frame.len(), mended.format != format) {
            (0, false) => Fate::Accepted,
            (spare, is_of_flc) => Fate::Mended { spare, is_of_flc },
        }
    }

    /// Leaves out a frame, which could have drawn anything.
    fn drop(&mut self, why: Refused) -> Fate {
        self.shadow = Some(turned(&self.shown));
        Fate::Dropped(why)
    }

    /// The ring stands where the header says, or leads back to frame 1 at the end of a file that isn't cut. A chunk in
    /// its place that doesn't lead back and is followed by others is a frame, and the header's count is wrong.
    fn part(&self, at: usize) -> Part {
        let Salvage { found, promised, is_whole, .. } = self.salvage;
        let (is_last, leads_back) = (at + 1 == found.len(), self.first.as_ref() == Some(&self.shown));
        // No reel has more frames than the most: what stands behind them is the ring.
        let is_ring = match *promised == Some(at) || at == MOST_FRAMES {
            true => is_last || leads_back,
            false => is_last && leads_back && at > 0 && *is_whole,
        };
        if is_ring {
            Part::Ring
        } else {
            Part::Frame
        }
    }
}

impl Iterator for Pieces<'_> {
    type Item = Piece;

    fn next(&mut self) -> Option<Piece> {
        let at = self.read;
        let Found { chunk, lost } = *self.salvage.found.get(at)?;
        let fate = match lost {
            Some(why) => self.drop(why),
            None => match self.draw(&self.salvage.bytes[chunk.offset..chunk.end()]) {
                // The codec counts from the frame's header.
                Fate::Dropped(why) => Fate::Dropped(Refused { place: chunk.offset as u64 + why.place, ..why }),
                fate => fate,
            },
        };
        let part = self.part(at);
        if self.first.is_none() && !matches!(fate, Fate::Dropped(_)) {
            self.first = Some(self.shown.clone());
        }
        self.read = if part == Part::Ring { self.salvage.found.len() } else { at + 1 };
        Some(Piece { number: at + 1, part, chunk, fate, is_sure: self.shadow.is_none() })
    }
}

/// A state that differs from this in every pixel and every level.
fn turned(state: &State) -> State {
    let mut turned = state.clone();
    turned.picture.pixels_mut().iter_mut().for_each(|pixel| *pixel = !*pixel);
    (0..=u8::MAX).for_each(|entry| turned.palette.set_colour(entry, state.palette.colour(entry).map(|level| !level)));
    turned
}
