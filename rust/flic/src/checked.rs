//! Whole reels: checked, and then played lap after lap.

use crate::boundary;
use crate::chunk::{frame_chunks, Chunk};
use crate::format::Format;
use crate::frame::read_frame;
use crate::header::Header;
use crate::refusal::Result;
use crate::state::{Size, State};
use std::borrow::Cow;

/// Checks a whole reel, of the format that its magic says: plays every frame and the ring, and refuses a ring that
/// doesn't lead back to frame 1. What stands behind the reel is looked at by [`check_trailer`](crate::check_trailer).
pub fn check_reel(bytes: &[u8]) -> Result<()> {
    // What is refused here, the check would refuse the same way: it reads the header first.
    let header = Header::read(bytes)?;
    let size = Size::new(header.width, header.height)?;
    let (mut first, mut second) = (State::blank(size), State::blank(size));
    boundary::check_reel(bytes, first.lent_mut(), second.lent_mut())
}

/// A reel that the check accepted, so that every lap shows the same. Its bytes are borrowed, or its own: a
/// `CheckedReel<'static>` made of a `Vec<u8>` can be kept and handed on.
///
/// ```
/// use flic::{CheckedReel, Milliseconds, Reel, Size, State};
/// # let size = Size::new(8, 1)?;
/// # let mut reel = Reel::open(size, Milliseconds(200))?;
/// # let mut state = State::blank(size);
/// # reel.add(&state)?;
/// # state.picture.pixels_mut().fill(7);
/// # reel.add(&state)?;
/// # let bytes = reel.close()?;
/// let reel = CheckedReel::new(&bytes)?;
/// assert_eq!((reel.header().frames, reel.header().speed), (2, Milliseconds(200)));
///
/// for frame in reel.frames() {
///     println!("frame {} at offset {} has {} bytes", frame.number, frame.chunk.offset, frame.chunk.size);
/// }
///
/// let order: Vec<(usize, usize)> = reel.laps().take(5).map(|frame| (frame.lap, frame.number)).collect();
/// assert_eq!(order, [(1, 1), (1, 2), (1, 3), (2, 2), (2, 3)]);
///
/// let owned: CheckedReel<'static> = CheckedReel::new(bytes)?;
/// assert_eq!(owned.bytes().len(), owned.header().size as usize);
/// # Ok::<(), flic::Refused>(())
/// ```
#[derive(Clone, Debug)]
pub struct CheckedReel<'a> {
    bytes: Cow<'a, [u8]>,
    header: Header,
    size: Size,
    frames: Vec<Chunk>,
}

impl<'a> CheckedReel<'a> {
    /// Checks the reel as [`check_reel`] does. The bytes are a slice, or a vector that the reel then owns.
    pub fn new(bytes: impl Into<Cow<'a, [u8]>>) -> Result<CheckedReel<'a>> {
        let bytes = bytes.into();
        check_reel(&bytes)?;
        let header = Header::read(&bytes)?;
        let size = Size::new(header.width, header.height)?;
        let frames = frame_chunks(&bytes, &header).collect();
        Ok(CheckedReel { bytes, header, size, frames })
    }

    /// The bytes that were checked, with whatever stands behind the reel.
    pub fn bytes(&self) -> &[u8] {
        &self.bytes
    }

    /// What the file header says.
    pub fn header(&self) -> &Header {
        &self.header
    }

    /// Which format the file has.
    pub fn format(&self) -> Format {
        self.header.format
    }

    /// The width and height of every picture.
    pub fn size(&self) -> Size {
        self.size
    }

    /// The frame chunks, the last being the ring.
    pub fn frame_chunks(&self) -> &[Chunk] {
        &self.frames
    }

    /// One lap: every frame, then the ring, each with a state of its own; [`Laps::advance`] lends it instead.
    pub fn frames(&self) -> impl Iterator<Item = Frame> + '_ {
        self.laps().take(self.frames.len())
    }

    /// Lap after lap without end: the ring is followed by frame 2, or by itself in a reel of one frame.
    pub fn laps(&self) -> Laps<'_> {
        Laps { reel: self, state: State::blank(self.size), lap: 1, number: 1 }
    }
}

/// A frame as it is played.
#[derive(Clone, Debug, PartialEq, Eq)]
pub struct Frame {
    /// Counted from 1.
    pub lap: usize,
    /// Counted from 1; the ring has the number after the last frame's.
    pub number: usize,
    /// Whether it is the ring, which shows frame 1 again.
    pub is_ring: bool,
    /// Where it lies in the file.
    pub chunk: Chunk,
    /// What shows from this frame on.
    pub state: State,
}

/// A frame as it is played, what it shows being lent.
#[derive(Clone, Copy, Debug, PartialEq, Eq)]
pub struct Shown<'a> {
    /// Counted from 1.
    pub lap: usize,
    /// Counted from 1; the ring has the number after the last frame's.
    pub number: usize,
    /// Whether it is the ring, which shows frame 1 again.
    pub is_ring: bool,
    /// Where it lies in the file.
    pub chunk: Chunk,
    /// What shows from this frame on.
    pub state: &'a State,
}

/// A reel being played, from [`CheckedReel::laps`]: an iterator, whose frames have states of their own, or step by step
/// with [`advance`](Laps::advance), which copies nothing.
#[derive(Clone, Debug)]
pub struct Laps<'a> {
    reel: &'a CheckedReel<'a>,
    state: State,
    lap: usize,
    number: usize,
}

impl Laps<'_> {
    /// Plays the next frame, and lends what shows then.
    ///
    /// ```
    /// use flic::{CheckedReel, Reel, Size, State};
    /// # let size = Size::new(8, 1)?;
    /// # let mut reel = Reel::open(size, flic::Milliseconds(200))?;
    /// # let mut state = State::blank(size);
    /// # for pixel in [10, 20] {
    /// #     state.picture.pixels_mut().fill(pixel);
    /// #     reel.add(&state)?;
    /// # }
    /// # let bytes = reel.close()?;
    /// // Two frames, of pixels 10 and 20.
    /// let reel = CheckedReel::new(&bytes)?;
    /// let mut laps = reel.laps();
    /// let pixels: Vec<u8> = (0..5).map(|_| laps.advance().state.picture.pixels()[0]).collect();
    /// assert_eq!(pixels, [10, 20, 10, 20, 10]);
    /// # Ok::<(), flic::Refused>(())
    /// ```
    pub fn advance(&mut self) -> Shown<'_> {
        let (lap, number, ring) = (self.lap, self.number, self.reel.frames.len());
        let chunk = self.reel.frames[number - 1];
        read_frame(&self.reel.bytes[chunk.offset..chunk.end()], self.reel.format(), &mut self.state)
            .expect("a checked reel's frames are accepted in every lap");
        (self.lap, self.number) = if number == ring { (lap + 1, ring.min(2)) } else { (lap, number + 1) };
        Shown { lap, number, is_ring: number == ring, chunk, state: &self.state }
    }
}

impl Iterator for Laps<'_> {
    type Item = Frame;

    fn next(&mut self) -> Option<Frame> {
        let Shown { lap, number, is_ring, chunk, state } = self.advance();
        Some(Frame { lap, number, is_ring, chunk, state: state.clone() })
    }
}

#[cfg(test)]
mod tests {
    use super::*;
    use crate::format::Milliseconds;
    use crate::reel::Reel;
    use crate::refusal::{Refusal, Refused};
    use crate::write_frame;

    const BOTH: [Format; 2] = [Format::Flc, Format::Fli];

    /// States of a size that the format takes.
    fn states(format: Format, count: u8) -> Vec<State> {
        let size = match format {
            Format::Flc => Size::new(6, 3).expect("a size that is taken"),
            Format::Fli => Size::FLI,
        };
        let state = |number: u8| {
            let mut state = State::blank(size);
            state.picture.pixels_mut()[..usize::from(number)].fill(number);
            state.palette.set_colour(number, [number; 3]);
            state
        };
        (1..=count).map(state).collect()
    }

    fn built(format: Format, states: &[State]) -> Vec<u8> {
        let mut reel = Reel::open_as(format, states[0].size(), Milliseconds(70)).expect("a reel");
        states.iter().for_each(|state| reel.add(state).expect("a frame"));
        reel.close().expect("a file")
    }

    #[test]
    fn three_laps_show_what_was_added() -> Result<()> {
        for (format, count) in BOTH.into_iter().flat_map(|format| (1..=4).map(move |count| (format, count))) {
            let states = states(format, count);
            let bytes = built(format, &states);
            let reel = CheckedReel::new(&bytes)?;
            assert_eq!((reel.format(), reel.size()), (format, states[0].size()));
            let played: Vec<Frame> = reel.laps().take_while(|frame| frame.lap <= 3).collect();
            assert_eq!(played.len(), 3 * states.len() + 1);
            for frame in played {
                assert_eq!(frame.is_ring, frame.number == states.len() + 1);
                assert_eq!(
                    frame.state,
                    states[(frame.number - 1) % states.len()],
                    "{format}, {count}: {}",
                    frame.number
                );
            }
        }
        Ok(())
    }

    #[test]
    fn a_reel_that_owns_its_bytes_lends_the_same_frames() -> Result<()> {
        let bytes = built(Format::Flc, &states(Format::Flc, 3));
        let owned: CheckedReel<'static> = CheckedReel::new(bytes.clone())?;
        let (borrowed, mut laps) = (CheckedReel::new(&bytes)?, owned.laps());
        for frame in borrowed.laps().take(10) {
            let Shown { lap, number, is_ring, chunk, state } = laps.advance();
            assert_eq!(Frame { lap, number, is_ring, chunk, state: state.clone() }, frame);
        }
        assert_eq!((owned.bytes(), borrowed.bytes()), (&bytes[..], &bytes[..]));
        Ok(())
    }

    #[test]
    fn frames_are_found_where_they_lie() -> Result<()> {
        let bytes = built(Format::Flc, &states(Format::Flc, 2));
        let reel = CheckedReel::new(&bytes)?;
        let frames = reel.frame_chunks();
        assert_eq!((frames.len(), frames[0].offset), (3, 128));
        assert_eq!((frames[1].offset, frames[2].offset), (frames[0].end(), frames[1].end()));
        assert_eq!(frames[2].end(), bytes.len());
        Ok(())
    }

    #[test]
    fn other_chunks_are_stepped_over() -> Result<()> {
        let mut bytes = built(Format::Flc, &states(Format::Flc, 1));
        let frames = CheckedReel::new(&bytes)?.frame_chunks().to_vec();
        bytes.splice(128..128, [8, 0, 0, 0, 0, 0xF1, 5, 5]);
        let size = bytes.len() as u32;
        bytes[..4].copy_from_slice(&size.to_le_bytes());
        let moved = frames.iter().map(|frame| Chunk { offset: frame.offset + 8, ..*frame });
        assert_eq!(CheckedReel::new(&bytes)?.frame_chunks(), moved.collect::<Vec<Chunk>>());
        Ok(())
    }

    #[test]
    fn a_ring_to_itself_is_refused() -> Result<()> {
        for format in BOTH {
            let states = states(format, 3);
            let mut bytes = built(format, &states);
            let ring = CheckedReel::new(&bytes)?.frame_chunks()[3];
            bytes.truncate(ring.offset);
            bytes.extend(write_frame(format, &states[0], &states[0])?);
            let size = bytes.len() as u32;
            bytes[..4].copy_from_slice(&size.to_le_bytes());
            assert_eq!(check_reel(&bytes), Err(Refused { refusal: Refusal::BadRing, place: ring.offset as u64 }));
        }
        Ok(())
    }

    #[test]
    fn any_cut_is_refused() {
        let bytes = built(Format::Flc, &states(Format::Flc, 3));
        for length in 0..bytes.len() {
            let refused = check_reel(&bytes[..length]).unwrap_err();
            assert_eq!((refused.refusal, refused.place), (Refusal::Cut, 0), "{length}");
        }
    }

    #[test]
    fn the_magic_decides_what_may_stand_in_a_file() -> Result<()> {
        // The same picture twice, and a change that an FLC stores as kind 7.
        let size = Size::FLI;
        let (mut reel, mut state) = (Reel::open(size, Milliseconds(70))?, State::blank(size));
        reel.add(&state)?;
        state.picture.pixels_mut()[..4].copy_from_slice(&[1, 2, 3, 4]);
        reel.add(&state)?;
        let mut bytes = reel.close()?;
        let second = CheckedReel::new(&bytes)?.frame_chunks()[1];
        let number = |bytes: &[u8]| check_reel(bytes).map_err(|why| (why.refusal, why.place));
        bytes[4] = 0x11;
        assert_eq!(number(&bytes), Err((Refusal::BadHeader, 0)), "flags 3");
        bytes[14] = 0;
        assert_eq!(number(&bytes), Err((Refusal::NotInFli, second.offset as u64 + 16)));
        bytes[4] = 0x10;
        assert_eq!(number(&bytes), Err((Refusal::WrongType, 0)));
        Ok(())
    }

    #[test]
    fn a_size_that_no_board_has_is_refused() {
        let mut bytes = built(Format::Flc, &states(Format::Flc, 1));
        bytes[8..10].copy_from_slice(&65_535u16.to_le_bytes());
        bytes[10..12].copy_from_slice(&65_535u16.to_le_bytes());
        assert_eq!(check_reel(&bytes), Err(Refused { refusal: Refusal::BadSize, place: 0 }));
    }
}
