//! A reel being built: opened, added to and closed, in a buffer that grows.

use crate::boundary::{self, Record, FRAME_MOST};
use crate::format::{Format, Jiffies, Milliseconds};
use crate::frame::same_size;
use crate::header::FILE_HEADER;
use crate::refusal::{Refusal, Refused, Result};
use crate::state::{Size, State};

/// The most frames of a reel, the ring not counted.
pub const MOST_FRAMES: usize = 4_000;

/// A reel that takes states, and gives the bytes of a file when it is closed.
///
/// ```
/// use flic::{CheckedReel, Milliseconds, Reel, Size, State};
/// let size = Size::new(2, 1)?;
/// let mut reel = Reel::open(size, Milliseconds(200))?;
/// let mut state = State::blank(size);
/// for pixel in [1, 2, 3] {
///     state.picture.pixels_mut().fill(pixel);
///     reel.add(&state)?;
/// }
/// let bytes = reel.close()?;
/// let shown: Vec<u8> = CheckedReel::new(&bytes)?.frames().map(|frame| frame.state.picture.pixels()[0]).collect();
/// assert_eq!(shown, [1, 2, 3, 1]);
/// # Ok::<(), flic::Refused>(())
/// ```
#[derive(Debug)]
pub struct Reel {
    record: Record,
    bytes: Vec<u8>,
    shown: State,
}

impl Reel {
    /// An FLC without frames. Speed: for how long a frame shows.
    pub fn open(size: Size, speed: Milliseconds) -> Result<Reel> {
        Reel::opened(size, |width, height, bytes| boundary::open_reel(width, height, speed.0, bytes))
    }

    /// An FLI without frames, whose states are of [`Size::FLI`]. Delay: for how long a frame shows.
    ///
    /// ```
    /// use flic::{CheckedReel, Format, Jiffies, Reel, Size, State};
    /// let mut reel = Reel::open_fli(Jiffies(18))?;
    /// let mut state = State::blank(Size::FLI);
    /// for pixel in [1, 2, 3] {
    ///     state.picture.pixels_mut().fill(pixel);
    ///     reel.add(&state)?;
    /// }
    /// let bytes = reel.close()?;
    /// assert_eq!(CheckedReel::new(&bytes)?.header().format, Format::Fli);
    /// # Ok::<(), flic::Refused>(())
    /// ```
    pub fn open_fli(delay: Jiffies) -> Result<Reel> {
        Reel::opened(Size::FLI, |width, height, bytes| boundary::open_fli(width, height, delay.0.into(), bytes))
    }

    /// A reel of either format without frames. Refused, for an FLI, 2 for a size other than [`Size::FLI`] and 14 for a
    /// speed that it can't have, as [`Milliseconds::in_jiffies`] is; the [`speed`](crate::Header::speed) of an FLI gives
    /// its jiffies again.
    ///
    /// ```
    /// use flic::{Format, Milliseconds, Reel, Size};
    /// let size = Size::new(160, 64)?;
    /// assert_eq!(Reel::open_as(Format::Flc, size, Milliseconds(200))?.size(), size);
    /// assert_eq!(Reel::open_as(Format::Fli, size, Milliseconds(200)).unwrap_err().refusal.number(), 2);
    /// # Ok::<(), flic::Refused>(())
    /// ```
    pub fn open_as(format: Format, size: Size, speed: Milliseconds) -> Result<Reel> {
        match format {
            Format::Flc => Reel::open(size, speed),
            Format::Fli if size == Size::FLI => Reel::open_fli(speed.in_jiffies()?),
            Format::Fli => Err(Refused { refusal: Refusal::BadSize, place: 0 }),
        }
    }

    fn opened(size: Size, open: impl FnOnce(u64, u64, &mut [u8]) -> Result<Record>) -> Result<Reel> {
        let mut bytes = vec![0; FILE_HEADER];
        let record = open(size.width().into(), size.height().into(), &mut bytes)?;
        Ok(Reel { record, bytes, shown: State::blank(size) })
    }

    /// The format of the file.
    pub fn format(&self) -> Format {
        boundary::format_of(self.record.format)
    }

    /// The width and height of every picture.
    pub fn size(&self) -> Size {
        self.shown.size()
    }

    /// How many frames were added.
    pub fn frames(&self) -> usize {
        self.record.frames as usize
    }

    /// What shows after the last frame that was added: what the next frame is written from.
    pub fn shown(&self) -> &State {
        &self.shown
    }

    /// Adds the frame that leads from what shows to the state; a refusal leaves the reel as it was.
    /// Refused 18 after [`MOST_FRAMES`] of them.
    pub fn add(&mut self, state: &State) -> Result<()> {
        same_size(&self.shown, state)?;
        self.make_room();
        self.record = boundary::add_frame(self.record, &mut self.bytes, self.shown.lent(), state.lent())?;
        self.shown.clone_from(state);
        Ok(())
    }

    /// Writes the ring and sets the header; gives the file. Refused 18 where no frame was added.
    pub fn close(mut self) -> Result<Vec<u8>> {
        self.make_room();
        let (mut first, mut second) = (State::blank(self.size()), State::blank(self.size()));
        let closed = boundary::close_reel(self.record, &mut self.bytes, first.lent_mut(), second.lent_mut())?;
        self.bytes.truncate(closed.end as usize);
        Ok(self.bytes)
    }

    fn make_room(&mut self) {
        self.bytes.resize(self.record.end as usize + FRAME_MOST, 0);
    }
}

#[cfg(test)]
mod tests {
    use super::*;

    const WRONG_TIME: Refused = Refused { refusal: Refusal::WrongTime, place: 0 };

    #[test]
    fn the_blank_reel_has_160_bytes() -> Result<()> {
        let size = Size::new(1, 1)?;
        let mut reel = Reel::open(size, Milliseconds(0))?;
        reel.add(&State::blank(size))?;
        assert_eq!((reel.frames(), reel.close()?.len()), (1, 160));
        Ok(())
    }

    #[test]
    fn a_reel_takes_1_to_the_most_frames() -> Result<()> {
        let size = Size::new(1, 1)?;
        assert_eq!(Reel::open(size, Milliseconds(0))?.close(), Err(WRONG_TIME));
        let (mut reel, mut state) = (Reel::open(size, Milliseconds(0))?, State::blank(size));
        for frame in 0..MOST_FRAMES {
            state.picture.pixels_mut()[0] = frame as u8;
            reel.add(&state)?;
        }
        assert_eq!(reel.add(&state), Err(WRONG_TIME));
        assert_eq!(reel.frames(), MOST_FRAMES);
        crate::check_reel(&reel.close()?)
    }

    #[test]
    fn frames_as_long_as_can_be_find_room() -> Result<()> {
        for format in [Format::Flc, Format::Fli] {
            let (mut reel, mut state) = (Reel::open_as(format, Size::FLI, Milliseconds(0))?, State::blank(Size::FLI));
            for frame in 0..20usize {
                for (at, pixel) in state.picture.pixels_mut().iter_mut().enumerate() {
                    *pixel = (at.wrapping_mul(at + 7 * frame + 1) >> 3) as u8;
                }
                for entry in (frame % 2..256).step_by(2) {
                    state.palette.set_colour(entry as u8, [frame as u8 + 1; 3]);
                }
                reel.add(&state)?;
            }
            let bytes = reel.close()?;
            assert!(bytes.len() > 20 * Size::FLI.pixels());
            crate::check_reel(&bytes)?;
        }
        Ok(())
    }

    #[test]
    fn a_reel_is_opened_in_its_format_and_keeps_it() -> Result<()> {
        let speed = Jiffies(9).in_milliseconds();
        for format in [Format::Flc, Format::Fli] {
            let mut reel = Reel::open_as(format, Size::FLI, speed)?;
            reel.add(&State::blank(Size::FLI))?;
            assert_eq!((reel.format(), reel.size(), reel.frames()), (format, Size::FLI, 1));
            let header = crate::Header::read(&reel.close()?)?;
            assert_eq!((header.format, header.speed), (format, speed));
            assert_eq!(header.jiffies(), (format == Format::Fli).then_some(Jiffies(9)));
        }
        let number =
            |size, speed| Reel::open_as(Format::Fli, size, Milliseconds(speed)).map_err(|why| why.refusal.number());
        assert_eq!(number(Size::new(320, 199)?, u32::MAX).err(), Some(2));
        assert_eq!(number(Size::FLI, u32::MAX).err(), Some(14));
        Ok(())
    }

    #[test]
    fn a_state_of_another_size_is_refused_and_changes_nothing() -> Result<()> {
        let mut reel = Reel::open(Size::new(4, 1)?, Milliseconds(0))?;
        let other = State::blank(Size::new(2, 2)?);
        assert_eq!(reel.add(&other), Err(Refused { refusal: Refusal::BadSize, place: 0 }));
        assert_eq!(reel.frames(), 0);
        Ok(())
    }
}
