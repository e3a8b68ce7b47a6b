//! The file header: 128 bytes, read by the codec.

use crate::boundary;
use crate::format::{Format, Jiffies, Milliseconds};
use crate::refusal::Result;

/// The bytes of a file header.
pub const FILE_HEADER: usize = 128;

/// What a file header says that was accepted.
#[derive(Clone, Copy, Debug, PartialEq, Eq)]
pub struct Header {
    /// Which format the file has, by its magic.
    pub format: Format,
    /// The bytes of the reel, this header included; a trailer stands behind them.
    pub size: u32,
    /// How many frames there are, the ring not counted.
    pub frames: u16,
    /// The pixels of a row.
    pub width: u16,
    /// The rows.
    pub height: u16,
    /// For how long a frame shows, in an FLI too: there [`jiffies`](Header::jiffies) gives what is stored.
    pub speed: Milliseconds,
}

impl Header {
    /// Reads the header at the front of a file's bytes: refused as [`check_reel`](crate::check_reel) refuses it, with
    /// [`Cut`](crate::Refusal::Cut) where the bytes end before the reel's size.
    ///
    /// ```
    /// use flic::{Format, Header, Milliseconds, Reel, Size, State};
    /// let (size, speed) = (Size::new(4, 2)?, Milliseconds(500));
    /// let mut reel = Reel::open(size, speed)?;
    /// reel.add(&State::blank(size))?;
    /// let mut bytes = reel.close()?;
    /// let header = Header { format: Format::Flc, size: 160, frames: 1, width: 4, height: 2, speed };
    /// assert_eq!(Header::read(&bytes)?, header);
    ///
    /// bytes[14] = 0;
    /// assert_eq!(Header::read(&bytes).unwrap_err().refusal.number(), 14);
    /// # Ok::<(), flic::Refused>(())
    /// ```
    pub fn read(bytes: &[u8]) -> Result<Header> {
        let header = boundary::read_header(bytes)?;
        // In the file these have 4 and 2 bytes.
        Ok(Header {
            format: boundary::format_of(header.format),
            size: header.size as u32,
            frames: header.frames as u16,
            width: header.width as u16,
            height: header.height as u16,
            speed: Milliseconds(header.speed),
        })
    }

    /// For how long a frame of an FLI shows, as it is stored; none of an FLC.
    ///
    /// ```
    /// use flic::{Header, Jiffies, Milliseconds, Reel, Size, State};
    /// let mut reel = Reel::open_fli(Jiffies(5))?;
    /// reel.add(&State::blank(Size::FLI))?;
    /// let header = Header::read(&reel.close()?)?;
    /// assert_eq!((header.jiffies(), header.speed), (Some(Jiffies(5)), Milliseconds(71)));
    /// # Ok::<(), flic::Refused>(())
    /// ```
    pub fn jiffies(&self) -> Option<Jiffies> {
        match self.format {
            Format::Flc => None,
            // What came of jiffies goes back to them.
            Format::Fli => self.speed.in_jiffies().ok(),
        }
    }
}
