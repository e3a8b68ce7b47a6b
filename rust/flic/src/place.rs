//! Where in a reel a refusal lies.

use crate::chunk::{frame_chunks, Chunk};
use crate::frame::read_frame;
use crate::header::{Header, FILE_HEADER};
use crate::refusal::{Refusal, Refused};
use crate::state::{Size, State};
use std::fmt;

/// The part of a reel in which something was refused.
#[derive(Clone, Copy, Debug, PartialEq, Eq)]
pub enum Part {
    /// The file header.
    Header,
    /// A frame.
    Frame {
        /// Counted from 1.
        number: usize,
        /// How many frames there are, the ring not counted.
        of: usize,
    },
    /// The ring.
    Ring,
    /// Behind the reel.
    Trailer,
}

impl fmt::Display for Part {
    fn fmt(&self, f: &mut fmt::Formatter<'_>) -> fmt::Result {
        match self {
            Part::Header => write!(f, "the file header"),
            Part::Frame { number, of } => write!(f, "frame {number} of {of}"),
            Part::Ring => write!(f, "the ring"),
            Part::Trailer => write!(f, "the trailer"),
        }
    }
}

/// The part of a reel in which a refusal of [`check_reel`](crate::check_reel) or
/// [`check_trailer`](crate::check_trailer) lies: the frame that isn't accepted, or that should stand there.
///
/// ```
/// use flic::{check_reel, part_of, Part, Reel, Size, State};
/// # let size = Size::new(8, 1)?;
/// # let mut reel = Reel::open(size, flic::Milliseconds(200))?;
/// # reel.add(&State::blank(size))?;
/// # reel.add(&State::blank(size))?;
/// # let mut bytes = reel.close()?;
/// // The second frame's size field, damaged.
/// bytes[144] = 15;
/// let refused = check_reel(&bytes).unwrap_err();
/// assert_eq!((refused.refusal.number(), refused.place), (6, 144));
/// assert_eq!(part_of(&bytes, refused), Part::Frame { number: 2, of: 2 });
/// # Ok::<(), flic::Refused>(())
/// ```
pub fn part_of(bytes: &[u8], refused: Refused) -> Part {
    match refused.refusal {
        Refusal::BadTrailer => return Part::Trailer,
        Refusal::BadRing => return Part::Ring,
        _ if refused.place < FILE_HEADER as u64 => return Part::Header,
        _ => {}
    }
    let Ok(header) = Header::read(bytes) else { return Part::Header };
    let Ok(size) = Size::new(header.width, header.height) else { return Part::Header };
    let of = usize::from(header.frames);
    let mut state = State::blank(size);
    let mut is_at_fault = |frame: &Chunk| {
        let fault = read_frame(&bytes[frame.offset..frame.end()], header.format, &mut state).err();
        fault.is_some_and(|fault| frame.offset as u64 + fault.place == refused.place)
    };
    let before = frame_chunks(bytes, &header).take_while(|frame| !is_at_fault(frame)).count();
    match before + 1 {
        number if number > of => Part::Ring,
        number => Part::Frame { number, of },
    }
}

#[cfg(test)]
mod tests {
    use super::*;
    use crate::checked::check_reel;
    use crate::format::Milliseconds;
    use crate::reel::Reel;
    use crate::trailer::check_trailer;

    /// Three frames of 2 by 1 pixels, the first with pixels other than 0, so that it holds a COPY of 8 bytes.
    fn reel() -> Vec<u8> {
        let size = Size::new(2, 1).expect("a size that is taken");
        let mut reel = Reel::open(size, Milliseconds(70)).expect("a reel");
        for pixel in [1, 1, 3] {
            let mut state = State::blank(size);
            state.picture.pixels_mut().copy_from_slice(&[pixel, pixel + 1]);
            reel.add(&state).expect("a frame");
        }
        reel.close().expect("a file")
    }

    /// The number, the place and the part that are given once these bytes stand at `at`.
    fn changed(at: usize, with: &[u8]) -> (u32, u64, Part) {
        let mut bytes = reel();
        bytes[at..at + with.len()].copy_from_slice(with);
        let refused = check_reel(&bytes).unwrap_err();
        (refused.refusal.number(), refused.place, part_of(&bytes, refused))
    }

    #[test]
    fn parts_of_a_reel() {
        assert_eq!(reel().len(), 128 + 24 + 16 + 24 + 24);
        assert_eq!(changed(14, &[0]), (14, 0, Part::Header));
        assert_eq!(changed(144, &[7]), (7, 144, Part::Frame { number: 1, of: 3 }));
        assert_eq!(changed(152, &[15]), (6, 152, Part::Frame { number: 2, of: 3 }));
        assert_eq!(changed(192, &[0, 1]), (4, 192, Part::Ring));
        assert_eq!(changed(214, &[9]), (16, 192, Part::Ring));
        assert_eq!(changed(6, &[4]), (15, 216, Part::Ring));
        assert_eq!(changed(6, &[5]), (15, 216, Part::Frame { number: 5, of: 5 }));
    }

    #[test]
    fn a_missing_sub_chunk_belongs_to_its_frame_and_not_to_the_next() {
        assert_eq!(changed(134, &[2]), (4, 152, Part::Frame { number: 1, of: 3 }));
    }

    #[test]
    fn damage_that_a_walk_over_the_chunks_does_not_see_is_not_told_of() {
        let mut bytes = reel();
        bytes[144] = 7;
        bytes[152] = 15;
        let refused = check_trailer(&bytes).unwrap_err();
        assert_eq!((refused.refusal.number(), refused.place), (6, 152));
        assert_eq!(part_of(&bytes, refused), Part::Frame { number: 2, of: 3 });
    }
}
