//! Frame chunks: where they lie in a reel, found by the codec.

use crate::boundary;
use crate::header::{Header, FILE_HEADER};
use crate::refusal::Result;
use std::iter;

/// Where a frame chunk lies.
#[derive(Clone, Copy, Debug, PartialEq, Eq)]
pub struct Chunk {
    /// Where its header begins in the file.
    pub offset: usize,
    /// How many bytes it has, its header included.
    pub size: usize,
}

impl Chunk {
    /// Where the next chunk begins.
    pub fn end(&self) -> usize {
        self.offset + self.size
    }
}

/// Finds the next frame chunk from the offset `at` on, where a chunk begins, and steps over other chunks. The bytes are
/// a reel up to its size; refused as [`check_reel`](crate::check_reel) refuses what lies on the way. No frame is opened.
///
/// ```
/// use flic::{next_frame, Chunk, Milliseconds, Reel, Size, State, FILE_HEADER};
/// let size = Size::new(4, 2)?;
/// let mut reel = Reel::open(size, Milliseconds(500))?;
/// reel.add(&State::blank(size))?;
/// let bytes = reel.close()?;
/// let frame = next_frame(&bytes, FILE_HEADER)?;
/// assert_eq!(frame, Chunk { offset: 128, size: 16 });
/// let ring = next_frame(&bytes, frame.end())?;
/// assert_eq!(next_frame(&bytes, ring.end()).unwrap_err().refusal.number(), 15);
/// # Ok::<(), flic::Refused>(())
/// ```
pub fn next_frame(bytes: &[u8], at: usize) -> Result<Chunk> {
    let span = boundary::next_frame(bytes, at)?;
    Ok(Chunk { offset: span.start, size: span.len() })
}

/// The frame chunks of the reel that has this header, the last being the ring; ends before one that is refused.
pub(crate) fn frame_chunks<'a>(bytes: &'a [u8], header: &Header) -> impl Iterator<Item = Chunk> + 'a {
    let (reel, wanted) = (&bytes[..header.size as usize], usize::from(header.frames) + 1);
    let mut at = FILE_HEADER;
    let frames = iter::from_fn(move || {
        let frame = next_frame(reel, at).ok()?;
        at = frame.end();
        Some(frame)
    });
    frames.take(wanted)
}
