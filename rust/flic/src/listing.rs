//! The listing of a file's chunks as text.

use crate::boundary::{self, LIST_MOST};
use crate::refusal::{Refusal, Refused, Result};

/// The most bytes of a file that is listed.
pub const LISTED_MOST: usize = 65_536;

/// Lists the chunks of an FLC: the size and the frames, then a line for each chunk with depth, offset, kind and size, then
/// `ok`. A file of more than [`LISTED_MOST`] bytes is refused 3, and an FLI 5.
///
/// ```
/// use flic::{list, Milliseconds, Reel, Size, State};
/// let size = Size::new(1, 1)?;
/// let mut reel = Reel::open(size, Milliseconds(200))?;
/// reel.add(&State::blank(size))?;
/// let file = reel.close()?;
/// assert_eq!(list(&file)?, "flic 1 1 1\n0 128 61946 16\n0 144 61946 16\nok\n");
/// assert_eq!(list(&file[..100]).unwrap_err().refusal.number(), 4);
/// # Ok::<(), flic::Refused>(())
/// ```
pub fn list(bytes: &[u8]) -> Result<String> {
    let mut out = vec![0; LIST_MOST];
    let length = boundary::list(bytes, &mut out)?;
    out.truncate(length);
    let text = String::from_utf8(out).expect("a listing is plain text");
    match refused_in(&text) {
        Some(refused) => Err(refused),
        None => Ok(text),
    }
}

/// The refusal that a listing's one line `refused N PLACE` tells of.
fn refused_in(text: &str) -> Option<Refused> {
    let (number, place) = text.trim_end().strip_prefix("refused ")?.split_once(' ')?;
    let refusal = Refusal::with_number(number.parse().ok()?)?;
    Some(Refused { refusal, place: place.parse().ok()? })
}

#[cfg(test)]
mod tests {
    use super::*;

    #[test]
    fn refusals_are_read_from_the_text() {
        assert_eq!(refused_in("refused 15 4711\n"), Some(Refused { refusal: Refusal::FewFrames, place: 4711 }));
        assert_eq!(refused_in("flic 1 1 1\nok\n"), None);
    }

    #[test]
    fn more_than_the_most_is_refused() {
        assert_eq!(list(&[0; LISTED_MOST + 1]), Err(Refused { refusal: Refusal::NoRoom, place: 0 }));
        assert_eq!(list(&[0; LISTED_MOST]), Err(Refused { refusal: Refusal::WrongType, place: 0 }));
    }
}
