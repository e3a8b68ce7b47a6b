//! The trailer behind a reel: the index of its frames' offsets.

use crate::boundary;
use crate::header::Header;
use crate::reel::MOST_FRAMES;
use crate::refusal::{Refusal, Result};

const ENTRY: usize = 4;
const TRAILER: usize = 8;
/// No index and trailer have more bytes.
pub const TRAILER_MOST: usize = ENTRY * (MOST_FRAMES + 1) + TRAILER;

/// Checks what stands behind an FLC's reel: nothing, or its index and trailer; anything else is refused 17, and an FLI,
/// which has no trailer, 5. Opens no frame: a damaged one is found by [`check_reel`](crate::check_reel).
pub fn check_trailer(bytes: &[u8]) -> Result<()> {
    boundary::check_trailer(bytes)
}

/// Makes the index and trailer of an FLC's reel all that stands behind it; a refusal leaves the file as it was.
///
/// ```
/// use flic::{check_trailer, write_trailer, Milliseconds, Reel, Size, State};
/// let size = Size::new(1, 1)?;
/// let mut reel = Reel::open(size, Milliseconds(200))?;
/// reel.add(&State::blank(size))?;
/// let mut file = reel.close()?;
/// write_trailer(&mut file)?;
/// assert_eq!(file[160..], [128, 0, 0, 0, 144, 0, 0, 0, 16, 0, 0, 0, 2, 0, 1, 0]);
/// check_trailer(&file)?;
///
/// file.push(0);
/// assert_eq!(check_trailer(&file).unwrap_err().refusal.number(), 17);
/// # Ok::<(), flic::Refused>(())
/// ```
pub fn write_trailer(file: &mut Vec<u8>) -> Result<()> {
    let before = file.len();
    // A refusal 3 comes last: the file is then a reel, and lacks only the room behind it.
    let written = boundary::write_trailer(file).or_else(|refused| match (refused.refusal, Header::read(file)) {
        (Refusal::NoRoom, Ok(header)) => {
            let entries = usize::from(header.frames) + 1;
            file.resize(header.size as usize + ENTRY * entries + TRAILER, 0);
            boundary::write_trailer(file)
        }
        _ => Err(refused),
    });
    file.truncate(*written.as_ref().unwrap_or(&before));
    written.map(|_| ())
}

#[cfg(test)]
mod tests {
    use super::*;
    use crate::format::{Jiffies, Milliseconds};
    use crate::reel::Reel;
    use crate::refusal::Refused;
    use crate::state::{Size, State};

    fn reel(frames: usize) -> Vec<u8> {
        let size = Size::new(3, 1).expect("a size that is taken");
        let mut reel = Reel::open(size, Milliseconds(70)).expect("a reel");
        (0..frames).for_each(|_| reel.add(&State::blank(size)).expect("a frame"));
        reel.close().expect("a file")
    }

    #[test]
    fn whatever_was_behind_makes_way() -> Result<()> {
        let bare = reel(3);
        let mut right = bare.clone();
        write_trailer(&mut right)?;
        assert_eq!((right.len(), &right[..bare.len()]), (bare.len() + 24, &bare[..]));
        for behind in 0..50 {
            let mut file = bare.clone();
            file.extend(vec![0x55; behind]);
            write_trailer(&mut file)?;
            assert_eq!(file, right, "{behind}");
        }
        check_trailer(&right)
    }

    #[test]
    fn the_longest_trailer() -> Result<()> {
        let bare = reel(MOST_FRAMES);
        let mut file = bare.clone();
        write_trailer(&mut file)?;
        assert_eq!(file.len(), bare.len() + TRAILER_MOST);
        Ok(())
    }

    #[test]
    fn a_file_that_is_cut_stays_as_it_is() {
        let whole = reel(2);
        for length in 0..whole.len() {
            let mut file = whole[..length].to_vec();
            assert_eq!(write_trailer(&mut file), Err(Refused { refusal: Refusal::Cut, place: 0 }), "{length}");
            assert_eq!(file, whole[..length]);
        }
    }

    #[test]
    fn an_fli_has_no_trailer() -> Result<()> {
        let mut reel = Reel::open_fli(Jiffies(7))?;
        reel.add(&State::blank(Size::FLI))?;
        let mut file = reel.close()?;
        let (before, refused) = (file.clone(), Err(Refused { refusal: Refusal::WrongType, place: 0 }));
        assert_eq!((check_trailer(&file), write_trailer(&mut file)), (refused, refused));
        assert_eq!(file, before);
        assert_eq!(crate::list(&file).map(drop), refused);
        Ok(())
    }
}
