//! One frame: read, written in house form, and rewritten.

use crate::boundary::{self, FRAME_MOST};
use crate::format::Format;
use crate::refusal::{Refusal, Refused, Result};
use crate::state::State;

/// Reads a frame chunk of a file in this format against what shows, and changes that; a refusal leaves it as it was. In
/// an FLI a size other than [`Size::FLI`](crate::Size::FLI) is refused 2, and a chunk of kind 7 or 18 is refused 20.
///
/// ```
/// use flic::{read_frame, write_frame, Format, Size, State};
/// let mut shown = State::blank(Size::new(4, 2)?);
/// let mut wanted = shown.clone();
/// wanted.picture.pixels_mut()[4..].fill(5);
///
/// let frame = write_frame(Format::Flc, &shown, &wanted)?;
/// assert_eq!(frame.len(), 28);
/// read_frame(&frame, Format::Flc, &mut shown)?;
/// assert_eq!(shown, wanted);
///
/// let refused = read_frame(&frame[..27], Format::Flc, &mut shown).unwrap_err();
/// assert_eq!((refused.refusal.number(), refused.place), (4, 0));
/// # Ok::<(), flic::Refused>(())
/// ```
pub fn read_frame(bytes: &[u8], format: Format, shown: &mut State) -> Result<()> {
    let (width, height) = (shown.size().width().into(), shown.size().height().into());
    boundary::read_frame(bytes, format, width, height, shown.lent_mut())
}

/// Writes, in house form, the frame chunk that leads from the previous state to the next. What is stored as a change is
/// kind 7 in an FLC and kind 12 in an FLI, so that a frame is for files of its own format.
///
/// ```
/// use flic::{read_frame, write_frame, Format, Size, State};
/// let previous = State::blank(Size::FLI);
/// let mut next = previous.clone();
/// next.picture.pixels_mut()[..4].copy_from_slice(&[1, 2, 3, 4]);
///
/// let [of_flc, of_fli] = [Format::Flc, Format::Fli].map(|format| write_frame(format, &previous, &next));
/// assert_eq!((of_flc.clone()?[20], of_fli?[20]), (7, 12));
/// let refused = read_frame(&of_flc?, Format::Fli, &mut previous.clone()).unwrap_err();
/// assert_eq!((refused.refusal.number(), refused.place), (20, 16));
/// # Ok::<(), flic::Refused>(())
/// ```
pub fn write_frame(format: Format, previous: &State, next: &State) -> Result<Vec<u8>> {
    same_size(previous, next)?;
    let (width, height) = (next.size().width().into(), next.size().height().into());
    let mut out = vec![0; FRAME_MOST];
    let length = boundary::write_frame(format, width, height, previous.lent(), next.lent(), &mut out)?;
    out.truncate(length);
    Ok(out)
}

/// A frame in house form, and what shows after it.
#[derive(Clone, Debug, PartialEq, Eq)]
pub struct Rewritten {
    /// The frame chunk.
    pub frame: Vec<u8>,
    /// What shows after it.
    pub next: State,
}

/// Reads a frame chunk of a file in this format against the previous state and writes it anew in house form.
///
/// ```
/// use flic::{rewrite_frame, write_frame, Format, Size, State};
/// let previous = State::blank(Size::new(2, 1)?);
/// // A COPY of two pixels, with a byte behind its data that no one reads.
/// let frame = [25, 0, 0, 0, 0xFA, 0xF1, 1, 0, 0, 0, 0, 0, 0, 0, 0, 0, 9, 0, 0, 0, 16, 0, 1, 2, 99];
/// let rewritten = rewrite_frame(&frame, Format::Flc, &previous)?;
/// assert_eq!(rewritten.next.picture.pixels(), [1, 2]);
/// assert_eq!(rewritten.frame, write_frame(Format::Flc, &previous, &rewritten.next)?);
/// assert_eq!(rewritten.frame.len(), 24);
/// # Ok::<(), flic::Refused>(())
/// ```
pub fn rewrite_frame(bytes: &[u8], format: Format, previous: &State) -> Result<Rewritten> {
    let (width, height) = (previous.size().width().into(), previous.size().height().into());
    let mut next = State::blank(previous.size());
    let mut frame = vec![0; FRAME_MOST];
    let length = boundary::rewrite_frame(bytes, format, width, height, previous.lent(), next.lent_mut(), &mut frame)?;
    frame.truncate(length);
    Ok(Rewritten { frame, next })
}

pub(crate) fn same_size(one: &State, other: &State) -> Result<()> {
    match one.size() == other.size() {
        true => Ok(()),
        false => Err(Refused { refusal: Refusal::BadSize, place: 0 }),
    }
}

#[cfg(test)]
mod tests {
    use super::*;
    use crate::state::Size;

    #[test]
    fn no_change_is_an_empty_frame() -> Result<()> {
        let state = State::blank(Size::new(3, 3)?);
        assert_eq!(write_frame(Format::Flc, &state, &state)?, [16, 0, 0, 0, 0xFA, 0xF1, 0, 0, 0, 0, 0, 0, 0, 0, 0, 0]);
        Ok(())
    }

    #[test]
    fn states_of_two_sizes_are_refused() -> Result<()> {
        let (one, other) = (State::blank(Size::new(2, 3)?), State::blank(Size::new(3, 2)?));
        assert_eq!(write_frame(Format::Flc, &one, &other), Err(Refused { refusal: Refusal::BadSize, place: 0 }));
        Ok(())
    }

    #[test]
    fn a_refused_frame_leaves_what_shows() -> Result<()> {
        let mut shown = State::blank(Size::new(2, 1)?);
        shown.picture.pixels_mut().copy_from_slice(&[8, 9]);
        let before = shown.clone();
        // BLACK, then a COPY that ends before its data.
        let frame = [28, 0, 0, 0, 0xFA, 0xF1, 2, 0, 0, 0, 0, 0, 0, 0, 0, 0, 6, 0, 0, 0, 13, 0, 6, 0, 0, 0, 16, 0];
        let refused = Refused { refusal: Refusal::BodyEnds, place: 22 };
        assert_eq!(read_frame(&frame, Format::Flc, &mut shown), Err(refused));
        assert_eq!(rewrite_frame(&frame, Format::Flc, &shown), Err(refused));
        assert_eq!(shown, before);
        Ok(())
    }

    #[test]
    fn bytes_that_are_the_picture_itself_can_be_rewritten() -> Result<()> {
        let shown = State::blank(Size::new(320, 1)?);
        let refused = Refused { refusal: Refusal::WrongType, place: 0 };
        assert_eq!(rewrite_frame(shown.picture.pixels(), Format::Flc, &shown), Err(refused));
        Ok(())
    }

    #[test]
    fn an_fli_takes_its_own_size_alone() -> Result<()> {
        let small = State::blank(Size::new(319, 200)?);
        let refused = Refused { refusal: Refusal::BadSize, place: 0 };
        assert_eq!(write_frame(Format::Fli, &small, &small), Err(refused));
        assert_eq!(rewrite_frame(&[], Format::Fli, &small), Err(refused));
        Ok(())
    }

    #[test]
    fn a_frame_of_an_fli_is_rewritten_as_one() -> Result<()> {
        let previous = State::blank(Size::FLI);
        let mut next = previous.clone();
        next.picture.pixels_mut()[640..700].fill(9);
        next.palette.set_colour(9, [1, 2, 3]);
        let frame = write_frame(Format::Fli, &previous, &next)?;
        assert_eq!(rewrite_frame(&frame, Format::Fli, &previous)?, Rewritten { frame: frame.clone(), next });
        let refused = Refused { refusal: Refusal::NotInFli, place: 29 };
        let of_flc = rewrite_frame(&frame, Format::Flc, &previous)?;
        assert_eq!(rewrite_frame(&of_flc.frame, Format::Fli, &previous), Err(refused));
        Ok(())
    }
}
