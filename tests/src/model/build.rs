//! Building a reel: open, add, and close, which plays the reel's own bytes and writes the ring.

use super::file_header::Closing;
use super::playing::Played;
use super::{
    accepted_size, long_enough, number, require, size_at, Document, Format, Jiffies, Milliseconds, Model, Refusal,
    FILE_HEADER, MAX_FRAMES,
};
use flic_boundary::{Pair, PairMut, Reel};

const LARGEST_SIZE: u64 = u32::MAX as u64;

/// An answer, and the record that goes with it: a refusal gives back the record handed in.
#[derive(Clone, Copy, Debug, PartialEq, Eq)]
pub struct Outcome {
    pub answer: Result<(), Refusal>,
    pub reel: Reel,
}

impl Outcome {
    fn of(handed_in: Reel, call: impl FnOnce() -> Result<Reel, Refusal>) -> Outcome {
        match call() {
            Ok(reel) => Outcome { answer: Ok(()), reel },
            Err(refusal) => Outcome { answer: Err(refusal), reel: handed_in },
        }
    }
}

impl Building for Document {}

pub trait Building {
    /// Writes the header of an empty reel. "Writing: 18, 2, 1, 3", of which an open can meet 2 and 3; the record of a
    /// refused one is all 0.
    fn open_reel(&self, model: &Model, width: u64, height: u64, speed: Milliseconds, bytes: &mut [u8]) -> Outcome {
        Outcome::of(Reel::default(), || {
            let (columns, rows) = accepted_size(Format::Flc, width, height)?;
            self.open(Format::Flc, &model.headers.opened(columns, rows, speed), width, height, bytes)
        })
    }

    /// The same of an FLI: "jiffies over 65,535 is 14, after 2" (document 02, Req 06).
    fn open_fli(&self, model: &Model, width: u64, height: u64, jiffies: Jiffies, bytes: &mut [u8]) -> Outcome {
        Outcome::of(Reel::default(), || {
            accepted_size(Format::Fli, width, height)?;
            model.formats.fits(jiffies)?;
            self.open(Format::Fli, &model.headers.opened_fli(jiffies), width, height, bytes)
        })
    }

    /// Stores a header, and gives the record that goes with it.
    fn open(&self, format: Format, header: &[u8], width: u64, height: u64, bytes: &mut [u8]) -> Result<Reel, Refusal> {
        require(bytes.len() >= FILE_HEADER, number::SHORT_OUTPUT, 0)?;
        bytes[..FILE_HEADER].copy_from_slice(header);
        Ok(Reel { width, height, frames: 0, end: FILE_HEADER as u64, closed: 0, format: format.number() })
    }

    /// "An add is handed the showing state and writes the house frame from it." "Writing: 18, 2, 1, 3"; a record that
    /// doesn't fit is 4 "after 1".
    fn add_frame(&self, model: &Model, reel: Reel, bytes: &mut [u8], shown: Pair, next: Pair) -> Outcome {
        Outcome::of(reel, || {
            let (pictures, palettes) = ([shown.picture, next.picture], [shown.palette, next.palette]);
            let format = model.formats.told(reel.format);
            let (width, height) = self.checked(format, reel, self.may_add(reel), &pictures, &palettes)?;
            self.record_fits(reel, bytes.len() as u64)?;
            let end = self.append(reel, bytes, &model.house_frame(format, width, height, shown, next))?;
            Ok(Reel { frames: reel.frames + 1, end, format: format.number(), ..reel })
        })
    }

    /// Plays an open reel's frames, writes the ring from what shows last, and finishes the header. "A close then plays
    /// its frames .., with their refusals; .. then 3."
    fn close_reel(
        &self,
        model: &Model,
        reel: Reel,
        bytes: &mut [u8],
        mut first: PairMut,
        mut second: PairMut,
    ) -> Outcome {
        Outcome::of(reel, || {
            let pictures = [&*first.picture, &*second.picture];
            let palettes = [&*first.palette, &*second.palette];
            let format = model.formats.told(reel.format);
            let (width, height) = self.checked(format, reel, self.may_close(reel), &pictures, &palettes)?;
            let mut played = Played::from_blank(format, width, height);
            let second_frame = self.play_open_reel(model, reel, bytes, &mut played);
            model.playing.leave(&played, &mut first, &mut second);
            let second_frame = second_frame? as u32;
            let end = self.append(reel, bytes, &self.ring(model, &played))?;
            let closing = Closing { size: end as u32, frames: reel.frames as u16, second_frame };
            model.headers.close(bytes, format, &closing);
            Ok(Reel { end, closed: 1, format: format.number(), ..reel })
        })
    }

    fn is_closed(&self, reel: Reel) -> bool {
        reel.closed != 0
    }

    /// 18: "adding to a closed reel, a frame past 4,000, ..
    fn may_add(&self, reel: Reel) -> bool {
        !self.is_closed(reel) && reel.frames < MAX_FRAMES
    }

    /// .. closing with none or over 4,000, or closing twice".
    fn may_close(&self, reel: Reel) -> bool {
        !self.is_closed(reel) && (1..=MAX_FRAMES).contains(&reel.frames)
    }

    /// The checks 18, 2 and 1 of an add or a close; gives width and height.
    fn checked(
        &self,
        format: Format,
        reel: Reel,
        may_go_on: bool,
        pictures: &[&[u8]],
        palettes: &[&[u8]],
    ) -> Result<(usize, usize), Refusal> {
        require(may_go_on, number::CLOSED_OR_FULL, 0)?;
        let (width, height) = accepted_size(format, reel.width, reel.height)?;
        long_enough(width * height, pictures, palettes)?;
        Ok((width, height))
    }

    /// "An add or close whose record ends before 128 or past the lent bytes is 4, place 0".
    fn record_fits(&self, reel: Reel, length: u64) -> Result<(), Refusal> {
        require((FILE_HEADER as u64..=length).contains(&reel.end), number::CUT_SHORT, 0)
    }

    /// Writes a frame at the record's end, and gives the end after it. 3: "the output is shorter than the bytes to be
    /// written, or a size passes 32 bits".
    fn append(&self, reel: Reel, bytes: &mut [u8], frame: &[u8]) -> Result<u64, Refusal> {
        let (at, end) = (reel.end as usize, reel.end + frame.len() as u64);
        require(end <= bytes.len() as u64 && end <= LARGEST_SIZE, number::SHORT_OUTPUT, 0)?;
        bytes[at..at + frame.len()].copy_from_slice(frame);
        Ok(end)
    }

    /// "A close then plays its frames from offset 128, back to back, within the record's end"; gives where the second
    /// one begins.
    fn play_open_reel(&self, model: &Model, reel: Reel, bytes: &[u8], played: &mut Played) -> Result<usize, Refusal> {
        self.record_fits(reel, bytes.len() as u64)?;
        let end = reel.end as usize;
        let (mut place, mut second_frame) = (FILE_HEADER, FILE_HEADER);
        for frame in 0..reel.frames {
            place = self.play_frame(model, bytes, end, place, played)?;
            if frame == 0 {
                second_frame = place;
            }
        }
        self.all_played(place, end)?;
        Ok(second_frame)
    }

    /// Plays the frame at `place` with a single frame's refusals, and gives where it ends.
    fn play_frame(
        &self,
        model: &Model,
        bytes: &[u8],
        end: usize,
        place: usize,
        played: &mut Played,
    ) -> Result<usize, Refusal> {
        model.playing.play(model, &bytes[place..end], place, played)?;
        Ok(place + size_at(bytes, place))
    }

    /// "frames that end before [the record's end] are 4, place 0".
    fn all_played(&self, place: usize, end: usize) -> Result<(), Refusal> {
        require(place == end, number::CUT_SHORT, 0)
    }

    /// "The ring is written from the state in which the close's own playing ends", and leads back to frame 1.
    fn ring(&self, model: &Model, played: &Played) -> Vec<u8> {
        let Played { format, width, height, .. } = *played;
        model.house_frame(format, width, height, played.last.shown(), played.first.shown())
    }
}

#[cfg(test)]
mod tests {
    use super::*;
    use crate::model::{MODEL, PALETTE_BYTES};
    use crate::reels::examples::{blank_fli, blank_reel, zero_until_close, JIFFIES, SPEED};

    const FILL: u8 = 0x77;
    const BLANK: [u8; PALETTE_BYTES] = [0; PALETTE_BYTES];

    fn shown(picture: &[u8]) -> Pair<'_> {
        Pair { picture, palette: &BLANK }
    }

    struct Closed {
        outcome: Outcome,
        first: Vec<u8>,
        second: Vec<u8>,
    }

    /// Closes with pairs of one pixel more than needed.
    fn closed(reel: Reel, bytes: &mut [u8]) -> Closed {
        let pixels = (reel.width * reel.height) as usize + 1;
        let (mut first, mut second) = (vec![FILL; pixels], vec![FILL; pixels]);
        let (mut first_palette, mut second_palette) = ([FILL; PALETTE_BYTES], [FILL; PALETTE_BYTES]);
        let pairs = (
            PairMut { picture: &mut first, palette: &mut first_palette },
            PairMut { picture: &mut second, palette: &mut second_palette },
        );
        let outcome = MODEL.close_reel(reel, bytes, pairs.0, pairs.1);
        Closed { outcome, first, second }
    }

    fn refusal(outcome: Outcome) -> (u32, u64) {
        let refusal = outcome.answer.expect_err("this is refused");
        (refusal.number, refusal.place)
    }

    fn still(bytes: &mut [u8], reel: Reel, pixels: usize) -> Reel {
        let outcome = MODEL.add_frame(reel, bytes, shown(&vec![0; pixels]), shown(&vec![0; pixels]));
        assert_eq!(outcome.answer, Ok(()));
        outcome.reel
    }

    #[test]
    fn the_one_by_one_blank_reel_of_document_01() {
        let mut bytes = [FILL; 161];
        let open = MODEL.open_reel(1, 1, SPEED, &mut bytes);
        assert_eq!(open.reel, Reel { width: 1, height: 1, frames: 0, end: 128, closed: 0, format: 0 });
        let wanted = blank_reel();
        assert!((0..128).all(|at| bytes[at] == if zero_until_close(at) { 0 } else { wanted[at] }));
        assert_eq!(bytes[128..], [FILL; 33]);
        let added = still(&mut bytes, open.reel, 1);
        assert_eq!(added, Reel { frames: 1, end: 144, ..open.reel });
        let Closed { outcome, first, second } = closed(added, &mut bytes);
        assert_eq!(outcome, Outcome { answer: Ok(()), reel: Reel { end: 160, closed: 1, ..added } });
        assert_eq!((first, second), (vec![0, FILL], vec![0, FILL]));
        assert_eq!(bytes[..], [&wanted[..], &[FILL]].concat());
        let mut pairs = [[FILL; PALETTE_BYTES]; 4];
        let [a, b, c, d] = &mut pairs;
        let pair = |picture, palette| PairMut { picture, palette };
        assert_eq!(MODEL.check_reel(&bytes, pair(a, b), pair(c, d)), Ok(()));
    }

    #[test]
    fn the_ring_leads_from_what_the_bytes_show() {
        let mut bytes = [FILL; 400];
        let open = MODEL.open_reel(2, 1, 0, &mut bytes).reel;
        let one = MODEL.add_frame(open, &mut bytes, shown(&[0, 0]), shown(&[1, 2])).reel;
        let wrongly_shown = [9, 9];
        let two = MODEL.add_frame(one, &mut bytes, shown(&wrongly_shown), shown(&[9, 9])).reel;
        let three = MODEL.add_frame(two, &mut bytes, shown(&[0, 0]), shown(&[5, 6])).reel;
        let Closed { outcome, first, second } = closed(three, &mut bytes);
        assert_eq!(outcome.answer, Ok(()));
        assert_eq!((first, second), (vec![5, 6, FILL], vec![1, 2, FILL]));
        assert_eq!(bytes[80..88], [128, 0, 0, 0, 128 + 24, 0, 0, 0]);
        let ring = three.end as usize;
        assert_eq!(bytes[ring..outcome.reel.end as usize][16..], [8, 0, 0, 0, 16, 0, 1, 2]);
    }

    #[test]
    fn the_largest_size_has_another_aspect() {
        let aspect = |width, height| {
            let mut bytes = [0; FILE_HEADER];
            assert_eq!(MODEL.open_reel(width, height, u32::MAX, &mut bytes).answer, Ok(()));
            assert_eq!(bytes[16..20], [0xFF; 4]);
            (bytes[38], bytes[40])
        };
        assert_eq!((aspect(320, 200), aspect(320, 199), aspect(319, 200)), ((6, 5), (1, 1), (1, 1)));
    }

    #[test]
    fn opens_are_refused_in_order() {
        let mut bytes = [FILL; 127];
        let refused = MODEL.open_reel(0, 1, 0, &mut bytes);
        assert_eq!((refusal(refused), refused.reel), ((2, 0), Reel::default()));
        let refused = MODEL.open_reel(1, 1, 0, &mut bytes);
        assert_eq!((refusal(refused), refused.reel), ((3, 0), Reel::default()));
        assert_eq!(bytes, [FILL; 127]);
    }

    #[test]
    fn the_blank_fli() {
        let wanted = blank_fli();
        let mut bytes = [FILL; 161];
        let open = MODEL.open_fli(320, 200, JIFFIES, &mut bytes);
        assert_eq!(open.reel, Reel { width: 320, height: 200, frames: 0, end: 128, closed: 0, format: 1 });
        let of_close = |at: usize| matches!(at, 0..=3 | 6 | 7);
        assert!((0..128).all(|at| bytes[at] == if of_close(at) { 0 } else { wanted[at] }));
        assert_eq!(bytes[128..], [FILL; 33]);
        let added = still(&mut bytes, open.reel, 64_000);
        let Closed { outcome, first, second } = closed(Reel { format: 2, ..added }, &mut bytes);
        assert_eq!(outcome, Outcome { answer: Ok(()), reel: Reel { end: 160, closed: 1, ..added } });
        assert_eq!((first[64_000], second[64_000]), (FILL, FILL));
        assert_eq!(bytes[..], [&wanted[..], &[FILL]].concat());
    }

    #[test]
    fn opens_of_an_fli_are_refused_in_order() {
        let mut bytes = [FILL; 127];
        for (width, height, jiffies, number) in [(320, 199, 65_536, 2), (320, 200, 65_536, 14), (320, 200, 65_535, 3)] {
            let refused = MODEL.open_fli(width, height, jiffies, &mut bytes);
            assert_eq!((refusal(refused), refused.reel), ((number, 0), Reel::default()));
        }
        assert_eq!(bytes, [FILL; 127]);
    }

    #[test]
    fn a_frame_of_an_fli_is_closed_as_one() {
        let mut bytes = vec![FILL; 400];
        let open = MODEL.open_fli(320, 200, 0, &mut bytes).reel;
        bytes[128..152]
            .copy_from_slice(&[24, 0, 0, 0, 0xFA, 0xF1, 1, 0, 0, 0, 0, 0, 0, 0, 0, 0, 8, 0, 0, 0, 7, 0, 0, 0]);
        let reel = Reel { frames: 1, end: 152, ..open };
        let Closed { outcome, first, .. } = closed(reel, &mut bytes);
        assert_eq!((refusal(outcome), first[0]), ((20, 144), 0));
        assert_eq!(closed(Reel { format: 0, ..reel }, &mut bytes).outcome.answer, Ok(()));
    }

    #[test]
    fn adds_are_refused_in_order() {
        let mut bytes = [FILL; 150];
        let mut refused = |reel: Reel, picture: &[u8]| {
            let outcome = MODEL.add_frame(reel, &mut bytes, shown(picture), shown(&[0]));
            assert_eq!(outcome.reel, reel);
            refusal(outcome)
        };
        let reel = Reel { width: 0, height: 1, frames: 4000, end: 151, closed: 0, format: 0 };
        assert_eq!(refused(reel, &[]), (18, 0));
        assert_eq!(refused(Reel { frames: 0, closed: 2, ..reel }, &[]), (18, 0));
        let reel = Reel { frames: 3999, ..reel };
        assert_eq!(refused(reel, &[]), (2, 0));
        let reel = Reel { width: 1, ..reel };
        assert_eq!(refused(reel, &[]), (1, 0));
        assert_eq!(refused(reel, &[0]), (4, 0));
        assert_eq!(refused(Reel { end: 127, ..reel }, &[0]), (4, 0));
        assert_eq!(refused(Reel { end: 150, ..reel }, &[0]), (3, 0));
        assert_eq!(refused(Reel { end: 135, ..reel }, &[0]), (3, 0));
        assert_eq!(bytes, [FILL; 150]);
        let reel = Reel { end: 134, ..reel };
        assert_eq!(still(&mut bytes, reel, 1), Reel { frames: 4000, end: 150, ..reel });
    }

    #[test]
    fn closes_are_refused_in_order() {
        let mut bytes = [0; 400];
        let open = MODEL.open_reel(1, 1, 0, &mut bytes).reel;
        let reel = MODEL.add_frame(open, &mut bytes, shown(&[0]), shown(&[5])).reel;
        let end = reel.end as usize;
        let refused = |reel: Reel, bytes: &[u8]| {
            let mut handed_in = bytes.to_vec();
            let Closed { outcome, first, second } = closed(reel, &mut handed_in);
            assert_eq!((outcome.reel, &handed_in[..]), (reel, bytes));
            (refusal(outcome), first[0], second[0])
        };
        for frames in [0, 4001] {
            assert_eq!(refused(Reel { frames, ..reel }, &bytes), ((18, 0), FILL, FILL));
        }
        assert_eq!(refused(Reel { closed: 1, height: 0, ..reel }, &bytes).0, (18, 0));
        for end in [127, 401] {
            assert_eq!(refused(Reel { end, ..reel }, &bytes), ((4, 0), 0, 0));
        }
        assert_eq!(refused(Reel { frames: 2, ..reel }, &bytes), ((4, end as u64), 5, 5));
        assert_eq!(refused(Reel { end: end as u64 + 3, ..reel }, &bytes), ((4, 0), 5, 5));
        assert_eq!(refused(Reel { end: end as u64 - 1, ..reel }, &bytes), ((4, 128), 0, 0));
        assert_eq!(refused(Reel { end: 143, ..reel }, &bytes), ((4, 128), 0, 0));
        assert_eq!(refused(reel, &bytes[..end + 15]), ((3, 0), 5, 5));
        bytes[128 + 4] = 0;
        assert_eq!(refused(reel, &bytes), ((5, 128), 0, 0));
        bytes[128..134].copy_from_slice(&[15, 0, 0, 0, 0xFA, 0xF1]);
        assert_eq!(refused(reel, &bytes), ((6, 128), 0, 0));
    }

    #[test]
    fn a_close_sets_no_other_header_byte() {
        let mut bytes = [FILL; 200];
        let reel = Reel { width: 1, height: 1, frames: 1, end: 144, closed: 0, format: 0 };
        bytes[128..144].copy_from_slice(&[16, 0, 0, 0, 0xFA, 0xF1, 0, 0, 1, 2, 3, 4, 5, 6, 7, 8]);
        assert_eq!(closed(reel, &mut bytes).outcome.answer, Ok(()));
        assert!((0..FILE_HEADER).all(|at| (bytes[at] == FILL) != zero_until_close(at)));
    }
}
