//! Sizes around 32 bits: calls on more than four gigabytes of zeros, of which few pages are ever written.

use crate::damage::{set_size, set_word};
use crate::model::{Format, FILE_HEADER, FRAME_HEADER, FRAME_TYPE, MODEL};
use crate::runner::calls::{
    AddCase, Call, CheckCase, CheckTrailerCase, CloseCase, HeaderCase, ListCase, StartCase, StepCase, TickCase,
    WriteTrailerCase,
};
use crate::runner::compare::Subject;
use crate::runner::guards::{lend, Guarded};
use crate::runner::lent::alignment;
use crate::runner::told::Told;
use crate::states::State;
use flic_boundary::{Player, Reel};

const LARGEST: u64 = u32::MAX as u64;
const LENGTH: usize = LARGEST as usize + 64;
const SEED: u64 = 32;
const RING: u64 = 16;
/// The index and the trailer of a reel of one frame.
const TRAILER: usize = 16;

/// Record ends before which a frame of 16 bytes fits 32 bits, and after which it doesn't.
const ENDS: [u64; 4] = [LARGEST - 16, LARGEST - 15, LARGEST, LARGEST + 40];

/// How many bytes there are after the reel's size.
const ROOMS: [usize; 4] = [0, TRAILER - 1, TRAILER, TRAILER + 1];

/// Where a frame stands past 32 bits, and places of a record: at the size, at that frame, at its end, past the bytes.
const PAST: u64 = LARGEST + 9;
const PLACES: [u64; 4] = [LARGEST, PAST, PAST + FRAME_HEADER as u64, LENGTH as u64 + 1];

/// Bytes that were lent to one call after another, the answers, and what listings hold.
struct Huge {
    bytes: Guarded,
    told: Vec<Told>,
    texts: Vec<Vec<u8>>,
}

impl Huge {
    /// Bytes of this length with a reel of one frame that ends at `end`, and its record, if so many can be had.
    fn one_frame(format: Format, length: usize, end: u64) -> Option<(Huge, Reel)> {
        let mut bytes = Guarded::of_zeros(length, SEED)?;
        let size = u32::try_from(end - FILE_HEADER as u64).expect("the header makes up for an end past 32 bits");
        let open = match format {
            Format::Flc => MODEL.open_reel(1, 1, 0, bytes.content_mut()).reel,
            Format::Fli => MODEL.open_fli(320, 200, 0, bytes.content_mut()).reel,
        };
        let frame = &mut bytes.content_mut()[FILE_HEADER..];
        set_size(frame, 0, size);
        set_word(frame, 4, FRAME_TYPE);
        let huge = Huge { bytes, told: Vec::new(), texts: Vec::new() };
        Some((huge, Reel { frames: 1, end, ..open }))
    }

    /// The same, closed by the model: the ring is 16 bytes from `end` on.
    fn closed(format: Format, length: usize, end: u64) -> Option<(Huge, Reel)> {
        let (mut huge, reel) = Huge::one_frame(format, length, end)?;
        let (mut first, mut second) = (blank(reel), blank(reel));
        let closed = MODEL.close_reel(reel, huge.bytes.content_mut(), first.work(), second.work());
        Some((huge, closed.reel))
    }

    /// Makes a call in which these bytes stand for the slice that is the reel or the file.
    fn call(&mut self, subject: &dyn Subject, call: &dyn Call) {
        let (lends, aligned) = (call.row().lends, call.row().aligned);
        let which = lends.iter().position(|name| ["reel", "file"].contains(name)).expect("a call on a reel or a file");
        let guarded = |(at, slice): (usize, &&[u8])| Guarded::holding(slice, alignment(aligned, at), SEED);
        let mut slices: Vec<Guarded> = call.slices().iter().enumerate().map(guarded).collect();
        std::mem::swap(&mut slices[which], &mut self.bytes);
        self.told.push(lend(&mut slices, |lent| subject.call(call, lent)));
        assert!(slices.iter().all(Guarded::guards_hold), "a byte outside a lent slice was written");
        self.bytes = slices.remove(which);
        self.texts.extend(slices.iter().map(|slice| slice.content().to_vec()));
    }

    /// The answers, what other slices hold, the header, the first frame, and the bytes from here on.
    fn left(self, from: usize) -> (Vec<Told>, Vec<Vec<u8>>) {
        let content = self.bytes.content();
        let windows = [&content[..FILE_HEADER + FRAME_HEADER], &content[from..]].concat();
        (self.told, [self.texts, vec![windows]].concat())
    }
}

/// A blank pair for this record.
fn blank(reel: Reel) -> State {
    State::blank((reel.width * reel.height) as usize)
}

/// What some calls told and left.
type Left = Option<(Vec<Told>, Vec<Vec<u8>>)>;

fn added(format: Format, subject: &dyn Subject, end: u64) -> Left {
    let (mut huge, reel) = Huge::one_frame(format, LENGTH, end)?;
    let (shown, next) = (blank(reel), blank(reel));
    huge.call(subject, &AddCase { reel, bytes: Vec::new(), shown, next });
    Some(huge.left(LENGTH - 128))
}

fn closed(format: Format, subject: &dyn Subject, end: u64) -> Left {
    let (mut huge, reel) = Huge::one_frame(format, LENGTH, end)?;
    let (first, second) = (blank(reel), blank(reel));
    huge.call(subject, &CloseCase { reel, bytes: Vec::new(), first, second });
    Some(huge.left(LENGTH - 128))
}

fn checked(format: Format, subject: &dyn Subject, end: u64) -> Left {
    let (mut huge, reel) = Huge::closed(format, LENGTH, end)?;
    let (first, second) = (blank(reel), blank(reel));
    huge.call(subject, &CheckCase { bytes: Vec::new(), first, second });
    Some(huge.left(LENGTH - 128))
}

/// A reel of the largest size: its header is read, it is stepped through, checked, given a trailer, and listed.
fn walked(_: Format, subject: &dyn Subject, room: u64) -> Left {
    let (mut huge, reel) = Huge::closed(Format::Flc, LARGEST as usize + room as usize, LARGEST - RING)?;
    huge.call(subject, &HeaderCase(Vec::new()));
    for at in [FILE_HEADER as u64, LARGEST - RING, LARGEST] {
        huge.call(subject, &StepCase { bytes: Vec::new(), at });
    }
    huge.call(subject, &CheckTrailerCase(Vec::new()));
    huge.call(subject, &WriteTrailerCase(Vec::new()));
    huge.call(subject, &CheckTrailerCase(Vec::new()));
    huge.call(subject, &ListCase { bytes: Vec::new(), out: vec![0xEE; 20] });
    Some(huge.left(reel.end as usize))
}

/// A player of a reel of the largest size: started, ticked to its ring, and then, with a frame of its own past 32 bits,
/// to that one, whose record keeps `place`.
fn ticked(format: Format, subject: &dyn Subject, place: u64) -> Left {
    let (mut huge, reel) = Huge::closed(format, LENGTH, LARGEST - RING)?;
    let (first, second) = (blank(reel), blank(reel));
    huge.call(subject, &StartCase { bytes: Vec::new(), now: 0, first, second });
    let frame = &mut huge.bytes.content_mut()[PAST as usize..];
    set_size(frame, 0, FRAME_HEADER as u32);
    set_word(frame, 4, FRAME_TYPE);
    let ring = LARGEST - RING;
    let Reel { width, height, format, .. } = reel;
    let right = Player { width, height, frames: 1, number: 1, place: ring, first_end: ring, speed: 0, last: 0, format };
    for player in [right, Player { frames: 2, place, ..right }, Player { place, first_end: place, ..right }] {
        huge.call(subject, &TickCase { player: player.into(), bytes: Vec::new(), now: 0, shown: blank(reel) });
    }
    Some(huge.left(LENGTH - 128))
}

/// Calls by their name, with the numbers that they are tried with.
type Tried = (&'static str, Format, fn(Format, &dyn Subject, u64) -> Left, Vec<u64>);

/// Compares the subject with the model; gives how many agreed, or none where so many bytes can't be had.
fn compared(subject: &dyn Subject, tried: Vec<Tried>) -> Result<Option<usize>, String> {
    let mut agreed = 0;
    for (name, format, calls, numbers) in tried {
        for number in numbers {
            let (Some(found), Some(wanted)) = (calls(format, subject, number), calls(format, &MODEL, number)) else {
                return Ok(None);
            };
            if found != wanted {
                return Err(format!("{name} {number}: library {found:?}, model {wanted:?}"));
            }
            agreed += 1;
        }
    }
    Ok(Some(agreed))
}

/// Adds, closes and checks.
pub fn reels(subject: &dyn Subject) -> Result<Option<usize>, String> {
    let tried = |format| -> [Tried; 3] {
        [
            ("an add at a record's end of", format, added, ENDS.to_vec()),
            ("a close at a record's end of", format, closed, ENDS.to_vec()),
            ("a check after a record's end of", format, checked, ENDS[..1].to_vec()),
        ]
    };
    compared(subject, Format::BOTH.into_iter().flat_map(tried).collect())
}

/// The way through a file, its trailer and its listing.
pub fn files(subject: &dyn Subject) -> Result<Option<usize>, String> {
    compared(
        subject,
        vec![(
            "the way through a file; bytes after its size:",
            Format::Flc,
            walked,
            ROOMS.map(|room| room as u64).to_vec(),
        )],
    )
}

/// A player whose reel, and whose record's place, come up to 32 bits and past them.
pub fn players(subject: &dyn Subject) -> Result<Option<usize>, String> {
    let tried = |format| -> Tried { ("a player whose record's place is", format, ticked, PLACES.to_vec()) };
    compared(subject, Format::BOTH.map(tried).to_vec())
}

#[cfg(test)]
mod tests {
    use super::*;
    use crate::model::player::Players;
    use crate::model::Model;
    use crate::runner::told::Rest;
    use crate::runner::wrongs::Telling;

    /// A player that keeps 32 bits of its place.
    struct PlaceOf32Bits;

    impl Players for PlaceOf32Bits {
        fn place_after(&self, _player: &Player, end: u64) -> u64 {
            end & LARGEST
        }
    }

    fn numbers(left: Left) -> Option<Vec<u32>> {
        left.map(|(told, _)| told.iter().map(|told| told.number).collect())
    }

    #[test]
    fn a_size_past_32_bits_is_refused() {
        let Some((done, _)) = added(Format::Flc, &MODEL, ENDS[0]) else {
            return;
        };
        assert_eq!((done[0].number, done[0].length()), (0, LARGEST));
        let refused: Vec<_> = ENDS.iter().map(|end| numbers(added(Format::Flc, &MODEL, *end))).collect();
        assert_eq!(refused, [0, 3, 3, 3].map(|number| Some(vec![number])));
        let (told, left) = closed(Format::Flc, &MODEL, ENDS[0]).expect("it was had before");
        assert_eq!((told[0].number, &left[4][..4]), (0, &[0xFF; 4][..]));
        assert_eq!(numbers(checked(Format::Flc, &MODEL, ENDS[0])), Some(vec![0]));
    }

    #[test]
    fn a_trailer_may_end_past_32_bits() {
        let Some(none) = numbers(walked(Format::Flc, &MODEL, 0)) else {
            return;
        };
        assert_eq!(none, [0, 0, 0, 15, 0, 3, 0, 0]);
        let rooms = ROOMS[1..]
            .iter()
            .map(|room| numbers(walked(Format::Flc, &MODEL, *room as u64)).map(|told| told[4..7].to_vec()));
        assert_eq!(rooms.collect::<Vec<_>>(), [vec![17, 3, 17], vec![17, 0, 0], vec![17, 0, 17]].map(Some));
        let (told, _) = walked(Format::Flc, &MODEL, 0).expect("it was had before");
        let ring = LARGEST - RING;
        assert_eq!(told[1].rest, Rest::Span { from: 128, end: ring });
        assert_eq!(told[2].rest, Rest::Span { from: ring, end: LARGEST });
    }

    #[test]
    fn a_place_may_lie_past_32_bits() {
        let Some((told, left)) = ticked(Format::Flc, &MODEL, PAST) else {
            return;
        };
        assert_eq!(told.iter().map(|told| told.number).collect::<Vec<_>>(), [0; 4]);
        let place = |record: &[u8]| u64::from_ne_bytes(record[32..40].try_into().expect("eight bytes"));
        let ring = LARGEST - RING;
        assert_eq!([place(&left[4]), place(&left[7]), place(&left[10])], [ring, PAST + 16, PAST]);
        let numbers = PLACES.map(|place| numbers(ticked(Format::Flc, &MODEL, place)).map(|told| told[2]));
        assert_eq!(numbers, [Some(6), Some(0), Some(6), Some(4)]);
    }

    #[test]
    fn numbers_cut_to_32_bits_are_seen() {
        assert!(matches!(reels(&MODEL), Ok(Some(18) | None)));
        assert!(matches!(files(&MODEL), Ok(Some(4) | None)));
        let done = |told: Told| Told { number: if told.number == 3 { 0 } else { told.number }, ..told };
        let adds = Telling { function: "add_frame", altered: done };
        assert!(matches!(reels(&adds), Err(_) | Ok(None)));
        let cut = |told: Told| Told { rest: Rest::Length(told.length() & LARGEST), ..told };
        let writes = Telling { function: "write_trailer", altered: cut };
        assert!(matches!(files(&writes), Err(_) | Ok(None)));
        assert!(matches!(players(&MODEL), Ok(Some(8) | None)));
        let players = players(&Model { players: &PlaceOf32Bits, ..MODEL });
        assert!(matches!(players, Err(_) | Ok(None)));
    }
}
