//! The calls of the codec, with their refusals as the crate's.

use crate::format::Format;
use crate::refusal::{Refusal, Refused, Result};
use flic_boundary as codec;
use std::ops::Range;

pub use flic_boundary::{Pair, PairMut, Player, Reel as Record, FRAME_MOST, LIST_MOST};

fn result(number: u32, place: u64) -> Result<()> {
    if number == 0 {
        return Ok(());
    }
    let refusal = Refusal::with_number(number)
        .unwrap_or_else(|| panic!("libcapi.a gave refusal {number}, which this edition of the crate doesn't know"));
    Err(Refused { refusal, place })
}

fn answer(codec::Answer { number, place }: codec::Answer) -> Result<()> {
    result(number, place)
}

fn length(written: codec::Written) -> Result<usize> {
    result(written.number, written.place).map(|()| written.length as usize)
}

fn record(answer: codec::ReelAnswer) -> Result<Record> {
    result(answer.number, answer.place).map(|()| answer.reel)
}

fn number_of(format: Format) -> u32 {
    match format {
        Format::Flc => codec::FLC,
        Format::Fli => codec::FLI,
    }
}

/// The format that a record or a header has.
pub fn format_of(number: u32) -> Format {
    match number {
        codec::FLC => Format::Flc,
        _ => Format::Fli,
    }
}

pub fn read_frame(bytes: &[u8], format: Format, width: u64, height: u64, shown: PairMut) -> Result<()> {
    answer(codec::read_frame(bytes, number_of(format), width, height, shown))
}

pub fn write_frame(
    format: Format,
    width: u64,
    height: u64,
    previous: Pair,
    next: Pair,
    out: &mut [u8],
) -> Result<usize> {
    length(codec::write_frame(number_of(format), width, height, previous, next, out))
}

pub fn rewrite_frame(
    bytes: &[u8],
    format: Format,
    width: u64,
    height: u64,
    previous: Pair,
    work: PairMut,
    out: &mut [u8],
) -> Result<usize> {
    length(codec::rewrite_frame(bytes, number_of(format), width, height, previous, work, out))
}

pub fn check_reel(bytes: &[u8], first: PairMut, second: PairMut) -> Result<()> {
    answer(codec::check_reel(bytes, first, second))
}

pub fn open_reel(width: u64, height: u64, speed: u32, bytes: &mut [u8]) -> Result<Record> {
    record(codec::open_reel(width, height, speed, bytes))
}

pub fn open_fli(width: u64, height: u64, jiffies: u32, bytes: &mut [u8]) -> Result<Record> {
    record(codec::open_fli(width, height, jiffies, bytes))
}

pub fn add_frame(reel: Record, bytes: &mut [u8], shown: Pair, next: Pair) -> Result<Record> {
    record(codec::add_frame(reel, bytes, shown, next))
}

pub fn close_reel(reel: Record, bytes: &mut [u8], first: PairMut, second: PairMut) -> Result<Record> {
    record(codec::close_reel(reel, bytes, first, second))
}

pub fn check_trailer(bytes: &[u8]) -> Result<()> {
    answer(codec::check_trailer(bytes))
}

pub fn write_trailer(bytes: &mut [u8]) -> Result<usize> {
    length(codec::write_trailer(bytes))
}

pub fn list(bytes: &[u8], out: &mut [u8]) -> Result<usize> {
    length(codec::list(bytes, out))
}

pub fn read_header(bytes: &[u8]) -> Result<codec::Header> {
    let header = codec::read_header(bytes);
    result(header.number, header.place).map(|()| header)
}

pub fn next_frame(bytes: &[u8], at: usize) -> Result<Range<usize>> {
    let span = codec::next_frame(bytes, at as u64);
    result(span.number, span.place).map(|()| span.from as usize..span.end as usize)
}

fn delay(delay: codec::Delay) -> Result<u32> {
    result(delay.number, delay.place).map(|()| delay.delay)
}

pub fn in_milliseconds(jiffies: u32) -> Result<u32> {
    delay(codec::in_milliseconds(jiffies))
}

pub fn in_jiffies(milliseconds: u32) -> Result<u32> {
    delay(codec::in_jiffies(milliseconds))
}

pub fn search_row(row: &[u8]) -> Result<codec::RowCost> {
    let cost = codec::search_row(row);
    result(cost.number, cost.place).map(|()| cost)
}

pub fn start_player(bytes: &[u8], now: u32, first: PairMut, second: PairMut) -> Result<Player> {
    let answer = codec::start_player(bytes, now, first, second);
    result(answer.number, answer.place).map(|()| answer.player)
}

/// Gives the number of what the tick did.
pub fn tick(player: &mut Player, bytes: &[u8], now: u32, shown: PairMut) -> Result<u32> {
    let ticked = codec::tick(player, bytes, now, shown);
    result(ticked.number, ticked.place).map(|()| ticked.event)
}

pub fn replay(speed: u32, frames: usize, start: u32, readings: &[u32], numbers: &mut [u32]) -> Result<usize> {
    length(codec::replay(speed, frames as u64, start, readings, numbers))
}

pub fn tile_map(width: u64, height: u64, previous: &[u8], next: &[u8], words: &mut [u64]) -> Result<usize> {
    length(codec::tile_map(width, height, previous, next, words))
}

pub fn marked_tiles(word: u64) -> codec::TileRow {
    codec::marked_tiles(word)
}

#[cfg(test)]
mod tests {
    use super::*;

    #[test]
    fn short_slices_and_bad_sizes_are_refused() {
        let (mut picture, mut palette) = ([7; 5], [7; 768]);
        let pair = PairMut { picture: &mut picture, palette: &mut palette };
        let refused = read_frame(&[], Format::Flc, 3, 2, pair).unwrap_err();
        assert_eq!((refused.refusal, refused.place), (Refusal::ShortSlice, 0));
        let pair = PairMut { picture: &mut picture, palette: &mut palette };
        assert_eq!(read_frame(&[], Format::Flc, 0, 2, pair).unwrap_err().refusal, Refusal::BadSize);
        // Of an FLI a size that an FLC may have is judged first.
        let pair = PairMut { picture: &mut picture, palette: &mut palette };
        assert_eq!(read_frame(&[], Format::Fli, 3, 2, pair).unwrap_err().refusal, Refusal::BadSize);
        assert_eq!((picture, palette), ([7; 5], [7; 768]));
    }

    /// A reel of two frames, 1 by 1, 50 milliseconds each, started at 0.
    fn started() -> (Vec<u8>, Player) {
        let size = crate::Size::new(1, 1).expect("a size that is taken");
        let mut reel = crate::Reel::open(size, crate::Milliseconds(50)).expect("a reel");
        let mut state = crate::State::blank(size);
        for pixel in [1, 2] {
            state.picture.pixels_mut()[0] = pixel;
            reel.add(&state).expect("a frame");
        }
        let bytes = reel.close().expect("a file");
        let pair = || (vec![0], vec![0; 768]);
        let ((mut picture, mut palette), (mut second, mut colours)) = (pair(), pair());
        let first = PairMut { picture: &mut picture, palette: &mut palette };
        let player = start_player(&bytes, 0, first, PairMut { picture: &mut second, palette: &mut colours });
        assert_eq!((picture, second), (vec![1], vec![1]));
        (bytes, player.expect("a player"))
    }

    /// What a tick at this reading gives of an altered record and so many pixels; a refusal must change nothing.
    fn altered(now: u32, pixels: usize, alter: fn(&mut Player)) -> (Result<u32>, Player) {
        let (bytes, mut player) = started();
        alter(&mut player);
        let (before, mut picture, mut palette) = (player, vec![1; pixels], vec![9; 768]);
        let event = tick(&mut player, &bytes, now, PairMut { picture: &mut picture, palette: &mut palette });
        if event.is_err() {
            assert_eq!((player, picture, palette), (before, vec![1; pixels], vec![9; 768]));
        }
        (event, player)
    }

    #[test]
    fn a_tick_that_draws_refuses_a_record_that_does_not_fit() {
        let refused = |pixels, alter| altered(50, pixels, alter).0.map_err(|why| (why.refusal.number(), why.place));
        assert_eq!(refused(1, |_| ()), Ok(1));
        assert_eq!(refused(0, |player| player.width = 0), Err((2, 0)));
        assert_eq!(refused(1, |player| player.height = 201), Err((2, 0)));
        assert_eq!(refused(0, |player| player.number = 0), Err((1, 0)));
        assert_eq!(refused(1, |player| player.place = u64::MAX), Err((4, 0)));
        assert_eq!(refused(1, |player| player.number = 0), Err((4, 0)));
        assert_eq!(refused(1, |player| player.number = 4), Err((4, 0)));
        assert_eq!(refused(1, |player| player.number = 3), Ok(1));
        // The record of an FLI has its size.
        assert_eq!(refused(1, |player| player.format = codec::FLI), Err((2, 0)));
        let end = started().0.len() as u64;
        assert_eq!(refused(1, |player| player.place = started().0.len() as u64), Err((15, end)));
        // The file header, taken for a chunk, has the size of the file.
        assert_eq!(refused(1, |player| player.place = 0), Err((15, end)));
    }

    #[test]
    fn a_tick_that_draws_nothing_makes_no_check() {
        let alter = |player: &mut Player| (player.width, player.number, player.place) = (0, 0, u64::MAX);
        let (event, player) = altered(49, 0, alter);
        assert_eq!((event, player.last), (Ok(0), 0));
        let (event, player) = altered(u32::MAX, 0, alter);
        assert_eq!((event, player.last), (Ok(2), u32::MAX));
    }

    #[test]
    fn more_jiffies_than_an_fli_stores_are_refused() {
        let number = |result: Result<u32>| result.map_err(|why| (why.refusal.number(), why.place));
        assert_eq!((number(in_milliseconds(65_535)), number(in_milliseconds(65_536))), (Ok(936_214), Err((14, 0))));
        let open = |width, jiffies, bytes: &mut [u8]| open_fli(width, 200, jiffies, bytes).map_err(|why| why.refusal);
        assert_eq!(open(319, 65_536, &mut []), Err(Refusal::BadSize));
        assert_eq!(open(320, 65_536, &mut []), Err(Refusal::BadHeader));
        assert_eq!(open(320, 65_535, &mut [0; 127]), Err(Refusal::NoRoom));
        let opened = open(320, 65_535, &mut [0; 128]).expect("an FLI");
        assert_eq!(format_of(opened.format), Format::Fli);
    }

    #[test]
    fn a_replay_without_room_is_refused_after_its_frames() {
        let mut numbers = [7; 3];
        let number = |result: Result<usize>| result.map_err(|why| why.refusal.number());
        assert_eq!(number(replay(1, 0, 0, &[1, 2, 3, 4], &mut numbers)), Err(14));
        assert_eq!(number(replay(1, 2, 0, &[1, 2, 3, 4], &mut numbers)), Err(3));
        assert_eq!(numbers, [7; 3]);
        assert_eq!(number(replay(1, 2, 0, &[1, 1], &mut numbers)), Ok(2));
        assert_eq!(numbers, [2, 2, 7]);
    }

    #[test]
    fn a_tile_map_is_refused_for_its_size_then_its_pictures_then_its_words() {
        let mut words = [7; 2];
        let number = |result: Result<usize>| result.map_err(|why| (why.refusal.number(), why.place));
        assert_eq!(number(tile_map(0, 17, &[], &[], &mut words)), Err((2, 0)));
        assert_eq!(number(tile_map(1, 17, &[0; 17], &[0; 16], &mut words)), Err((1, 0)));
        assert_eq!(number(tile_map(1, 17, &[0; 16], &[0; 17], &mut words)), Err((1, 0)));
        assert_eq!(number(tile_map(1, 17, &[0; 17], &[0; 17], &mut words)), Err((3, 0)));
        assert_eq!(words, [7; 2]);
        assert_eq!(number(tile_map(1, 8, &[0; 8], &[0, 0, 0, 0, 0, 0, 0, 1], &mut words)), Ok(1));
        assert_eq!(words, [1, 7]);
    }
}
