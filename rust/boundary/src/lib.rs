//! The C boundary of the codec, as include/flic.h has it: its types, its functions, and all the unsafe code that calls
//! them, which hands over whole slices. The few calls of the system that the tool needs of a terminal and of files stand
//! apart.

pub mod files;
pub mod terminal;

use std::borrow::Cow;

/// No frame that is written has more bytes.
pub const FRAME_MOST: usize = 65_310;
/// No listing has more bytes.
pub const LIST_MOST: usize = 218_047;

/// The formats by their numbers: as a parameter any number but 0 is FLI, in an answer it is one of these.
pub const FLC: u32 = 0;
pub const FLI: u32 = 1;

/// Done where the number is 0, else refused, with the place of what is at fault.
#[repr(C)]
#[derive(Clone, Copy, Debug, Default, PartialEq, Eq)]
pub struct Answer {
    pub number: u32,
    pub place: u64,
}

/// An answer, and how many bytes were written.
#[repr(C)]
#[derive(Clone, Copy, Debug, Default, PartialEq, Eq)]
pub struct Written {
    pub number: u32,
    pub place: u64,
    pub length: u64,
}

/// The record of a reel that is being built, as it goes from call to call.
#[repr(C)]
#[derive(Clone, Copy, Debug, Default, PartialEq, Eq)]
pub struct Reel {
    pub width: u64,
    pub height: u64,
    pub frames: u64,
    pub end: u64,
    pub closed: u32,
    pub format: u32,
}

/// An answer, and the record that goes with it.
#[repr(C)]
#[derive(Clone, Copy, Debug, Default, PartialEq, Eq)]
pub struct ReelAnswer {
    pub number: u32,
    pub place: u64,
    pub reel: Reel,
}

/// An answer, and what a file header says.
#[repr(C)]
#[derive(Clone, Copy, Debug, Default, PartialEq, Eq)]
pub struct Header {
    pub number: u32,
    pub place: u64,
    pub width: u64,
    pub height: u64,
    pub frames: u64,
    pub size: u64,
    pub speed: u32,
    pub format: u32,
}

/// An answer, and where a frame stands.
#[repr(C)]
#[derive(Clone, Copy, Debug, Default, PartialEq, Eq)]
pub struct Span {
    pub number: u32,
    pub place: u64,
    pub from: u64,
    pub end: u64,
}

/// An answer, and a delay in the other unit.
#[repr(C)]
#[derive(Clone, Copy, Debug, Default, PartialEq, Eq)]
pub struct Delay {
    pub number: u32,
    pub place: u64,
    pub delay: u32,
}

/// An answer, the bytes of a row's packets, and the turns that the search for them took.
#[repr(C)]
#[derive(Clone, Copy, Debug, Default, PartialEq, Eq)]
pub struct RowCost {
    pub number: u32,
    pub place: u64,
    pub bytes: u64,
    pub turns: u64,
}

/// The record of a player, as it goes from tick to tick.
#[repr(C)]
#[derive(Clone, Copy, Debug, Default, PartialEq, Eq)]
pub struct Player {
    pub width: u64,
    pub height: u64,
    pub frames: u64,
    pub number: u64,
    pub place: u64,
    pub first_end: u64,
    pub speed: u32,
    pub last: u32,
    pub format: u32,
}

/// An answer, and the player that was started.
#[repr(C)]
#[derive(Clone, Copy, Debug, Default, PartialEq, Eq)]
pub struct PlayerAnswer {
    pub number: u32,
    pub place: u64,
    pub player: Player,
}

/// An answer, and what a tick did: 0 nothing was due, 1 a frame was drawn, 2 the clock was set back.
#[repr(C)]
#[derive(Clone, Copy, Debug, Default, PartialEq, Eq)]
pub struct Ticked {
    pub number: u32,
    pub place: u64,
    pub event: u32,
}

/// How many tiles of a word are marked, the first and the last, 64 for both where none is.
#[repr(C)]
#[derive(Clone, Copy, Debug, Default, PartialEq, Eq)]
pub struct TileRow {
    pub count: u32,
    pub first: u32,
    pub last: u32,
}

/// A lent picture and palette that are only looked at.
#[derive(Clone, Copy)]
pub struct Pair<'a> {
    pub picture: &'a [u8],
    pub palette: &'a [u8],
}

/// A lent picture and palette that are changed.
pub struct PairMut<'a> {
    pub picture: &'a mut [u8],
    pub palette: &'a mut [u8],
}

extern "C" {
    fn flic_read_frame(
        bytes: *const u8,
        bytes_len: usize,
        format: u32,
        width: u64,
        height: u64,
        picture: *mut u8,
        picture_len: usize,
        palette: *mut u8,
        palette_len: usize,
    ) -> Answer;

    fn flic_write_frame(
        format: u32,
        width: u64,
        height: u64,
        previous_picture: *const u8,
        previous_picture_len: usize,
        previous_palette: *const u8,
        previous_palette_len: usize,
        next_picture: *const u8,
        next_picture_len: usize,
        next_palette: *const u8,
        next_palette_len: usize,
        out: *mut u8,
        out_len: usize,
    ) -> Written;

    fn flic_rewrite_frame(
        bytes: *const u8,
        bytes_len: usize,
        format: u32,
        width: u64,
        height: u64,
        previous_picture: *const u8,
        previous_picture_len: usize,
        previous_palette: *const u8,
        previous_palette_len: usize,
        work_picture: *mut u8,
        work_picture_len: usize,
        work_palette: *mut u8,
        work_palette_len: usize,
        out: *mut u8,
        out_len: usize,
    ) -> Written;

    fn flic_check_reel(
        bytes: *const u8,
        bytes_len: usize,
        first_picture: *mut u8,
        first_picture_len: usize,
        first_palette: *mut u8,
        first_palette_len: usize,
        second_picture: *mut u8,
        second_picture_len: usize,
        second_palette: *mut u8,
        second_palette_len: usize,
    ) -> Answer;

    fn flic_open_reel(width: u64, height: u64, speed: u32, bytes: *mut u8, bytes_len: usize) -> ReelAnswer;

    fn flic_open_fli(width: u64, height: u64, jiffies: u32, bytes: *mut u8, bytes_len: usize) -> ReelAnswer;

    fn flic_add_frame(
        reel: Reel,
        bytes: *mut u8,
        bytes_len: usize,
        shown_picture: *const u8,
        shown_picture_len: usize,
        shown_palette: *const u8,
        shown_palette_len: usize,
        next_picture: *const u8,
        next_picture_len: usize,
        next_palette: *const u8,
        next_palette_len: usize,
    ) -> ReelAnswer;

    fn flic_close_reel(
        reel: Reel,
        bytes: *mut u8,
        bytes_len: usize,
        first_picture: *mut u8,
        first_picture_len: usize,
        first_palette: *mut u8,
        first_palette_len: usize,
        second_picture: *mut u8,
        second_picture_len: usize,
        second_palette: *mut u8,
        second_palette_len: usize,
    ) -> ReelAnswer;

    fn flic_check_trailer(bytes: *const u8, bytes_len: usize) -> Answer;

    fn flic_write_trailer(bytes: *mut u8, bytes_len: usize) -> Written;

    fn flic_list(bytes: *const u8, bytes_len: usize, out: *mut u8, out_len: usize) -> Written;

    fn flic_search_row(row: *const u8, row_len: usize) -> RowCost;

    fn flic_read_header(bytes: *const u8, bytes_len: usize) -> Header;

    fn flic_next_frame(bytes: *const u8, bytes_len: usize, at: u64) -> Span;

    fn flic_in_milliseconds(jiffies: u32) -> Delay;

    fn flic_in_jiffies(milliseconds: u32) -> Delay;

    fn flic_start_player(
        bytes: *const u8,
        bytes_len: usize,
        now: u32,
        first_picture: *mut u8,
        first_picture_len: usize,
        first_palette: *mut u8,
        first_palette_len: usize,
        second_picture: *mut u8,
        second_picture_len: usize,
        second_palette: *mut u8,
        second_palette_len: usize,
    ) -> PlayerAnswer;

    fn flic_tick(
        player: *mut Player,
        bytes: *const u8,
        bytes_len: usize,
        now: u32,
        picture: *mut u8,
        picture_len: usize,
        palette: *mut u8,
        palette_len: usize,
    ) -> Ticked;

    fn flic_replay(
        speed: u32,
        frames: u64,
        start: u32,
        readings: *const u32,
        readings_len: usize,
        numbers: *mut u32,
        numbers_len: usize,
    ) -> Written;

    fn flic_tile_map(
        width: u64,
        height: u64,
        previous_picture: *const u8,
        previous_picture_len: usize,
        next_picture: *const u8,
        next_picture_len: usize,
        words: *mut u64,
        words_len: usize,
    ) -> Written;

    fn flic_marked_tiles(word: u64) -> TileRow;
}

/// The slice itself, or a copy where it overlaps one of the others: no two lent slices of a call may.
fn apart<'a>(slice: &'a [u8], others: &[&[u8]]) -> Cow<'a, [u8]> {
    let range = slice.as_ptr_range();
    let overlaps = |other: &&[u8]| {
        let other = other.as_ptr_range();
        range.start < other.end && other.start < range.end
    };
    match others.iter().any(overlaps) {
        true => Cow::Owned(slice.to_vec()),
        false => Cow::Borrowed(slice),
    }
}

// SAFETY, for every call below: each pointer goes with its own slice's length and isn't null; a slice that is lent to
// be changed is lent alone, and slices that are only looked at are kept apart by `apart` where a caller could make
// them overlap.

pub fn read_frame(bytes: &[u8], format: u32, width: u64, height: u64, shown: PairMut) -> Answer {
    unsafe {
        flic_read_frame(
            bytes.as_ptr(),
            bytes.len(),
            format,
            width,
            height,
            shown.picture.as_mut_ptr(),
            shown.picture.len(),
            shown.palette.as_mut_ptr(),
            shown.palette.len(),
        )
    }
}

pub fn write_frame(format: u32, width: u64, height: u64, previous: Pair, next: Pair, out: &mut [u8]) -> Written {
    let picture = apart(next.picture, &[previous.picture]);
    let palette = apart(next.palette, &[previous.palette]);
    unsafe {
        flic_write_frame(
            format,
            width,
            height,
            previous.picture.as_ptr(),
            previous.picture.len(),
            previous.palette.as_ptr(),
            previous.palette.len(),
            picture.as_ptr(),
            picture.len(),
            palette.as_ptr(),
            palette.len(),
            out.as_mut_ptr(),
            out.len(),
        )
    }
}

pub fn rewrite_frame(
    bytes: &[u8],
    format: u32,
    width: u64,
    height: u64,
    previous: Pair,
    work: PairMut,
    out: &mut [u8],
) -> Written {
    let bytes = apart(bytes, &[previous.picture, previous.palette]);
    unsafe {
        flic_rewrite_frame(
            bytes.as_ptr(),
            bytes.len(),
            format,
            width,
            height,
            previous.picture.as_ptr(),
            previous.picture.len(),
            previous.palette.as_ptr(),
            previous.palette.len(),
            work.picture.as_mut_ptr(),
            work.picture.len(),
            work.palette.as_mut_ptr(),
            work.palette.len(),
            out.as_mut_ptr(),
            out.len(),
        )
    }
}

pub fn check_reel(bytes: &[u8], first: PairMut, second: PairMut) -> Answer {
    unsafe {
        flic_check_reel(
            bytes.as_ptr(),
            bytes.len(),
            first.picture.as_mut_ptr(),
            first.picture.len(),
            first.palette.as_mut_ptr(),
            first.palette.len(),
            second.picture.as_mut_ptr(),
            second.picture.len(),
            second.palette.as_mut_ptr(),
            second.palette.len(),
        )
    }
}

pub fn open_reel(width: u64, height: u64, speed: u32, bytes: &mut [u8]) -> ReelAnswer {
    unsafe { flic_open_reel(width, height, speed, bytes.as_mut_ptr(), bytes.len()) }
}

pub fn open_fli(width: u64, height: u64, jiffies: u32, bytes: &mut [u8]) -> ReelAnswer {
    unsafe { flic_open_fli(width, height, jiffies, bytes.as_mut_ptr(), bytes.len()) }
}

pub fn add_frame(reel: Reel, bytes: &mut [u8], shown: Pair, next: Pair) -> ReelAnswer {
    let picture = apart(next.picture, &[shown.picture]);
    let palette = apart(next.palette, &[shown.palette]);
    unsafe {
        flic_add_frame(
            reel,
            bytes.as_mut_ptr(),
            bytes.len(),
            shown.picture.as_ptr(),
            shown.picture.len(),
            shown.palette.as_ptr(),
            shown.palette.len(),
            picture.as_ptr(),
            picture.len(),
            palette.as_ptr(),
            palette.len(),
        )
    }
}

pub fn close_reel(reel: Reel, bytes: &mut [u8], first: PairMut, second: PairMut) -> ReelAnswer {
    unsafe {
        flic_close_reel(
            reel,
            bytes.as_mut_ptr(),
            bytes.len(),
            first.picture.as_mut_ptr(),
            first.picture.len(),
            first.palette.as_mut_ptr(),
            first.palette.len(),
            second.picture.as_mut_ptr(),
            second.picture.len(),
            second.palette.as_mut_ptr(),
            second.palette.len(),
        )
    }
}

pub fn check_trailer(bytes: &[u8]) -> Answer {
    unsafe { flic_check_trailer(bytes.as_ptr(), bytes.len()) }
}

pub fn write_trailer(bytes: &mut [u8]) -> Written {
    unsafe { flic_write_trailer(bytes.as_mut_ptr(), bytes.len()) }
}

pub fn list(bytes: &[u8], out: &mut [u8]) -> Written {
    unsafe { flic_list(bytes.as_ptr(), bytes.len(), out.as_mut_ptr(), out.len()) }
}

pub fn search_row(row: &[u8]) -> RowCost {
    unsafe { flic_search_row(row.as_ptr(), row.len()) }
}

pub fn read_header(bytes: &[u8]) -> Header {
    unsafe { flic_read_header(bytes.as_ptr(), bytes.len()) }
}

pub fn next_frame(bytes: &[u8], at: u64) -> Span {
    unsafe { flic_next_frame(bytes.as_ptr(), bytes.len(), at) }
}

pub fn in_milliseconds(jiffies: u32) -> Delay {
    unsafe { flic_in_milliseconds(jiffies) }
}

pub fn in_jiffies(milliseconds: u32) -> Delay {
    unsafe { flic_in_jiffies(milliseconds) }
}

pub fn start_player(bytes: &[u8], now: u32, first: PairMut, second: PairMut) -> PlayerAnswer {
    unsafe {
        flic_start_player(
            bytes.as_ptr(),
            bytes.len(),
            now,
            first.picture.as_mut_ptr(),
            first.picture.len(),
            first.palette.as_mut_ptr(),
            first.palette.len(),
            second.picture.as_mut_ptr(),
            second.picture.len(),
            second.palette.as_mut_ptr(),
            second.palette.len(),
        )
    }
}

pub fn tick(player: &mut Player, bytes: &[u8], now: u32, shown: PairMut) -> Ticked {
    unsafe {
        flic_tick(
            player,
            bytes.as_ptr(),
            bytes.len(),
            now,
            shown.picture.as_mut_ptr(),
            shown.picture.len(),
            shown.palette.as_mut_ptr(),
            shown.palette.len(),
        )
    }
}

pub fn replay(speed: u32, frames: u64, start: u32, readings: &[u32], numbers: &mut [u32]) -> Written {
    unsafe { flic_replay(speed, frames, start, readings.as_ptr(), readings.len(), numbers.as_mut_ptr(), numbers.len()) }
}

pub fn tile_map(width: u64, height: u64, previous: &[u8], next: &[u8], words: &mut [u64]) -> Written {
    let next = apart(next, &[previous]);
    unsafe {
        flic_tile_map(
            width,
            height,
            previous.as_ptr(),
            previous.len(),
            next.as_ptr(),
            next.len(),
            words.as_mut_ptr(),
            words.len(),
        )
    }
}

pub fn marked_tiles(word: u64) -> TileRow {
    unsafe { flic_marked_tiles(word) }
}

#[cfg(test)]
mod tests {
    use super::*;

    #[test]
    fn the_most_bytes_are_those_of_the_header_for_c() {
        let header = include_str!("../../../include/flic.h");
        assert!(header.contains(&format!("#define FLIC_FRAME_MOST {FRAME_MOST}\n")));
        assert!(header.contains(&format!("#define FLIC_LIST_MOST {LIST_MOST}\n")));
        assert!(header.contains(&format!("#define FLIC_FLC {FLC}\n#define FLIC_FLI {FLI}\n")));
    }

    #[test]
    fn only_slices_that_overlap_are_copied() {
        let bytes = [1, 2, 3, 4, 5, 6];
        assert!(matches!(apart(&bytes[..3], &[&bytes[3..]]), Cow::Borrowed([1, 2, 3])));
        assert!(matches!(apart(&bytes[..4], &[&bytes[3..]]), Cow::Owned(copy) if copy == [1, 2, 3, 4]));
        assert!(matches!(apart(&bytes, &[&[]]), Cow::Borrowed(_)));
    }
}
