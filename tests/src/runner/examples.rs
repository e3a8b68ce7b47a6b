//! Document 01's numbers to try, and document 02's rules in numbers, as calls with their answers and all that they leave.

use super::calls::{
    AddCase, Call, CheckCase, CheckTrailerCase, CloseCase, HeaderCase, JiffiesCase, ListCase, MarkedCase,
    MillisecondsCase, OpenCase, OpenFliCase, ReadCase, ReplayCase, RewriteCase, StartCase, StepCase, TickCase,
    TileMapCase, WriteCase, WriteTrailerCase,
};
use super::compare::Comparer;
use super::lent::{bytes_of, Record};
use super::program::hex;
use super::told::{Rest, Told};
use crate::frames::{frame_of, Chunk};
use crate::model::{kind, PALETTE_BYTES};
use crate::reels::examples::{blank_fli, blank_reel, zero_until_close, JIFFIES, SPEED};
use crate::states::State;
use crate::trailers::examples::{BLANK_LISTING, BLANK_TRAILER};
use flic_boundary::{Player, Reel, TileRow};

/// A call, its answer, and what it leaves in its slices.
pub struct Example {
    name: &'static str,
    call: Box<dyn Call>,
    told: Told,
    left: Vec<Vec<u8>>,
}

impl Example {
    /// A call that is done and leaves its slices as they were, but for those with other content.
    fn done(name: &'static str, call: impl Call + 'static, rest: Rest, changed: &[(usize, Vec<u8>)]) -> Example {
        let mut left: Vec<Vec<u8>> = call.slices().iter().map(|slice| slice.to_vec()).collect();
        for (which, content) in changed {
            left[*which] = content.clone();
        }
        Example { name, call: Box::new(call), told: Told::done(rest), left }
    }

    fn refused(self, number: u32, place: u64) -> Example {
        Example { told: Told { number, place, ..self.told }, ..self }
    }
}

/// In what an example goes astray, if it does.
pub fn astray(example: &Example, comparer: Comparer, seed: u64) -> Option<String> {
    let (told, left) = comparer.made(&*example.call, seed);
    if told == example.told && left.slices == example.left && left.trespass.is_none() {
        return None;
    }
    let slices = |slices: &[Vec<u8>]| slices.iter().map(|slice| hex(slice)).collect::<Vec<_>>().join(" ");
    let function = example.call.row().function;
    Some(format!(
        "the documents' example '{}' is otherwise in flic_{function}\n  lent:   {}\n  found:  {told:?}, {}\n\
         \x20 wanted: {:?}, {}",
        example.name,
        example.call.slices().iter().map(|slice| hex(slice)).collect::<Vec<_>>().join(" "),
        slices(&left.slices),
        example.told,
        slices(&example.left),
    ))
}

const FILL: u8 = 0x77;

/// A frame read against FILL everywhere, which gives this picture.
fn read_gives(name: &'static str, bytes: Vec<u8>, width: usize, picture: &[u8]) -> Example {
    let shown = State { picture: vec![FILL; picture.len()], palette: vec![FILL; PALETTE_BYTES] };
    let (width, height) = (width as u64, (picture.len() / width) as u64);
    let case = ReadCase { bytes, format: 0, width, height, shown };
    Example::done(name, case, Rest::Nothing, &[(1, picture.to_vec())])
}

/// The same of a frame of one sub-chunk, for a picture of one row.
fn body_gives(name: &'static str, kind: u16, body: &[u8], picture: &[u8]) -> Example {
    read_gives(name, frame_of(&[Chunk { kind, body: body.to_vec() }]), picture.len(), picture)
}

/// What the 64 levels of kind 11 become (document 02, Req 02), of which it names the first, 31, 32 and the last.
#[rustfmt::skip]
const RAISED: [u8; 64] = [
    0, 4, 8, 12, 16, 20, 24, 28, 32, 36, 40, 44, 48, 52, 56, 60,
    65, 69, 73, 77, 81, 85, 89, 93, 97, 101, 105, 109, 113, 117, 121, 125,
    130, 134, 138, 142, 146, 150, 154, 158, 162, 166, 170, 174, 178, 182, 186, 190,
    195, 199, 203, 207, 211, 215, 219, 223, 227, 231, 235, 239, 243, 247, 251, 255,
];

/// A colour chunk of entries 0 on, and the frame of it alone.
fn colours(kind: u16, components: &[u8]) -> Vec<u8> {
    let count = (components.len() / 3) as u8;
    frame_of(&[Chunk { kind, body: [&[1, 0, 0, count], components].concat() }])
}

/// All 64 levels as components of 22 colours, with 0 and 63 once more, and what they become.
fn all_levels() -> (Vec<u8>, Vec<u8>) {
    let levels: Vec<u8> = (0..64).chain([0, 63]).collect();
    let raised = levels.iter().map(|level| RAISED[usize::from(*level)]).collect();
    (levels, raised)
}

const FOUR_BY_TWO: [u8; 28] =
    [0x1C, 0, 0, 0, 0xFA, 0xF1, 1, 0, 0, 0, 0, 0, 0, 0, 0, 0, 0x0C, 0, 0, 0, 0x0F, 0, 1, 4, 0, 1, 4, 5];

/// Deltas as the original Animator stored them (document 02, Req 04): kind 12, whose rows begin with the packet count.
fn of_animator() -> Vec<Example> {
    let mut column_265 = [FILL; 320];
    column_265[265] = 7;
    let of = |kind, body: &[u8]| Chunk { kind, body: body.to_vec() };
    let rows = [FILL, FILL, 1, 2, FILL, FILL, 3, 3, FILL, FILL];
    let mut with_colours = read_gives(
        "Animator: colours and a delta",
        frame_of(&[of(kind::COLOR, &[1, 0, 1, 1, 63, 0, 31]), of(kind::LC, &[0, 0, 1, 0, 1, 1, 1, 4])]),
        3,
        &[FILL, 4, FILL],
    );
    with_colours.left[2][3..6].copy_from_slice(&[255, 0, 125]);
    vec![
        body_gives("Animator: column 0", kind::LC, &[0, 0, 1, 0, 1, 0, 1, 9], &[9, FILL, FILL]),
        body_gives(
            "Animator: a repeat, then a copy",
            kind::LC,
            &[0, 0, 1, 0, 2, 2, 0xFE, 5, 0, 1, 6],
            &[FILL, FILL, 5, 5, 6, FILL],
        ),
        body_gives("Animator: a gap over 255", kind::LC, &[0, 0, 1, 0, 2, 255, 0, 10, 1, 7], &column_265),
        read_gives(
            "Animator: a row without change between two",
            frame_of(&[of(kind::LC, &[1, 0, 3, 0, 1, 0, 2, 1, 2, 0, 1, 0, 0xFE, 3])]),
            2,
            &rows,
        ),
        with_colours,
        body_gives("Animator: the last row has no start", kind::LC, &[0, 0, 1, 0], &[FILL]).refused(7, 16),
        body_gives("a starting x, as document 001 has it", kind::LC, &[0, 0, 1, 0, 2, 1, 0, 1, 9], &[FILL; 6])
            .refused(9, 16),
    ]
}

/// Bytes behind a body's data (document 02, Req 05): one is ignored, two are refused 19; of kind 18 all are stepped over.
fn of_spare_bytes() -> Vec<Example> {
    let black = |name, spare: &[u8], picture: &[u8]| body_gives(name, kind::BLACK, spare, picture);
    let of = |kind, body: &[u8]| Chunk { kind, body: body.to_vec() };
    let two = |name, first, second| read_gives(name, frame_of(&[first, second]), 2, &[FILL; 2]);
    let (sloppy, faulty) = (of(kind::COPY, &[1, 2, 3, 4]), of(kind::BRUN, &[1, 0]));
    let mut frame_with_more = frame_of(&[of(kind::COPY, &[1, 2, 3])]);
    frame_with_more[0] += 4;
    frame_with_more.extend([9; 8]);
    vec![
        black("BLACK with no body", &[], &[0, 0]),
        black("BLACK with a body of one byte", &[9], &[0, 0]),
        black("BLACK with a body of two bytes", &[9, 9], &[FILL; 2]).refused(19, 16),
        body_gives("COPY and a byte of padding", kind::COPY, &[1, 2, 9], &[1, 2]),
        body_gives("COPY and two bytes", kind::COPY, &[1, 2, 9, 9], &[FILL; 2]).refused(19, 16),
        body_gives("an Animator delta, padded", kind::LC, &[0, 0, 1, 0, 1, 0, 1, 9, 0], &[9, FILL]),
        body_gives("an Animator delta and two bytes", kind::LC, &[0, 0, 1, 0, 1, 0, 1, 9, 0, 0], &[FILL; 2])
            .refused(19, 16),
        body_gives("SS2 of no line and two bytes", kind::SS2, &[0, 0, 1, 0], &[FILL]).refused(19, 16),
        body_gives("colours of no packet and two bytes", kind::COLOR, &[0, 0, 1, 0], &[FILL]).refused(19, 16),
        body_gives("BRUN's own fault before its spare bytes", kind::BRUN, &[1, 0, 9, 9, 9], &[FILL; 2]).refused(8, 16),
        body_gives("a postage stamp of three bytes", kind::PSTAMP, &[1, 2, 3], &[FILL]),
        two("spare bytes before the next sub-chunk's fault", sloppy.clone(), faulty.clone()).refused(19, 16),
        two("spare bytes after a sub-chunk's fault", faulty, sloppy).refused(8, 16),
        read_gives("bytes after the last sub-chunk and after the size", frame_with_more, 2, &[1, 2]),
    ]
}

pub fn of_reading() -> Vec<Example> {
    let mut columns_10_and_11 = [FILL; 100];
    columns_10_and_11[10..12].fill(0);
    let mut last_colour = body_gives("skip 255 count 1", kind::COLOR256, &[1, 0, 255, 1, 1, 2, 3], &[FILL]);
    last_colour.left[2][PALETTE_BYTES - 3..].copy_from_slice(&[1, 2, 3]);
    let past = &[1, 0, 255, 2, 1, 2, 3, 4, 5, 6];
    let (levels, raised) = all_levels();
    let mut every_level = read_gives("all 64 levels", colours(kind::COLOR, &levels), 1, &[FILL]);
    every_level.left[2][..raised.len()].copy_from_slice(&raised);
    let mut all = vec![
        every_level,
        body_gives("1 1 2", kind::BRUN, &[2, 2, 1, 1, 2], &[1, 1, 2]),
        body_gives("1 2 2 3", kind::BRUN, &[1, 0xFC, 1, 2, 2, 3], &[1, 2, 2, 3]),
        body_gives("130 nines", kind::BRUN, &[2, 0x7F, 9, 3, 9], &[9; 130]),
        read_gives("4 by 2", FOUR_BY_TWO.to_vec(), 4, &[0, 0, 0, 0, 5, 5, 5, 5]),
        body_gives("2 by 1, COPY", kind::COPY, &[1, 2], &[1, 2]),
        read_gives("no change", frame_of(&[]), 4, &[FILL; 8]),
        body_gives("columns 10 and 11", kind::SS2, &[1, 0, 1, 0, 0x0A, 1, 0, 0], &columns_10_and_11),
        body_gives("last pixel, width 5", kind::SS2, &[1, 0, 9, 0x80, 0, 0], &[FILL, FILL, FILL, FILL, 9]),
        last_colour,
        body_gives("skip 255 count 2", kind::COLOR256, past, &[FILL]).refused(12, 16),
        body_gives("row skip FF FF, height 1", kind::SS2, &[1, 0, 0xFF, 0xFF, 0, 0], &[FILL]).refused(10, 16),
    ];
    all.extend(of_animator());
    all.extend(of_spare_bytes());
    all.extend(of_fli_reading());
    all
}

/// A frame that is read by a call that is told this format, against FILL everywhere at 320 by 200.
fn told(name: &'static str, format: u32, chunks: &[&Chunk], picture: &[u8]) -> Example {
    let shown = State { picture: vec![FILL; FLI_PIXELS], palette: vec![FILL; PALETTE_BYTES] };
    let chunks: Vec<Chunk> = chunks.iter().copied().cloned().collect();
    let case = ReadCase { bytes: frame_of(&chunks), format, width: 320, height: 200, shown };
    Example::done(name, case, Rest::Nothing, &[(1, picture.to_vec())])
}

const FLI_PIXELS: usize = 320 * 200;

/// Kinds 7 and 18 in an FLI (document 02, Req 06): "20, as the sub-chunk's header is accepted".
fn of_fli_reading() -> Vec<Example> {
    let of = |kind, body: &[u8]| Chunk { kind, body: body.to_vec() };
    let (as_found, black) = (vec![FILL; FLI_PIXELS], vec![0; FLI_PIXELS]);
    let (nothing, broken) = (of(kind::SS2, &[0, 0]), of(kind::SS2, &[1, 0, 0, 0x40]));
    let (stamp, blacked, sloppy) = (of(kind::PSTAMP, &[]), of(kind::BLACK, &[]), of(kind::BLACK, &[9, 9]));
    let row_of_two = of(kind::LC, &[199, 0, 1, 0, 2, 255, 0, 63, 0xFE, 4]);
    let small = ReadCase {
        bytes: frame_of(&[]),
        format: 1,
        width: 319,
        height: 200,
        shown: State { picture: Vec::new(), palette: Vec::new() },
    };
    let mut row = as_found.clone();
    row[320 * 199 + 318..].fill(4);
    vec![
        told("kind 7 in an FLI", 1, &[&nothing], &as_found).refused(20, 16),
        told("kind 18 in an FLI", 1, &[&stamp], &as_found).refused(20, 16),
        told("kind 7 in an FLC", 0, &[&nothing], &as_found),
        told("kind 18 in an FLC", 0, &[&stamp], &as_found),
        told("a broken kind 7 in an FLI", 1, &[&broken], &as_found).refused(20, 16),
        told("a broken kind 7 in an FLC", 0, &[&broken], &as_found).refused(11, 16),
        told("kind 7 behind another in an FLI", 1, &[&blacked, &nothing], &as_found).refused(20, 22),
        told("kind 18 behind spare bytes in an FLI", 1, &[&sloppy, &stamp], &as_found).refused(19, 16),
        told("kind 18 before spare bytes in an FLI", 1, &[&stamp, &sloppy], &as_found).refused(20, 16),
        told("an FLI told by another number than 1", u32::MAX, &[&nothing], &as_found).refused(20, 16),
        told("BLACK in an FLI", 2, &[&blacked], &black),
        told("kind 12 in an FLI", 1, &[&row_of_two], &row),
        Example::done("an FLI of 319 by 200", small, Rest::Nothing, &[]).refused(2, 0),
    ]
}

/// Two pictures and the sub-chunk of the frame between them, if there is one.
fn write_gives(name: &'static str, width: usize, previous: &[u8], next: &[u8], chunks: &[Chunk]) -> Example {
    let state = |picture: &[u8]| State { picture: picture.to_vec(), palette: vec![0; PALETTE_BYTES] };
    let (previous, next, out) = (state(previous), state(next), vec![0xEE; 1000]);
    let height = (next.picture.len() / width) as u64;
    let frame = frame_of(chunks);
    let left = [&frame[..], &out[frame.len()..]].concat();
    let case = WriteCase { format: 0, width: width as u64, height, previous, next, out };
    Example::done(name, case, Rest::Length(frame.len() as u64), &[(4, left)])
}

/// A frame of kind 11 in house form: the same colours as kind 4.
fn levels_rewritten() -> Example {
    let (levels, raised) = all_levels();
    let house = colours(kind::COLOR256, &raised);
    let (out, blank) = (vec![0xEE; 1000], State::blank(1));
    let next = [&raised[..], &blank.palette[raised.len()..]].concat();
    let left = [&house[..], &out[house.len()..]].concat();
    let bytes = colours(kind::COLOR, &levels);
    let case = RewriteCase { bytes, format: 0, width: 1, height: 1, previous: blank.clone(), work: blank, out };
    Example::done("all 64 levels, rewritten", case, Rest::Length(house.len() as u64), &[(4, next), (5, left)])
}

/// Columns 10 and 11 of 100 pixels set to 0 by kind 12: in house form the kind 7 of document 01's numbers.
fn animator_rewritten() -> Example {
    let slope = State { picture: (0..100).collect(), palette: vec![0; PALETTE_BYTES] };
    let mut next = slope.picture.clone();
    next[10..12].fill(0);
    let frame = |kind, body: &[u8]| frame_of(&[Chunk { kind, body: body.to_vec() }]);
    let house = frame(kind::SS2, &[1, 0, 1, 0, 0x0A, 1, 0, 0]);
    let out = vec![0xEE; 1000];
    let left = [&house[..], &out[house.len()..]].concat();
    let bytes = frame(kind::LC, &[0, 0, 1, 0, 1, 10, 0xFE, 0]);
    let work = State::blank(100);
    let case = RewriteCase { bytes, format: 0, width: 100, height: 1, previous: slope, work, out };
    Example::done("Animator: a delta, rewritten", case, Rest::Length(house.len() as u64), &[(3, next), (5, left)])
}

/// A frame of 2 by 1 with so many bytes behind the pixels of a COPY, rewritten from blank.
fn padded_rewritten(name: &'static str, spare: usize) -> Example {
    let frame = |spare: usize| frame_of(&[Chunk { kind: kind::COPY, body: [&[1, 2][..], &vec![9; spare]].concat() }]);
    let (house, out, blank) = (frame(0), vec![0xEE; 100], State::blank(2));
    let left = [&house[..], &out[house.len()..]].concat();
    let (bytes, previous) = (frame(spare), blank.clone());
    let case = RewriteCase { bytes, format: 0, width: 2, height: 1, previous, work: blank, out };
    if spare > 1 {
        return Example::done(name, case, Rest::Length(0), &[]).refused(19, 16);
    }
    Example::done(name, case, Rest::Length(house.len() as u64), &[(3, vec![1, 2]), (5, left)])
}

/// Rows that BRUN packs best, coming after a picture of which no pixel stays.
fn rows_give(name: &'static str, rows: &[&[u8]], brun_body: &[u8]) -> Example {
    let next = rows.concat();
    let chunk = Chunk { kind: kind::BRUN, body: brun_body.to_vec() };
    write_gives(name, rows[0].len(), &vec![0xEE; next.len()], &next, &[chunk])
}

pub fn of_writing() -> Vec<Example> {
    let no_neighbours_equal: Vec<u8> = (0..129).collect();
    let slope: Vec<u8> = (0..100).collect();
    let mut columns_10_and_11 = slope.clone();
    columns_10_and_11[10..12].fill(0);
    let of = |kind, body: &[u8]| [Chunk { kind, body: body.to_vec() }];
    let (brun, delta) = (of(kind::BRUN, &FOUR_BY_TWO[22..]), of(kind::SS2, &[1, 0, 1, 0, 0x0A, 1, 0, 0]));
    vec![
        write_gives("4 by 2, blank to rows of 0 and 5", 4, &[0; 8], &[0, 0, 0, 0, 5, 5, 5, 5], &brun),
        write_gives("2 by 1, 0 0 to 1 2", 2, &[0, 0], &[1, 2], &of(kind::COPY, &[1, 2])),
        write_gives("no change", 2, &[1, 2], &[1, 2], &[]),
        write_gives("100 by 1, columns 10 and 11 to 0", 100, &slope, &columns_10_and_11, &delta),
        rows_give("130 nines", &[&[9; 130]], &[2, 0x7F, 9, 3, 9]),
        rows_give(
            "1 2 2 3, above rows of 5",
            &[&[1, 2, 2, 3], &[5; 4], &[5; 4], &[5; 4]],
            &[1, 0xFC, 1, 2, 2, 3, 1, 4, 5, 1, 4, 5, 1, 4, 5],
        ),
        rows_give(
            "129 pixels, no neighbours equal, above a row of 5",
            &[&no_neighbours_equal, &[5; 129]],
            &[&[2, 1, 0, 0x80], &no_neighbours_equal[1..], &[2, 0x7F, 5, 2, 5]].concat(),
        ),
        levels_rewritten(),
        animator_rewritten(),
        padded_rewritten("a byte of padding, rewritten", 1),
        padded_rewritten("two spare bytes, rewritten", 2),
    ]
    .into_iter()
    .chain(of_fli_writing())
    .collect()
}

/// A pixel that the slope of the examples of FLI hasn't.
const NEW: u8 = 252;

/// A frame of an FLI in which so many pixels become NEW, from a column of a row on, on a slope that no full chunk packs: the
/// body of its kind 12.
fn fli_delta(name: &'static str, changed: &[(usize, usize, usize)], body: &[u8]) -> Example {
    let slope: Vec<u8> = (0..FLI_PIXELS).map(|at| (at % 320 % 251) as u8).collect();
    let mut next = slope.clone();
    changed.iter().for_each(|(row, column, pixels)| next[row * 320 + column..][..*pixels].fill(NEW));
    let state = |picture| State { picture, palette: vec![0; PALETTE_BYTES] };
    let (previous, next, out) = (state(slope), state(next), vec![0xEE; 100]);
    let frame = frame_of(&[Chunk { kind: kind::LC, body: body.to_vec() }]);
    let left = [&frame[..], &out[frame.len()..]].concat();
    let case = WriteCase { format: 1, width: 320, height: 200, previous, next, out };
    Example::done(name, case, Rest::Length(frame.len() as u64), &[(4, left)])
}

/// Req 06's delta in bytes: first row, rows, and for each row its count and packets of skip, type and pixels.
fn of_fli_writing() -> Vec<Example> {
    vec![
        fli_delta("FLI: the first pixel", &[(0, 0, 1)], &[0, 0, 1, 0, 1, 0, 1, NEW]),
        fli_delta("FLI: a gap of 255", &[(0, 255, 1)], &[0, 0, 1, 0, 1, 255, 1, NEW]),
        fli_delta("FLI: a gap of 256", &[(0, 256, 1)], &[0, 0, 1, 0, 2, 255, 0, 1, 1, NEW]),
        fli_delta("FLI: a gap of 300", &[(0, 300, 1)], &[0, 0, 1, 0, 2, 255, 0, 45, 1, NEW]),
        fli_delta("FLI: 2 equal pixels", &[(0, 0, 2)], &[0, 0, 1, 0, 1, 0, 2, NEW, NEW]),
        fli_delta("FLI: 3 equal pixels", &[(0, 0, 3)], &[0, 0, 1, 0, 1, 0, 0xFD, NEW]),
        fli_delta("FLI: 127 equal pixels", &[(0, 0, 127)], &[0, 0, 1, 0, 1, 0, 0x81, NEW]),
        fli_delta("FLI: 128 equal pixels", &[(0, 0, 128)], &[0, 0, 1, 0, 2, 0, 0x81, NEW, 0, 1, NEW]),
        fli_delta("FLI: 129 equal pixels", &[(0, 0, 129)], &[0, 0, 1, 0, 2, 0, 0x81, NEW, 0, 2, NEW, NEW]),
        fli_delta("FLI: 130 equal pixels", &[(0, 0, 130)], &[0, 0, 1, 0, 2, 0, 0x81, NEW, 0, 0xFD, NEW]),
        fli_delta("FLI: two stretches of a row", &[(7, 1, 1), (7, 3, 4)], &[7, 0, 1, 0, 2, 1, 1, NEW, 1, 0xFC, NEW]),
        fli_delta(
            "FLI: a row without change between two",
            &[(3, 0, 1), (5, 319, 1)],
            &[3, 0, 3, 0, 1, 0, 1, NEW, 0, 2, 255, 0, 64, 1, NEW],
        ),
        fli_delta("FLI: the last row alone", &[(199, 2, 1)], &[199, 0, 1, 0, 1, 2, 1, NEW]),
        fli_rewritten(),
    ]
}

/// A COPY that changes three pixels, rewritten in an FLI: kind 12.
fn fli_rewritten() -> Example {
    let (previous, mut next) = (State::blank(FLI_PIXELS), vec![0; FLI_PIXELS]);
    next[320..323].fill(9);
    let frame = |kind, body: &[u8]| frame_of(&[Chunk { kind, body: body.to_vec() }]);
    let (bytes, house) = (frame(kind::COPY, &next), frame(kind::LC, &[1, 0, 1, 0, 1, 0, 0xFD, 9]));
    let out = vec![0xEE; 100];
    let left = [&house[..], &out[house.len()..]].concat();
    let case =
        RewriteCase { bytes, format: 1, width: 320, height: 200, previous: previous.clone(), work: previous, out };
    Example::done("FLI: a COPY, rewritten", case, Rest::Length(house.len() as u64), &[(3, next), (5, left)])
}

/// A check of a reel of two frames that sets entry 0 by kind 4, back to black, and by kind 11 in its ring.
fn ring_of_levels(name: &'static str, first: [u8; 3], ring: [u8; 3]) -> Example {
    let frames = [colours(kind::COLOR256, &first), colours(kind::COLOR256, &[0; 3]), colours(kind::COLOR, &ring)];
    let mut bytes = [&blank_reel()[..128], &frames.concat()].concat();
    let size = bytes.len() as u32;
    bytes[..4].copy_from_slice(&size.to_le_bytes());
    bytes[6] = 2;
    let shows = |colour: &[u8]| [colour, &[0; PALETTE_BYTES - 3]].concat();
    let ring = ring.map(|level| RAISED[usize::from(level)]);
    let place = u64::from(size) - frames[2].len() as u64;
    let case = CheckCase { bytes, first: State::blank(1), second: State::blank(1) };
    let example = Example::done(name, case, Rest::Nothing, &[(2, shows(&ring)), (4, shows(&first))]);
    if ring == first {
        example
    } else {
        example.refused(16, place)
    }
}

/// A check of a reel of 1 by 1 and two frames: pixel 5, pixel 6, and a ring back to 5, each by kind 12.
fn ring_of_animator() -> Example {
    let pixel = |pixel| frame_of(&[Chunk { kind: kind::LC, body: vec![0, 0, 1, 0, 1, 0, 1, pixel] }]);
    let mut bytes = [&blank_reel()[..128], &pixel(5), &pixel(6), &pixel(5)].concat();
    let size = bytes.len() as u32;
    bytes[..4].copy_from_slice(&size.to_le_bytes());
    bytes[6] = 2;
    let case = CheckCase { bytes, first: State::blank(1), second: State::blank(1) };
    Example::done("Animator: a ring that leads back", case, Rest::Nothing, &[(1, vec![5]), (3, vec![5])])
}

/// A check of a reel of 1 by 1, pixel 5 twice, with so many bytes behind the ring's COPY.
fn padded_ring(name: &'static str, spare: usize) -> Example {
    let pixel = |spare: usize| frame_of(&[Chunk { kind: kind::COPY, body: [&[5][..], &vec![9; spare]].concat() }]);
    let mut bytes = [&blank_reel()[..128], &pixel(1), &pixel(spare)].concat();
    let size = bytes.len() as u32;
    bytes[..4].copy_from_slice(&size.to_le_bytes());
    let case = CheckCase { bytes, first: State::blank(1), second: State::blank(1) };
    let example = Example::done(name, case, Rest::Nothing, &[(1, vec![5]), (3, vec![5])]);
    match spare {
        0 | 1 => example,
        _ => example.refused(19, 128 + 24 + 16),
    }
}

/// A close of a reel of 1 by 1 whose one frame has two bytes behind its COPY: both pairs are left blank.
fn sloppy_close() -> Example {
    let mut open = blank_reel()[..128].to_vec();
    (0..128).filter(|at| zero_until_close(*at)).for_each(|at| open[at] = 0);
    let frame = frame_of(&[Chunk { kind: kind::COPY, body: vec![5, 9, 9] }]);
    let bytes = [&open[..], &frame, &[0xEE; 100]].concat();
    let reel = Reel { width: 1, height: 1, frames: 1, end: 128 + frame.len() as u64, closed: 0, format: 0 };
    let work = State { picture: vec![FILL], palette: vec![FILL; PALETTE_BYTES] };
    let case = CloseCase { reel, bytes, first: work.clone(), second: work };
    let blank = State::blank(1);
    let left = [(1, blank.picture.clone()), (2, blank.palette.clone()), (3, blank.picture), (4, blank.palette)];
    Example::done("two spare bytes, closed", case, Rest::Record(reel), &left).refused(19, 128 + 16)
}

/// The blank reel of 1 by 1: opened, added to, closed and checked.
pub fn of_reels() -> Vec<Example> {
    let whole = blank_reel();
    let blank = || State::blank(1);
    let lent = vec![0xEE; whole.len()];
    let mut open = lent.clone();
    (0..128).for_each(|at| open[at] = if zero_until_close(at) { 0 } else { whole[at] });
    let added = [&open[..128], &whole[128..144], &lent[144..]].concat();
    let record = |frames, end, closed| Reel { width: 1, height: 1, frames, end, closed, format: 0 };
    let rest = |frames, end, closed| Rest::Record(record(frames, end, closed));
    let open_case = OpenCase { width: 1, height: 1, speed: SPEED, bytes: lent };
    let add = AddCase { reel: record(0, 128, 0), bytes: open.clone(), shown: blank(), next: blank() };
    let close = CloseCase { reel: record(1, 144, 0), bytes: added.clone(), first: blank(), second: blank() };
    let check = CheckCase { bytes: whole.clone(), first: blank(), second: blank() };
    vec![
        Example::done("1 by 1 blank reel, opened", open_case, rest(0, 128, 0), &[(0, open)]),
        Example::done("1 by 1 blank reel, added to", add, rest(1, 144, 0), &[(0, added)]),
        Example::done("1 by 1 blank reel, closed", close, rest(1, 160, 1), &[(0, whole)]),
        Example::done("1 by 1 blank reel, checked", check, Rest::Nothing, &[]),
        ring_of_levels("a ring of levels that leads back", [255, 125, 130], [63, 31, 32]),
        ring_of_levels("a ring of levels times 4", [252, 124, 128], [63, 31, 32]),
        ring_of_animator(),
        padded_ring("a ring with a byte of padding", 1),
        padded_ring("a ring with two spare bytes", 2),
        sloppy_close(),
    ]
    .into_iter()
    .chain(of_fli_reels())
    .chain(of_delays())
    .collect()
}

/// The blank FLI: opened, added to, closed and checked; opens that are refused; flags of an FLC; a kind 7 in it.
fn of_fli_reels() -> Vec<Example> {
    let whole = blank_fli();
    let blank = || State::blank(FLI_PIXELS);
    let lent = vec![0xEE; whole.len()];
    let mut open = [&whole[..128], &lent[128..]].concat();
    [0..4, 6..8].into_iter().for_each(|field| open[field].fill(0));
    let added = [&open[..128], &whole[128..144], &lent[144..]].concat();
    let record = |frames, end, closed| Reel { width: 320, height: 200, frames, end, closed, format: 1 };
    let rest = |frames, end, closed| Rest::Record(record(frames, end, closed));
    let opened = |width, jiffies, bytes: &[u8]| OpenFliCase { width, height: 200, jiffies, bytes: bytes.to_vec() };
    let refused = |name, case, number| Example::done(name, case, Rest::Record(Reel::default()), &[]).refused(number, 0);
    let add = AddCase { reel: record(0, 128, 0), bytes: open.clone(), shown: blank(), next: blank() };
    let close = CloseCase { reel: record(1, 144, 0), bytes: added.clone(), first: blank(), second: blank() };
    let check = |bytes: &[u8]| CheckCase { bytes: bytes.to_vec(), first: blank(), second: blank() };
    let (mut flags, mut anything) = (whole.clone(), whole.clone());
    flags[14] = 3;
    anything[18..128].fill(0xAB);
    let foreign = frame_of(&[Chunk { kind: kind::SS2, body: vec![0, 0] }]);
    let mut with_foreign = [&whole[..128], &foreign, &whole[144..]].concat();
    with_foreign[0] += 8;
    vec![
        Example::done("FLI: opened", opened(320, JIFFIES, &lent), rest(0, 128, 0), &[(0, open)]),
        refused("FLI: size before jiffies", opened(319, 65_536, &[]), 2),
        refused("FLI: jiffies before room", opened(320, 65_536, &[]), 14),
        refused("FLI: no room", opened(320, 65_535, &lent[..127]), 3),
        Example::done("FLI: added to", add, rest(1, 144, 0), &[(0, added)]),
        Example::done("FLI: closed", close, rest(1, 160, 1), &[(0, whole.clone())]),
        Example::done("FLI: checked", check(&whole), Rest::Nothing, &[]),
        Example::done("FLI: anything from byte 18 on", check(&anything), Rest::Nothing, &[]),
        Example::done("FLI: flags of an FLC", check(&flags), Rest::Nothing, &[]).refused(14, 0),
        Example::done("FLI: a kind 7", check(&with_foreign), Rest::Nothing, &[]).refused(20, 144),
    ]
}

/// Jiffies as milliseconds, rounded down, and milliseconds as jiffies, rounded up.
fn of_delays() -> Vec<Example> {
    let milliseconds = [(0, 0), (1, 14), (5, 71), (7, 100), (70, 1_000), (65_535, 936_214)];
    let jiffies =
        [(0, 0), (1, 1), (14, 1), (15, 2), (71, 5), (72, 6), (100, 7), (1_000, 70), (1_001, 71), (936_214, 65_535)];
    let long =
        |jiffies| Example::done("jiffies too long", MillisecondsCase(jiffies), Rest::Delay(0), &[]).refused(14, 0);
    let longer = |delay| Example::done("a delay too long", JiffiesCase(delay), Rest::Delay(0), &[]).refused(14, 0);
    let of_jiffies =
        milliseconds.map(|(from, to)| Example::done("jiffies", MillisecondsCase(from), Rest::Delay(to), &[]));
    let of_milliseconds =
        jiffies.map(|(from, to)| Example::done("milliseconds", JiffiesCase(from), Rest::Delay(to), &[]));
    let refused = [long(65_536), long(u32::MAX), longer(936_215), longer(u32::MAX)];
    of_jiffies.into_iter().chain(of_milliseconds).chain(refused).collect()
}

/// The blank reel's trailer and listing, its header and its frames.
pub fn of_trailers() -> Vec<Example> {
    let reel = blank_reel();
    let whole = [&reel[..], &BLANK_TRAILER].concat();
    let room = WriteTrailerCase([&reel[..], &[0xEE; BLANK_TRAILER.len()]].concat());
    let list = ListCase { bytes: whole.clone(), out: vec![0xEE; BLANK_LISTING.len()] };
    let text = BLANK_LISTING.as_bytes().to_vec();
    let header = Rest::Header { width: 1, height: 1, frames: 1, size: 160, speed: SPEED, format: 0 };
    let step = |at, from, end| {
        Example::done("blank reel's frames", StepCase { bytes: reel.clone(), at }, Rest::Span { from, end }, &[])
    };
    vec![
        Example::done("no trailer", CheckTrailerCase(reel.clone()), Rest::Nothing, &[]),
        Example::done("blank reel's trailer", room, Rest::Length(176), &[(0, whole.clone())]),
        Example::done("a trailer", CheckTrailerCase(whole), Rest::Nothing, &[]),
        Example::done("blank reel's listing", list, Rest::Length(text.len() as u64), &[(1, text)]),
        Example::done("blank reel's header", HeaderCase(reel.clone()), header, &[]),
        step(128, 128, 144),
        step(144, 144, 160),
        step(160, 0, 0).refused(15, 160),
    ]
    .into_iter()
    .chain(of_fli_trailers())
    .collect()
}

/// The blank FLI's header, which is told in milliseconds; its trailer and listing are refused 5.
fn of_fli_trailers() -> Vec<Example> {
    let fli = blank_fli();
    let room = [&fli[..], &[0xEE; BLANK_TRAILER.len()]].concat();
    let (text, out) = (b"refused 5 0\n", vec![0xEE; 20]);
    let left = [&text[..], &out[text.len()..]].concat();
    let header = Rest::Header { width: 320, height: 200, frames: 1, size: 160, speed: 71, format: 1 };
    vec![
        Example::done("FLI: header", HeaderCase(fli.clone()), header, &[]),
        Example::done("FLI: no trailer", CheckTrailerCase(fli.clone()), Rest::Nothing, &[]).refused(5, 0),
        Example::done("FLI: a trailer", WriteTrailerCase(room), Rest::Length(0), &[]).refused(5, 0),
        Example::done("FLI: listing", ListCase { bytes: fli, out }, Rest::Length(text.len() as u64), &[(1, left)]),
    ]
}

/// The blank reel's player, of speed 70, with its one frame or its ring standing: started, ticked at the edges of its
/// clock, and replayed.
pub fn of_players() -> Vec<Example> {
    let reel = blank_reel();
    let filled = || State { picture: vec![FILL; 2], palette: vec![FILL; PALETTE_BYTES + 1] };
    let (picture, palette) = (vec![0, FILL], [&[0; PALETTE_BYTES][..], &[FILL]].concat());
    let player = |number, last| Player {
        width: 1,
        height: 1,
        frames: 1,
        number,
        place: 144,
        first_end: 144,
        speed: SPEED,
        last,
        format: 0,
    };
    let blanked = [(1, picture.clone()), (2, palette.clone()), (3, picture), (4, palette)];
    let start = StartCase { bytes: reel.clone(), now: u32::MAX, first: filled(), second: filled() };
    let tick = |name, (number, last), now, event, (then, drawn)| {
        let call = TickCase { player: player(number, last).into(), bytes: reel.clone(), now, shown: filled() };
        Example::done(name, call, Rest::Event(event), &[(0, bytes_of(&[Record::from(player(then, drawn))]).to_vec())])
    };
    let past = Player { place: 161, ..player(1, 0) };
    let far = TickCase { player: past.into(), bytes: reel.clone(), now: 70, shown: filled() };
    let readings = vec![0, 69, 138, 139, 138, 1_000];
    let replay = ReplayCase { speed: SPEED, frames: 2, start: u32::MAX, readings, numbers: vec![9; 7] };
    let numbers = bytes_of(&[1, 2, 2, 3, 3, 2, 9_u32]).to_vec();
    vec![
        Example::done("start", start, Rest::Player(player(1, u32::MAX)), &blanked),
        tick("one millisecond before the speed", (1, u32::MAX), 68, 0, (1, u32::MAX)),
        tick("the speed itself, round the roll-over", (1, u32::MAX), 69, 1, (2, 69)),
        tick("the ring again, late", (2, 0), 1_000, 1, (2, 70)),
        tick("one millisecond before half the range", (2, 0), (1 << 31) - 1, 1, (2, 70)),
        tick("half the range", (2, 0), 1 << 31, 2, (2, 1 << 31)),
        tick("a clock that was set back", (2, 0), u32::MAX, 2, (2, u32::MAX)),
        Example::done("a place past the bytes", far, Rest::Event(0), &[]).refused(4, 0),
        Example::done("replay", replay, Rest::Length(6), &[(1, numbers)]),
    ]
    .into_iter()
    .chain(of_fli_players())
    .collect()
}

/// The blank FLI's player of 5 jiffies: started, and ticked a millisecond before 71 and then.
fn of_fli_players() -> Vec<Example> {
    let fli = blank_fli();
    let blank = || State::blank(FLI_PIXELS);
    let player = |number, last, format| Player {
        width: 320,
        height: 200,
        frames: 1,
        number,
        place: 144,
        first_end: 144,
        speed: 71,
        last,
        format,
    };
    let start = StartCase { bytes: fli.clone(), now: 9, first: blank(), second: blank() };
    let tick = |name, format, now, event, (then, drawn)| {
        let call = TickCase { player: player(1, 0, format).into(), bytes: fli.clone(), now, shown: blank() };
        let left = bytes_of(&[Record::from(player(then, drawn, format))]).to_vec();
        Example::done(name, call, Rest::Event(event), &[(0, left)])
    };
    vec![
        Example::done("FLI: start", start, Rest::Player(player(1, 9, 1)), &[]),
        tick("FLI: one millisecond before its delay", 1, 70, 0, (1, 0)),
        tick("FLI: its delay", 1, 71, 1, (2, 71)),
        tick("FLI: told by another number than 1", 7, 71, 1, (2, 71)),
    ]
}

/// Req 07's rules in numbers.
pub fn of_tiles() -> Vec<Example> {
    let map = |name, (width, height): (usize, usize), changed: &[(usize, usize)], words: &[u64]| {
        let previous = vec![FILL; width * height];
        let mut next = previous.clone();
        changed.iter().for_each(|(x, y)| next[y * width + x] ^= 1);
        let case =
            TileMapCase { width: width as u64, height: height as u64, previous, next, words: vec![9; words.len() + 1] };
        let left = bytes_of(&[words, &[9]].concat()).to_vec();
        Example::done(name, case, Rest::Length(words.len() as u64), &[(2, left)])
    };
    let few = TileMapCase { width: 1, height: 9, previous: vec![0; 9], next: vec![1; 9], words: vec![9] };
    let marks = |name, word, count, first, last| {
        Example::done(name, MarkedCase(word), Rest::Marks(TileRow { count, first, last }), &[])
    };
    vec![
        map("equal pictures", (9, 9), &[], &[0, 0]),
        map("a whole tile's last pixel", (16, 8), &[(7, 7)], &[1]),
        map("the next tile's first pixel", (16, 8), &[(8, 7)], &[2]),
        map("the next row's first pixel", (16, 16), &[(7, 8)], &[0, 1]),
        map("a right tile of one column", (9, 1), &[(8, 0)], &[2]),
        map("a bottom tile of one row", (1, 9), &[(0, 8)], &[0, 1]),
        map("two pixels of one tile", (8, 8), &[(0, 0), (7, 7)], &[1]),
        map("the last tile of the largest width", (320, 1), &[(319, 0)], &[1 << 39]),
        Example::done("fewer words than tile rows", few, Rest::Length(0), &[]).refused(3, 0),
        marks("a row without marks", 0, 0, 64, 64),
        marks("tile 0 alone", 1, 1, 0, 0),
        marks("the last bit alone", 1 << 63, 1, 63, 63),
        marks("three of them", 0b1001_0100, 3, 2, 7),
        marks("all", u64::MAX, 64, 0, 63),
    ]
}

#[cfg(test)]
mod tests {
    use super::*;
    use crate::model::MODEL;
    use crate::runner::guards::GuardBytes;

    #[test]
    fn the_model_does_as_the_documents_say() {
        let comparer = Comparer { subject: &MODEL, lender: &GuardBytes };
        for examples in [of_reading(), of_writing(), of_reels(), of_trailers(), of_players(), of_tiles()] {
            for example in examples {
                assert_eq!(astray(&example, comparer, 1), None);
            }
        }
    }
}
