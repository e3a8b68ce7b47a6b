//! Pictures and palettes, and what may come after them: the inputs of the writing tests.

use crate::fli_pictures;
use crate::model::{Format, PALETTE_BYTES};
use crate::rng::Rng;
use crate::sizes::Lengths;
use flic_boundary::{Pair, PairMut};

/// A picture and its palette, as long as they are lent.
#[derive(Clone, Debug, PartialEq, Eq)]
pub struct State {
    pub picture: Vec<u8>,
    pub palette: Vec<u8>,
}

impl State {
    pub fn blank(pixels: usize) -> State {
        State { picture: vec![0; pixels], palette: vec![0; PALETTE_BYTES] }
    }

    pub fn shown(&self) -> Pair<'_> {
        Pair { picture: &self.picture, palette: &self.palette }
    }

    pub fn work(&mut self) -> PairMut<'_> {
        PairMut { picture: &mut self.picture, palette: &mut self.palette }
    }
}

/// A state of one of several makes.
pub fn state(rng: &mut Rng, format: Format, width: usize, height: usize) -> State {
    let picture = match format {
        Format::Flc => picture(rng, width, height),
        Format::Fli => fli_pictures::picture(rng),
    };
    State { picture, palette: palette(rng) }
}

/// A state that may follow `previous`.
pub fn next_state(rng: &mut Rng, format: Format, previous: &State, width: usize, height: usize) -> State {
    let picture = match format {
        Format::Flc => next_picture(rng, &previous.picture, width, height),
        Format::Fli => fli_pictures::next_picture(rng, &previous.picture),
    };
    State { picture, palette: next_palette(rng, &previous.palette) }
}

/// Chance in slices of these lengths.
pub fn any_state(rng: &mut Rng, lengths: Lengths) -> State {
    State { picture: rng.bytes(lengths.picture), palette: rng.bytes(lengths.palette) }
}

/// The state as a lent pair of these lengths: cut, or followed by excess bytes.
pub fn lend(rng: &mut Rng, state: &State, lengths: Lengths) -> State {
    State { picture: fit(rng, &state.picture, lengths.picture), palette: fit(rng, &state.palette, lengths.palette) }
}

fn fit(rng: &mut Rng, bytes: &[u8], length: usize) -> Vec<u8> {
    let mut fitted = rng.bytes(length);
    let shared = length.min(bytes.len());
    fitted[..shared].copy_from_slice(&bytes[..shared]);
    fitted
}

/// Lengths of runs around the limits that packets have.
const RUN_LENGTHS: [usize; 16] = [1, 2, 3, 4, 63, 64, 126, 127, 128, 129, 130, 254, 255, 256, 257, 258];

/// A picture of one of several makes: black, plain, noise, text, long runs, pairs, slopes.
pub fn picture(rng: &mut Rng, width: usize, height: usize) -> Vec<u8> {
    let pixels = width * height;
    match rng.below(9) {
        0 => vec![0; pixels],
        1 => vec![rng.byte(); pixels],
        2 => rng.bytes(pixels),
        3 => of_few_colours(rng, pixels),
        4 => rows_of(rng, width, height, text_row),
        5 => rows_of(rng, width, height, long_run_row),
        6 => rows_of(rng, width, height, pair_row),
        7 => rows_of(rng, width, height, slope_row),
        _ => rows_of(rng, width, height, mixed_row),
    }
}

fn rows_of(rng: &mut Rng, width: usize, height: usize, row: fn(&mut Rng, usize) -> Vec<u8>) -> Vec<u8> {
    (0..height).flat_map(|_| row(rng, width)).collect()
}

fn of_few_colours(rng: &mut Rng, pixels: usize) -> Vec<u8> {
    let colours = rng.between(2, 4);
    (0..pixels).map(|_| rng.below(colours) as u8).collect()
}

/// Fills a row with pieces until its width is reached.
fn row_of_pieces(width: usize, mut piece: impl FnMut() -> Vec<u8>) -> Vec<u8> {
    let mut row = Vec::new();
    while row.len() < width {
        row.extend(piece());
    }
    row.truncate(width);
    row
}

/// Short strokes on a ground, as letters give them.
fn text_row(rng: &mut Rng, width: usize) -> Vec<u8> {
    let (ground, ink) = (rng.below(3) as u8, 7);
    row_of_pieces(width, || {
        let gap = vec![ground; rng.between(1, 14)];
        let stroke = vec![ink; rng.between(1, 4)];
        [gap, stroke].concat()
    })
}

fn long_run_row(rng: &mut Rng, width: usize) -> Vec<u8> {
    row_of_pieces(width, || vec![rng.byte(); rng.pick(&RUN_LENGTHS)])
}

fn pair_row(rng: &mut Rng, width: usize) -> Vec<u8> {
    row_of_pieces(width, || {
        let pair = [rng.below(3) as u8, rng.below(3) as u8];
        pair.repeat(rng.pick(&RUN_LENGTHS))
    })
}

/// No two neighbours equal.
fn slope_row(rng: &mut Rng, width: usize) -> Vec<u8> {
    let first = rng.byte();
    (0..width).map(|x| first.wrapping_add(x as u8)).collect()
}

/// Slopes of about 128 pixels broken by runs of two and three, where copies and repeats come out even.
fn mixed_row(rng: &mut Rng, width: usize) -> Vec<u8> {
    row_of_pieces(width, || {
        let length = rng.pick(&[1, 2, 3, 5, 20, 124, 125, 126, 127, 128, 129, 130]);
        let slope = slope_row(rng, length);
        let run = vec![rng.byte(); rng.between(2, 4)];
        [slope, run].concat()
    })
}

/// A picture that may follow `previous`: equal, near, far, black, or changed in rows, columns and stretches.
pub fn next_picture(rng: &mut Rng, previous: &[u8], width: usize, height: usize) -> Vec<u8> {
    let mut next = previous.to_vec();
    match rng.below(12) {
        0 => {}
        1 => next.fill(0),
        2 | 3 => next = picture(rng, width, height),
        4 => next.iter_mut().for_each(|pixel| *pixel = pixel.wrapping_add(1)),
        5 => change_columns(rng, &mut next, width, &[width - 1]),
        6 => change_columns(rng, &mut next, width, &[0, width - 1]),
        7 => change_rows(rng, &mut next, width, height),
        8 | 9 => change_stretches(rng, &mut next, width),
        10 => change_pixels_at_chance(rng, &mut next),
        _ => {
            let count = rng.between(1, 4);
            change_pixels(rng, &mut next, count);
        }
    }
    next
}

fn change_pixels(rng: &mut Rng, next: &mut [u8], count: usize) {
    for _ in 0..count {
        let at = rng.below(next.len());
        next[at] = rng.byte();
    }
}

fn change_pixels_at_chance(rng: &mut Rng, next: &mut [u8]) {
    let count = 1 + next.len() / rng.pick(&[2, 4, 10, 30]);
    change_pixels(rng, next, count);
}

fn change_columns(rng: &mut Rng, next: &mut [u8], width: usize, columns: &[usize]) {
    let turns = rng.pick(&[1, 2, 5]);
    for row in next.chunks_mut(width) {
        if rng.once_in(turns) {
            columns.iter().for_each(|column| row[*column] = rng.byte());
        }
    }
}

fn change_rows(rng: &mut Rng, next: &mut [u8], width: usize, height: usize) {
    for _ in 0..rng.between(1, 3) {
        let row = rng.below(height);
        let new = picture(rng, width, 1);
        next[row * width..(row + 1) * width].copy_from_slice(&new);
    }
}

/// Lays pieces of other rows over some rows, so that changed stretches have runs, pairs and slopes in them.
fn change_stretches(rng: &mut Rng, next: &mut [u8], width: usize) {
    let turns = rng.pick(&[1, 2, 8]);
    for row in next.chunks_mut(width) {
        if !rng.once_in(turns) {
            continue;
        }
        for _ in 0..rng.between(1, 3) {
            let from = rng.below(width);
            let to = rng.between(from, width - 1) + 1;
            let new = picture(rng, width, 1);
            row[from..to].copy_from_slice(&new[from..to]);
        }
    }
}

pub fn palette(rng: &mut Rng) -> Vec<u8> {
    match rng.below(3) {
        0 => vec![0; PALETTE_BYTES],
        _ => rng.bytes(PALETTE_BYTES),
    }
}

/// A palette that may follow `previous`: the same, or changed in all, some, the first or the last entries.
pub fn next_palette(rng: &mut Rng, previous: &[u8]) -> Vec<u8> {
    let mut next = previous.to_vec();
    let some = rng.below(256);
    match rng.below(12) {
        0..=3 => {}
        4 => next.iter_mut().for_each(|component| *component = !*component),
        5 => change_entries(rng, &mut next, &[some]),
        6 => change_entries(rng, &mut next, &[0]),
        7 => change_entries(rng, &mut next, &[255]),
        8 => change_entries(rng, &mut next, &[0, 255]),
        9 => {
            let all_but_one: Vec<usize> = (0..256).filter(|entry| *entry != some).collect();
            change_entries(rng, &mut next, &all_but_one);
        }
        10 => {
            let every_second: Vec<usize> = (0..256).filter(|entry| entry % 2 == some % 2).collect();
            change_entries(rng, &mut next, &every_second);
        }
        _ => change_entry_stretches(rng, &mut next),
    }
    next
}

/// Changes one component of each of these entries.
fn change_entries(rng: &mut Rng, next: &mut [u8], entries: &[usize]) {
    for entry in entries {
        next[3 * entry + rng.below(3)] ^= rng.between(1, 255) as u8;
    }
}

fn change_entry_stretches(rng: &mut Rng, next: &mut [u8]) {
    for _ in 0..rng.between(1, 5) {
        let from = rng.below(256);
        let to = rng.between(from, 255);
        let stretch: Vec<usize> = (from..=to).collect();
        change_entries(rng, next, &stretch);
    }
}
