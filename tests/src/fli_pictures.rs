//! Pictures of an FLI, and what may come after them: changes at the limits of kind 12. Most have few different rows, as the
//! model takes its time over each.

use crate::model::{FLI_HEIGHT, FLI_WIDTH};
use crate::rng::Rng;
use crate::states;

pub const WIDTH: usize = FLI_WIDTH as usize;
pub const HEIGHT: usize = FLI_HEIGHT as usize;

/// Gaps around those that one skip holds, and up to the last pixel.
pub const GAPS: [usize; 14] = [0, 1, 2, 3, 126, 253, 254, 255, 256, 257, 299, 300, 318, 319];

/// Runs of equal pixels around the least that is repeated, the most, and what is left over then.
pub const RUNS: [usize; 22] =
    [1, 2, 3, 4, 5, 6, 125, 126, 127, 128, 129, 130, 131, 253, 254, 255, 256, 257, 258, 317, 319, 320];

/// Pixels of a ground are below this, those laid over it are not.
const LAID: u8 = 0x80;

/// A picture of one of several makes: black, plain, or some rows one under another, each many times.
pub fn picture(rng: &mut Rng) -> Vec<u8> {
    match rng.below(6) {
        0 => vec![0; WIDTH * HEIGHT],
        1 => vec![rng.byte(); WIDTH * HEIGHT],
        2 => rows_of(rng, |rng| states::picture(rng, WIDTH, 1)),
        _ => ground(rng),
    }
}

/// Rows of noise below 128, which no full chunk packs well, so that a delta is worth its bytes.
pub fn ground(rng: &mut Rng) -> Vec<u8> {
    rows_of(rng, |rng| rng.bytes(WIDTH).iter().map(|pixel| pixel % LAID).collect())
}

/// A few different rows in bands.
fn rows_of(rng: &mut Rng, row: impl Fn(&mut Rng) -> Vec<u8>) -> Vec<u8> {
    let rows: Vec<Vec<u8>> = (0..rng.between(1, 4)).map(|_| row(rng)).collect();
    let band = rng.pick(&[1, 3, 50, 200]);
    (0..HEIGHT).flat_map(|y| rows[y / band % rows.len()].clone()).collect()
}

/// A picture that may follow `previous`: equal, black, another, or changed in some rows.
pub fn next_picture(rng: &mut Rng, previous: &[u8]) -> Vec<u8> {
    let mut next = previous.to_vec();
    match rng.below(16) {
        0 => {}
        1 => next.fill(0),
        2 => next = picture(rng),
        3 => next.iter_mut().for_each(|pixel| *pixel = pixel.wrapping_add(1)),
        _ => change_rows(rng, &mut next),
    }
    next
}

/// Changes one row, two, or some of them: the first, the last, neighbours, or any.
pub fn change_rows(rng: &mut Rng, next: &mut [u8]) {
    let height = next.len() / WIDTH;
    let (any, last) = (rng.below(height - 1), height - 1);
    let rows = match rng.below(9) {
        0 => vec![0],
        1 => vec![last],
        2 => vec![0, last],
        3 => vec![any],
        4 => vec![any, any + 1],
        5 => vec![any, last],
        _ => (0..rng.between(2, 10)).map(|_| rng.below(height)).collect(),
    };
    for row in rows {
        change_row(rng, &mut next[row * WIDTH..(row + 1) * WIDTH]);
    }
}

/// Lays stretches of runs over a row, after gaps; or a piece of another row, of whose pixels some stay.
fn change_row(rng: &mut Rng, row: &mut [u8]) {
    if rng.once_in(4) {
        let from = rng.below(WIDTH);
        let to = rng.between(from, WIDTH - 1) + 1;
        row[from..to].copy_from_slice(&states::picture(rng, WIDTH, 1)[from..to]);
        return;
    }
    let mut x = rng.pick(&GAPS);
    while x < WIDTH {
        for _ in 0..rng.between(1, 5) {
            let run = if rng.once_in(3) { rng.pick(&RUNS) } else { rng.between(1, 4) };
            x = lay_run(rng, row, x, run);
        }
        x += if rng.once_in(2) { rng.pick(&GAPS) } else { rng.between(1, 4) };
    }
}

/// Lays a run of equal pixels over a row, which a ground hasn't, and gives the column after it.
pub fn lay_run(rng: &mut Rng, row: &mut [u8], x: usize, run: usize) -> usize {
    let (from, to) = (x.min(WIDTH), (x + run).min(WIDTH));
    row[from..to].fill(rng.byte() | LAID);
    to
}
