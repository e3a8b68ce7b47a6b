//! The library's search for a BRUN row of least bytes, in plain Rust: from the row's end, with a sliding window.

const MOST_REPEATED: usize = 127;
const MOST_COPIED: usize = 128;
const WIDEST: usize = 320;

/// An end of a copy: a place of the row, and its sum, the place and the least bytes from there on.
#[derive(Clone, Copy)]
struct End {
    place: usize,
    sum: usize,
}

/// The first packet's type of the least row from each pixel on, and what the search notes on its way.
pub struct Search {
    pub first: [u8; WIDEST],
    sums: [u16; WIDEST + 1],
    far: [u32; WIDEST + 1],
}

impl Search {
    pub fn new() -> Search {
        Search { first: [0; WIDEST], sums: [0; WIDEST + 1], far: [0; WIDEST + 1] }
    }

    /// Fills `first` for this row.
    pub fn row(&mut self, row: &[u8]) {
        let width = row.len();
        let (mut run, mut after, mut split, mut here) = (1, width, width, width + 1);
        let mut near = End { place: width, sum: width };
        self.sums[width] = width as u16;
        self.sums[width - 1] = here as u16;
        self.first[width - 1] = 1;
        for x in (0..width - 1).rev() {
            let next = End { place: x + 1, sum: here };
            if run == MOST_REPEATED {
                (run, after) = (MOST_REPEATED - 1, self.sums[x + MOST_REPEATED] as usize);
            }
            (run, after) = if row[x] == row[x + 1] { (run + 1, after) } else { (1, here) };
            if next.place + MOST_COPIED == split {
                self.sweep(next.place);
                (split, near) = (next.place, next);
            } else {
                near = lower(near, next);
            }
            let furthest = x + MOST_COPIED;
            let end = if split < width && split < furthest { lower(unpacked(self.far[furthest]), near) } else { near };
            let (repeat, copy) = (2 + after - run, 1 + end.sum);
            (here, self.first[x]) =
                if repeat <= copy { (repeat, run as u8) } else { (copy, (256 - (end.place - x)) as u8) };
            self.sums[x] = here as u16;
        }
    }

    fn sweep(&mut self, from: usize) {
        let mut lowest = End { place: from + 1, sum: self.sums[from + 1] as usize };
        for place in from + 1..=from + MOST_COPIED {
            lowest = lower(End { place, sum: self.sums[place] as usize }, lowest);
            self.far[place] = packed(lowest);
        }
    }
}

/// Of two ends of a copy the first, unless the second gives fewer bytes.
fn lower(a: End, b: End) -> End {
    if b.sum < a.sum {
        b
    } else {
        a
    }
}

fn packed(end: End) -> u32 {
    (end.sum * 512 + end.place) as u32
}

fn unpacked(note: u32) -> End {
    End { place: note as usize % 512, sum: note as usize / 512 }
}
