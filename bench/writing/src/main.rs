//! Times three encoders on the reels, FLC or FLI by their magic, side by side: the fastest lap of many. Usage:
//! flic-bench-writing REEL..

mod clock;
mod plain;
mod search;

use std::path::Path;

use flic_boundary::Pair;
use flic_tests::model::{field, Format, MODEL as INDEPENDENT, PALETTE_BYTES};
use flic_tests::runner::command::fail;

use crate::clock::seconds;

const REEL_SECONDS: f64 = 6.0;
const LEAST_ROUNDS: usize = 5;
const ROOM: usize = 1 << 17;
/// Laps of the fast encoders to one of the independent one, which is slow.
const LAPS_TO_ONE: usize = 8;

/// The states of a lap, picture and palette back to back.
struct Reel {
    format: Format,
    width: usize,
    height: usize,
    states: Vec<u8>,
}

impl Reel {
    fn load(file: &Path) -> Reel {
        let read = |file: &Path| {
            std::fs::read(file).unwrap_or_else(|_| fail(&format!("{} can't be read", file.display()), "run bench/run"))
        };
        let header = read(file);
        let word = |at: usize| u16::from_le_bytes([header[at], header[at + 1]]) as usize;
        let format = if word(field::MAGIC) == usize::from(Format::Fli.magic()) { Format::Fli } else { Format::Flc };
        let (width, height) = (word(field::WIDTH), word(field::HEIGHT));
        Reel { format, width, height, states: read(&file.with_extension("states")) }
    }

    fn frames(&self) -> usize {
        self.states.len() / (self.width * self.height + PALETTE_BYTES)
    }

    fn shown(&self, i: usize) -> Pair<'_> {
        let pixels = self.width * self.height;
        let state = &self.states[i % self.frames() * (pixels + PALETTE_BYTES)..][..pixels + PALETTE_BYTES];
        Pair { picture: &state[..pixels], palette: &state[pixels..] }
    }
}

/// The encoders with what they write into.
struct Encoders {
    plain: plain::Encoder,
    grown: Vec<u8>,
    lent: Vec<u8>,
}

const OURS: usize = 0;
const PLAIN: usize = 1;
const MODEL: usize = 2;

impl Encoders {
    fn write(&mut self, encoder: usize, reel: &Reel, i: usize) -> &[u8] {
        let Reel { format, width, height, .. } = *reel;
        let (number, previous, next) = (format.number(), reel.shown(i), reel.shown(i + 1));
        if encoder == PLAIN {
            self.plain.write_frame(format, width, previous, next, &mut self.grown);
            return &self.grown;
        }
        let length = match encoder {
            OURS => {
                let (width, height, out) = (width as u64, height as u64, &mut self.lent);
                let written = flic_boundary::write_frame(number, width, height, previous, next, out);
                assert_eq!(written.number, 0, "flic_write_frame refuses a frame of the benchmark");
                written.length as usize
            }
            _ => INDEPENDENT
                .write_frame(number, width as u64, height as u64, previous, next, &mut self.lent)
                .unwrap_or_else(|_| fail("the independent encoder refuses a frame", "run ./test")),
        };
        &self.lent[..length]
    }

    fn compare(&mut self, name: &str, reel: &Reel) {
        for i in 0..reel.frames() {
            let frame = self.write(OURS, reel, i).to_vec();
            for other in [PLAIN, MODEL] {
                if self.write(other, reel, i) != frame {
                    fail(&format!("encoder {other} writes another frame {i} of {name} than ours"), "run ./test");
                }
            }
        }
    }

    /// Seconds a frame.
    fn lap(&mut self, encoder: usize, reel: &Reel) -> f64 {
        let start = seconds();
        for i in 0..reel.frames() {
            std::hint::black_box(self.write(encoder, reel, i));
        }
        (seconds() - start) / reel.frames() as f64
    }
}

fn main() {
    println!(
        "Writing, microseconds a frame: ours, a plain Rust encoder with the same search, and the independent one of"
    );
    println!("tests/, which tries every packet at every pixel of each different row; then ours over each.");
    println!(
        "{:<13} {:>9} {:>9} {:>12} {:>8} {:>8} {:>8}",
        "reel", "ours", "plain", "independent", "/plain", "/indep.", "rounds"
    );
    let mut encoders = Encoders { plain: plain::Encoder::new(), grown: Vec::new(), lent: vec![0; ROOM] };
    for name in std::env::args().skip(1) {
        let file = Path::new(&name);
        let reel = Reel::load(file);
        let stem = file.file_stem().unwrap_or_default().to_string_lossy();
        let stem = if reel.format == Format::Fli { format!("{stem}, FLI") } else { stem.into_owned() };
        encoders.compare(&stem, &reel);
        let (mut least, mut rounds, begin) = ([f64::INFINITY; 3], 0, seconds());
        while rounds < LEAST_ROUNDS || seconds() - begin < REEL_SECONDS {
            for encoder in [OURS, PLAIN].repeat(LAPS_TO_ONE).into_iter().chain([MODEL]) {
                least[encoder] = least[encoder].min(encoders.lap(encoder, &reel));
            }
            rounds += 1;
        }
        println!(
            "{stem:<13} {:>9.1} {:>9.1} {:>12.1} {:>8.2} {:>8.2} {rounds:>8}",
            1e6 * least[OURS],
            1e6 * least[PLAIN],
            1e6 * least[MODEL],
            least[OURS] / least[PLAIN],
            least[OURS] / least[MODEL],
        );
    }
}
