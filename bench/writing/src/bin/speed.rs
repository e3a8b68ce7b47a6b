//! Measures the library against the model, side by side in one run, and prints ratios; nothing fails by them.
//! A ratio under 1 means that the library is the faster one. Growth is the library's time for four times the pixels, over four;
//! of an FLI, which has one size, for four times the changed rows, and for twice as many.

use std::time::Instant;

use flic_boundary::{self as library, PairMut};
use flic_tests::model::{Format, MODEL, PALETTE_BYTES};
use flic_tests::rng::Rng;
use flic_tests::runner::command::fail;
use flic_tests::states::State;

const ROUNDS: usize = 7;
const ROUND_SECONDS: f64 = 0.03;
const LARGE: (usize, usize) = (320, 200);
const SMALL: (usize, usize) = (160, 100);

type Picture = fn(usize, usize) -> Vec<u8>;

/// A previous and a next picture, by a name that says what the frame between them holds.
const SCENES: [(&str, Picture, Picture); 6] = [
    ("black", noise, black),
    ("text, whole (BRUN)", noise, text),
    ("noise, whole (COPY)", black, noise),
    ("few changes (SS2)", noise, noise_with_few_changes),
    ("half changed (SS2)", text, text_half_changed),
    ("no change", noise, noise),
];

fn main() {
    println!("speed: library time / model time; growth from 160 by 100 to 320 by 200, 1 being linear");
    println!("  {:<22} {:>9} {:>8} {:>8} {:>8} {:>8}", "scene", "bytes", "read", "growth", "write", "growth");
    for (name, previous, next) in SCENES {
        let large = Scene::new(Format::Flc, LARGE, previous, next, LARGE.1);
        let small = Scene::new(Format::Flc, SMALL, previous, next, SMALL.1);
        let (read, write) = (large.read(), large.write());
        println!(
            "  {name:<22} {:>9} {:>8.2} {:>8.2} {:>8.2} {:>8.2}",
            large.frame.len(),
            read / large.read_by_model(),
            read / small.read() / 4.0,
            write / large.write_by_model(),
            write / small.write() / 4.0,
        );
    }
    println!(
        "FLI, 320 by 200, the first rows changed: microseconds a frame; growth from half the rows, 1 being linear,"
    );
    println!("and more where the delta is so long that full chunks are searched for too");
    println!(
        "  {:<22} {:>9} {:>8} {:>8} {:>8} {:>8} {:>8}",
        "scene", "rows", "bytes", "read", "write", "growth", "/model"
    );
    for (name, previous, next) in FLI_SCENES {
        let mut half = None;
        for rows in ROWS {
            let scene = Scene::new(Format::Fli, LARGE, previous, next, rows);
            let (read, write) = (scene.read(), scene.write());
            let growth = half.map_or(String::new(), |half| format!("{:.2}", write / half / 2.0));
            println!(
                "  {name:<22} {rows:>9} {:>8} {:>8.1} {:>8.1} {growth:>8} {:>8.2}",
                scene.frame.len(),
                1e6 * read,
                1e6 * write,
                write / scene.write_by_model(),
            );
            half = Some(write);
        }
    }
}

/// How many rows of an FLI are changed.
const ROWS: [usize; 4] = [25, 50, 100, 200];

/// The same of FLI.
const FLI_SCENES: [(&str, Picture, Picture); 4] = [
    ("few changes (LC)", noise, noise_with_few_changes),
    ("half changed (LC)", noise, noise_half_changed),
    ("text (LC or BRUN)", text, text_half_changed),
    ("noise (LC or COPY)", black, noise),
];

/// Two states of one size, and the frame that leads from one to the other.
struct Scene {
    format: u32,
    width: u64,
    height: u64,
    previous: State,
    next: State,
    frame: Vec<u8>,
}

impl Scene {
    /// The next picture is shown in its first rows, below them the previous one.
    fn new(format: Format, (width, height): (usize, usize), previous: Picture, next: Picture, rows: usize) -> Scene {
        let state = |picture: Picture| State { picture: picture(width, height), palette: vec![7; PALETTE_BYTES] };
        let (previous, mut next, mut out) = (state(previous), state(next), vec![0; library::FRAME_MOST]);
        next.picture[rows * width..].copy_from_slice(&previous.picture[rows * width..]);
        let (format, width, height) = (format.number(), width as u64, height as u64);
        let written = library::write_frame(format, width, height, previous.shown(), next.shown(), &mut out);
        if written.number != 0 {
            fail(&format!("speed: a frame was refused with {}", written.number), "run the writing test first");
        }
        out.truncate(written.length as usize);
        Scene { format, width, height, previous, next, frame: out }
    }

    fn write(&self) -> f64 {
        self.writing(|out| {
            let (previous, next) = (self.previous.shown(), self.next.shown());
            library::write_frame(self.format, self.width, self.height, previous, next, out);
        })
    }

    fn write_by_model(&self) -> f64 {
        self.writing(|out| {
            let (previous, next) = (self.previous.shown(), self.next.shown());
            let _ = MODEL.write_frame(self.format, self.width, self.height, previous, next, out);
        })
    }

    fn read(&self) -> f64 {
        self.reading(|shown| {
            library::read_frame(&self.frame, self.format, self.width, self.height, shown);
        })
    }

    fn read_by_model(&self) -> f64 {
        self.reading(|shown| {
            let _ = MODEL.read_frame(&self.frame, self.format, self.width, self.height, shown);
        })
    }

    fn writing(&self, write: impl Fn(&mut [u8])) -> f64 {
        let mut out = vec![0; library::FRAME_MOST];
        seconds(|| write(std::hint::black_box(&mut out)))
    }

    fn reading(&self, read: impl Fn(PairMut)) -> f64 {
        let mut shown = self.previous.clone();
        seconds(|| read(std::hint::black_box(&mut shown).work()))
    }
}

/// The least seconds of one call, over some rounds of many.
fn seconds(mut call: impl FnMut()) -> f64 {
    let mut least = f64::INFINITY;
    for _ in 0..ROUNDS {
        let (start, mut calls) = (Instant::now(), 0.0);
        while start.elapsed().as_secs_f64() < ROUND_SECONDS {
            call();
            calls += 1.0;
        }
        least = least.min(start.elapsed().as_secs_f64() / calls);
    }
    least
}

fn black(width: usize, height: usize) -> Vec<u8> {
    vec![0; width * height]
}

fn noise(width: usize, height: usize) -> Vec<u8> {
    Rng::new(5).bytes(width * height)
}

fn noise_with_few_changes(width: usize, height: usize) -> Vec<u8> {
    let mut picture = noise(width, height);
    for pixel in picture.iter_mut().step_by(211) {
        *pixel ^= 1;
    }
    picture
}

/// Strokes on a plain ground, as letters have them.
fn text(width: usize, height: usize) -> Vec<u8> {
    let stroke = |x: usize, y: usize| u8::from(y % 12 < 8 && (x % 7 == 1 || (y % 4 == 0 && x % 7 < 5)));
    (0..width * height).map(|at| stroke(at % width, at / width)).collect()
}

fn text_half_changed(width: usize, height: usize) -> Vec<u8> {
    let mut picture = text(width, height);
    for (at, pixel) in picture.iter_mut().enumerate() {
        if (at / 16) % 2 == 0 {
            *pixel += 2;
        }
    }
    picture
}

fn noise_half_changed(width: usize, height: usize) -> Vec<u8> {
    let mut picture = noise(width, height);
    for (at, pixel) in picture.iter_mut().enumerate() {
        if (at / 16) % 2 == 0 {
            *pixel ^= 1;
        }
    }
    picture
}
