//! Draws what a wrong ring does, for README: `ring_picture BOARD.flc OUT.png`.
//!
//! The wrong ring is written as the one that cost the night shift its soup: against a picture that no longer shows, the
//! last one as it was before the soup was finished. The first lap is good; from the second on the row keeps 'finished'.

#[path = "../../tool/src/tool/font.rs"]
mod font;

use flic::{check_reel, read_frame, write_frame, CheckedReel, Chunk, Refusal, State};
use font::dots;
use png::{BitDepth, ColorType, Encoder};
use std::error::Error;
use std::{env, fs, process};

/// Where the soup's row stands on the board: from column and row, width and height.
const SOUP: [usize; 4] = [138, 38, 174, 32];
/// An hour after midnight.
const FRAME: usize = 3;
const GAP: usize = 16;
const LABEL: usize = 24;
const GROUND: [u8; 3] = [255; 3];
const WORDS: [u8; 3] = [32; 3];
const RED: [u8; 3] = [220, 30, 30];

fn main() -> Result<(), Box<dyn Error>> {
    let files: Vec<_> = env::args_os().skip(1).collect();
    let [board, out] = &files[..] else {
        eprintln!("usage: ring_picture BOARD.flc OUT.png");
        process::exit(2);
    };
    let right = fs::read(board)?;
    let wrong = with_wrong_ring(&right)?;
    assert_eq!(check_reel(&wrong).map_err(|refused| refused.refusal), Err(Refusal::BadRing));
    fs::write(out, drawn(&right, &wrong)?)?;
    Ok(())
}

fn with_wrong_ring(bytes: &[u8]) -> Result<Vec<u8>, Box<dyn Error>> {
    let reel = CheckedReel::new(bytes)?;
    let states: Vec<State> = reel.frames().map(|frame| frame.state).collect();
    let [first, .., last, _ring] = &states[..] else { return Err("a reel of two frames or more is needed".into()) };
    let mut before = last.clone();
    let width = usize::from(before.size().width());
    for row in SOUP[1]..SOUP[1] + SOUP[3] {
        let at = row * width + SOUP[0];
        before.picture.pixels_mut()[at..at + SOUP[2]].copy_from_slice(&first.picture.pixels()[at..at + SOUP[2]]);
    }
    let ring = reel.frame_chunks()[states.len() - 1];
    let mut wrong = bytes[..ring.offset].to_vec();
    wrong.extend(write_frame(reel.format(), &before, first)?);
    let size = u32::try_from(wrong.len())?;
    wrong[..4].copy_from_slice(&size.to_le_bytes());
    Ok(wrong)
}

/// What shows after the frame in the first lap and in the second, whatever the ring is.
fn shown(bytes: &[u8], chunks: &[Chunk]) -> flic::Result<[State; 2]> {
    let header = flic::Header::read(bytes)?;
    let mut state = State::blank(flic::Size::new(header.width, header.height)?);
    let mut play = |chunks: &[Chunk]| -> flic::Result<State> {
        chunks.iter().try_for_each(|chunk| read_frame(&bytes[chunk.offset..chunk.end()], header.format, &mut state))?;
        Ok(state.clone())
    };
    Ok([play(&chunks[..FRAME])?, play(&[&chunks[FRAME..], &chunks[1..FRAME]].concat())?])
}

fn drawn(right: &[u8], wrong: &[u8]) -> Result<Vec<u8>, Box<dyn Error>> {
    let chunks = CheckedReel::new(right)?.frame_chunks().to_vec();
    let mut wrong_chunks = chunks.clone();
    if let Some(ring) = wrong_chunks.last_mut() {
        ring.size = wrong.len() - ring.offset;
    }
    let reels = [("RIGHT RING", shown(right, &chunks)?), ("WRONG RING", shown(wrong, &wrong_chunks)?)];
    let size = reels[0].1[0].size();
    let (width, height) = (usize::from(size.width()), usize::from(size.height()));
    let mut sheet = Sheet::new(2 * width + 3 * GAP, 2 * (height + LABEL) + LABEL + GAP);
    for (column, (name, states)) in reels.iter().enumerate() {
        let x = GAP + column * (width + GAP);
        sheet.write(x, 6, name, if column == 0 { WORDS } else { RED });
        for (lap, state) in states.iter().enumerate() {
            let y = LABEL + lap * (height + LABEL);
            sheet.put(x, y, width, &state.rgb());
            sheet.write(x, y + height + 5, ["FIRST LAP, 1:00", "SECOND LAP, 1:00"][lap], WORDS);
        }
        if states[0] != states[1] {
            sheet.frame(x + SOUP[0], LABEL + height + LABEL + SOUP[1], SOUP[2], SOUP[3]);
        }
    }
    sheet.png()
}

struct Sheet {
    width: usize,
    pixels: Vec<[u8; 3]>,
}

impl Sheet {
    fn new(width: usize, height: usize) -> Sheet {
        Sheet { width, pixels: vec![GROUND; width * height] }
    }

    fn put(&mut self, x: usize, y: usize, width: usize, levels: &[u8]) {
        for (at, pixel) in levels.chunks(3).enumerate() {
            self.pixels[(y + at / width) * self.width + x + at % width].copy_from_slice(pixel);
        }
    }

    fn fill(&mut self, x: usize, y: usize, width: usize, height: usize, colour: [u8; 3]) {
        for row in y..y + height {
            self.pixels[row * self.width + x..][..width].fill(colour);
        }
    }

    fn frame(&mut self, x: usize, y: usize, width: usize, height: usize) {
        for (x, y, width, height) in
            [(x, y, width, 2), (x, y + height - 2, width, 2), (x, y, 2, height), (x + width - 2, y, 2, height)]
        {
            self.fill(x, y, width, height, RED);
        }
    }

    /// Letters twice as large as they are.
    fn write(&mut self, x: usize, y: usize, text: &str, colour: [u8; 3]) {
        for (column, row) in dots(text) {
            self.fill(x + 2 * column, y + 2 * row, 2, 2, colour);
        }
    }

    fn png(&self) -> Result<Vec<u8>, Box<dyn Error>> {
        let (mut bytes, height) = (Vec::new(), self.pixels.len() / self.width);
        let mut encoder = Encoder::new(&mut bytes, u32::try_from(self.width)?, u32::try_from(height)?);
        encoder.set_color(ColorType::Rgb);
        encoder.set_depth(BitDepth::Eight);
        encoder.write_header()?.write_image_data(&self.pixels.concat())?;
        Ok(bytes)
    }
}
