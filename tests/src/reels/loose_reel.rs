//! A reel of any chunks: frames of all kinds, a ring, and others between them that are stepped over.

use super::make::play;
use crate::damage::{set_size, set_word};
use crate::frames::{frame_of, Chunk, Frame, Maker};
use crate::model::{field, kind, Format, FILE_HEADER, FRAME_TYPE, MODEL, PREFIX_TYPE};
use crate::rng::Rng;
use crate::sizes::{size_of, small_size};
use crate::states::State;
use flic_boundary::Reel;

/// A reel of any chunks before it is written.
#[derive(Clone)]
pub struct Loose {
    pub format: Format,
    pub width: usize,
    pub height: usize,
    /// The frames that the header tells.
    pub frames: usize,
    pub chunks: Vec<Vec<u8>>,
    /// Bytes after the reel's size.
    pub after: Vec<u8>,
}

impl Loose {
    /// Frames of all kinds, and a ring that leads back.
    pub fn ringed(rng: &mut Rng, format: Format, width: usize, height: usize, frames: usize) -> Loose {
        let chunks: Vec<Vec<u8>> = (0..frames).map(|_| any_frame(rng, format, width, height, None).bytes()).collect();
        let mut loose = Loose { format, width, height, frames, chunks, after: Vec::new() };
        let (first, last) = loose.first_and_last();
        loose.chunks.push(loose.leading(&last, &first));
        loose
    }

    /// A ringed reel of a small size and few frames.
    pub fn small(rng: &mut Rng, format: Format) -> Loose {
        let (width, height) = size_of(rng, format, small_size);
        let frames = rng.between(1, 4);
        Loose::ringed(rng, format, width, height, frames)
    }

    /// A frame that leads from one state to another: in house form, of an FLI as a whole, which takes the model no time.
    pub fn leading(&self, from: &State, to: &State) -> Vec<u8> {
        match self.format {
            Format::Flc => MODEL.house_frame(self.format, self.width, self.height, from.shown(), to.shown()),
            Format::Fli => {
                let colours = [&[1, 0, 0, 0], &to.palette[..]].concat();
                frame_of(&[
                    Chunk { kind: kind::COLOR256, body: colours },
                    Chunk { kind: kind::COPY, body: to.picture.clone() },
                ])
            }
        }
    }

    /// The states after frame 1 and after the last of the chunks, which must all be right frames.
    pub fn first_and_last(&self) -> (State, State) {
        let mut shown = State::blank(self.width * self.height);
        play(self.format, self.width, self.height, &mut shown, &self.chunks[0]);
        let first = shown.clone();
        for chunk in &self.chunks[1..] {
            play(self.format, self.width, self.height, &mut shown, chunk);
        }
        (first, shown)
    }

    /// The closed reel.
    pub fn bytes(&self) -> Vec<u8> {
        let mut bytes = self.open_bytes();
        let size = bytes.len() as u32;
        set_size(&mut bytes, field::SIZE, size);
        set_word(&mut bytes, field::FRAMES, self.frames as u16);
        if self.format == Format::Flc {
            set_word(&mut bytes, field::FLAGS, 3);
            set_size(&mut bytes, field::OFRAME1, FILE_HEADER as u32);
        }
        bytes.extend(&self.after);
        bytes
    }

    /// The chunks after the header of a reel that isn't closed.
    pub fn open_bytes(&self) -> Vec<u8> {
        let mut bytes = vec![0; FILE_HEADER];
        let outcome = match self.format {
            Format::Flc => MODEL.open_reel(self.width as u64, self.height as u64, 70, &mut bytes),
            Format::Fli => MODEL.open_fli(self.width as u64, self.height as u64, 5, &mut bytes),
        };
        outcome.answer.expect("the size is right");
        bytes.extend(self.chunks.concat());
        bytes
    }

    /// The record of the open reel.
    pub fn record(&self) -> Reel {
        let end = (FILE_HEADER + self.chunks.iter().map(Vec::len).sum::<usize>()) as u64;
        let (width, height, frames) = (self.width as u64, self.height as u64, self.frames as u64);
        Reel { width, height, frames, end, closed: 0, format: self.format.number() }
    }

    /// The offset at which a chunk begins.
    pub fn place_of(&self, which: usize) -> usize {
        FILE_HEADER + self.chunks[..which].iter().map(Vec::len).sum::<usize>()
    }

    /// Puts chunks that are stepped over before some of the frames, and bytes of any kind after the ring.
    pub fn add_others(&mut self, rng: &mut Rng) {
        for _ in 0..rng.between(1, 4) {
            let at = rng.below(self.chunks.len());
            self.chunks.insert(at, other_chunk(rng));
        }
        match rng.below(4) {
            0 => self.chunks.push(other_chunk(rng)),
            1 => {
                let length = rng.between(1, 24);
                self.chunks.push(rng.bytes(length));
            }
            _ => {}
        }
    }
}

/// A frame with nothing after its size, as in a reel.
pub fn any_frame(rng: &mut Rng, format: Format, width: usize, height: usize, slips: Option<usize>) -> Frame {
    let mut frame = Maker { rng, format, width, height, slips }.frame();
    frame.after.clear();
    frame
}

/// The header of a chunk, and `length` bytes in all, of which the rest is chance.
pub fn chunk_of(rng: &mut Rng, kind: u16, size: u32, length: usize) -> Vec<u8> {
    let mut bytes = rng.bytes(length.max(6));
    set_size(&mut bytes, 0, size);
    set_word(&mut bytes, 4, kind);
    bytes.truncate(length);
    bytes
}

/// A prefix chunk, a postage stamp, or another that is stepped over.
pub fn other_chunk(rng: &mut Rng) -> Vec<u8> {
    let drawn = rng.draw() as u16;
    let kind = rng.pick(&[
        PREFIX_TYPE,
        PREFIX_TYPE,
        kind::PSTAMP,
        0,
        kind::COLOR256,
        kind::BLACK,
        0xF1FB,
        0xAF12,
        kind::SS2,
        drawn,
    ]);
    let kind = if kind == FRAME_TYPE { 0 } else { kind };
    let length = rng.pick(&[6, 6, 7, 15, 16, 17, 40]);
    chunk_of(rng, kind, length as u32, length)
}
