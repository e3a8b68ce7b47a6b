//! One case of the damage run: what all entry points are handed, and the file in which it is kept.

use super::numbers;
use super::packed::{packed, unpacked};
use super::spans::Spans;
use flic_boundary::{Player, Reel};
use flic_tests::model::{Format, FILE_HEADER, MODEL};
use flic_tests::rng::{mix, Rng};
use flic_tests::states::State;
use std::ops::Range;

/// What the calls of one case are made from.
#[derive(Clone, Debug, PartialEq, Eq)]
pub struct Case {
    /// Gives the bytes that an output holds before the call, the sides on which guard pages stand, the offset from which
    /// the next frame is looked for, a player's record and the readings of its clock.
    pub seed: u64,
    /// The format that the calls on frames are told, and that a player's record has.
    pub format: u32,
    /// The size that is handed to the calls on frames, and to an open.
    pub width: u64,
    pub height: u64,
    /// Milliseconds, and jiffies to an open of an FLI; either to the calls on delays.
    pub speed: u32,
    /// The record that is handed to an add and to a close.
    pub reel: Reel,
    /// The lengths of a frame's output and of a listing's.
    pub frame_room: usize,
    pub list_room: usize,
    /// Where in the bytes the frame stands that is read and rewritten.
    pub frame: Range<usize>,
    /// What shows, the previous state, or the first working pair.
    pub first: State,
    /// What comes next, or the second working pair.
    pub second: State,
    /// The reel.
    pub bytes: Vec<u8>,
}

const OFFSET_MARK: u64 = 0x0FF5;
const PLAYER_MARK: u64 = 0x91A7;
const READINGS_MARK: u64 = 0xC10C;
const MARK: [u8; 8] = *b"FLICdmg2";
const NUMBERS: usize = 20;

/// How many bytes the file of a case has before its slices.
const HEADER: usize = MARK.len() + 8 * NUMBERS;

impl Case {
    fn slices(&self) -> [&[u8]; 5] {
        [&self.first.picture, &self.first.palette, &self.second.picture, &self.second.palette, &self.bytes]
    }

    fn numbers(&self) -> [u64; NUMBERS] {
        let Reel { width, height, frames, end, closed, format } = self.reel;
        let lengths = self.slices().map(|slice| slice.len() as u64);
        [
            self.seed,
            self.width,
            self.height,
            self.speed.into(),
            width,
            height,
            frames,
            end,
            closed.into(),
            self.frame_room as u64,
            self.list_room as u64,
            self.frame.start as u64,
            self.frame.end as u64,
            lengths[0],
            lengths[1],
            lengths[2],
            lengths[3],
            lengths[4],
            self.format.into(),
            format.into(),
        ]
    }

    /// The case as a file: a mark, the numbers in 8 bytes each, then the slices, packed.
    pub fn file(&self) -> Vec<u8> {
        let mut file = MARK.to_vec();
        file.extend(self.numbers().iter().flat_map(|number| number.to_le_bytes()));
        self.slices().iter().for_each(|slice| file.extend(packed(slice)));
        file
    }

    /// The format that is told.
    pub fn told(&self) -> Format {
        MODEL.formats.told(self.format)
    }

    /// The frame that is read and rewritten.
    pub fn frame_bytes(&self) -> &[u8] {
        &self.bytes[self.frame.clone()]
    }

    /// Where the next frame is looked for.
    pub fn offset(&self) -> u64 {
        self.some_offset(&mut Rng::new(mix(self.seed, OFFSET_MARK)))
    }

    /// From the first chunk on, at a chunk's begin or end, around the end of the bytes, anywhere, or far away.
    fn some_offset(&self, rng: &mut Rng) -> u64 {
        let (spans, length) = (Spans::of(&self.bytes).all, self.bytes.len());
        let at = match rng.below(8) {
            0 | 1 => FILE_HEADER,
            2 | 3 if !spans.is_empty() => rng.pick(&spans).start,
            4 if !spans.is_empty() => rng.pick(&spans).end,
            5 => length.saturating_sub(rng.below(20)),
            6 => return rng.pick(&[length as u64 + 1, 1 << 32, u64::MAX - 5, u64::MAX]),
            _ => rng.below(length + 1),
        };
        at as u64
    }

    /// The record of a player that is ticked, most often where a frame stands, and the reading, most often when one is
    /// due.
    pub fn ticked(&self) -> (Player, u32) {
        let rng = &mut Rng::new(mix(self.seed, PLAYER_MARK));
        let frames = self.reel.frames;
        let (place, first_end) = (self.some_offset(rng), self.some_offset(rng));
        let place = if rng.once_in(2) { self.frame.start as u64 } else { place };
        let number = numbers::frame_number(rng, frames);
        let last = rng.draw() as u32;
        let Case { format, width, height, speed, .. } = *self;
        let player = Player { width, height, frames, number, place, first_end, speed, last, format };
        (player, last.wrapping_add(numbers::difference(rng, speed)))
    }

    /// The reading at which a player is started, and those that are replayed.
    pub fn readings(&self) -> (u32, Vec<u32>) {
        let rng = &mut Rng::new(mix(self.seed, READINGS_MARK));
        let (start, count) = (rng.draw() as u32, rng.below(40));
        let mut now = start;
        let reading = |_| {
            now = now.wrapping_add(numbers::difference(rng, self.speed));
            now
        };
        (start, (0..count).map(reading).collect())
    }

    /// The case that a file holds; bytes after it are left.
    pub fn of_file(file: &[u8]) -> Result<Case, String> {
        if file.len() < HEADER || file[..MARK.len()] != MARK {
            return Err("this isn't the file of a case".to_string());
        }
        let mut numbers = [0; NUMBERS];
        for (number, bytes) in numbers.iter_mut().zip(file[MARK.len()..].chunks_exact(8)) {
            *number = u64::from_le_bytes(bytes.try_into().expect("a chunk of 8 bytes"));
        }
        let mut rest = &file[HEADER..];
        let mut slice = |length: u64| unpacked(&mut rest, length).ok_or("the file of a case is cut");
        let first = State { picture: slice(numbers[13])?, palette: slice(numbers[14])? };
        let second = State { picture: slice(numbers[15])?, palette: slice(numbers[16])? };
        let bytes = slice(numbers[17])?;
        let frame = numbers[11] as usize..numbers[12] as usize;
        if frame.start > frame.end || frame.end > bytes.len() {
            return Err("the frame of this case stands outside its bytes".to_string());
        }
        Ok(Case {
            seed: numbers[0],
            format: numbers[18] as u32,
            width: numbers[1],
            height: numbers[2],
            speed: numbers[3] as u32,
            reel: Reel {
                width: numbers[4],
                height: numbers[5],
                frames: numbers[6],
                end: numbers[7],
                closed: numbers[8] as u32,
                format: numbers[19] as u32,
            },
            frame_room: numbers[9] as usize,
            list_room: numbers[10] as usize,
            frame,
            first,
            second,
            bytes,
        })
    }
}
