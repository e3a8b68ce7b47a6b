//! What the families of players share: reels that are whole, players of which any frame stands, speeds and readings.

use crate::damage::{set_size, set_word};
use crate::model::{field, FileHeader, Format, Jiffies, Milliseconds, Span, FILE_HEADER, MODEL};
use crate::reels::built_reel::Built;
use crate::reels::loose_reel::{any_frame, Loose};
use crate::reels::make::{pair, pixels_of, play, reel_size};
use crate::rng::Rng;
use crate::runner::calls::{StartCase, TickCase};
use crate::sizes::{long_or_exact, size_of};
use crate::states::{lend, State};
use crate::trailers::make::trailer_of;
use flic_boundary::Player;

/// Half the range of the counter.
pub const HALF: u32 = 1 << 31;

/// Speeds around none, a tick's, a header's word and half the range.
pub const SPEEDS: [u32; 16] =
    [0, 1, 2, 5, 40, 69, 70, 1_000, 65_535, 65_536, HALF - 2, HALF - 1, HALF, HALF + 1, u32::MAX - 1, u32::MAX];

/// Speeds with which a frame can be due.
const DUE_SPEEDS: [u32; 6] = [0, 1, 70, 70, 65_536, HALF - 1];

/// Jiffies of an FLI, of which any lets a frame be due.
const JIFFIES: [u32; 9] = [0, 1, 2, 5, 6, 7, 70, 65_534, 65_535];

/// Delays as the format's header holds them.
pub fn delays(format: Format) -> &'static [u32] {
    match format {
        Format::Flc => &SPEEDS,
        Format::Fli => &JIFFIES,
    }
}

/// A reel that the check accepts, with what its frames show.
pub struct Whole {
    pub bytes: Vec<u8>,
    pub header: FileHeader,
    /// Where the frames stand, the last being the ring.
    pub spans: Vec<Span>,
    pub states: Vec<State>,
}

impl Whole {
    pub fn of(bytes: Vec<u8>) -> Whole {
        let header = MODEL.read_header(&bytes).expect("a whole reel has a right header");
        let mut shown = State::blank(header.width * header.height);
        let (mut spans, mut states) = (Vec::new(), Vec::new());
        let mut at = FILE_HEADER;
        for _ in 0..=header.frames {
            let span = MODEL.next_frame(&bytes[..header.size], at as u64).expect("a whole reel has all frames");
            play(header.format, header.width, header.height, &mut shown, &bytes[span.start..span.end]);
            at = span.end;
            spans.push(span);
            states.push(shown.clone());
        }
        assert!(states.pop().as_ref() == states.first(), "the ring of a whole reel leads back");
        Whole { bytes, header, spans, states }
    }

    /// The same with another delay: milliseconds, or of an FLI jiffies.
    pub fn at_speed(mut self, delay: u32) -> Whole {
        match self.header.format {
            Format::Flc => {
                set_size(&mut self.bytes, field::SPEED, delay);
                self.header.speed = Milliseconds(delay.into());
            }
            Format::Fli => {
                set_word(&mut self.bytes, field::SPEED, delay as u16);
                self.header.speed = MODEL.formats.milliseconds(Jiffies(delay.into()));
            }
        }
        self
    }

    /// For how many milliseconds a frame shows.
    pub fn speed(&self) -> u32 {
        self.header.speed.0 as u32
    }

    pub fn frames(&self) -> u64 {
        self.header.frames as u64
    }

    /// The record of a player of which this frame stands, drawn at `last`.
    pub fn standing(&self, number: u64, last: u32) -> Player {
        let end_of = |number: u64| self.spans[number as usize - 1].end as u64;
        let FileHeader { format, width, height, .. } = self.header;
        let place = if number > self.frames() { end_of(1) } else { end_of(number) };
        let (width, height, frames) = (width as u64, height as u64, self.frames());
        let (speed, format) = (self.speed(), format.number());
        Player { width, height, frames, number, place, first_end: end_of(1), speed, last, format }
    }

    /// Such a record for any frame and any draw time.
    pub fn any_standing(&self, rng: &mut Rng) -> Player {
        let (number, any) = (1 + rng.below(self.spans.len()) as u64, rng.draw() as u32);
        let last = rng.pick(&[0, 1, 70, HALF, u32::MAX - 69, u32::MAX, any]);
        self.standing(number, last)
    }

    /// A tick of a player, altered or not, whose pair shows the frame that stands.
    pub fn tick(&self, rng: &mut Rng, player: Player, now: u32) -> TickCase {
        self.tick_of(rng, player, self.bytes.clone(), now)
    }

    /// The same of other bytes.
    pub fn tick_of(&self, rng: &mut Rng, player: Player, bytes: Vec<u8>, now: u32) -> TickCase {
        let state = &self.states[(player.number.wrapping_sub(1) % self.frames()) as usize];
        let lengths = long_or_exact(rng, pixels_of(player.width, player.height));
        TickCase { player: player.into(), bytes, now, shown: lend(rng, state, lengths) }
    }

    /// A start of these bytes.
    pub fn start(&self, rng: &mut Rng, now: u32) -> StartCase {
        let pixels = self.header.width * self.header.height;
        StartCase { bytes: self.bytes.clone(), now, first: pair(rng, pixels), second: pair(rng, pixels) }
    }
}

/// A reading at which the next frame is due, where the speed lets one be.
pub fn due(player: &Player) -> u32 {
    player.last.wrapping_add(player.speed)
}

/// A reel of one frame, two or some, as the builder leaves it or of any chunks.
pub fn whole(rng: &mut Rng, format: Format) -> Whole {
    let speed = rng.pick(delays(format));
    let bytes = if rng.once_in(3) { own(rng, format) } else { odd(rng, format) };
    Whole::of(bytes).at_speed(speed)
}

/// The same with a speed that lets frames be due.
pub fn lively(rng: &mut Rng, format: Format) -> Whole {
    let whole = whole(rng, format);
    match format {
        Format::Flc => whole.at_speed(rng.pick(&DUE_SPEEDS)),
        Format::Fli => whole,
    }
}

fn own(rng: &mut Rng, format: Format) -> Vec<u8> {
    let (width, height) = size_of(rng, format, reel_size);
    let frames = match format {
        Format::Flc => rng.pick(&[1, 1, 2, 2, 3, 5, 12]),
        Format::Fli => rng.between(1, 3),
    };
    Built::in_order(rng, format, width, height, frames).closed().1
}

/// Frames of all kinds, chunks between them that are stepped over, and behind the size nothing, anything, a frame, or an
/// index and its trailer, which an FLI hasn't.
fn odd(rng: &mut Rng, format: Format) -> Vec<u8> {
    let mut loose = Loose::small(rng, format);
    let frame = any_frame(rng, format, loose.width, loose.height, None).bytes();
    if !rng.once_in(4) {
        loose.add_others(rng);
    }
    loose.after = match rng.below(6) {
        0 => {
            let length = rng.between(1, 40);
            rng.bytes(length)
        }
        1 | 2 => frame,
        3 if format == Format::Flc => trailer_of(&loose.bytes()),
        _ => Vec::new(),
    };
    loose.bytes()
}

/// Readings of a board's clock that goes on from `last`: late, early, at once, at the very millisecond, set back.
pub fn readings(rng: &mut Rng, speed: u32, last: u32, count: usize) -> Vec<u32> {
    let mut now = last;
    let step = |rng: &mut Rng| match rng.below(24) {
        0 => rng.pick(&[HALF - 1, HALF, HALF + 1]),
        1 => 0u32.wrapping_sub(rng.between(1, 200) as u32),
        2 => rng.draw() as u32,
        3 | 4 => 0,
        5 | 6 => speed.wrapping_sub(1),
        7 | 8 => speed.wrapping_add(1),
        9..=14 => speed,
        15 | 16 => rng.below(2 * speed.max(1) as usize) as u32,
        _ => rng.between(5, 40) as u32,
    };
    (0..count)
        .map(|_| {
            now = now.wrapping_add(step(rng));
            now
        })
        .collect()
}
