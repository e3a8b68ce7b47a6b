//! A player that keeps time: document 02's Req 01. "The board calls us with its clock, and its millisecond counter is 32
//! bits wide and rolls over."

use super::playing::Played;
use super::{accepted_size, long_enough, number, require, Document, Milliseconds, Model, Refusal, FILE_HEADER};
use flic_boundary::{PairMut, Player};

/// How many readings the counter has.
const RANGE: u64 = 1 << 32;

/// What a tick does, by the number that it tells of it.
#[derive(Clone, Copy, Debug, PartialEq, Eq)]
pub enum Event {
    NothingDue = 0,
    Drawn = 1,
    SetBack = 2,
}

/// The number of the frame that stands, and the last draw time.
#[derive(Clone, Copy, Debug, PartialEq, Eq)]
pub struct Standing {
    pub number: u64,
    pub last: u32,
}

impl Players for Document {}

pub trait Players {
    /// "The difference to the last draw time is taken round the roll-over".
    fn difference(&self, last: u32, now: u32) -> u64 {
        (RANGE + u64::from(now) - u64::from(last)) % RANGE
    }

    /// "below half the range it is elapsed time, otherwise the clock was set back, nothing is drawn ..". "If elapsed time
    /// is at least the reel's speed, one frame is drawn".
    fn event(&self, speed: u32, last: u32, now: u32) -> Event {
        let difference = self.difference(last, now);
        if difference >= RANGE / 2 {
            Event::SetBack
        } else if difference >= u64::from(speed) {
            Event::Drawn
        } else {
            Event::NothingDue
        }
    }

    /// ".. and the reading becomes the last draw time".
    fn set_back(&self, _last: u32, now: u32) -> u32 {
        now
    }

    /// "the last draw time moves on by the speed".
    fn moved_on(&self, last: u32, speed: u32, _now: u32) -> u32 {
        ((u64::from(last) + u64::from(speed)) % RANGE) as u32
    }

    /// The number of the frame that is drawn after this one: "After the ring, which counts as number frames + 1, comes
    /// frame 2 (the ring again in a one-frame reel)."
    fn follows(&self, number: u64, frames: u64) -> u128 {
        if u128::from(number) >= ring(frames) {
            2
        } else {
            u128::from(number) + 1
        }
    }

    /// What a reading does, and what stands then. Of a number past 64 bits, which no reel has, a record keeps 64.
    fn step(&self, stands: Standing, frames: u64, speed: u32, now: u32) -> (Event, Standing) {
        let Standing { number, last } = stands;
        let event = self.event(speed, last, now);
        let stands = match event {
            Event::NothingDue => stands,
            Event::SetBack => Standing { number, last: self.set_back(last, now) },
            Event::Drawn => {
                Standing { number: self.follows(number, frames) as u64, last: self.moved_on(last, speed, now) }
            }
        };
        (event, stands)
    }

    /// "Starting makes the whole-reel check in its two pairs, then the first shows frame 1, drawn at the reading given."
    /// "Refusals: the check's at the start".
    fn start_player(
        &self,
        model: &Model,
        bytes: &[u8],
        now: u32,
        mut first: PairMut,
        second: PairMut,
    ) -> Result<Player, Refusal> {
        let checked = PairMut { picture: &mut *first.picture, palette: &mut *first.palette };
        model.check_reel(bytes, checked, second)?;
        let header = model.read_header(bytes)?;
        let frame = model.next_frame(&bytes[..header.size], FILE_HEADER as u64)?;
        let mut played = Played::from_blank(header.format, header.width, header.height);
        model.playing.play(model, &bytes[frame.start..frame.end], frame.start, &mut played)?;
        model.playing.put(&played.first, &mut first);
        let Milliseconds(speed) = header.speed;
        Ok(Player {
            width: header.width as u64,
            height: header.height as u64,
            frames: header.frames as u64,
            number: 1,
            place: frame.end as u64,
            first_end: frame.end as u64,
            speed: speed as u32,
            last: now,
            format: header.format.number(),
        })
    }

    /// "The player record is changed in place by each tick." "A refused tick changes nothing."
    fn tick(
        &self,
        model: &Model,
        player: &mut Player,
        bytes: &[u8],
        now: u32,
        shown: PairMut,
    ) -> Result<Event, Refusal> {
        let Player { frames, number, place, speed, last, .. } = *player;
        let (event, stands) = self.step(Standing { number, last }, frames, speed, now);
        let place = match event {
            Event::Drawn => {
                let end = self.draw(model, player, bytes, shown)?;
                self.place_after(player, end as u64)
            }
            Event::NothingDue | Event::SetBack => place,
        };
        *player = Player { number: stands.number, place, last: stands.last, ..*player };
        Ok(event)
    }

    /// "at a tick that draws 2, 1, 4 .., then the check's from there through the frame drawn"; gives where that one ends.
    fn draw(&self, model: &Model, player: &Player, bytes: &[u8], shown: PairMut) -> Result<usize, Refusal> {
        let format = model.formats.told(player.format);
        let (width, height) = accepted_size(format, player.width, player.height)?;
        long_enough(width * height, &[&*shown.picture], &[&*shown.palette])?;
        self.record_fits(player, bytes.len() as u64)?;
        let frame = model.next_frame(&bytes[..self.end(bytes)], player.place)?;
        model
            .frames
            .read_frame(&bytes[frame.start..frame.end], format, player.width, player.height, shown)
            .map_err(|refusal| model.playing.in_reel(refusal, frame.start))?;
        Ok(frame.end)
    }

    /// "4 (place 0) if the record's place .. lies past the bytes or its frame number outside 1 to frames + 1".
    fn record_fits(&self, player: &Player, length: u64) -> Result<(), Refusal> {
        let is_numbered = (1..=ring(player.frames)).contains(&player.number.into());
        require(player.place <= length && is_numbered, number::CUT_SHORT, 0)
    }

    /// "the bytes' end standing for the file's size".
    fn end(&self, bytes: &[u8]) -> usize {
        bytes.len()
    }

    /// "the record's place, the end of the frame standing (of frame 1 for the ring)", once the next one, which ends at
    /// `end`, was drawn.
    fn place_after(&self, player: &Player, end: u64) -> u64 {
        if self.follows(player.number, player.frames) == ring(player.frames) {
            player.first_end
        } else {
            end
        }
    }

    /// "Recorded tick lists are replayed too, from speed, frame count, starting reading and readings: which frame stood
    /// after each tick, the same as a live player shows when no tick is refused." "A replay's refusals are 14, then 3 for
    /// fewer words lent than ticks."
    fn replay(
        &self,
        model: &Model,
        speed: u32,
        frames: u64,
        start: u32,
        readings: &[u32],
        numbers: &mut [u32],
    ) -> Result<usize, Refusal> {
        require(model.headers.frames_are_right(frames), number::BAD_FILE_HEADER, 0)?;
        require(numbers.len() >= readings.len(), number::SHORT_OUTPUT, 0)?;
        let mut stands = Standing { number: 1, last: start };
        for (stood, now) in numbers.iter_mut().zip(readings) {
            (_, stands) = self.step(stands, frames, speed, *now);
            *stood = stands.number as u32;
        }
        Ok(readings.len())
    }
}

/// "the ring, which counts as number frames + 1".
pub fn ring(frames: u64) -> u128 {
    u128::from(frames) + 1
}

#[cfg(test)]
mod tests {
    use super::*;
    use crate::frames::{frame_of, Chunk};
    use crate::model::{kind, MODEL, PALETTE_BYTES};
    use crate::reels::examples::{blank_fli, blank_reel, JIFFIES, SPEED};
    use crate::states::State;
    use Event::{Drawn, NothingDue, SetBack};

    const FILL: u8 = 0x77;

    /// A 1 by 1 reel of speed 70 whose frames show 1, 2, .., its ring 1.
    fn reel(frames: u8) -> Vec<u8> {
        let mut bytes = blank_reel()[..128].to_vec();
        for pixel in (1..=frames).chain([1]) {
            bytes.extend(frame_of(&[Chunk { kind: kind::COPY, body: vec![pixel] }]));
        }
        let size = bytes.len() as u8;
        (bytes[0], bytes[1], bytes[6]) = (size, 0, frames);
        bytes
    }

    /// Where the frames of such a reel end.
    const ENDS: [u64; 4] = [128 + 23, 128 + 46, 128 + 69, 128 + 92];

    /// A pair of one pixel and one of excess.
    struct Shown {
        picture: [u8; 2],
        palette: [u8; PALETTE_BYTES + 1],
    }

    impl Shown {
        fn new() -> Shown {
            Shown { picture: [FILL; 2], palette: [FILL; PALETTE_BYTES + 1] }
        }

        fn pair(&mut self) -> PairMut<'_> {
            PairMut { picture: &mut self.picture, palette: &mut self.palette }
        }
    }

    fn started(bytes: &[u8], now: u32) -> (Player, Shown) {
        let (mut first, mut second) = (Shown::new(), Shown::new());
        let player = MODEL.start_player(bytes, now, first.pair(), second.pair()).expect("this reel is right");
        (player, first)
    }

    #[test]
    fn a_start_shows_frame_1() {
        let bytes = reel(2);
        let (player, first) = started(&bytes, 5);
        let wanted = Player {
            width: 1,
            height: 1,
            frames: 2,
            number: 1,
            place: ENDS[0],
            first_end: ENDS[0],
            speed: SPEED,
            last: 5,
            format: 0,
        };
        assert_eq!(
            (player, first.picture, first.palette[0], first.palette[PALETTE_BYTES]),
            (wanted, [1, FILL], 0, FILL)
        );
        let mut short = [FILL; 0];
        let (mut first, mut second) = (Shown::new(), Shown::new());
        let none = PairMut { picture: &mut short, palette: &mut second.palette };
        let refused = MODEL.start_player(&bytes, 5, first.pair(), none);
        assert_eq!((refused, first.picture), (Err(Refusal::new(1, 0)), [FILL; 2]));
    }

    #[test]
    fn differences_round_the_roll_over() {
        let half = 1 << 31;
        for (last, now, difference) in [
            (0, 0, 0),
            (7, 10, 3),
            (u32::MAX, 0, 1),
            (u32::MAX - 9, 60, 70),
            (10, 7, (1 << 32) - 3),
            (0, half, half.into()),
            (half, 0, half.into()),
            (1, half, u64::from(half) - 1),
            (0, u32::MAX, u64::from(u32::MAX)),
        ] {
            assert_eq!(Document.difference(last, now), difference, "{last} to {now}");
        }
    }

    #[test]
    fn what_a_reading_does() {
        let half = 1 << 31;
        for (speed, last, now, event) in [
            (70, 0, 69, NothingDue),
            (70, 0, 70, Drawn),
            (70, u32::MAX, 68, NothingDue),
            (70, u32::MAX, 69, Drawn),
            (70, 1, 0, SetBack),
            (70, 0, half - 1, Drawn),
            (70, 0, half, SetBack),
            (0, 9, 9, Drawn),
            (0, 9, 8, SetBack),
            (half - 1, 0, half - 1, Drawn),
            (half, 0, half - 1, NothingDue),
            (half, 0, half, SetBack),
            (u32::MAX, 0, u32::MAX, SetBack),
        ] {
            assert_eq!(Document.event(speed, last, now), event, "speed {speed}, {last} to {now}");
        }
    }

    #[test]
    fn what_follows_a_frame() {
        for (number, frames, next) in [
            (1, 3, 2),
            (2, 3, 3),
            (3, 3, 4),
            (4, 3, 2),
            (1, 1, 2),
            (2, 1, 2),
            (1, 0, 2),
            (u64::MAX, u64::MAX - 1, 2),
            (u64::MAX, u64::MAX, 1 << 64),
        ] {
            assert_eq!(Document.follows(number, frames), next, "frame {number} of {frames}");
        }
    }

    #[test]
    fn two_laps_through_the_roll_over() {
        let bytes = reel(3);
        let (mut player, mut shown) = started(&bytes, u32::MAX - 99);
        let mut tick = |now: u32| {
            let event = MODEL.tick(&mut player, &bytes, now, shown.pair()).expect("nothing was altered");
            (event, player.number, player.place, player.last, shown.picture[0])
        };
        assert_eq!(tick(u32::MAX - 30), (NothingDue, 1, ENDS[0], u32::MAX - 99, 1));
        assert_eq!(tick(u32::MAX - 29), (Drawn, 2, ENDS[1], u32::MAX - 29, 2));
        assert_eq!(tick(45), (Drawn, 3, ENDS[2], 40, 3));
        assert_eq!(tick(109), (NothingDue, 3, ENDS[2], 40, 3));
        assert_eq!(tick(400), (Drawn, 4, ENDS[0], 110, 1));
        assert_eq!(tick(400), (Drawn, 2, ENDS[1], 180, 2));
        assert_eq!(tick(179), (SetBack, 2, ENDS[1], 179, 2));
        assert_eq!(tick(249), (Drawn, 3, ENDS[2], 249, 3));
        assert_eq!(tick(319), (Drawn, 4, ENDS[0], 319, 1));
    }

    #[test]
    fn a_reel_of_one_frame_draws_its_ring_again() {
        let bytes = reel(1);
        let (mut player, mut shown) = started(&bytes, 0);
        for lap in 1..4 {
            shown.picture[0] = FILL;
            assert_eq!(MODEL.tick(&mut player, &bytes, 70 * lap, shown.pair()), Ok(Drawn));
            assert_eq!((player.number, player.place, shown.picture), (2, ENDS[0], [1, FILL]));
        }
    }

    #[test]
    fn ticks_are_refused_in_order() {
        let bytes = reel(2);
        let right = started(&bytes, 0).0;
        let refused = |altered: Player, bytes: &[u8], pixels: usize| {
            let (mut player, mut shown) = (altered, Shown::new());
            let pair = PairMut { picture: &mut shown.picture[..pixels], palette: &mut shown.palette };
            let refusal = MODEL.tick(&mut player, bytes, 70, pair).expect_err("this is refused");
            assert_eq!((player, shown.picture), (altered, [FILL; 2]));
            assert_eq!(MODEL.tick(&mut player, bytes, 69, Shown::new().pair()), Ok(NothingDue));
            (refusal.number, refusal.place)
        };
        let past = bytes.len() as u64 + 1;
        assert_eq!(refused(Player { width: 0, place: past, ..right }, &bytes, 0), (2, 0));
        assert_eq!(refused(Player { place: past, ..right }, &bytes, 0), (1, 0));
        assert_eq!(refused(Player { place: past, ..right }, &bytes, 1), (4, 0));
        for number in [0, 4, u64::MAX] {
            assert_eq!(refused(Player { number, ..right }, &bytes, 1), (4, 0));
        }
        assert_eq!(refused(Player { place: past - 1, ..right }, &bytes, 1), (15, past - 1));
        assert_eq!(refused(Player { place: past - 7, ..right }, &bytes, 1).1, past - 7);
        assert_eq!(refused(right, &bytes[..ENDS[0] as usize + 22], 1), (4, ENDS[0]));
        let mut damaged = bytes.clone();
        damaged[ENDS[0] as usize + 16] = 6;
        assert_eq!(refused(right, &damaged, 1), (7, ENDS[0] + 16));
    }

    #[test]
    fn an_fli_ticks_in_milliseconds() {
        let bytes = blank_fli();
        let pair = || State::blank(64_000);
        let (mut first, mut second) = (pair(), pair());
        let mut player = MODEL.start_player(&bytes, 0, first.work(), second.work()).expect("this reel is right");
        assert_eq!((JIFFIES, player.speed, player.format), (5, 71, 1));
        assert_eq!(MODEL.tick(&mut player, &bytes, 70, first.work()), Ok(NothingDue));
        assert_eq!(MODEL.tick(&mut player, &bytes, 71, first.work()), Ok(Drawn));
        assert_eq!((player.number, player.last), (2, 71));
        player.format = u32::MAX;
        assert_eq!(MODEL.tick(&mut player, &bytes, 142, first.work()), Ok(Drawn));
        player.width = 319;
        assert_eq!(MODEL.tick(&mut player, &bytes, 213, first.work()), Err(Refusal::new(2, 0)));
        player.format = 0;
        assert_eq!(MODEL.tick(&mut player, &bytes, 213, first.work()), Ok(Drawn));
    }

    #[test]
    fn the_end_of_the_bytes_stands_for_the_size() {
        let bytes = [reel(1), frame_of(&[Chunk { kind: kind::COPY, body: vec![9] }])].concat();
        let (mut player, mut shown) = started(&bytes, 0);
        player.place = ENDS[1];
        player.frames = 2;
        assert_eq!(MODEL.tick(&mut player, &bytes, 70, shown.pair()), Ok(Drawn));
        assert_eq!((player.number, player.place, shown.picture[0]), (2, ENDS[2], 9));
    }

    #[test]
    fn a_replay_tells_what_stood() {
        let replayed = |frames, readings: &[u32], words: usize| {
            let mut numbers = vec![99; words];
            let told = MODEL.replay(70, frames, u32::MAX, readings, &mut numbers);
            (told.map_err(|refusal| (refusal.number, refusal.place)), numbers)
        };
        let readings = [0, 69, 300, 300, 300, 278, 347, 348];
        assert_eq!(replayed(2, &readings, 9), (Ok(8), vec![1, 2, 3, 2, 3, 3, 3, 2, 99]));
        assert_eq!(replayed(1, &readings, 8), (Ok(8), vec![1, 2, 2, 2, 2, 2, 2, 2]));
        assert_eq!(replayed(2, &readings, 7), (Err((3, 0)), vec![99; 7]));
        assert_eq!(replayed(0, &readings, 7), (Err((14, 0)), vec![99; 7]));
        assert_eq!(replayed(4_001, &readings, 8), (Err((14, 0)), vec![99; 8]));
        assert_eq!(replayed(4_000, &[], 0), (Ok(0), vec![]));
    }
}
