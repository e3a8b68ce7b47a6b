//! A player that keeps time by a clock that rolls over, and the replay of recorded readings of that clock.

use crate::boundary;
use crate::format::{Format, Milliseconds};
use crate::header::Header;
use crate::refusal::Result;
use crate::state::{Size, State};

/// From this difference to the last draw time on, the clock was set back.
const HALF_RANGE: u32 = 1 << 31;

/// A reel that is played after a clock of milliseconds: whoever has the clock calls [`tick`](Player::tick) with its
/// reading, as often as suits, and shows what is drawn.
///
/// The clock is a counter of 32 bits that rolls over, after 49 days. The bytes may be borrowed or owned.
///
/// ```
/// use flic::{Event, Player, Reel, Size, State};
/// # let size = Size::new(8, 1)?;
/// # let mut reel = Reel::open(size, flic::Milliseconds(200))?;
/// # let mut state = State::blank(size);
/// # for pixel in [10, 20] {
/// #     state.picture.pixels_mut().fill(pixel);
/// #     reel.add(&state)?;
/// # }
/// # let bytes = reel.close()?;
/// // Two frames, of pixels 10 and 20, that show for 200 milliseconds each.
/// let mut player = Player::start(&bytes, u32::MAX - 99)?;
/// assert_eq!((player.number(), player.shown().picture.pixels()[0]), (1, 10));
///
/// // The clock rolls over: 199 and then 200 milliseconds are gone.
/// assert_eq!(player.tick(99)?, Event::Nothing);
/// assert_eq!(player.tick(100)?, Event::Drawn);
/// assert_eq!((player.number(), player.shown().picture.pixels()[0]), (2, 20));
///
/// // A late tick draws one frame; the next catches up. The ring leads to frame 2.
/// assert_eq!((player.tick(555)?, player.number(), player.is_ring()), (Event::Drawn, 3, true));
/// assert_eq!((player.tick(556)?, player.number(), player.is_ring()), (Event::Drawn, 2, false));
/// assert_eq!((player.tick(557)?, player.wait(557)), (Event::Nothing, 143));
/// # Ok::<(), flic::Refused>(())
/// ```
#[derive(Clone, Debug)]
pub struct Player<B> {
    bytes: B,
    record: boundary::Player,
    shown: State,
}

/// What a tick did.
#[derive(Clone, Copy, Debug, PartialEq, Eq, Hash)]
pub enum Event {
    /// Less time than the speed has gone by since the last draw time.
    Nothing,
    /// The next frame shows.
    Drawn,
    /// The reading lies half the clock's range or more past the last draw time, so that it is taken to lie before it.
    /// Nothing was drawn, and the time of the frame that shows begins anew.
    SetBack,
}

impl<B: AsRef<[u8]>> Player<B> {
    /// Checks the whole reel as [`check_reel`](crate::check_reel) does, and shows frame 1, drawn at the reading `now`.
    pub fn start(bytes: B, now: u32) -> Result<Player<B>> {
        let reel = bytes.as_ref();
        // What is refused here, the start would refuse the same way: it reads the header first.
        let header = Header::read(reel)?;
        let size = Size::new(header.width, header.height)?;
        let (mut shown, mut second) = (State::blank(size), State::blank(size));
        let record = boundary::start_player(reel, now, shown.lent_mut(), second.lent_mut())?;
        Ok(Player { bytes, record, shown })
    }

    /// One tick: draws the next frame if the speed has gone by between the last draw time and the reading `now`, and
    /// never more than one. After the ring comes frame 2, or the ring again in a reel of one frame.
    ///
    /// The last draw time then moves on by the speed, and not to the reading, so that a late tick shifts no later frame.
    /// Refused only where the bytes aren't those that the player was started on; a refusal changes nothing.
    pub fn tick(&mut self, now: u32) -> Result<Event> {
        match boundary::tick(&mut self.record, self.bytes.as_ref(), now, self.shown.lent_mut())? {
            0 => Ok(Event::Nothing),
            1 => Ok(Event::Drawn),
            2 => Ok(Event::SetBack),
            event => panic!("libcapi.a gave event {event}, which this edition of the crate doesn't know"),
        }
    }
}

impl<B> Player<B> {
    /// The picture and palette that show.
    pub fn shown(&self) -> &State {
        &self.shown
    }

    /// The number of the frame that shows, counted from 1; the ring has the number after the last frame's.
    pub fn number(&self) -> usize {
        self.record.number as usize
    }

    /// How many frames there are, the ring not counted.
    pub fn frames(&self) -> usize {
        self.record.frames as usize
    }

    /// Whether the ring shows, which is frame 1's picture again and the end of a lap.
    pub fn is_ring(&self) -> bool {
        self.record.number > self.record.frames
    }

    /// The format of the reel.
    pub fn format(&self) -> Format {
        boundary::format_of(self.record.format)
    }

    /// For how long a frame shows, in an FLI too: 0 is a frame at each tick, half the clock's range or more is for ever.
    pub fn speed(&self) -> Milliseconds {
        Milliseconds(self.record.speed)
    }

    /// Sets another speed than the reel's own, from the frame that shows on.
    pub fn set_speed(&mut self, speed: Milliseconds) {
        self.record.speed = speed.0;
    }

    /// For how many milliseconds, from this reading on, ticks do nothing: a caller can sleep as long. 0 where the next
    /// tick draws a frame or finds the clock set back.
    pub fn wait(&self, now: u32) -> u32 {
        let until = self.record.speed.min(HALF_RANGE);
        until.saturating_sub(now.wrapping_sub(self.record.last))
    }
}

/// Replays recorded readings: the number of the frame that shows after each, as a [`Player`] has it that was started at
/// the reading `start` on a reel with this speed and so many frames. Refused 14 where these aren't 1 to 4,000.
///
/// ```
/// use flic::{replay, Milliseconds};
/// // 3 frames of 100 milliseconds; the ring is number 4, and leads to frame 2.
/// let numbers = replay(Milliseconds(100), 3, 5_000, &[5_099, 5_100, 5_250, 5_300, 5_400, 5_500])?;
/// assert_eq!(numbers, [1, 2, 3, 4, 2, 3]);
/// assert_eq!(replay(Milliseconds(100), 0, 5_000, &[]).unwrap_err().refusal.number(), 14);
/// # Ok::<(), flic::Refused>(())
/// ```
pub fn replay(speed: Milliseconds, frames: usize, start: u32, readings: &[u32]) -> Result<Vec<usize>> {
    let mut numbers = vec![0; readings.len()];
    let written = boundary::replay(speed.0, frames, start, readings, &mut numbers)?;
    Ok(numbers[..written].iter().map(|number| *number as usize).collect())
}

#[cfg(test)]
mod tests {
    use super::*;
    use crate::checked::CheckedReel;
    use crate::format::Jiffies;
    use crate::reel::{Reel, MOST_FRAMES};
    use crate::refusal::{Refusal, Refused};
    use std::cell::Cell;
    use std::rc::Rc;

    fn reel(frames: u8, speed: u32) -> Vec<u8> {
        let size = Size::new(7, 3).expect("a size that is taken");
        filled(Reel::open(size, Milliseconds(speed)).expect("a reel"), frames)
    }

    /// The reel with so many frames, closed.
    fn filled(mut reel: Reel, frames: u8) -> Vec<u8> {
        let size = reel.size();
        for number in 1..=frames {
            let mut state = State::blank(size);
            state.picture.pixels_mut()[..usize::from(number)].fill(number);
            state.palette.set_colour(number, [number, 100, 200]);
            reel.add(&state).expect("a frame");
        }
        reel.close().expect("a file")
    }

    /// Readings that step on by up to twice the speed, now and then leap by about half the range, and roll over often.
    fn readings(seed: u32, speed: u32, count: usize) -> Vec<u32> {
        let (mut word, mut now) = (seed, 0u32.wrapping_sub(3 * speed));
        let mut readings = Vec::new();
        for _ in 0..count {
            word = word.wrapping_mul(1_664_525).wrapping_add(1_013_904_223);
            let step = (word >> 8) % (2 * speed + 2);
            now = match word >> 28 {
                0 => now.wrapping_sub(step),
                1 => now.wrapping_add(HALF_RANGE - 2 * speed + (word >> 8) % (4 * speed + 1)),
                2 => now,
                _ => now.wrapping_add(step),
            };
            readings.push(now);
        }
        readings
    }

    /// The request's words in plain numbers, without the codec: which number shows after each reading.
    fn plain(speed: u32, frames: usize, start: u32, readings: &[u32]) -> Vec<usize> {
        const RANGE: i64 = 1 << 32;
        let (mut number, mut last) = (1, i64::from(start));
        let after = |reading: &u32| {
            let elapsed = (i64::from(*reading) - last).rem_euclid(RANGE);
            if elapsed >= RANGE / 2 {
                last = i64::from(*reading);
            } else if elapsed >= i64::from(speed) {
                number = if number == frames + 1 { 2 } else { number + 1 };
                last = (last + i64::from(speed)) % RANGE;
            }
            number
        };
        readings.iter().map(after).collect()
    }

    #[test]
    fn what_shows_is_the_frame_of_the_number_lap_after_lap() -> Result<()> {
        for frames in 1..=4 {
            let bytes = reel(frames, 40);
            let checked = CheckedReel::new(&bytes)?;
            let mut player = Player::start(&bytes, 7)?;
            for (at, frame) in checked.laps().take(20).enumerate() {
                let due = 7 + 40 * at as u32;
                let event = if at == 0 { Event::Nothing } else { Event::Drawn };
                assert_eq!(player.tick(due)?, event);
                assert_eq!((player.number(), player.is_ring()), (frame.number, frame.is_ring));
                assert_eq!(player.shown(), &frame.state, "{frames}: {at}");
                assert_eq!(player.tick(due + 39)?, Event::Nothing);
            }
        }
        Ok(())
    }

    #[test]
    fn a_live_player_and_a_replay_follow_the_request() -> Result<()> {
        for (seed, speed, frames) in [(1, 100, 3), (2, 1, 1), (3, 0, 2), (4, 70_000, 5), (5, 33, 1)] {
            let bytes = reel(frames, speed);
            let readings = readings(seed, speed, 3_000);
            let expected = plain(speed, frames.into(), readings[0], &readings);
            assert_eq!(
                replay(Milliseconds(speed), frames.into(), readings[0], &readings)?,
                expected,
                "{speed}, {frames}"
            );
            let mut player = Player::start(&bytes, readings[0])?;
            let shown: Vec<State> = CheckedReel::new(&bytes)?.frames().map(|frame| frame.state).collect();
            let mut met = [0; 3];
            for (reading, number) in readings.iter().zip(expected) {
                met[player.tick(*reading)? as usize] += 1;
                assert_eq!(player.number(), number);
                assert_eq!(player.shown(), &shown[number - 1]);
            }
            assert!(met[1] > 100 && met[2] > 100 && (met[0] > 100 || speed == 0), "{speed}: {met:?}");
        }
        Ok(())
    }

    #[test]
    fn an_fli_is_played_by_milliseconds() -> Result<()> {
        let bytes = filled(Reel::open_fli(Jiffies(18))?, 3);
        let shown: Vec<State> = CheckedReel::new(&bytes)?.frames().map(|frame| frame.state).collect();
        let mut player = Player::start(&bytes, 1_000)?;
        assert_eq!((player.format(), player.speed()), (Format::Fli, Milliseconds(257)));
        for (lap, number) in (0..3).flat_map(|lap| (2..=4).map(move |number| (lap, number))) {
            let due = 1_000 + 257 * (3 * lap + number as u32 - 1);
            assert_eq!((player.tick(due - 1)?, player.tick(due)?), (Event::Nothing, Event::Drawn));
            assert_eq!((player.number(), player.shown()), (number, &shown[number - 1]));
        }
        Ok(())
    }

    #[test]
    fn speeds_from_half_the_range_on_draw_nothing() -> Result<()> {
        let readings: Vec<u32> = (0..64).map(|at| at << 26).collect();
        assert_eq!(replay(Milliseconds(HALF_RANGE), 2, 0, &readings)?, [1; 64]);
        let around = [HALF_RANGE - 2, HALF_RANGE - 1, HALF_RANGE];
        assert_eq!(replay(Milliseconds(HALF_RANGE - 1), 2, 0, &around)?, [1, 2, 2]);
        let mut player = Player::start(reel(2, u32::MAX), 0)?;
        assert_eq!((player.tick(HALF_RANGE - 1)?, player.tick(HALF_RANGE)?), (Event::Nothing, Event::SetBack));
        assert_eq!((player.number(), player.speed()), (1, Milliseconds(u32::MAX)));
        Ok(())
    }

    #[test]
    fn nothing_happens_as_long_as_one_has_to_wait() -> Result<()> {
        for speed in [0, 1, 100, 1 << 20, HALF_RANGE - 1, HALF_RANGE, u32::MAX] {
            let mut player = Player::start(reel(2, 100), 50)?;
            player.set_speed(Milliseconds(speed));
            for now in [50, 51, 149, 150, 20_000, 49, 50 + HALF_RANGE - 1, 50 + HALF_RANGE, u32::MAX] {
                let wait = player.wait(now);
                if wait > 0 {
                    assert_eq!(player.clone().tick(now.wrapping_add(wait - 1))?, Event::Nothing, "{speed}, {now}");
                }
                assert_ne!(player.clone().tick(now.wrapping_add(wait))?, Event::Nothing, "{speed}, {now}");
            }
        }
        Ok(())
    }

    #[test]
    fn another_speed_counts_from_the_frame_that_shows_on() -> Result<()> {
        let mut player = Player::start(reel(3, 1_000), 0)?;
        assert_eq!((player.frames(), player.speed()), (3, Milliseconds(1_000)));
        assert_eq!(player.tick(500)?, Event::Nothing);
        player.set_speed(Milliseconds(200));
        let events = [player.tick(500)?, player.tick(500)?, player.tick(500)?];
        assert_eq!((events, player.number()), ([Event::Drawn, Event::Drawn, Event::Nothing], 3));
        Ok(())
    }

    #[test]
    fn a_start_is_refused_as_the_check_is() {
        let mut bytes = reel(3, 40);
        let ring = CheckedReel::new(&bytes).expect("a reel").frame_chunks()[3];
        bytes[ring.offset + 6] = 0;
        let refused = Refused { refusal: Refusal::BadRing, place: ring.offset as u64 };
        assert_eq!(Player::start(&bytes, 0).unwrap_err(), refused);
        assert_eq!(Player::start(&bytes[..9], 0).unwrap_err(), Refused { refusal: Refusal::Cut, place: 0 });
    }

    /// Bytes that are cut short once someone says so.
    #[derive(Debug)]
    struct Shrinking {
        bytes: Vec<u8>,
        length: Rc<Cell<usize>>,
    }

    impl AsRef<[u8]> for Shrinking {
        fn as_ref(&self) -> &[u8] {
            &self.bytes[..self.length.get()]
        }
    }

    #[test]
    fn a_refused_tick_changes_nothing() -> Result<()> {
        let bytes = reel(3, 40);
        let (whole, first) = (bytes.len(), CheckedReel::new(&bytes)?.frame_chunks()[0]);
        let length = Rc::new(Cell::new(whole));
        let mut player = Player::start(Shrinking { bytes, length: Rc::clone(&length) }, 0)?;
        let before = player.shown().clone();

        length.set(first.end());
        let refused = Refused { refusal: Refusal::FewFrames, place: first.end() as u64 };
        assert_eq!((player.tick(39), player.tick(40)), (Ok(Event::Nothing), Err(refused)));
        length.set(first.end() - 1);
        assert_eq!(player.tick(79), Err(Refused { refusal: Refusal::Cut, place: 0 }));
        assert_eq!((player.shown(), player.number(), player.wait(30)), (&before, 1, 10));

        length.set(whole);
        assert_eq!((player.tick(79)?, player.number(), player.wait(79)), (Event::Drawn, 2, 1));
        Ok(())
    }

    #[test]
    fn a_replay_takes_as_many_frames_as_a_reel_has() -> Result<()> {
        let refused = Err(Refused { refusal: Refusal::BadHeader, place: 0 });
        let one = |frames, readings: &[u32]| replay(Milliseconds(1), frames, 0, readings);
        assert_eq!((one(0, &[1]), one(MOST_FRAMES + 1, &[1])), (refused.clone(), refused));
        let readings: Vec<u32> = (1..=4_002).collect();
        let numbers = one(MOST_FRAMES, &readings)?;
        assert_eq!(numbers[3_998..], [4_000, 4_001, 2, 3]);
        assert_eq!(one(1, &[])?, []);
        Ok(())
    }
}
