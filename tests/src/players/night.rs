//! A night: fourteen hours of ticks through the roll-over, a live player against the model tick by tick, and then a replay
//! of all the readings against both.

use super::make::Whole;
use crate::model::{Event, Format, MODEL};
use crate::reels::loose_reel::Loose;
use crate::rng::Rng;
use crate::runner::calls::{ReplayCase, StartCase, TickCase};
use crate::runner::compare::Subject;
use crate::runner::lent::{bytes_of, Lent, PlayerIn, Record};
use crate::runner::told::{Rest, Told};
use crate::sizes::exact;
use crate::states::{any_state, State};
use flic_boundary::Player;

/// Fourteen hours, in milliseconds.
pub const NIGHT: u32 = 14 * 60 * 60 * 1_000;
const SPEED: u32 = 70;
/// The longest time between two ticks.
const LONGEST_STEP: u32 = 40;
const FRAMES: usize = 7;

/// What a night came to.
#[derive(Clone, Copy, Debug, PartialEq, Eq)]
pub struct Night {
    pub ticks: usize,
    pub draws: u64,
    /// How far the last draw time is from the start plus a speed for each draw.
    pub drift: u32,
    /// How long before the last reading the last draw time is.
    pub behind: u32,
}

/// One side of the night: the slices that its ticks are lent, which stay where they are.
struct Side<'a> {
    subject: &'a dyn Subject,
    /// The record, the reel, the picture and the palette.
    slices: [Vec<u8>; 4],
}

impl Side<'_> {
    /// Starts a player, and ticks with the first pair.
    fn started<'a>(subject: &'a dyn Subject, start: &StartCase) -> Result<Side<'a>, String> {
        let StartCase { bytes, first, second, .. } = start.clone();
        let mut slices = [bytes, first.picture, first.palette, second.picture, second.palette];
        let told = subject.call(start, &mut Lent::of(&mut slices));
        let (0, Rest::Player(player)) = (told.number, told.rest) else {
            return Err(format!("the start is refused: {told:?}"));
        };
        let [bytes, picture, palette, ..] = slices;
        Ok(Side { subject, slices: [bytes_of(&[Record::from(player)]).to_vec(), bytes, picture, palette] })
    }

    fn tick(&mut self, tick: &TickCase) -> Told {
        self.subject.call(tick, &mut Lent::of(&mut self.slices))
    }

    fn player(&mut self) -> Player {
        *PlayerIn::of(&mut self.slices[0])
    }

    /// The numbers of a replay.
    fn replayed(&self, replay: &ReplayCase) -> (Told, Vec<u8>) {
        let mut slices = [bytes_of(&replay.readings).to_vec(), bytes_of(&replay.numbers).to_vec()];
        let told = self.subject.call(replay, &mut Lent::of(&mut slices));
        let [_, numbers] = slices;
        (told, numbers)
    }
}

/// A reel of seven frames with other chunks between them.
fn reel(rng: &mut Rng) -> Whole {
    let mut loose = Loose::ringed(rng, Format::Flc, 12, 5, FRAMES);
    loose.add_others(rng);
    Whole::of(loose.bytes()).at_speed(SPEED)
}

/// Ticks every 5 to 40 milliseconds for so long, the roll-over coming in the middle. Every answer, record and picture must
/// be the model's, every picture that of the frame that stands, and every number the replay's; else tells where they part.
pub fn night(subject: &dyn Subject, length: u32, seed: u64) -> Result<Night, String> {
    let rng = &mut Rng::new(seed);
    let whole = reel(rng);
    let start = 0u32.wrapping_sub(length / 2);
    let pair = |rng: &mut Rng| any_state(rng, exact(whole.header.width * whole.header.height));
    let (first, second) = (pair(rng), pair(rng));
    let started = StartCase { bytes: whole.bytes.clone(), now: start, first, second };
    let (mut live, mut model) = (Side::started(subject, &started)?, Side::started(&MODEL, &started)?);
    let nothing = State { picture: Vec::new(), palette: Vec::new() };
    let mut tick = TickCase { player: Player::default().into(), bytes: Vec::new(), now: start, shown: nothing };
    let (mut readings, mut numbers) = (Vec::new(), Vec::new());
    let (mut elapsed, mut draws) = (0, 0);
    loop {
        elapsed += rng.between(5, LONGEST_STEP as usize) as u32;
        if elapsed > length {
            break;
        }
        tick.now = start.wrapping_add(elapsed);
        let (told, wanted) = (live.tick(&tick), model.tick(&tick));
        let player = live.player();
        if told != wanted || live.slices != model.slices {
            return Err(format!(
                "tick {} at reading {}: {told:?} and {player:?}, the model {wanted:?} and {:?}, or what they left",
                readings.len() + 1,
                tick.now,
                model.player()
            ));
        }
        if told.rest == Rest::Event(Event::Drawn as u32) {
            let state = &whole.states[(player.number as usize - 1) % FRAMES];
            if live.slices[2] != state.picture || live.slices[3] != state.palette {
                return Err(format!("frame {} at reading {} shows something else", player.number, tick.now));
            }
            draws += 1;
        }
        readings.push(tick.now);
        numbers.push(player.number as u32);
    }
    let ticks = readings.len();
    let words = vec![!0; ticks];
    let replay = ReplayCase { speed: SPEED, frames: FRAMES as u64, start, readings, numbers: words };
    for side in [&live, &model] {
        let (told, replayed) = side.replayed(&replay);
        if told != Told::done(Rest::Length(ticks as u64)) || replayed != bytes_of(&numbers) {
            return Err(format!("a replay of the night tells other numbers: {told:?}"));
        }
    }
    let last = live.player().last;
    let kept = (u64::from(start) + draws * u64::from(SPEED)) as u32;
    Ok(Night { ticks, draws, drift: last.wrapping_sub(kept), behind: tick.now.wrapping_sub(last) })
}

/// Whether the player kept time.
pub fn kept_time(night: &Night) -> bool {
    night.drift == 0 && night.behind < SPEED
}

#[cfg(test)]
mod tests {
    use super::*;
    use crate::model::player::Players;
    use crate::model::{Document, Model};

    struct Drifting;

    impl Players for Drifting {
        fn moved_on(&self, _last: u32, _speed: u32, now: u32) -> u32 {
            now
        }
    }

    #[test]
    fn a_short_night_keeps_time() {
        let length = 60 * 1_000;
        let Ok(night) = night(&MODEL, length, 1) else { panic!("the model agrees with itself") };
        assert!(kept_time(&night), "{night:?}");
        // The last reading lies up to a step before the end.
        assert!(
            (length - LONGEST_STEP) / SPEED <= night.draws as u32 && night.draws as u32 <= length / SPEED,
            "{night:?}"
        );
    }

    #[test]
    fn drift_is_seen() {
        assert!(night(&Model { players: &Drifting, ..MODEL }, 1_000, 1).is_err());
        let right = Night { ticks: 3, draws: 2, drift: 0, behind: 69 };
        assert!(
            kept_time(&right) && !kept_time(&Night { drift: 1, ..right }) && !kept_time(&Night { behind: 70, ..right })
        );
    }

    #[test]
    fn a_replay_that_tells_other_numbers_is_seen() {
        struct Shifted;
        impl Players for Shifted {
            fn replay(
                &self,
                model: &Model,
                speed: u32,
                frames: u64,
                start: u32,
                readings: &[u32],
                numbers: &mut [u32],
            ) -> Result<usize, crate::model::Refusal> {
                Document.replay(model, speed, frames, start.wrapping_sub(1), readings, numbers)
            }
        }
        let told = night(&Model { players: &Shifted, ..MODEL }, 10_000, 1);
        assert!(told.is_err_and(|what| what.starts_with("a replay of the night")));
    }
}
