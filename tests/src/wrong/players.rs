//! Other ways to keep time, to start a player, to tick it and to replay readings.

use super::{readings, rules};
use crate::model::player::{ring, Players, Standing};
use crate::model::{
    accepted_size, field, long_enough, number, require, size_at, Document, Event, Model, Refusal, FILE_HEADER,
    MAX_FRAMES, PALETTE_BYTES,
};
use crate::states::State;
use flic_boundary::{PairMut, Player};

rules! { Players;
    OtherDifference: difference(last: u32, now: u32) -> u64;
    OtherEvent: event(speed: u32, last: u32, now: u32) -> Event;
    OtherSetBack: set_back(last: u32, now: u32) -> u32;
    OtherMovedOn: moved_on(last: u32, speed: u32, now: u32) -> u32;
    OtherFollows: follows(number: u64, frames: u64) -> u128;
    OtherStep: step(stands: Standing, frames: u64, speed: u32, now: u32) -> (Event, Standing);
    OtherStartPlayer: start_player(
        model: &Model, bytes: &[u8], now: u32, first: PairMut, second: PairMut
    ) -> Result<Player, Refusal>;
    OtherTick: tick(
        model: &Model, player: &mut Player, bytes: &[u8], now: u32, shown: PairMut
    ) -> Result<Event, Refusal>;
    OtherDraw: draw(model: &Model, player: &Player, bytes: &[u8], shown: PairMut) -> Result<usize, Refusal>;
    OtherRecordFits: record_fits(player: &Player, length: u64) -> Result<(), Refusal>;
    OtherEnd: end(bytes: &[u8]) -> usize;
    OtherPlaceAfter: place_after(player: &Player, end: u64) -> u64;
    OtherReplay: replay(
        model: &Model, speed: u32, frames: u64, start: u32, readings: &[u32], numbers: &mut [u32]
    ) -> Result<usize, Refusal>;
}

const HALF: u64 = 1 << 31;

// What a live player and a replay can both do wrong.
readings! { CLOCKS: Players;
    DifferenceOtherWayRound = OtherDifference(|last, now| Document.difference(now, last));
    DifferenceStopsAtRollOver = OtherDifference(|last, now| u64::from(now.saturating_sub(last)));
    SpeedItselfNotDue = OtherEvent(|speed, last, now| match Document.event(speed, last, now) {
        Event::Drawn if Document.difference(last, now) == u64::from(speed) => Event::NothingDue,
        event => event,
    });
    SpeedZeroNeverDue = OtherEvent(|speed, last, now| match Document.event(speed, last, now) {
        Event::Drawn if speed == 0 => Event::NothingDue,
        event => event,
    });
    HalfTheRangeElapsed = OtherEvent(|speed, last, now| match Document.difference(last, now) {
        HALF if u64::from(speed) <= HALF => Event::Drawn,
        HALF => Event::NothingDue,
        _ => Document.event(speed, last, now),
    });
    OneLessThanHalfSetBack = OtherEvent(|speed, last, now| match Document.difference(last, now) + 1 {
        HALF => Event::SetBack,
        _ => Document.event(speed, last, now),
    });
    SetBackDraws = OtherEvent(|speed, last, now| match Document.event(speed, last, now) {
        Event::SetBack => Event::Drawn,
        event => event,
    });
    SetBackIgnored = OtherSetBack(|last, _| last);
    DrawTimeIsReading = OtherMovedOn(|_, _, now| now);
    ReadingAdded = OtherMovedOn(|last, _, now| last.wrapping_add(now));
    DrawTimeStopsAtRollOver = OtherMovedOn(|last, speed, _| last.saturating_add(speed));
    RingFollowedByFrame1 = OtherFollows(|number, frames| {
        if u128::from(number) >= ring(frames) {
            return 1;
        }
        Document.follows(number, frames)
    });
    RingOfOneFrameFollowedByIt = OtherFollows(|number, frames| match (number, frames) {
        (2, 1) => 1,
        _ => Document.follows(number, frames),
    });
    RingLeftOut = OtherFollows(|number, frames| {
        if number == frames {
            return 1;
        }
        Document.follows(number, frames)
    });
    AllDueAtOnce = OtherStep(|stands, frames, speed, now| {
        let (event, mut stands) = Document.step(stands, frames, speed, now);
        if event == Event::Drawn && speed > 0 && Document.event(speed, stands.last, now) == Event::Drawn {
            (_, stands) = Document.step(stands, frames, speed, now);
        }
        (event, stands)
    });
}

/// A lent pair as it is.
fn held(shown: &PairMut) -> State {
    State { picture: shown.picture.to_vec(), palette: shown.palette.to_vec() }
}

// What a tick can do wrong besides.
readings! { TICKS: Players;
    SpeedBeforeHalfTheRange = OtherEvent(|speed, last, now| {
        if Document.difference(last, now) < u64::from(speed) {
            return Event::NothingDue;
        }
        Document.event(speed, last, now)
    });
    RingsEndKept = OtherPlaceAfter(|_, end| end);
    RingsPlaceAfterEveryFrame = OtherPlaceAfter(|player, _| player.first_end);
    NumberOf32Bits = OtherFollows(|number, frames| Document.follows(number, frames) & u128::from(u32::MAX));
    RefusedTickMovesDrawTime = OtherTick(|model, player, bytes, now, shown| {
        let (speed, last) = (player.speed, player.last);
        Document.tick(model, player, bytes, now, shown).inspect_err(|_| {
            player.last = Document.moved_on(last, speed, now);
        })
    });
    RefusedTickMovesNumber = OtherTick(|model, player, bytes, now, shown| {
        Document.tick(model, player, bytes, now, shown).inspect_err(|_| {
            player.number = Document.follows(player.number, player.frames) as u64;
        })
    });
    ChecksWhenNothingIsDue = OtherTick(|model, player, bytes, now, shown| {
        accepted_size(model.formats.told(player.format), player.width, player.height)?;
        Document.record_fits(player, bytes.len() as u64)?;
        Document.tick(model, player, bytes, now, shown)
    });
    SlicesBeforeSize = OtherDraw(|model, player, bytes, shown| {
        let pixels = player.width.saturating_mul(player.height);
        let fits = shown.picture.len() as u64 >= pixels && shown.palette.len() >= PALETTE_BYTES;
        require(fits, number::SHORT_SLICE, 0)?;
        Document.draw(model, player, bytes, shown)
    });
    RecordBeforeTickSlices = OtherDraw(|model, player, bytes, shown| {
        accepted_size(model.formats.told(player.format), player.width, player.height)?;
        Document.record_fits(player, bytes.len() as u64)?;
        Document.draw(model, player, bytes, shown)
    });
    RecordFaultAtPlace = OtherRecordFits(|player, length| {
        let at_place = |refusal| Refusal { place: player.place, ..refusal };
        Document.record_fits(player, length).map_err(at_place)
    });
    RecordFaultAtBytesEnd = OtherRecordFits(|player, length| {
        Document.record_fits(player, length).map_err(|refusal| Refusal { place: length, ..refusal })
    });
    RingsNumberRefused = OtherRecordFits(|player, length| {
        require(player.number <= player.frames, number::CUT_SHORT, 0)?;
        Document.record_fits(player, length)
    });
    NumberPastRingAccepted = OtherRecordFits(|player, length| {
        Document.record_fits(&Player { number: player.number.min(1), ..*player }, length)
    });
    Number0Accepted = OtherRecordFits(|player, length| {
        Document.record_fits(&Player { number: player.number.max(1), ..*player }, length)
    });
    PlaceAtBytesEndRefused = OtherRecordFits(|player, length| {
        require(player.place != length, number::CUT_SHORT, 0)?;
        Document.record_fits(player, length)
    });
    PlacePastBytesIs15 = OtherRecordFits(|player, length| {
        require(player.place <= length, number::FRAME_MISSING, length as usize)?;
        Document.record_fits(player, length)
    });
    PlaceInHeaderRefused = OtherRecordFits(|player, length| {
        require(player.place >= FILE_HEADER as u64, number::CUT_SHORT, 0)?;
        Document.record_fits(player, length)
    });
    FramesOfRecordRefused = OtherRecordFits(|player, length| {
        require((1..=MAX_FRAMES).contains(&player.frames), number::BAD_FILE_HEADER, 0)?;
        Document.record_fits(player, length)
    });
    BytesEndAtSize = OtherEnd(|bytes| {
        if bytes.len() < FILE_HEADER {
            return bytes.len();
        }
        size_at(bytes, field::SIZE).min(bytes.len())
    });
    TickedRingCompared = OtherDraw(|model, player, bytes, shown| {
        let before = held(&shown);
        let again = PairMut { picture: &mut *shown.picture, palette: &mut *shown.palette };
        let end = Document.draw(model, player, bytes, again)?;
        let mut first = State::blank((player.width * player.height) as usize);
        let is_ring = Document.follows(player.number, player.frames) == ring(player.frames);
        let read = model.next_frame(bytes, FILE_HEADER as u64).and_then(|frame| {
            model.read_frame(&bytes[frame.start..frame.end], player.format, player.width, player.height, first.work())
        });
        let shows = shown.picture.starts_with(&first.picture) && shown.palette.starts_with(&first.palette);
        if is_ring && read.is_ok() && !shows {
            shown.picture.copy_from_slice(&before.picture);
            shown.palette.copy_from_slice(&before.palette);
            return Err(Refusal { number: number::RING_ASTRAY, place: player.place });
        }
        Ok(end)
    });
    FrameReadAgainstBlank = OtherDraw(|model, player, bytes, shown| {
        let before = held(&shown);
        let (width, height) = accepted_size(model.formats.told(player.format), player.width, player.height)?;
        long_enough(width * height, &[&*shown.picture], &[&*shown.palette])?;
        shown.picture[..width * height].fill(0);
        let again = PairMut { picture: &mut *shown.picture, palette: &mut *shown.palette };
        Document.draw(model, player, bytes, again).inspect_err(|_| {
            shown.picture.copy_from_slice(&before.picture);
            shown.palette.copy_from_slice(&before.palette);
        })
    });
}

/// A started player, altered.
type Altered = fn(Player) -> Player;

fn started(
    model: &Model,
    bytes: &[u8],
    now: u32,
    pairs: (PairMut, PairMut),
    altered: Altered,
) -> Result<Player, Refusal> {
    Document.start_player(model, bytes, now, pairs.0, pairs.1).map(altered)
}

// What a start can do wrong besides.
readings! { STARTS: Players;
    SecondPairShown = OtherStartPlayer(|model, bytes, now, first, second| {
        Document.start_player(model, bytes, now, second, first)
    });
    StartedAtReading0 = OtherStartPlayer(|model, bytes, now, first, second| {
        started(model, bytes, now, (first, second), |player| Player { last: 0, ..player })
    });
    StartedOneSpeedAgo = OtherStartPlayer(|model, bytes, now, first, second| {
        let due = |player: Player| Player { last: player.last.wrapping_sub(player.speed), ..player };
        started(model, bytes, now, (first, second), due)
    });
    FramesNumberedFrom0 = OtherStartPlayer(|model, bytes, now, first, second| {
        started(model, bytes, now, (first, second), |player| Player { number: 0, ..player })
    });
    RingCountedInRecord = OtherStartPlayer(|model, bytes, now, first, second| {
        started(model, bytes, now, (first, second), |player| Player { frames: player.frames + 1, ..player })
    });
    Frame1StillToCome = OtherStartPlayer(|model, bytes, now, first, second| {
        started(model, bytes, now, (first, second), |player| Player { place: FILE_HEADER as u64, ..player })
    });
    Frame1AtHeadersEnd = OtherStartPlayer(|model, bytes, now, first, second| {
        let player = Document.start_player(model, bytes, now, first, second)?;
        let end = (FILE_HEADER + size_at(bytes, FILE_HEADER)) as u64;
        Ok(Player { place: end, first_end: end, ..player })
    });
    PairsAsFoundAtRefusedStart = OtherStartPlayer(|model, bytes, now, first, second| {
        let (mut one, mut other) = (held(&first), held(&second));
        Document.start_player(model, bytes, now, one.work(), other.work())?;
        Document.start_player(model, bytes, now, first, second)
    });
}

// What a replay can do wrong besides.
readings! { REPLAYS: Players;
    WordsBeforeFrames = OtherReplay(|model, speed, frames, start, readings, numbers| {
        require(numbers.len() >= readings.len(), number::SHORT_OUTPUT, 0)?;
        Document.replay(model, speed, frames, start, readings, numbers)
    });
    OneWordMoreNeeded = OtherReplay(|model, speed, frames, start, readings, numbers| {
        let told = Document.replay(model, speed, frames, start, readings, &mut numbers.to_vec())?;
        require(numbers.len() > told, number::SHORT_OUTPUT, 0)?;
        Document.replay(model, speed, frames, start, readings, numbers)
    });
    ReplayedUpToRoom = OtherReplay(|model, speed, frames, start, readings, numbers| {
        let room = numbers.len().min(readings.len());
        let _ = Document.replay(model, speed, frames, start, &readings[..room], numbers);
        Document.replay(model, speed, frames, start, readings, numbers)
    });
    RestOfWordsCleared = OtherReplay(|model, speed, frames, start, readings, numbers| {
        let told = Document.replay(model, speed, frames, start, readings, numbers)?;
        numbers[told..].fill(0);
        Ok(told)
    });
    LengthInBytes = OtherReplay(|model, speed, frames, start, readings, numbers| {
        Document.replay(model, speed, frames, start, readings, numbers).map(|told| 4 * told)
    });
    StoodBeforeTick = OtherReplay(|model, speed, frames, start, readings, numbers| {
        let told = Document.replay(model, speed, frames, start, readings, numbers)?;
        numbers[..told].rotate_right(1.min(told));
        numbers[..told.min(1)].fill(1);
        Ok(told)
    });
    RingToldAsFrame1 = OtherReplay(|model, speed, frames, start, readings, numbers| {
        let told = Document.replay(model, speed, frames, start, readings, numbers)?;
        numbers[..told].iter_mut().filter(|number| u128::from(**number) == ring(frames)).for_each(|number| *number = 1);
        Ok(told)
    });
    StartIsFirstReading = OtherReplay(|model, speed, frames, start, readings, numbers| {
        let start = readings.first().copied().unwrap_or(start);
        Document.replay(model, speed, frames, start, readings, numbers)
    });
}

/// A player that is taken for one of another format while it is ticked.
fn ticked_as(
    model: &Model,
    player: &mut Player,
    bytes: &[u8],
    (now, format): (u32, u32),
    shown: PairMut,
) -> Result<Event, Refusal> {
    let own = std::mem::replace(&mut player.format, format);
    let answer = Document.tick(model, player, bytes, now, shown);
    player.format = own;
    answer
}

// What a tick of an FLI can do wrong.
readings! { FLI_TICKS: Players;
    FliTickedAsFlc = OtherTick(|model, player, bytes, now, shown| ticked_as(model, player, bytes, (now, 0), shown));
    TickedByMagic = OtherTick(|model, player, bytes, now, shown| {
        let format = u32::from(bytes.len() >= FILE_HEADER && size_at(bytes, field::MAGIC) & 0xFFFF == 0xAF11);
        ticked_as(model, player, bytes, (now, format), shown)
    });
    FormatMadeRightByTick = OtherTick(|model, player, bytes, now, shown| {
        let event = Document.tick(model, player, bytes, now, shown)?;
        player.format = player.format.min(1);
        Ok(event)
    });
    FormatForgottenByTick = OtherTick(|model, player, bytes, now, shown| {
        let event = Document.tick(model, player, bytes, now, shown)?;
        player.format = 0;
        Ok(event)
    });
    FliTicksInJiffies = OtherEvent(|speed, last, now| {
        Document.event((u64::from(speed) * 70).div_ceil(1_000) as u32, last, now)
    });
}

// What a start of an FLI can do wrong.
readings! { FLI_STARTS: Players;
    FormatLeftOutAtStart = OtherStartPlayer(|model, bytes, now, first, second| {
        started(model, bytes, now, (first, second), |player| Player { format: 0, ..player })
    });
    SpeedOfFliInJiffies = OtherStartPlayer(|model, bytes, now, first, second| {
        let in_jiffies = |player: Player| match player.format {
            0 => player,
            _ => Player { speed: (u64::from(player.speed) * 70).div_ceil(1_000) as u32, ..player },
        };
        started(model, bytes, now, (first, second), in_jiffies)
    });
}
