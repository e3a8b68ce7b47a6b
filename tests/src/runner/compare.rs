//! Compares one call with the model: the answer, every lent byte, and what stands around them; then the cases that are
//! more than a call.

use super::calls::{Call, CheckCase, ReadCase, ReplayCase, RewriteCase, TickCase, WriteCase, WriteTrailerCase};
use super::inputs::{AroundCase, Case, LiveCase, PlayCase};
use super::lent::{bytes_of, Left, Lender, Lent, PlayerIn};
use super::told::{Rest, Told};
use crate::model::{field, size_at, Format, Model, FILE_HEADER, MODEL, PALETTE_BYTES};
use crate::states::State;
use flic_boundary::Player;

/// Something that does as the library should.
pub trait Subject {
    fn call(&self, call: &dyn Call, lent: &mut Lent) -> Told;
}

pub struct Library;

impl Subject for Library {
    fn call(&self, call: &dyn Call, lent: &mut Lent) -> Told {
        call.library(lent)
    }
}

impl Subject for Model {
    fn call(&self, call: &dyn Call, lent: &mut Lent) -> Told {
        call.model(self, lent)
    }
}

/// Where the library and the model part, and what each of them answered.
#[derive(Debug)]
pub struct Difference {
    pub library: String,
    pub model: String,
    pub what: String,
}

/// What the subject and the model both say and leave.
pub struct Agreed {
    pub told: Told,
    pub left: Vec<Vec<u8>>,
}

/// Something that stands in for the library or is it, and the way in which it is lent slices.
#[derive(Clone, Copy)]
pub struct Comparer<'a> {
    pub subject: &'a dyn Subject,
    pub lender: &'a dyn Lender,
}

impl Comparer<'_> {
    /// What the subject says and leaves.
    pub fn made(&self, call: &dyn Call, seed: u64) -> (Told, Left) {
        let mut told = None;
        let aligned = call.row().aligned;
        let left =
            self.lender.lend(&call.slices(), aligned, seed, &mut |lent| told = Some(self.subject.call(call, lent)));
        (told.expect("a call is made while its slices are lent"), left)
    }

    /// Makes one call of the subject and of the model.
    pub fn call(&self, call: &dyn Call, seed: u64) -> Result<Agreed, Difference> {
        let (found, left) = self.made(call, seed);
        let mut wanted_left: Vec<Vec<u8>> = call.slices().iter().map(|slice| slice.to_vec()).collect();
        let wanted = MODEL.call(call, &mut Lent::of(&mut wanted_left));
        require(found == wanted, || first_line(call, &found, &left, &wanted, &wanted_left))
            .and_then(|()| require(found.place <= call.furthest(), || "the place lies past what was lent".to_string()))
            .and_then(|()| check_left(call.row().lends, &left, &wanted_left))
            .map_err(|what| difference(found, wanted, what))?;
        Ok(Agreed { told: found, left: wanted_left })
    }

    /// Makes the calls of a case, and gives the number with which it is counted.
    pub fn case(&self, case: &Case, seed: u64) -> Result<Agreed, Difference> {
        match case {
            Case::Write(case) => self.write(case, seed),
            Case::Rewrite(case) => self.rewrite(case, seed),
            Case::Play(case) => self.play(case, seed),
            Case::Around(AroundCase(case)) => self.around(case, seed),
            Case::Live(case) => self.live(case, seed),
            _ => self.call(case.call().expect("all other cases are one call"), seed),
        }
    }

    /// Writes, and reads what was written.
    fn write(&self, case: &WriteCase, seed: u64) -> Result<Agreed, Difference> {
        let agreed = self.call(case, seed)?;
        if agreed.told.number == 0 {
            let bytes = agreed.left[4][..agreed.told.length() as usize].to_vec();
            let WriteCase { format, width, height, .. } = *case;
            let written = ReadCase { bytes, format, width, height, shown: case.previous.clone() };
            self.read_back(&written, &case.next, seed)?;
        }
        Ok(agreed)
    }

    /// Rewrites, reads what was written, and rewrites it once more.
    fn rewrite(&self, case: &RewriteCase, seed: u64) -> Result<Agreed, Difference> {
        let once = self.call(case, seed)?;
        if once.told.number == 0 {
            let bytes = once.left[5][..once.told.length() as usize].to_vec();
            let again = RewriteCase { bytes: bytes.clone(), ..case.clone() };
            let RewriteCase { format, width, height, .. } = *case;
            let written = ReadCase { bytes, format, width, height, shown: case.previous.clone() };
            let work = State { picture: once.left[3].clone(), palette: once.left[4].clone() };
            self.read_back(&written, &work, seed)?;
            let twice = self.call(&again, seed)?;
            check_content("frame rewritten twice", &twice.left[5], &once.left[5])
                .map_err(|what| difference(twice.told, once.told, what))?;
        }
        Ok(once)
    }

    /// The subject's reading of a frame that was written must give the next state from the previous one.
    fn read_back(&self, case: &ReadCase, next: &State, seed: u64) -> Result<(), Difference> {
        let (found, left) = self.made(case, seed);
        let wanted = Told::done(Rest::Nothing);
        let pixels = (case.width * case.height) as usize;
        require(found == wanted, || "the answer".to_string())
            .and_then(|()| check_content("picture read back", &left.slices[1][..pixels], &next.picture[..pixels]))
            .and_then(|()| {
                let (read, wanted) = (&left.slices[2][..PALETTE_BYTES], &next.palette[..PALETTE_BYTES]);
                check_content("palette read back", read, wanted)
            })
            .and_then(|()| stays_inside(case.row().lends, &left))
            .map_err(|what| difference(found, wanted, what))
    }

    /// Plays a reel three laps as a board does: from oframe1 to the ring, and from oframe2 to the ring in each further
    /// lap; an FLI, which has no such fields, from behind its header and from the end of its first frame.
    fn play(&self, case: &PlayCase, seed: u64) -> Result<Agreed, Difference> {
        let frames = case.states.len();
        let mut shown = State::blank(case.width * case.height);
        for lap in 0..3 {
            let from = usize::from(lap > 0);
            let mut place = match (case.format, lap) {
                (Format::Flc, 0) => size_at(&case.bytes, field::OFRAME1),
                (Format::Flc, _) => size_at(&case.bytes, field::OFRAME2),
                (Format::Fli, 0) => FILE_HEADER,
                (Format::Fli, _) => FILE_HEADER + size_at(&case.bytes, FILE_HEADER),
            };
            for frame in from..=frames {
                let chunk = &case.bytes[place..place + size_at(&case.bytes, place)];
                let next = &case.states[frame % frames];
                let (format, width, height) = (case.format.number(), case.width as u64, case.height as u64);
                let reading = ReadCase { bytes: chunk.to_vec(), format, width, height, shown };
                self.read_back(&reading, next, seed).map_err(|difference| Difference {
                    what: format!("lap {}, frame {} at {place}: {}", lap + 1, frame + 1, difference.what),
                    ..difference
                })?;
                shown = next.clone();
                place += chunk.len();
            }
        }
        Ok(Agreed { told: Told::done(Rest::Nothing), left: Vec::new() })
    }

    /// Checks a whole reel, writes its trailer, and checks it again: where a trailer is written, the check says the
    /// same.
    fn around(&self, case: &CheckCase, seed: u64) -> Result<Agreed, Difference> {
        let (before, left_before) = self.made(case, seed);
        let written = self.call(&WriteTrailerCase(case.bytes.clone()), seed)?;
        if written.told.number == 0 {
            let bytes = written.left[0][..written.told.length() as usize].to_vec();
            let (after, left) = self.made(&CheckCase { bytes, ..case.clone() }, seed);
            let pairs = |left: &Left| left.slices[1..].to_vec();
            require(after == before && pairs(&left) == pairs(&left_before), || {
                "the check after the trailer was written (library) and before (model), or what they left".to_string()
            })
            .and_then(|()| stays_inside(case.row().lends, &left))
            .map_err(|what| difference(after, before, what))?;
        }
        Ok(Agreed { told: before, left: Vec::new() })
    }

    /// Starts a player and ticks it: after each tick the frame that stands shows its state. Then a replay of the same
    /// readings must tell the same numbers.
    fn live(&self, case: &LiveCase, seed: u64) -> Result<Agreed, Difference> {
        let started = self.call(&case.start, seed)?;
        let Rest::Player(mut player) = started.told.rest else { return Ok(started) };
        let [_, picture, palette, ..] = &started.left[..] else { return Ok(started) };
        let mut shown = State { picture: picture.clone(), palette: palette.clone() };
        let (speed, frames, start) = (player.speed, player.frames, case.start.now);
        let mut numbers = Vec::new();
        shows(&case.states, &player, &shown).map_err(|what| difference(started.told, started.told, what))?;
        for now in &case.readings {
            let tick = TickCase { player: player.into(), bytes: case.start.bytes.clone(), now: *now, shown };
            let Agreed { told, mut left } = self.call(&tick, seed)?;
            player = *PlayerIn::of(&mut left[0]);
            shown = State { palette: left.swap_remove(3), picture: left.swap_remove(2) };
            require(told.number == 0, || "a tick of a right player is refused".to_string())
                .and_then(|()| shows(&case.states, &player, &shown))
                .map_err(|what| difference(told, told, what))?;
            numbers.push(player.number as u32);
        }
        let words = vec![!0; numbers.len()];
        let replay = ReplayCase { speed, frames, start, readings: case.readings.clone(), numbers: words };
        let replayed = self.call(&replay, seed)?;
        check_content(
            "numbers of a replay (library) and of a live player (model)",
            &replayed.left[1],
            bytes_of(&numbers),
        )
        .map_err(|what| difference(replayed.told, replayed.told, what))?;
        Ok(Agreed { told: started.told, left: Vec::new() })
    }
}

/// The frame that stands must show its state, the ring that of frame 1.
fn shows(states: &[State], player: &Player, shown: &State) -> Result<(), String> {
    let Player { width, height, number, .. } = *player;
    let wanted = &states[(number as usize - 1) % states.len()];
    let pixels = (width * height) as usize;
    let (picture, palette) = (&wanted.picture[..pixels], &wanted.palette[..PALETTE_BYTES]);
    check_content(&format!("picture of frame {number}"), &shown.picture[..pixels], picture)
        .and_then(|()| check_content(&format!("palette of frame {number}"), &shown.palette[..PALETTE_BYTES], palette))
}

fn difference(found: Told, wanted: Told, what: String) -> Difference {
    Difference { library: format!("{found:?}"), model: format!("{wanted:?}"), what }
}

fn require(holds: bool, what: impl FnOnce() -> String) -> Result<(), String> {
    if holds {
        Ok(())
    } else {
        Err(what())
    }
}

/// The lent slices must hold what the model says, and nothing may be written beside them.
fn check_left(names: &[&str], left: &Left, wanted: &[Vec<u8>]) -> Result<(), String> {
    for ((name, found), wanted) in names.iter().zip(&left.slices).zip(wanted) {
        check_content(name, found, wanted)?;
    }
    stays_inside(names, left)
}

fn stays_inside(names: &[&str], left: &Left) -> Result<(), String> {
    match left.trespass {
        Some(which) => Err(format!("the {}: a byte outside the lent slice was written", names[which])),
        None => Ok(()),
    }
}

/// The first byte in which two slices of one length differ.
fn check_content(name: &str, found: &[u8], wanted: &[u8]) -> Result<(), String> {
    assert_eq!(found.len(), wanted.len(), "{name}: a comparison takes slices of one length");
    require(found == wanted, || {
        let at = found.iter().zip(wanted).take_while(|(a, b)| a == b).count();
        let (library, model) = (found[at], wanted[at]);
        format!("the {name}, byte {at} of {}: library {library:#04x}, model {model:#04x}", wanted.len())
    })
}

/// Where answers differ: they do, or of listings the first line that does.
fn first_line(call: &dyn Call, found: &Told, left: &Left, wanted: &Told, wanted_left: &[Vec<u8>]) -> String {
    if call.row().function != "list" || found.number != wanted.number {
        return "the answer".to_string();
    }
    let text = |told: &Told, out: &[u8]| {
        let length = usize::try_from(told.length()).map_or(out.len(), |length| length.min(out.len()));
        String::from_utf8_lossy(&out[..length]).into_owned()
    };
    let (library, model) = (text(found, &left.slices[1]), text(wanted, &wanted_left[1]));
    let (mut library, mut model) = (library.split_inclusive('\n'), model.split_inclusive('\n'));
    for line in 1.. {
        match (library.next(), model.next()) {
            (None, None) => break,
            (a, b) if a != b => return format!("line {line}: library {a:?}, model {b:?}"),
            _ => {}
        }
    }
    "the length".to_string()
}
