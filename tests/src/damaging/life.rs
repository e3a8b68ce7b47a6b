//! The whole life of a reel, from a case's states: opened, added to, closed, checked, played, ticked, given a trailer,
//! listed, stepped through.

use super::case::Case;
use super::compare::{Found, LIBRARY};
use super::numbers;
use flic_boundary::Reel;
use flic_tests::model::{accepted_size, Format, FILE_HEADER, MODEL};
use flic_tests::rng::{mix, Rng};
use flic_tests::runner::calls::{
    AddCase, CheckCase, CheckTrailerCase, CloseCase, HeaderCase, ListCase, OpenCase, OpenFliCase, StartCase, StepCase,
    WriteTrailerCase,
};
use flic_tests::runner::compare::{Agreed, Difference};
use flic_tests::runner::inputs::{self, LiveCase, PlayCase};
use flic_tests::runner::told::Rest;
use flic_tests::sizes::exact;
use flic_tests::states::{any_state, State};
use flic_tests::trailers::make::trailer_length;
use flic_tests::write_cases::ample_room;

const LIFE_MARK: u64 = 0x11FE;
/// Pictures up to this many pixels are given a life in each case, larger ones now and then.
const SMALL: usize = 2_000;

/// Hands on each call's entry point, its format and the number that library and model both answer.
pub type Count<'a> = &'a mut dyn FnMut(&'static str, Format, u32);

/// A reel while it is built, call by call.
struct Life<'a> {
    format: Format,
    rng: Rng,
    count: Count<'a>,
    bytes: Vec<u8>,
    reel: Reel,
    altered: bool,
}

/// Builds a reel from the case's states with the library and with the model; now and then a record is altered.
pub fn life(case: &Case, count: Count) -> Result<(), Found> {
    let mut rng = Rng::new(mix(case.seed, LIFE_MARK));
    let format = case.told();
    let Ok((width, height)) = accepted_size(format, case.width, case.height) else { return Ok(()) };
    let pixels = width * height;
    let is_short = |state: &State| state.picture.len() < pixels || state.palette.len() < 768;
    let seldom = if format == Format::Flc { 20 } else { 4 };
    if is_short(&case.first) || is_short(&case.second) || pixels > SMALL && !rng.once_in(seldom) {
        return Ok(());
    }
    let room = 128 + rng.between(2, 4) * ample_room(pixels);
    let bytes = rng.bytes(room);
    let mut life = Life { format, rng, count, bytes, reel: Reel::default(), altered: false };
    let bytes = life.bytes.clone();
    let Case { width: w, height: h, speed, .. } = *case;
    match format {
        Format::Flc => life.builds(OpenCase { width: w, height: h, speed, bytes })?,
        Format::Fli => life.builds(OpenFliCase { width: w, height: h, jiffies: speed % 65_536, bytes })?,
    };
    let mut shown = State::blank(pixels);
    let mut asked = Vec::new();
    for next in [&case.first, &case.second, &case.first].into_iter().take(1 + (case.seed % 3) as usize) {
        life.alter();
        let (reel, bytes) = (life.reel, life.bytes.clone());
        if life.builds(AddCase { reel, bytes, shown: shown.clone(), next: next.clone() })? {
            asked.push(next.clone());
            shown = next.clone();
        }
    }
    life.alter();
    let (first, second) = life.pairs(pixels);
    let (reel, bytes) = (life.reel, life.bytes.clone());
    if life.builds(CloseCase { reel, bytes, first, second })? {
        life.whole(width, height, asked, case.readings())?;
    }
    Ok(())
}

impl Life<'_> {
    /// Alters the record, seldom.
    fn alter(&mut self) {
        if self.rng.once_in(12) {
            let right = self.reel;
            self.reel = numbers::record(&mut self.rng, right, self.bytes.len());
            self.altered |= self.reel != right;
        }
    }

    fn pairs(&mut self, pixels: usize) -> (State, State) {
        (any_state(&mut self.rng, exact(pixels)), any_state(&mut self.rng, exact(pixels)))
    }

    fn call(&mut self, case: impl Into<inputs::Case>) -> Result<Agreed, Found> {
        let (case, seed) = (case.into(), self.rng.draw());
        let function = case.call().map_or("read_frame", |call| call.row().function);
        let agreed = LIBRARY.case(&case, seed).map_err(|difference| (function, difference))?;
        (self.count)(function, case.format(), agreed.told.number);
        Ok(agreed)
    }

    /// An open, an add or a close: takes over what it left, and tells whether it was accepted.
    fn builds(&mut self, case: impl Into<inputs::Case>) -> Result<bool, Found> {
        let Agreed { told, mut left } = self.call(case)?;
        if let Rest::Record(reel) = told.rest {
            (self.bytes, self.reel) = (left.swap_remove(0), reel);
        }
        Ok(told.number == 0)
    }

    /// A call that is done of a reel that was built in order.
    fn done(&mut self, case: impl Into<inputs::Case>) -> Result<Agreed, Found> {
        let case = case.into();
        let function = case.call().map_or("read_frame", |call| call.row().function);
        let agreed = self.call(case)?;
        if agreed.told.number == 0 || self.altered {
            return Ok(agreed);
        }
        let what = "a reel that was opened, added to and closed must be accepted".to_string();
        let told = format!("{:?}", agreed.told);
        Err((function, Difference { library: told.clone(), model: told, what }))
    }

    /// What holds of a reel that was closed: where no record was altered, it is accepted and plays what was asked for, by
    /// frames and by ticks.
    fn whole(
        &mut self,
        width: usize,
        height: usize,
        states: Vec<State>,
        (now, readings): (u32, Vec<u32>),
    ) -> Result<(), Found> {
        let bytes = self.bytes[..self.reel.end as usize].to_vec();
        let (first, second) = self.pairs(width * height);
        self.done(CheckCase { bytes: bytes.clone(), first: first.clone(), second: second.clone() })?;
        let start = StartCase { bytes: bytes.clone(), now, first, second };
        if self.altered {
            self.call(start)?;
        } else {
            let (format, played) = (self.format, states.clone());
            self.call(PlayCase { bytes: bytes.clone(), format, width, height, states: played })?;
            self.done(LiveCase { start, readings, states })?;
        }
        let file = [&bytes[..], &vec![0xEE; trailer_length(&bytes)]].concat();
        if self.format == Format::Fli {
            self.call(WriteTrailerCase(file.clone()))?;
            self.call(CheckTrailerCase(file))?;
            return self.step_through(bytes);
        }
        let Agreed { told, mut left } = self.done(WriteTrailerCase(file))?;
        let file = left.swap_remove(0);
        if told.number == 0 {
            self.done(CheckTrailerCase(file.clone()))?;
        }
        let out = vec![0xEE; MODEL.text(&file).len()];
        self.done(ListCase { bytes: file, out })?;
        self.step_through(bytes)
    }

    /// Reads the header, and steps from frame to frame up to the ring.
    fn step_through(&mut self, bytes: Vec<u8>) -> Result<(), Found> {
        let Rest::Header { frames, .. } = self.done(HeaderCase(bytes.clone()))?.told.rest else { return Ok(()) };
        let mut at = FILE_HEADER as u64;
        for _ in 0..=frames.min(self.reel.frames) {
            let told = self.done(StepCase { bytes: bytes.clone(), at })?.told;
            let (0, Rest::Span { end, .. }) = (told.number, told.rest) else { return Ok(()) };
            at = end;
        }
        Ok(())
    }
}
