//! Other ways to play, check and build a reel.

use super::{readings, rules};
use crate::model::build::{Building, Outcome};
use crate::model::check::Checking;
use crate::model::playing::{Played, Playing, Screen};
use crate::model::{
    accepted_size, field, file_header, number, require, size_at, word_at, Document, FileHeader, Format, Jiffies,
    Milliseconds, Model, Refusal, CHUNK_HEADER, FILE_HEADER, FRAME_HEADER, FRAME_TYPE, MAX_FRAMES, PALETTE_BYTES,
};
use crate::reels::examples::zero_until_close;
use flic_boundary::{Pair, PairMut, Reel};

rules! { Playing;
    OtherPlay: play(model: &Model, bytes: &[u8], place: usize, played: &mut Played) -> Result<(), Refusal>;
    OtherInReel: in_reel(refusal: Refusal, place: usize) -> Refusal;
    OtherLeave: leave(played: &Played, first: &mut PairMut, second: &mut PairMut) -> ();
    OtherPut: put(screen: &Screen, pair: &mut PairMut) -> ();
}

rules! { Checking;
    OtherWholeReel: whole_reel(
        model: &Model, bytes: &[u8], header: &FileHeader, played: &mut Played
    ) -> Result<(), Refusal>;
    OtherLeadsBack: leads_back(played: &Played) -> bool;
    OtherCheckReel: check_reel(model: &Model, bytes: &[u8], first: PairMut, second: PairMut) -> Result<(), Refusal>;
    OtherAstray: astray(ring: usize) -> Refusal;
}

rules! { Building;
    OtherOpenReel: open_reel(
        model: &Model, width: u64, height: u64, speed: Milliseconds, bytes: &mut [u8]
    ) -> Outcome;
    OtherOpenFli: open_fli(model: &Model, width: u64, height: u64, jiffies: Jiffies, bytes: &mut [u8]) -> Outcome;
    OtherChecked: checked(
        format: Format, reel: Reel, may_go_on: bool, pictures: &[&[u8]], palettes: &[&[u8]]
    ) -> Result<(usize, usize), Refusal>;
    OtherAddFrame: add_frame(model: &Model, reel: Reel, bytes: &mut [u8], shown: Pair, next: Pair) -> Outcome;
    OtherCloseReel: close_reel(model: &Model, reel: Reel, bytes: &mut [u8], first: PairMut, second: PairMut) -> Outcome;
    OtherRecordFits: record_fits(reel: Reel, length: u64) -> Result<(), Refusal>;
    OtherAppend: append(reel: Reel, bytes: &mut [u8], frame: &[u8]) -> Result<u64, Refusal>;
    OtherIsClosed: is_closed(reel: Reel) -> bool;
    OtherMayAdd: may_add(reel: Reel) -> bool;
    OtherMayClose: may_close(reel: Reel) -> bool;
    OtherPlayFrame: play_frame(
        model: &Model, bytes: &[u8], end: usize, place: usize, played: &mut Played
    ) -> Result<usize, Refusal>;
    OtherPlayOpenReel: play_open_reel(
        model: &Model, reel: Reel, bytes: &[u8], played: &mut Played
    ) -> Result<usize, Refusal>;
    OtherAllPlayed: all_played(place: usize, end: usize) -> Result<(), Refusal>;
    OtherRing: ring(model: &Model, played: &Played) -> Vec<u8>;
}

readings! { PLAYING: Playing;
    StepsOverAllButFrame1 = OtherPlay(|model, bytes, place, played| {
        if played.frames > 0 && model.frames.frame_header(bytes).is_ok() {
            return Ok(());
        }
        Document.play(model, bytes, place, played)
    });
    PlaceWithinFrame = OtherInReel(|refusal, _| refusal);
    FirstPairAsFound = OtherLeave(|played, _, second| {
        Playing::put(&Document, &played.first, second);
    });
    SecondPairAsFound = OtherLeave(|played, first, _| {
        Playing::put(&Document, &played.last, first);
    });
    SecondPairIsLast = OtherLeave(|played, first, second| {
        Playing::put(&Document, &played.last, first);
        Playing::put(&Document, &played.last, second);
    });
    ExcessBlanked = OtherPut(|screen, pair| {
        pair.picture.fill(0);
        pair.palette.fill(0);
        Playing::put(&Document, screen, pair);
    });
}

readings! { CHECKING: Checking;
    RingNotRead = OtherWholeReel(|model, bytes, header, played| {
        let without = FileHeader { frames: header.frames - 1, ..*header };
        let answer = Document.whole_reel(model, bytes, &without, played);
        answer.or_else(|refusal| if refusal.number == number::RING_ASTRAY { Ok(()) } else { Err(refusal) })
    });
    RingNotCompared = OtherLeadsBack(|_| true);
    RingPaletteNotCompared = OtherLeadsBack(|played| played.last.picture == played.first.picture);
    RingPictureNotCompared = OtherLeadsBack(|played| played.last.palette == played.first.palette);
    RingExcessCompared = OtherCheckReel(|model, bytes, first, second| {
        let (one, other) = (again(first.picture, first.palette), again(second.picture, second.palette));
        Document.check_reel(model, bytes, one, other)?;
        require(first.picture == second.picture && first.palette == second.palette, number::RING_ASTRAY, 0)
    });
    RingPlace0 = OtherAstray(|_| Document.astray(0));
    RingNotCountedAt16 = OtherWholeReel(|model, bytes, header, played| {
        let answer = Document.whole_reel(model, bytes, header, played);
        if answer.is_err_and(|refusal| refusal.number == number::RING_ASTRAY) {
            let without = FileHeader { frames: header.frames - 1, ..*header };
            *played = Played::from_blank(header.format, header.width, header.height);
            let _ = Document.whole_reel(model, bytes, &without, played);
        }
        answer
    });
    Frame1AgainstFirstPair = OtherCheckReel(|model, bytes, first, second| {
        let (pictures, palettes) = ([&*first.picture, &*second.picture], [&*first.palette, &*second.palette]);
        let header = model.headers.accepted(model, bytes, &Format::BOTH, &pictures, &palettes)?;
        let mut played = Played::from_blank(header.format, header.width, header.height);
        played.last = Screen::held_by(&first, header.width * header.height);
        Document.play_and_leave(model, bytes, &header, played, first, second)
    });
    PairsAsFoundWhenRefused = OtherCheckReel(|model, bytes, first, second| {
        let mut copies = [&*first.picture, first.palette, second.picture, second.palette].map(<[u8]>::to_vec);
        let [a, b, c, d] = &mut copies;
        Document.check_reel(model, bytes, again(a, b), again(c, d))?;
        Document.check_reel(model, bytes, first, second)
    });
    BlankedBeforeChecks = OtherCheckReel(|model, bytes, first, second| {
        first.picture.fill(0);
        second.palette.fill(0);
        Document.check_reel(model, bytes, first, second)
    });
}

/// A lent pair that is lent on.
fn again<'a>(picture: &'a mut [u8], palette: &'a mut [u8]) -> PairMut<'a> {
    PairMut { picture, palette }
}

fn refused(reel: Reel, number: u32) -> Outcome {
    Outcome { answer: Err(Refusal::new(number, 0)), reel }
}

fn is_refused(outcome: &Outcome, number: u32) -> bool {
    outcome.answer.is_err_and(|refusal| refusal.number == number)
}

readings! { BUILDING: Building;
    OpenClearsRest = OtherOpenReel(|model, width, height, speed, bytes| {
        let outcome = Document.open_reel(model, width, height, speed, bytes);
        if outcome.answer.is_ok() {
            bytes[FILE_HEADER..].fill(0);
        }
        outcome
    });
    OpenWritesWhenShort = OtherOpenReel(|model, width, height, speed, bytes| {
        let outcome = Document.open_reel(model, width, height, speed, bytes);
        if is_refused(&outcome, number::SHORT_OUTPUT) {
            let header = model.headers.opened(width as usize, height as usize, speed);
            bytes.copy_from_slice(&header[..bytes.len()]);
        }
        outcome
    });
    OpenRoomBeforeSize = OtherOpenReel(|model, width, height, speed, bytes| {
        if bytes.len() < FILE_HEADER {
            return refused(Reel::default(), number::SHORT_OUTPUT);
        }
        Document.open_reel(model, width, height, speed, bytes)
    });
    RecordOfRefusedOpen = OtherOpenReel(|model, width, height, speed, bytes| {
        let outcome = Document.open_reel(model, width, height, speed, bytes);
        Outcome { reel: Reel { width, height, frames: 0, end: FILE_HEADER as u64, closed: 0, format: 0 }, ..outcome }
    });
    SizeBeforeClosed = OtherChecked(|format, reel, may_go_on, pictures, palettes| {
        accepted_size(format, reel.width, reel.height)?;
        Document.checked(format, reel, may_go_on, pictures, palettes)
    });
    RecordBeforeSlices = OtherAddFrame(|model, reel, bytes, shown, next| {
        let fits = Document.record_fits(reel, bytes.len() as u64).is_ok();
        let format = model.formats.told(reel.format);
        if Document.may_add(reel) && accepted_size(format, reel.width, reel.height).is_ok() && !fits {
            return refused(reel, number::CUT_SHORT);
        }
        Document.add_frame(model, reel, bytes, shown, next)
    });
    CloseRecordBeforeSlices = OtherCloseReel(|model, reel, bytes, first, second| {
        let fits = Document.record_fits(reel, bytes.len() as u64).is_ok();
        let format = model.formats.told(reel.format);
        if Document.may_close(reel) && accepted_size(format, reel.width, reel.height).is_ok() && !fits {
            return refused(reel, number::CUT_SHORT);
        }
        Document.close_reel(model, reel, bytes, first, second)
    });
    RoomBeforeRecord = OtherRecordFits(|reel, length| {
        require(reel.end.saturating_add(FRAME_HEADER as u64) <= length, number::SHORT_OUTPUT, 0)?;
        Document.record_fits(reel, length)
    });
    EndInHeaderAccepted = OtherAddFrame(|model, reel, bytes, shown, next| {
        let outcome = Document.add_frame(model, reel, bytes, shown, next);
        if is_refused(&outcome, number::CUT_SHORT) && reel.end < FILE_HEADER as u64 {
            return Outcome { answer: Ok(()), ..outcome };
        }
        outcome
    });
    EndAtLengthRefused = OtherRecordFits(|reel, length| {
        require(reel.end != length, number::CUT_SHORT, 0)?;
        Document.record_fits(reel, length)
    });
    EndMovedWhenRefused = OtherAddFrame(|model, reel, bytes, shown, next| {
        let outcome = Document.add_frame(model, reel, bytes, shown, next);
        match outcome.answer {
            Err(_) => Outcome { reel: Reel { end: reel.end.wrapping_add(16), ..reel }, ..outcome },
            Ok(()) => outcome,
        }
    });
    WritesWhenShort = OtherAppend(|reel, bytes, frame| {
        let at = reel.end as usize;
        let room = frame.len().min(bytes.len() - at);
        bytes[at..at + room].copy_from_slice(&frame[..room]);
        Document.append(reel, bytes, frame)
    });
    ClosedTwoIsOpen = OtherIsClosed(|reel| reel.closed == 1);
    FramePast4000 = OtherMayAdd(|reel| Document.may_add(reel) || (reel.closed == 0 && reel.frames == MAX_FRAMES));
    AddFromBlank = OtherAddFrame(|model, reel, bytes, shown, next| {
        let (picture, palette) = (vec![0; shown.picture.len()], vec![0; shown.palette.len()]);
        Document.add_frame(model, reel, bytes, Pair { picture: &picture, palette: &palette }, next)
    });
    AddCountsInHeader = OtherAddFrame(|model, reel, bytes, shown, next| {
        let outcome = Document.add_frame(model, reel, bytes, shown, next);
        if outcome.answer.is_ok() {
            file_header::put_word(bytes, field::FRAMES, outcome.reel.frames as u16);
        }
        outcome
    });
    CloseOfNone = OtherMayClose(|reel| reel.closed == 0 && reel.frames <= MAX_FRAMES);
    CloseOver4000 = OtherMayClose(|reel| reel.closed == 0 && reel.frames > 0);
    CloseTwice = OtherMayClose(|reel| Document.may_close(Reel { closed: 0, ..reel }));
    CloseMarksRefused = OtherCloseReel(|model, reel, bytes, first, second| {
        let outcome = Document.close_reel(model, reel, bytes, first, second);
        Outcome { reel: Reel { closed: 1, ..outcome.reel }, ..outcome }
    });
    CloseStepsOver = OtherPlayFrame(|model, bytes, end, place, played| {
        let mut place = place;
        while end - place >= CHUNK_HEADER && word_at(bytes, place + 4) != FRAME_TYPE {
            match size_at(bytes, place) {
                size if (CHUNK_HEADER..=end - place).contains(&size) => place += size,
                _ => break,
            }
        }
        Document.play_frame(model, bytes, end, place, played)
    });
    CloseMissingFrameIs15 = OtherPlayFrame(|model, bytes, end, place, played| {
        require(end - place >= CHUNK_HEADER, number::FRAME_MISSING, place)?;
        Document.play_frame(model, bytes, end, place, played)
    });
    CloseTypeBeforeLength = OtherPlayFrame(|model, bytes, end, place, played| {
        let other = end - place >= CHUNK_HEADER && word_at(bytes, place + 4) != FRAME_TYPE;
        require(!other, number::WRONG_TYPE, place)?;
        Document.play_frame(model, bytes, end, place, played)
    });
    CloseFramesPastRecord = OtherPlayFrame(|model, bytes, _, place, played| {
        Document.play_frame(model, bytes, bytes.len(), place, played)
    });
    CloseSizeFromHeader = OtherCloseReel(|model, reel, bytes, first, second| {
        let mut told = reel;
        if bytes.len() >= FILE_HEADER {
            let (width, height) = (word_at(bytes, field::WIDTH).into(), word_at(bytes, field::HEIGHT).into());
            if (1..=reel.width.saturating_mul(reel.height)).contains(&(width * height)) {
                told = Reel { width, height, ..reel };
            }
        }
        let outcome = Document.close_reel(model, told, bytes, first, second);
        Outcome { reel: Reel { width: reel.width, height: reel.height, ..outcome.reel }, ..outcome }
    });
    CloseRoomBeforeFrames = OtherPlayOpenReel(|model, reel, bytes, played| {
        Document.record_fits(reel, bytes.len() as u64)?;
        require(bytes.len() - reel.end as usize >= FRAME_HEADER, number::SHORT_OUTPUT, 0)?;
        Document.play_open_reel(model, reel, bytes, played)
    });
    CloseEarlyEndAccepted = OtherAllPlayed(|_, _| Ok(()));
    CloseEarlyEndAtPlace = OtherAllPlayed(|place, end| require(place == end, number::CUT_SHORT, place));
    CloseBadRecordAsFound = OtherCloseReel(|model, reel, bytes, first, second| {
        let (pictures, palettes) = ([&*first.picture, &*second.picture], [&*first.palette, &*second.palette]);
        let format = model.formats.told(reel.format);
        let checked = Document.checked(format, reel, Document.may_close(reel), &pictures, &palettes);
        if checked.is_ok() && Document.record_fits(reel, bytes.len() as u64).is_err() {
            return refused(reel, number::CUT_SHORT);
        }
        Document.close_reel(model, reel, bytes, first, second)
    });
    CloseCountsRing = OtherCloseReel(|model, reel, bytes, first, second| {
        let (one, other) = (again(first.picture, first.palette), again(second.picture, second.palette));
        let outcome = Document.close_reel(model, reel, bytes, one, other);
        if outcome.answer.is_ok() {
            let pixels = (reel.width * reel.height) as usize;
            first.picture[..pixels].copy_from_slice(&second.picture[..pixels]);
            first.palette[..PALETTE_BYTES].copy_from_slice(&second.palette[..PALETTE_BYTES]);
        }
        outcome
    });
    RingFromFrame1 = OtherRing(|model, played| {
        let Played { format, width, height, .. } = *played;
        model.house_frame(format, width, height, played.first.shown(), played.first.shown())
    });
    RingFromHandedState = OtherCloseReel(|model, reel, bytes, first, second| {
        let (picture, palette) = (first.picture.to_vec(), first.palette.to_vec());
        let other = again(second.picture, second.palette);
        let outcome = Document.close_reel(model, reel, bytes, first, other);
        if outcome.answer.is_err() {
            return outcome;
        }
        let handed = Pair { picture: &picture, palette: &palette };
        let next = Pair { picture: second.picture, palette: second.palette };
        let format = model.formats.told(reel.format);
        let ring = model.house_frame(format, reel.width as usize, reel.height as usize, handed, next);
        let Ok(end) = Document.append(reel, bytes, &ring) else { return refused(reel, number::SHORT_OUTPUT) };
        file_header::put_double(bytes, field::SIZE, end as u32);
        Outcome { reel: Reel { end, ..outcome.reel }, ..outcome }
    });
    RingToBlank = OtherRing(|model, played| {
        let Played { format, width, height, .. } = *played;
        model.house_frame(format, width, height, played.last.shown(), Screen::blank(width * height).shown())
    });
    Oframe2OfOneFrameIs0 = OtherCloseReel(|model, reel, bytes, first, second| {
        let outcome = Document.close_reel(model, reel, bytes, first, second);
        if outcome.answer.is_ok() && reel.frames == 1 {
            file_header::put_double(bytes, field::OFRAME2, 0);
        }
        outcome
    });
    Oframe2IsRing = OtherCloseReel(|model, reel, bytes, first, second| {
        let outcome = Document.close_reel(model, reel, bytes, first, second);
        if outcome.answer.is_ok() {
            file_header::put_double(bytes, field::OFRAME2, reel.end as u32);
        }
        outcome
    });
    HeaderWrittenAnew = OtherCloseReel(|model, reel, bytes, first, second| {
        let outcome = Document.close_reel(model, reel, bytes, first, second);
        if outcome.answer.is_ok() {
            let header = model.headers.opened(reel.width as usize, reel.height as usize, Milliseconds(0));
            (0..FILE_HEADER).filter(|at| !zero_until_close(*at)).for_each(|at| bytes[at] = header[at]);
        }
        outcome
    });
    HeaderWrittenWhenShort = OtherCloseReel(|model, reel, bytes, first, second| {
        let outcome = Document.close_reel(model, reel, bytes, first, second);
        if is_refused(&outcome, number::SHORT_OUTPUT) {
            file_header::put_word(bytes, field::FLAGS, 3);
        }
        outcome
    });
    CloseKeepsEnd = OtherCloseReel(|model, reel, bytes, first, second| {
        let outcome = Document.close_reel(model, reel, bytes, first, second);
        Outcome { reel: Reel { end: reel.end, ..outcome.reel }, ..outcome }
    });
}

/// A record with another format for a call, and with its own afterwards.
fn as_format(reel: Reel, format: u32, call: impl FnOnce(Reel) -> Outcome) -> Outcome {
    let outcome = call(Reel { format, ..reel });
    let own = if outcome.answer.is_ok() { Format::Fli.number() } else { reel.format };
    Outcome { reel: Reel { format: if reel.format == 0 { 0 } else { own }, ..outcome.reel }, ..outcome }
}

// What the builder of an FLI can do wrong.
readings! { FLI: Building;
    JiffiesBeforeSize = OtherOpenFli(|model, width, height, jiffies, bytes| {
        if model.formats.fits(jiffies).is_err() {
            return refused(Reel::default(), number::BAD_FILE_HEADER);
        }
        Document.open_fli(model, width, height, jiffies, bytes)
    });
    RoomBeforeJiffies = OtherOpenFli(|model, width, height, jiffies, bytes| {
        if accepted_size(Format::Fli, width, height).is_ok() && bytes.len() < FILE_HEADER {
            return refused(Reel::default(), number::SHORT_OUTPUT);
        }
        Document.open_fli(model, width, height, jiffies, bytes)
    });
    RoomBeforeSizeOfFli = OtherOpenFli(|model, width, height, jiffies, bytes| {
        if bytes.len() < FILE_HEADER {
            return refused(Reel::default(), number::SHORT_OUTPUT);
        }
        Document.open_fli(model, width, height, jiffies, bytes)
    });
    OpenedFliOfAnySize = OtherOpenFli(|model, width, height, jiffies, bytes| {
        let outcome = Document.open_fli(model, width, height, jiffies, bytes);
        if is_refused(&outcome, number::BAD_SIZE) && accepted_size(Format::Flc, width, height).is_ok() {
            let outcome = Document.open_fli(model, 320, 200, jiffies, bytes);
            return Outcome { reel: Reel { width, height, ..outcome.reel }, ..outcome };
        }
        outcome
    });
    LongJiffiesCut = OtherOpenFli(|model, width, height, Jiffies(jiffies), bytes| {
        Document.open_fli(model, width, height, Jiffies(jiffies & 0xFFFF), bytes)
    });
    FliOpenClearsRest = OtherOpenFli(|model, width, height, jiffies, bytes| {
        let outcome = Document.open_fli(model, width, height, jiffies, bytes);
        if outcome.answer.is_ok() {
            bytes[FILE_HEADER..].fill(0);
        }
        outcome
    });
    FliOpenWritesWhenShort = OtherOpenFli(|model, width, height, jiffies, bytes| {
        let outcome = Document.open_fli(model, width, height, jiffies, bytes);
        if is_refused(&outcome, number::SHORT_OUTPUT) {
            bytes.copy_from_slice(&model.headers.opened_fli(jiffies)[..bytes.len()]);
        }
        outcome
    });
    RecordOfRefusedFli = OtherOpenFli(|model, width, height, jiffies, bytes| {
        let outcome = Document.open_fli(model, width, height, jiffies, bytes);
        Outcome { reel: Reel { format: Format::Fli.number(), ..outcome.reel }, ..outcome }
    });
    FlcRecordOfFli = OtherOpenFli(|model, width, height, jiffies, bytes| {
        let outcome = Document.open_fli(model, width, height, jiffies, bytes);
        Outcome { reel: Reel { format: Format::Flc.number(), ..outcome.reel }, ..outcome }
    });
    FlcFrameAddedToFli = OtherAddFrame(|model, reel, bytes, shown, next| {
        as_format(reel, 0, |reel| Document.add_frame(model, reel, bytes, shown, next))
    });
    FliClosedAsFlc = OtherCloseReel(|model, reel, bytes, first, second| {
        as_format(reel, 0, |reel| Document.close_reel(model, reel, bytes, first, second))
    });
    FliPlayedAsFlc = OtherPlayFrame(|model, bytes, end, place, played| {
        let format = std::mem::replace(&mut played.format, Format::Flc);
        let after = Document.play_frame(model, bytes, end, place, played);
        played.format = format;
        after
    });
    RingOfFliByFlcDelta = OtherRing(|model, played| {
        let Played { width, height, .. } = *played;
        model.house_frame(Format::Flc, width, height, played.last.shown(), played.first.shown())
    });
    AddForgetsFormat = OtherAddFrame(|model, reel, bytes, shown, next| {
        let outcome = Document.add_frame(model, reel, bytes, shown, next);
        Outcome { reel: Reel { format: 0, ..outcome.reel }, ..outcome }
    });
    CloseForgetsFormat = OtherCloseReel(|model, reel, bytes, first, second| {
        let outcome = Document.close_reel(model, reel, bytes, first, second);
        Outcome { reel: Reel { format: 0, ..outcome.reel }, ..outcome }
    });
    FormatOfRefusedRecordMadeRight = OtherAddFrame(|model, reel, bytes, shown, next| {
        let outcome = Document.add_frame(model, reel, bytes, shown, next);
        Outcome { reel: Reel { format: outcome.reel.format.min(1), ..outcome.reel }, ..outcome }
    });
    RecordOfFliOfAnySize = OtherChecked(|_, reel, may_go_on, pictures, palettes| {
        Document.checked(Format::Flc, reel, may_go_on, pictures, palettes)
    });
    SlicesBeforeSizeOfFliRecord = OtherChecked(|format, reel, may_go_on, pictures, palettes| {
        let checked = Document.checked(Format::Flc, reel, may_go_on, pictures, palettes);
        match checked {
            Err(refusal) if refusal.number == number::SHORT_SLICE => checked,
            _ => Document.checked(format, reel, may_go_on, pictures, palettes),
        }
    });
}
