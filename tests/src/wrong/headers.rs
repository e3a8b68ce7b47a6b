//! Other readings of a file header, and other headers of a reel that is opened.

use super::{readings, rules};
use crate::model::file_header::{put_double, put_word, Closing, Headers};
use crate::model::{
    accepted_size, field, size_at, word_at, Document, FileHeader, Format, Jiffies, Milliseconds, Model, Refusal,
    FILE_HEADER, MAX_FRAMES, MAX_WIDTH,
};

type Checks = [(u32, bool); 6];

rules! { Headers;
    OtherChecks: checks(
        header: &FileHeader, type_is_right: bool, bytes: &[u8], pictures: &[&[u8]], palettes: &[&[u8]]
    ) -> Checks;
    OtherSpeed: speed(model: &Model, format: Format, bytes: &[u8]) -> Milliseconds;
    OtherDepthIsRight: depth_is_right(depth: u16) -> bool;
    OtherFlagsAreRight: flags_are_right(format: Format, flags: u16) -> bool;
    OtherFramesAreRight: frames_are_right(frames: u64) -> bool;
    OtherReadHeader: read_header(model: &Model, bytes: &[u8]) -> Result<FileHeader, Refusal>;
    OtherAspect: aspect(width: u64, height: u64) -> (u16, u16);
    OtherOpened: opened(width: usize, height: usize, speed: Milliseconds) -> [u8; FILE_HEADER];
    OtherOpenedFli: opened_fli(jiffies: Jiffies) -> [u8; FILE_HEADER];
    OtherClose: close(header: &mut [u8], format: Format, closing: &Closing) -> ();
}

// What every call that reads a file header can do wrong.
readings! { ACCEPTED: Headers;
    SizeFieldBeforeMagic = OtherChecks(|header, type_is_right, bytes, pictures, palettes| {
        let mut checks = Document.checks(header, type_is_right, bytes, pictures, palettes);
        checks.swap(0, 1);
        checks
    });
    FlagsBeforeSizeField = OtherChecks(|header, type_is_right, bytes, pictures, palettes| {
        let mut checks = Document.checks(header, type_is_right, bytes, pictures, palettes);
        checks[1..5].rotate_right(1);
        checks
    });
    FlagsBeforePictureSize = OtherChecks(|header, type_is_right, bytes, pictures, palettes| {
        let mut checks = Document.checks(header, type_is_right, bytes, pictures, palettes);
        checks.swap(3, 4);
        checks
    });
    DepthUnchecked = OtherDepthIsRight(|_| true);
    FlagsAsBits = OtherFlagsAreRight(|format, flags| {
        Document.flags_are_right(format, flags) || (format == Format::Flc && flags & 3 == 3)
    });
    HeaderOf4001Frames = OtherFramesAreRight(|frames| (1..=MAX_FRAMES + 1).contains(&frames));
    HeaderOfNoFrames = OtherFramesAreRight(|frames| frames <= MAX_FRAMES);
}

// What the reading of a header can do wrong besides: what it tells.
readings! { READ: Headers;
    SpeedReadAsWord = OtherReadHeader(|model, bytes| {
        Document.read_header(model, bytes).map(|header| FileHeader { speed: Milliseconds(header.speed.0 & 0xFFFF), ..header })
    });
    SpeedReadAtOffset18 = OtherReadHeader(|model, bytes| {
        let speed = |header| FileHeader { speed: Milliseconds(size_at(bytes, field::SPEED + 2) as u64), ..header };
        Document.read_header(model, bytes).map(speed)
    });
    RingCountedAsFrame = OtherReadHeader(|model, bytes| {
        Document.read_header(model, bytes).map(|header| FileHeader { frames: header.frames + 1, ..header })
    });
    WidthAsHeight = OtherReadHeader(|model, bytes| {
        Document.read_header(model, bytes).map(|header| FileHeader { width: header.height, height: header.width, ..header })
    });
    SizeOfAllBytes = OtherReadHeader(|model, bytes| {
        Document.read_header(model, bytes).map(|header| FileHeader { size: bytes.len(), ..header })
    });
}

// What the calls on reels can do wrong besides.
readings! { REELS: Headers;
    SlicesBeforeFlags = OtherChecks(|header, type_is_right, bytes, pictures, palettes| {
        let mut checks = Document.checks(header, type_is_right, bytes, pictures, palettes);
        checks.swap(4, 5);
        checks
    });
    AspectOneToOne = OtherAspect(|_, _| (1, 1));
    AspectByWidthAlone = OtherAspect(|width, _| if width == MAX_WIDTH { (6, 5) } else { (1, 1) });
    SpeedOfTwoBytes = OtherOpened(|width, height, speed| {
        Document.opened(width, height, Milliseconds(speed.0 & 0xFFFF))
    });
    CreatorLeftOut = OtherOpened(|width, height, speed| {
        let mut header = Document.opened(width, height, speed);
        put_double(&mut header, field::CREATOR, 0);
        header
    });
    FlagsAtOpen = OtherOpened(|width, height, speed| {
        let mut header = Document.opened(width, height, speed);
        put_word(&mut header, field::FLAGS, 3);
        header
    });
    Oframe1AtOpen = OtherOpened(|width, height, speed| {
        let mut header = Document.opened(width, height, speed);
        put_double(&mut header, field::OFRAME1, FILE_HEADER as u32);
        header
    });
}

// What every call that reads an FLI's header can do wrong.
readings! { FLI: Headers;
    Flags3InFli = OtherFlagsAreRight(|_, flags| Document.flags_are_right(Format::Flc, flags));
    Flags3AcceptedInFli = OtherFlagsAreRight(|format, flags| {
        Document.flags_are_right(format, flags) || Document.flags_are_right(Format::Flc, flags)
    });
    FlagsOfFliUnread = OtherFlagsAreRight(|format, flags| format == Format::Fli || Document.flags_are_right(format, flags));
    FlagsOfFliOfOneByte = OtherFlagsAreRight(|format, flags| match format {
        Format::Flc => Document.flags_are_right(format, flags),
        Format::Fli => flags & 0xFF == 0,
    });
    HeaderOfFliOfAnySize = OtherChecks(|header, type_is_right, bytes, pictures, palettes| {
        let mut checks = Document.checks(header, type_is_right, bytes, pictures, palettes);
        checks[3].1 = accepted_size(Format::Flc, header.width as u64, header.height as u64).is_ok();
        checks
    });
    FlagsOfFliBeforeItsSize = OtherChecks(|header, type_is_right, bytes, pictures, palettes| {
        let mut checks = Document.checks(header, type_is_right, bytes, pictures, palettes);
        checks.swap(3, 4);
        checks
    });
    BytesFrom18Read = OtherChecks(|header, type_is_right, bytes, pictures, palettes| {
        let mut checks = Document.checks(header, type_is_right, bytes, pictures, palettes);
        checks[4].1 &= header.format == Format::Flc || bytes[18..FILE_HEADER].iter().all(|byte| *byte == 0);
        checks
    });
}

// What the reading of an FLI's header and a player's start can do wrong besides: the delay.
readings! { FLI_SPEEDS: Headers;
    JiffiesOfFourBytes = OtherSpeed(|model, format, bytes| match format {
        Format::Flc => Document.speed(model, format, bytes),
        Format::Fli => model.formats.milliseconds(Jiffies(size_at(bytes, field::SPEED) as u64)),
    });
    JiffiesOfOneByte = OtherSpeed(|model, format, bytes| match format {
        Format::Flc => Document.speed(model, format, bytes),
        Format::Fli => model.formats.milliseconds(Jiffies(bytes[field::SPEED].into())),
    });
    JiffiesTakenForMilliseconds = OtherSpeed(|model, format, bytes| match format {
        Format::Flc => Document.speed(model, format, bytes),
        Format::Fli => Milliseconds(word_at(bytes, field::SPEED).into()),
    });
    MillisecondsInFli = OtherSpeed(|model, _, bytes| Document.speed(model, Format::Flc, bytes));
}

/// A header of an FLI with something written past its 18 bytes.
fn with_double(jiffies: Jiffies, offset: usize, double: u32) -> [u8; FILE_HEADER] {
    let mut header = Document.opened_fli(jiffies);
    put_double(&mut header, offset, double);
    header
}

// What an open of an FLI and its close can write otherwise.
readings! { FLI_WRITTEN: Headers;
    FlcMagicInFli = OtherOpenedFli(|jiffies| {
        let mut header = Document.opened_fli(jiffies);
        put_word(&mut header, field::MAGIC, Format::Flc.magic());
        header
    });
    MillisecondsInFliHeader = OtherOpenedFli(|Jiffies(jiffies)| {
        let mut header = Document.opened_fli(Jiffies(jiffies));
        put_word(&mut header, field::SPEED, (1_000 * jiffies / 70) as u16);
        header
    });
    JiffiesOfOneByteWritten = OtherOpenedFli(|Jiffies(jiffies)| Document.opened_fli(Jiffies(jiffies & 0xFF)));
    Byte18Written = OtherOpenedFli(|jiffies| with_double(jiffies, 18, 1));
    Byte127Written = OtherOpenedFli(|jiffies| with_double(jiffies, 124, 1 << 24));
    AspectInFli = OtherOpenedFli(|jiffies| with_double(jiffies, field::ASPECT_X, 0x0005_0006));
    CreatorInFli = OtherOpenedFli(|jiffies| with_double(jiffies, field::CREATOR, 0x464C_4942));
    Oframe1AtOpenOfFli = OtherOpenedFli(|jiffies| with_double(jiffies, field::OFRAME1, FILE_HEADER as u32));
    CloseSetsFlagsOfFli = OtherClose(|header, format, closing| {
        Document.close(header, format, closing);
        put_word(header, field::FLAGS, 3);
    });
    CloseSetsOframe1OfFli = OtherClose(|header, format, closing| {
        Document.close(header, format, closing);
        put_double(header, field::OFRAME1, FILE_HEADER as u32);
    });
    CloseSetsOframe2OfFli = OtherClose(|header, format, closing| {
        Document.close(header, format, closing);
        put_double(header, field::OFRAME2, closing.second_frame);
    });
    CloseClearsFlagsOfFli = OtherClose(|header, format, closing| {
        Document.close(header, format, closing);
        put_word(header, field::FLAGS, if format == Format::Fli { 0 } else { 3 });
    });
    CloseClearsRestOfFli = OtherClose(|header, format, closing| {
        Document.close(header, format, closing);
        if format == Format::Fli {
            header[18..FILE_HEADER].fill(0);
        }
    });
    CloseSetsSizeOfFliAlone = OtherClose(|header, format, closing| {
        let frames = word_at(header, field::FRAMES);
        Document.close(header, format, closing);
        if format == Format::Fli {
            put_word(header, field::FRAMES, frames);
        }
    });
}
