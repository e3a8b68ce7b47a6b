//! Other readings of a frame.

use super::{readings, rules};
use crate::model::decode::{Data, FrameHeader, Frames, Line, Packet, RowStart, Screen, Ss2Word, SubChunk};
use crate::model::{
    kind, long_enough, number, require, size_at, word_at, Document, Format, Refusal, CHUNK_HEADER, FRAME_HEADER,
};
use crate::ways::{packet_bytes, MANY};
use flic_boundary::PairMut;
use std::ops::Range;

rules! { Frames;
    OtherBrunType: brun_type(signed: i8) -> Result<Packet, u32>;
    OtherDeltaPacket: delta_packet(
        data: &mut Data, screen: &mut Screen, row: usize, x: usize, unit: usize
    ) -> Result<usize, u32>;
    OtherChecked: checked(format: Format, width: u64, height: u64, shown: &PairMut) -> Result<Screen, Refusal>;
    OtherReadFrame: read_frame(
        bytes: &[u8], format: Format, width: u64, height: u64, shown: PairMut
    ) -> Result<(), Refusal>;
    OtherPlay: play(bytes: &[u8], format: Format, screen: &mut Screen) -> Result<(), Refusal>;
    OtherSubChunk: sub_chunk(enclosing: &[u8], format: Format, place: usize) -> Result<SubChunk, Refusal>;
    OtherMayHold: may_hold(format: Format, kind: u16) -> bool;
    OtherPixels: pixels(
        packet: &Packet, unit: usize, data: &mut Data, after: usize, width: usize
    ) -> Result<Vec<u8>, u32>;
    OtherSs2Word: ss2_word(word: u16, line: &Line) -> Result<Ss2Word, u32>;
    OtherSkipDown: skip_down(line: &mut Line, rows: usize) -> Result<(), u32>;
    OtherSs2Packets: ss2_packets(data: &mut Data, screen: &mut Screen, line: &Line, packets: usize) -> Result<(), u32>;
    OtherLevels: levels(kind: u16, stored: &[u8]) -> Result<(), u32>;
    OtherComponent: component(kind: u16, level: u8) -> u8;
    OtherColourPacket: colour_packet(
        kind: u16, data: &mut Data, entries: Range<usize>, screen: &mut Screen
    ) -> Result<(), u32>;
    OtherColourCount: colour_count(stored: u8) -> usize;
    OtherLcRows: lc_rows(first: usize, count: usize, height: usize) -> Result<(), u32>;
    OtherLc: lc(data: &mut Data, screen: &mut Screen) -> Result<(), u32>;
    OtherLcStart: lc_start(data: &mut Data) -> Result<RowStart, u32>;
    OtherFault: fault(number: u32, place: usize) -> Refusal;
    OtherBlack: black(screen: &mut Screen) -> Result<(), u32>;
    OtherFrameHeader: frame_header(bytes: &[u8]) -> Result<FrameHeader, Refusal>;
    OtherJudged: judged(kind: u16, data: &mut Data, screen: &mut Screen) -> Result<(), u32>;
    OtherSpare: spare(kind: u16, spare: usize) -> Result<(), u32>;
    OtherAct: act(kind: u16, data: &mut Data, screen: &mut Screen) -> Result<(), u32>;
    OtherDeltaType: delta_type(signed: i8) -> Result<Packet, u32>;
    OtherLastPixel: last_pixel(screen: &mut Screen, row: usize, pixel: u8) -> ();
}

/// Reads on over spare bytes.
struct Unjudged;

impl Frames for Unjudged {
    fn spare(&self, _kind: u16, _spare: usize) -> Result<(), u32> {
        Ok(())
    }
}

readings! { ALL: Frames;
    BrunSignOfLc = OtherBrunType(|signed| {
        Document.brun_type(signed).map(|packet| Packet { repeats: !packet.repeats, ..packet })
    });
    Ss2SkipAsPairs = OtherDeltaPacket(|data, screen, row, x, unit| {
        let skip = data.rest.first().map_or(0, |skip| *skip as usize);
        Document.delta_packet(data, screen, row, x + skip * (unit - 1), unit)
    });
    SlicesBeforeSize = OtherChecked(|format, width, height, shown| {
        long_enough(width.saturating_mul(height) as usize, &[shown.picture], &[shown.palette])?;
        Document.checked(format, width, height, shown)
    });
    TouchesNothing = OtherReadFrame(|bytes, format, width, height, shown| {
        let mut screen = Document.checked(format, width, height, &shown)?;
        Document.play(bytes, format, &mut screen)
    });
    FixedPicture = OtherPlay(|bytes, format, screen| {
        Document.play(bytes, format, screen)?;
        Document.black(screen).map_err(|number| Refusal::new(number, 0))
    });
    RefusesEverything = OtherReadFrame(|_, _, _, _, _| Err(Refusal::new(number::CUT_SHORT, 0)));
    DataBeforeWidth = OtherPixels(|packet, unit, data, after, width| {
        let needed = if packet.repeats { unit } else { packet.count * unit };
        if data.rest.len() < needed {
            return Err(number::BODY_ENDS);
        }
        Document.pixels(packet, unit, data, after, width)
    });
    RowBeforeHighBits = OtherSs2Word(|word, line| {
        if word >> 14 == 1 {
            line.row_is_there()?;
        }
        Document.ss2_word(word, line)
    });
    RowSkipUnchecked = OtherSkipDown(|line, rows| {
        line.row += rows;
        Ok(())
    });
    LastPixelAfterPackets = OtherSs2Packets(|data, screen, line, packets| {
        Document.ss2_packets(data, screen, line, packets)?;
        if let Some(pixel) = line.last_pixel {
            Document.last_pixel(screen, line.row, pixel);
        }
        Ok(())
    });
    LastPixelTwice = OtherSs2Word(|word, line| {
        match word >> 14 {
            2 => Ok(Ss2Word::LastPixel(word as u8)),
            _ => Document.ss2_word(word, line),
        }
    });
    LevelsUnchecked = OtherLevels(|_, _| Ok(()));
    LevelsAsTheyStand = OtherComponent(|_, level| level);
    LevelsTimes4 = OtherComponent(|kind, level| match kind {
        kind::COLOR => level.wrapping_mul(4),
        _ => level,
    });
    LevelsRoundedUp = OtherComponent(|kind, level| match kind {
        kind::COLOR => level.wrapping_mul(4).wrapping_add(level.div_ceil(16)),
        _ => level,
    });
    LevelsBeforeColours = OtherColourPacket(|kind, data, entries, screen| {
        if entries.end <= 256 {
            Document.levels(kind, &data.rest[..data.rest.len().min(3 * entries.len())])?;
        }
        Document.colour_packet(kind, data, entries, screen)
    });
    ColourCountZeroIsNone = OtherColourCount(|stored| stored as usize);
    LcFirstRowUnchecked = OtherLcRows(|first, count, height| {
        if count == 0 {
            return Ok(());
        }
        Document.lc_rows(first, count, height)
    });
    LcRowStartBeforeHeight = OtherLc(|data, screen| {
        if data.rest.len() == 4 && data.rest[2..] != [0, 0] {
            return Err(number::BODY_ENDS);
        }
        Document.lc(data, screen)
    });
    LcStartingXRead = OtherLcStart(|data| {
        let start = data.take(2)?;
        Ok(RowStart { x: start[0] as usize, packets: start[1] })
    });
    LcCountOfTwoBytes = OtherLcStart(|data| Ok(RowStart { x: 0, packets: data.take(2)?[0] }));
    LcFromTheCount = OtherLcStart(|data| Document.lc_start(data).map(|row| RowStart { x: row.packets as usize, ..row }));
    LcFromColumn1 = OtherLcStart(|data| Document.lc_start(data).map(|row| RowStart { x: 1, ..row }));
    LcRowStartLeftOut = OtherLcStart(|data| Ok(Document.lc_start(data).unwrap_or(RowStart { x: 0, packets: 0 })));
    SpareBytesKept = OtherSpare(|_, _| Ok(()));
    TwoSpareBytesKept = OtherSpare(|kind, spare| Document.spare(kind, spare.max(1) - 1));
    OneSpareByteRefused = OtherSpare(|kind, spare| Document.spare(kind, 2 * spare));
    SpareBytesOfOneByte = OtherSpare(|kind, spare| Document.spare(kind, spare & 0xFF));
    SpareOfColoursKept = OtherSpare(|kind, spare| match kind {
        kind::COLOR256 | kind::COLOR => Ok(()),
        _ => Document.spare(kind, spare),
    });
    SpareOfBlackKept = OtherSpare(|kind, spare| match kind {
        kind::BLACK => Ok(()),
        _ => Document.spare(kind, spare),
    });
    SpareOfCopyKept = OtherSpare(|kind, spare| match kind {
        kind::COPY => Ok(()),
        _ => Document.spare(kind, spare),
    });
    SpareOfStampsRefused = OtherSpare(|kind, spare| match kind {
        kind::PSTAMP => Document.spare(kind::BLACK, spare),
        _ => Document.spare(kind, spare),
    });
    SpareOfUnknownRefused = OtherSpare(|kind, spare| match kind {
        kind::PSTAMP => Ok(()),
        _ => Document.spare(kind::BLACK, spare),
    });
    SpareBeforeOwnFaults = OtherJudged(|kind, data, screen| {
        let acted = Document.act(kind, data, screen);
        Document.spare(kind, data.rest.len())?;
        acted
    });
    SpareAtFrameEnd = OtherPlay(|bytes, format, screen| {
        Unjudged.play(bytes, format, screen)?;
        Document.play(bytes, format, screen)
    });
    PlaceOfSpare = OtherFault(|number, place| match number {
        number::SPARE_BYTES => Refusal::new(number, place + CHUNK_HEADER),
        _ => Refusal::new(number, place),
    });
    PlaceOfFrame = OtherFault(|number, _| Refusal::new(number, 0));
    BlackPastPicture = OtherBlack(|screen| {
        screen.picture.fill(0);
        Ok(())
    });
    KeepsHalfReadFrame = OtherReadFrame(|bytes, format, width, height, shown| {
        let mut screen = Document.checked(format, width, height, &shown)?;
        let answer = Document.play(bytes, format, &mut screen);
        shown.picture.copy_from_slice(&screen.picture);
        shown.palette.copy_from_slice(&screen.palette);
        answer
    });
    KeepsHalfReadHeavyFrame = OtherReadFrame(|bytes, format, width, height, shown| {
        let mut screen = Document.checked(format, width, height, &shown)?;
        let answer = Document.play(bytes, format, &mut screen);
        if answer.as_ref().map_or_else(|refusal| refusal.place > 0 && packet_bytes(bytes) >= MANY, |()| true) {
            shown.picture.copy_from_slice(&screen.picture);
            shown.palette.copy_from_slice(&screen.palette);
        }
        answer
    });
    SubChunksPastFrame = OtherFrameHeader(|bytes| {
        Document.frame_header(bytes).map(|header| FrameHeader { end: bytes.len(), ..header })
    });
    KindOfOneByte = OtherAct(|kind, data, screen| Document.act(kind & 0xFF, data, screen));
    FrameSizeBeforeType = OtherFrameHeader(|bytes| {
        if bytes.len() >= FRAME_HEADER && size_at(bytes, 0) < FRAME_HEADER {
            return Err(Refusal::new(number::SIZE_TOO_SMALL, 0));
        }
        Document.frame_header(bytes)
    });
    BrunMinus128Refused = OtherBrunType(|signed| {
        match signed {
            i8::MIN => Err(number::EMPTY_BRUN_PACKET),
            _ => Document.brun_type(signed),
        }
    });
    DeltaMinus128Refused = OtherDeltaType(|signed| {
        match signed {
            i8::MIN => Err(number::PAST_WIDTH),
            _ => Document.delta_type(signed),
        }
    });
    Ss2CountOfOneByte = OtherSs2Packets(|data, screen, line, packets| {
        Document.ss2_packets(data, screen, line, packets & 0xFF)
    });
    ChunkCountOfOneByte = OtherFrameHeader(|bytes| {
        Document.frame_header(bytes).map(|header| FrameHeader { count: header.count & 0xFF, ..header })
    });
    LastPixelAtOddOnly = OtherLastPixel(|screen, row, pixel| {
        if screen.width % 2 == 1 {
            Document.last_pixel(screen, row, pixel);
        }
    });
    EmptyPacketAtWidthRefused = OtherPixels(|packet, unit, data, after, width| {
        if packet.count == 0 && after == width {
            return Err(number::PAST_WIDTH);
        }
        Document.pixels(packet, unit, data, after, width)
    });
    RowSkipOnceOnly = OtherSs2Word(|word, line| {
        match word >> 14 {
            3 if line.row > line.first_row => Err(number::BAD_SS2_WORD),
            _ => Document.ss2_word(word, line),
        }
    });
}

/// Whether a frame's sub-chunk is of a kind that its format hasn't.
fn is_foreign(enclosing: &[u8], format: Format, place: usize) -> bool {
    let is_there = enclosing.len() >= place + CHUNK_HEADER;
    is_there && !Document.may_hold(format, word_at(enclosing, place + 4))
}

/// A sub-chunk whatever its kind.
fn of_any_kind(enclosing: &[u8], place: usize) -> Result<SubChunk, Refusal> {
    Document.sub_chunk(enclosing, Format::Flc, place)
}

/// Reads on over kinds that the format hasn't.
struct AllKinds;

impl Frames for AllKinds {
    fn may_hold(&self, _format: Format, _kind: u16) -> bool {
        true
    }
}

// What can be taken otherwise in a frame of an FLI.
readings! { FLI: Frames;
    Kind7ReadInFli = OtherMayHold(|format, kind| kind == kind::SS2 || Document.may_hold(format, kind));
    Kind18SteppedOverInFli = OtherMayHold(|format, kind| kind == kind::PSTAMP || Document.may_hold(format, kind));
    UnknownRefusedInFli = OtherMayHold(|format, kind| match kind {
        kind::COLOR256 | kind::COLOR | kind::LC | kind::BLACK | kind::BRUN | kind::COPY => true,
        _ => format == Format::Flc,
    });
    Colours256RefusedInFli = OtherMayHold(|format, kind| {
        Document.may_hold(format, kind) && (format == Format::Flc || kind != kind::COLOR256)
    });
    KindOfOneByteInFli = OtherMayHold(|format, kind| Document.may_hold(format, kind & 0xFF));
    OnlyTheFirstIsJudged = OtherSubChunk(|enclosing, format, place| match place {
        FRAME_HEADER => Document.sub_chunk(enclosing, format, place),
        _ => of_any_kind(enclosing, place),
    });
    KindBeforeItsSizes = OtherSubChunk(|enclosing, format, place| {
        require(!is_foreign(enclosing, format, place), number::NOT_IN_FLI, place)?;
        Document.sub_chunk(enclosing, format, place)
    });
    KindBeforeSizeTooLarge = OtherSubChunk(|enclosing, format, place| {
        let is_foreign = is_foreign(enclosing, format, place) && size_at(enclosing, place) >= CHUNK_HEADER;
        require(!is_foreign, number::NOT_IN_FLI, place)?;
        Document.sub_chunk(enclosing, format, place)
    });
    KindAfterItsBody = OtherPlay(|bytes, format, screen| {
        let header = Document.frame_header(bytes)?;
        let mut place = FRAME_HEADER;
        for _ in 0..header.count {
            let chunk = of_any_kind(&bytes[..header.end], place)?;
            let data = &mut Data { rest: &bytes[place + CHUNK_HEADER..place + chunk.size] };
            Document.judged(chunk.kind, data, screen).map_err(|number| Refusal::new(number, place))?;
            Document.sub_chunk(&bytes[..header.end], format, place)?;
            place += chunk.size;
        }
        Ok(())
    });
    KindsAfterTheFrame = OtherPlay(|bytes, format, screen| {
        AllKinds.play(bytes, format, screen)?;
        Document.play(bytes, format, screen)
    });
    KindsBeforeTheFrame = OtherPlay(|bytes, format, screen| {
        let header = Document.frame_header(bytes)?;
        let mut place = FRAME_HEADER;
        for _ in 0..header.count {
            let Ok(chunk) = of_any_kind(&bytes[..header.end], place) else { break };
            Document.sub_chunk(&bytes[..header.end], format, place)?;
            place += chunk.size;
        }
        Document.play(bytes, format, screen)
    });
    KindRefusedAtItsBody = OtherSubChunk(|enclosing, format, place| {
        Document.sub_chunk(enclosing, format, place).map_err(|refusal| match refusal.number {
            number::NOT_IN_FLI => Refusal::new(refusal.number, place + CHUNK_HEADER),
            _ => refusal,
        })
    });
    KindRefusedAtItsFrame = OtherSubChunk(|enclosing, format, place| {
        Document.sub_chunk(enclosing, format, place).map_err(|refusal| match refusal.number {
            number::NOT_IN_FLI => Refusal::new(refusal.number, 0),
            _ => refusal,
        })
    });
    FliOfAnySize = OtherChecked(|_, width, height, shown| Document.checked(Format::Flc, width, height, shown));
    SlicesBeforeSizeOfFli = OtherChecked(|format, width, height, shown| {
        long_enough(width.saturating_mul(height) as usize, &[shown.picture], &[shown.palette])?;
        Document.checked(format, width, height, shown)
    });
    KeepsHalfReadFli = OtherReadFrame(|bytes, format, width, height, shown| {
        let mut screen = Document.checked(format, width, height, &shown)?;
        let answer = Document.play(bytes, format, &mut screen);
        if answer.is_ok() || answer.is_err_and(|refusal| refusal.number == number::NOT_IN_FLI) {
            shown.picture.copy_from_slice(&screen.picture);
            shown.palette.copy_from_slice(&screen.palette);
        }
        answer
    });
    KeepsHalfReadHeavyFli = OtherReadFrame(|bytes, format, width, height, shown| {
        let mut screen = Document.checked(format, width, height, &shown)?;
        let answer = Document.play(bytes, format, &mut screen);
        let foreign = |refusal: Refusal| refusal.number == number::NOT_IN_FLI && packet_bytes(bytes) >= MANY;
        if answer.is_ok() || answer.is_err_and(foreign) {
            shown.picture.copy_from_slice(&screen.picture);
            shown.palette.copy_from_slice(&screen.palette);
        }
        answer
    });
}
