//! Other house forms, and other ways to write and rewrite a frame in it.

use super::{readings, rules};
use crate::model::encode::{as_byte, equal_pixels, push_row_skip, push_word, sub_chunk, BrunPacket, House, Searched};
use crate::model::{kind, long_enough, number, require, Document, Format, Model, Refusal, FRAME_HEADER};
use flic_boundary::{Pair, PairMut};

rules! { House;
    OtherPictureChunk: picture_chunk(
        format: Format, width: usize, previous: &[u8], next: &[u8]
    ) -> Option<Vec<u8>>;
    OtherDeltaChunk: delta_chunk(format: Format, width: usize, previous: &[u8], next: &[u8]) -> Vec<u8>;
    OtherBrunRow: brun_row(row: &[u8]) -> Vec<BrunPacket>;
    OtherPrefersRepeat: prefers_repeat(repeat: usize, copy: usize) -> bool;
    OtherPrefersLonger: prefers_longer(longer: usize, shorter: usize) -> bool;
    OtherFullChunks: full_chunks(width: usize, next: &[u8]) -> Vec<Vec<u8>>;
    OtherIgnoredByte: ignored_byte(packets: usize) -> u8;
    OtherUsesDelta: uses_delta(delta: usize, full: usize) -> bool;
    OtherLastPixelWord: last_pixel_word(old: &[u8], new: &[u8]) -> Vec<u8>;
    OtherRepeated: repeated(units: &[&[u8]], at: usize) -> usize;
    OtherLeastRepeat: least_repeat(unit: usize) -> usize;
    OtherMostSkipped: most_skipped(unit: usize) -> usize;
    OtherDeltaPackets: delta_packets(unit: usize, old: &[u8], new: &[u8]) -> Vec<Vec<u8>>;
    OtherLcBody: lc_body(width: usize, previous: &[u8], next: &[u8]) -> Vec<u8>;
    OtherLcRows: lc_rows(rows: &[(&[u8], &[u8])]) -> (usize, usize);
    OtherColourChunk: colour_chunk(previous: &[u8], next: &[u8]) -> Option<Vec<u8>>;
    OtherSs2Body: ss2_body(width: usize, previous: &[u8], next: &[u8]) -> Vec<u8>;
    OtherColourPackets: colour_packets(changed: &[bool]) -> Vec<(usize, usize)>;
    OtherInOrder: in_order(colour: Option<Vec<u8>>, picture: Option<Vec<u8>>) -> Vec<Vec<u8>>;
    OtherChecked: checked(
        format: Format, width: u64, height: u64, pictures: &[&[u8]], palettes: &[&[u8]]
    ) -> Result<(usize, usize), Refusal>;
    OtherStore: store(frame: &[u8], out: &mut [u8]) -> Result<usize, Refusal>;
    OtherMostUnits: most_units() -> usize;
    OtherMostBrun: most_brun() -> (usize, usize);
    OtherUnitChanged: unit_changed(was: &[u8], is: &[u8]) -> bool;
    OtherTurns: turns(pixels: usize) -> usize;
    OtherSearchRow: search_row(row: &[u8]) -> Result<Searched, Refusal>;
    OtherSetsPair: sets_pair(answer: &Result<usize, Refusal>) -> bool;
    OtherRewriteFrame: rewrite_frame(
        model: &Model, bytes: &[u8], format: Format, width: u64, height: u64, previous: Pair, work: PairMut, out: &mut [u8]
    ) -> Result<usize, Refusal>;
}

readings! { WRITING: House;
    AlwaysCopy = OtherPictureChunk(|_, _, previous, next| (previous != next).then(|| sub_chunk(kind::COPY, next)));
    RepeatAtEveryEqualPair = OtherBrunRow(|row| {
        let mut packets = Vec::new();
        let mut x = 0;
        while x < row.len() {
            let equal = equal_pixels(row, x);
            let copied = (x..row.len()).take(128).take_while(|at| equal_pixels(row, *at) == 1).count();
            let count = if equal > 1 { equal } else { copied };
            packets.push(BrunPacket { x, count, repeats: equal > 1 });
            x += count;
        }
        packets
    });
    TieForCopy = OtherPrefersRepeat(|repeat, copy| repeat < copy);
    TieForShortest = OtherPrefersLonger(|longer, shorter| longer < shorter);
    CopyBeforeBrun = OtherFullChunks(|width, next| {
        let mut chunks = Document.full_chunks(width, next);
        let copy = chunks.len() - 1;
        chunks.swap(copy - 1, copy);
        chunks
    });
    IgnoredByteZero = OtherIgnoredByte(|_| 0);
    DeltaWhenAsLong = OtherUsesDelta(|delta, full| delta <= full);
    NeverDelta = OtherUsesDelta(|_, _| false);
    LastColumnLeftOut = OtherLastPixelWord(|_, _| Vec::new());
    SinglePairRepeated = OtherRepeated(|pairs, at| Document.repeated(pairs, at).max(1));
    GapOf255 = OtherMostSkipped(|_| 255);
    SkipAfterLastRow = OtherSs2Body(|width, previous, next| {
        let mut body = Document.ss2_body(width, previous, next);
        let rows = previous.chunks(width).zip(next.chunks(width));
        push_row_skip(&mut body, rows.rev().take_while(|(old, new)| old == new).count());
        body
    });
    ColoursInOnePacket = OtherColourPackets(|changed| {
        let packets = Document.colour_packets(changed);
        packets.first().zip(packets.last()).map(|(first, last)| (first.0, last.1)).into_iter().collect()
    });
    ColourAfterPicture = OtherInOrder(|colour, picture| Document.in_order(picture, colour));
    SlicesBeforeSize = OtherChecked(|format, width, height, pictures, palettes| {
        long_enough(width.saturating_mul(height) as usize, pictures, palettes)?;
        Document.checked(format, width, height, pictures, palettes)
    });
    WritesWhenShort = OtherStore(|frame, out| {
        let room = frame.len().min(out.len());
        out[..room].copy_from_slice(&frame[..room]);
        Document.store(frame, out)
    });
    PairsUpTo126 = OtherMostUnits(|| 126);
    BrunCopyUpTo127 = OtherMostBrun(|| (127, 127));
    BrunRepeatUpTo126 = OtherMostBrun(|| (126, 128));
    FirstPixelOfPairOnly = OtherUnitChanged(|was, is| was[0] != is[0]);
}

/// The rows of a kind 12 body, each as the given function stores it, behind the words of Req 06's form.
fn lc_body(width: usize, previous: &[u8], next: &[u8], row: fn(&[Vec<u8>]) -> Vec<u8>) -> Vec<u8> {
    let rows: Vec<(&[u8], &[u8])> = previous.chunks(width).zip(next.chunks(width)).collect();
    let (first, after) = Document.lc_rows(&rows);
    let mut body = Vec::new();
    push_word(&mut body, first);
    push_word(&mut body, after - first);
    for (old, new) in &rows[first..after] {
        body.extend(row(&Document.delta_packets(1, old, new)));
    }
    body
}

/// A row's packets, which other bytes stand before than their count.
fn behind(front: &[u8], packets: &[Vec<u8>]) -> Vec<u8> {
    [front, &packets.concat()].concat()
}

// What can be written otherwise in a frame of an FLI.
readings! { FLI: House;
    FlcDeltaInFli = OtherDeltaChunk(|_, width, previous, next| {
        Document.delta_chunk(Format::Flc, width, previous, next)
    });
    TwoEqualPixelsRepeated = OtherLeastRepeat(|_| 2);
    FourEqualPixelsRepeated = OtherLeastRepeat(|_| 4);
    RepeatUpTo128 = OtherRepeated(|units, at| {
        let equal = units[at..].iter().take(128).take_while(|unit| **unit == units[at]).count();
        if equal >= 3 { equal } else { 0 }
    });
    PixelsUpTo126 = OtherMostUnits(|| 126);
    LeftOverRepeated = OtherRepeated(|units, at| {
        let goes_on = at > 0 && units[at - 1] == units[at];
        let equal = units[at..].iter().take(127).take_while(|unit| **unit == units[at]).count();
        if goes_on || equal >= 3 { equal } else { 0 }
    });
    EqualPixelsNeverRepeated = OtherRepeated(|_, _| 0);
    SkipOf254AtMost = OtherMostSkipped(|_| 254);
    SkipOf256 = OtherDeltaPackets(|unit, old, new| {
        let mut packets = Document.delta_packets(unit, old, new);
        while let Some(at) = packets.windows(2).position(|two| two[0] == [255, 0] && two[1][0] == 1) {
            packets.remove(at);
            packets[at][0] = 0;
        }
        packets
    });
    GapBehindLastPacket = OtherDeltaPackets(|unit, old, new| {
        let mut packets = Document.delta_packets(unit, old, new);
        let gap = old.iter().zip(new).rev().take_while(|(was, is)| was == is).count();
        if !packets.is_empty() && gap > 0 {
            packets.push(vec![as_byte(gap.min(255)), 0]);
        }
        packets
    });
    RowsFromTheTop = OtherLcRows(|rows| (0, Document.lc_rows(rows).1));
    RowsToTheBottom = OtherLcRows(|rows| (Document.lc_rows(rows).0, rows.len()));
    FirstAndLastRowExchanged = OtherLcBody(|width, previous, next| {
        let mut body = Document.lc_body(width, previous, next);
        body[0] += body[2] - 1;
        body
    });
    LastRowForCount = OtherLcBody(|width, previous, next| {
        let mut body = Document.lc_body(width, previous, next);
        body[2] = body[0] + body[2] - 1;
        body
    });
    UnchangedRowsLeftOut = OtherLcBody(|width, previous, next| {
        lc_body(width, previous, next, |packets| match packets {
            [] => Vec::new(),
            _ => behind(&[as_byte(packets.len())], packets),
        })
    });
    EmptyPacketForUnchangedRow = OtherLcBody(|width, previous, next| {
        lc_body(width, previous, next, |packets| match packets {
            [] => vec![1, 0, 0],
            _ => behind(&[as_byte(packets.len())], packets),
        })
    });
    RowCountOfTwoBytes = OtherLcBody(|width, previous, next| {
        lc_body(width, previous, next, |packets| behind(&[as_byte(packets.len()), 0], packets))
    });
    StartingXWritten = OtherLcBody(|width, previous, next| {
        lc_body(width, previous, next, |packets| behind(&[0, as_byte(packets.len())], packets))
    });
    ColoursOf64LevelsInFli = OtherColourChunk(|previous, next| {
        let mut chunk = Document.colour_chunk(previous, next)?;
        chunk[4] = kind::COLOR as u8;
        Some(chunk)
    });
    WrittenFliOfAnySize = OtherChecked(|_, width, height, pictures, palettes| {
        Document.checked(Format::Flc, width, height, pictures, palettes)
    });
    WrittenSlicesBeforeSizeOfFli = OtherChecked(|format, width, height, pictures, palettes| {
        long_enough(width.saturating_mul(height) as usize, pictures, palettes)?;
        Document.checked(format, width, height, pictures, palettes)
    });
}

readings! { REWRITING: House;
    StaleWorkWhenShort = OtherSetsPair(|answer| answer.is_ok());
    WorkSetWhenRefused = OtherSetsPair(|_| true);
    ShortOutputBeforeFrame = OtherRewriteFrame(|model, bytes, format, width, height, previous, work, out| {
        let pictures = [previous.picture, &*work.picture];
        Document.checked(format, width, height, &pictures, &[previous.palette, &*work.palette])?;
        require(out.len() >= FRAME_HEADER, number::SHORT_OUTPUT, 0)?;
        Document.rewrite_frame(model, bytes, format, width, height, previous, work, out)
    });
}

readings! { SEARCHING: House;
    IgnoredByteCounted = OtherSearchRow(|row| {
        let Searched { bytes, turns } = Document.search_row(row)?;
        Ok(Searched { bytes: bytes + 1, turns })
    });
    LastPixelCounted = OtherTurns(|pixels| Document.turns(pixels) + 1);
    SweepsUncounted = OtherTurns(|pixels| pixels - 1);
    SweepEvery127 = OtherTurns(|pixels| (pixels - 1) + (pixels - 1) / 127 * 128);
    EmptyRowSearched = OtherSearchRow(|row| match row {
        [] => Ok(Searched { bytes: 0, turns: 0 }),
        _ => Document.search_row(row),
    });
    RowOf321Searched = OtherSearchRow(|row| Document.search_row(&row[..row.len().min(320)]));
}
