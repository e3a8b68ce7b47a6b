//! Other trailers, and other ways to check and write one.

use super::{readings, rules};
use crate::model::trailer::{Trailers, Walked, TRAILER};
use crate::model::{field, number, require, word_at, Document, Format, Model, Refusal, FILE_HEADER};

rules! { Trailers;
    OtherIndexStart: index_start(reel: &Walked) -> usize;
    OtherPlaces: places(reel: &Walked) -> Vec<usize>;
    OtherIndex: index(places: &[usize]) -> Vec<u8>;
    OtherIndexAndTrailer: index_and_trailer(reel: &Walked) -> Vec<u8>;
    OtherTrailer: trailer(entries: usize) -> [u8; TRAILER];
    OtherIsRight: is_right(rest: &[u8], wanted: &[u8]) -> bool;
    OtherCheckTrailer: check_trailer(model: &Model, bytes: &[u8]) -> Result<(), Refusal>;
    OtherWriteTrailer: write_trailer(model: &Model, bytes: &mut [u8]) -> Result<usize, Refusal>;
}

readings! { ALL: Trailers;
    IndexAtRingEnd = OtherIndexStart(|reel| reel.frames[reel.frames.len() - 1].end);
    EntriesOffByAFrame = OtherPlaces(|reel| {
        let mut places = Document.places(reel);
        places.rotate_left(1);
        places
    });
    IndexWithoutRing = OtherPlaces(|reel| {
        let mut places = Document.places(reel);
        places.pop();
        places
    });
    IndexOfAllChunks = OtherPlaces(|reel| reel.chunks.iter().map(|chunk| chunk.start).collect());
    PlacesAfterFileHeader = OtherPlaces(|reel| Document.places(reel).iter().map(|place| place - FILE_HEADER).collect());
    BigEndianIndex = OtherIndex(|places| places.iter().flat_map(|place| (*place as u32).to_be_bytes()).collect());
    DistanceFromFront = OtherIndexAndTrailer(|reel| {
        let mut bytes = Document.index_and_trailer(reel);
        let trailer = bytes.len() - TRAILER;
        bytes[trailer..trailer + 4].copy_from_slice(&(reel.header.size as u32).to_le_bytes());
        bytes
    });
    DistanceWithoutTrailer = OtherTrailer(|entries| with_distance(entries, 4 * entries));
    DistanceToTrailer = OtherTrailer(|entries| with_distance(entries, TRAILER));
    EntriesWithoutRing = OtherTrailer(|entries| {
        let mut bytes = Document.trailer(entries);
        bytes[4..6].copy_from_slice(&(entries as u16 - 1).to_le_bytes());
        bytes
    });
    Edition2 = OtherTrailer(|entries| {
        let mut bytes = Document.trailer(entries);
        bytes[6] = 2;
        bytes
    });
    EmptyRestRefused = OtherIsRight(|rest, wanted| rest == wanted);
    AnyRestAccepted = OtherIsRight(|_, _| true);
    ByteAfterAccepted = OtherIsRight(|rest, wanted| rest.is_empty() || rest.starts_with(wanted));
    ByteBeforeAccepted = OtherIsRight(|rest, wanted| rest.is_empty() || rest.ends_with(wanted));
    IndexUnread = OtherIsRight(|rest, wanted| right_but_for(rest, wanted, 0..wanted.len() - TRAILER));
    DistanceUnread = OtherIsRight(|rest, wanted| right_but_for(rest, wanted, wanted.len() - 8..wanted.len() - 4));
    EntriesUnread = OtherIsRight(|rest, wanted| right_but_for(rest, wanted, wanted.len() - 4..wanted.len() - 2));
    EditionUnread = OtherIsRight(|rest, wanted| right_but_for(rest, wanted, wanted.len() - 2..wanted.len()));
    TrailerFaultAtSize = OtherCheckTrailer(|model, bytes| {
        Document.check_trailer(model, bytes).map_err(|refusal| match refusal.number {
            number::WRONG_TRAILER => {
                let size = model.read_header(bytes).map_or(0, |header| header.size);
                Refusal::new(refusal.number, size)
            }
            _ => refusal,
        })
    });
    RoomBeforeChunks = OtherWriteTrailer(|model, bytes| {
        let header = model.read_header(bytes)?;
        let end = header.size + 4 * (header.frames + 1) + TRAILER;
        require(end <= bytes.len(), number::SHORT_OUTPUT, 0)?;
        Document.write_trailer(model, bytes)
    });
    TrailerNeedsOneMore = OtherWriteTrailer(|model, bytes| {
        let end = Document.write_trailer(model, &mut bytes.to_vec())?;
        require(end < bytes.len(), number::SHORT_OUTPUT, 0)?;
        Document.write_trailer(model, bytes)
    });
    TrailerWrittenWhenShort = OtherWriteTrailer(|model, bytes| {
        let answer = Document.write_trailer(model, bytes);
        if answer == Err(Refusal::new(number::SHORT_OUTPUT, 0)) {
            let mut longer = [&*bytes, &[0; 20_000]].concat();
            Document.write_trailer(model, &mut longer)?;
            bytes.copy_from_slice(&longer[..bytes.len()]);
        }
        answer
    });
    RestCleared = OtherWriteTrailer(|model, bytes| {
        let end = Document.write_trailer(model, bytes)?;
        bytes[end..].fill(0);
        Ok(end)
    });
    SizeFieldMoved = OtherWriteTrailer(|model, bytes| {
        let end = Document.write_trailer(model, bytes)?;
        bytes[..4].copy_from_slice(&(end as u32).to_le_bytes());
        Ok(end)
    });
    LengthOfTrailerAlone = OtherWriteTrailer(|model, bytes| {
        let end = Document.write_trailer(model, bytes)?;
        Ok(end - model.read_header(bytes)?.size)
    });
}

fn with_distance(entries: usize, distance: usize) -> [u8; TRAILER] {
    let mut bytes = Document.trailer(entries);
    bytes[..4].copy_from_slice(&(distance as u32).to_le_bytes());
    bytes
}

/// Right where a field that isn't read is taken for what is wanted.
fn right_but_for(rest: &[u8], wanted: &[u8], unread: std::ops::Range<usize>) -> bool {
    let mut taken = wanted.to_vec();
    if rest.len() == wanted.len() {
        taken[unread.clone()].copy_from_slice(&rest[unread]);
    }
    Document.is_right(rest, &taken)
}

/// An FLI's bytes as those of an FLC of the same chunks; others as they are.
pub fn as_flc(bytes: &[u8]) -> Vec<u8> {
    let mut bytes = bytes.to_vec();
    if bytes.len() >= FILE_HEADER && word_at(&bytes, field::MAGIC) == Format::Fli.magic() {
        bytes[field::MAGIC] = 0x12;
        bytes[field::FLAGS] ^= 3;
    }
    bytes
}

// What the calls on trailers can do wrong with an FLI.
readings! { FLI_CHECKED: Trailers;
    FliTrailerChecked = OtherCheckTrailer(|model, bytes| Document.check_trailer(model, &as_flc(bytes)));
    FliRefusedAfterItsHeader = OtherCheckTrailer(|model, bytes| {
        let header = model.read_header(bytes)?;
        require(header.format == Format::Flc, number::WRONG_TYPE, 0)?;
        Document.check_trailer(model, bytes)
    });
}

readings! { FLI_WRITTEN: Trailers;
    FliTrailerWritten = OtherWriteTrailer(|model, bytes| {
        let mut flc = as_flc(bytes);
        let end = Document.write_trailer(model, &mut flc)?;
        bytes[FILE_HEADER..].copy_from_slice(&flc[FILE_HEADER..]);
        Ok(end)
    });
}
