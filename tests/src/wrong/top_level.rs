//! Other ways through the top-level chunks of a reel.

use super::{readings, rules};
use crate::model::playing::Played;
use crate::model::top_level::{is_frame, Each, TopLevel};
use crate::model::{
    field, number, size_at, Document, FileHeader, Refusal, Span, CHUNK_HEADER, FILE_HEADER, FRAME_HEADER, FRAME_TYPE,
    MODEL,
};

rules! { TopLevel;
    OtherChunkAt: chunk_at(bytes: &[u8], end: usize, place: usize) -> Result<Span, Refusal>;
    OtherMissing: missing(place: u64) -> Refusal;
    OtherLeastSize: least_size(kind: u16) -> usize;
    OtherWalk: walk(bytes: &[u8], header: &FileHeader, each: Each) -> Result<(), Refusal>;
    OtherNextFrame: next_frame(bytes: &[u8], at: u64) -> Result<Span, Refusal>;
}

// What every step from one chunk to the next can do wrong.
readings! { CHUNKS: TopLevel;
    ShortFrameIs15 = OtherChunkAt(|bytes, end, place| {
        if (CHUNK_HEADER..FRAME_HEADER).contains(&(end - place)) && is_frame(bytes, place) {
            return Err(Refusal::new(number::FRAME_MISSING, place));
        }
        Document.chunk_at(bytes, end, place)
    });
    MissingFrameAtPlace0 = OtherMissing(|_| Document.missing(0));
    FrameSizeBeforeLength = OtherChunkAt(|bytes, end, place| {
        if end - place >= CHUNK_HEADER && is_frame(bytes, place) && size_at(bytes, place) < FRAME_HEADER {
            return Err(Refusal::new(number::SIZE_TOO_SMALL, place));
        }
        Document.chunk_at(bytes, end, place)
    });
    PrefixOf16Bytes = OtherLeastSize(|_| Document.least_size(FRAME_TYPE));
    OtherChunksRefused = OtherChunkAt(|bytes, end, place| {
        if end - place >= CHUNK_HEADER && !is_frame(bytes, place) {
            return Err(Refusal::new(number::WRONG_TYPE, place));
        }
        Document.chunk_at(bytes, end, place)
    });
}

// What every walk through a whole reel can do wrong besides.
readings! { WALKS: TopLevel;
    ChunksPastSizeField = OtherWalk(|bytes, header, each| {
        Document.walk(bytes, &FileHeader { size: bytes.len(), ..*header }, each)
    });
    StartsAtOframe1 = OtherWalk(|bytes, header, each| {
        let start = size_at(bytes, field::OFRAME1).min(header.size);
        let (mut place, mut frames) = (start, 0);
        while frames < header.frames + 1 {
            let chunk = Document.chunk_at(bytes, header.size, place)?;
            each(chunk)?;
            frames += usize::from(is_frame(bytes, place));
            place = chunk.end;
        }
        Ok(())
    });
    AfterRingChecked = OtherWalk(|bytes, header, each| {
        let mut after = FILE_HEADER;
        Document.walk(bytes, header, &mut |chunk| {
            after = chunk.end;
            each(chunk)
        })?;
        if after < header.size {
            Document.chunk_at(bytes, header.size, after)?;
        }
        Ok(())
    });
}

// What a walk that opens no sub-chunk and compares no ring can do wrong besides.
readings! { UNOPENED: TopLevel;
    FramesPlayed = OtherWalk(|bytes, header, each| {
        Document.walk(bytes, header, each)?;
        played(bytes, header).map(|_| ())
    });
    RingCompared = OtherWalk(|bytes, header, each| {
        Document.walk(bytes, header, each)?;
        match played(bytes, header) {
            Ok(played) if !MODEL.checking.leads_back(&played) => Err(MODEL.checking.astray(0)),
            _ => Ok(()),
        }
    });
    RingNotWalked = OtherWalk(|bytes, header, each| {
        Document.walk(bytes, &FileHeader { frames: header.frames - 1, ..*header }, each)
    });
}

/// The states that the frames of a reel give.
fn played(bytes: &[u8], header: &FileHeader) -> Result<Played, Refusal> {
    let mut played = Played::from_blank(header.format, header.width, header.height);
    Document.walk(bytes, header, &mut |chunk| {
        if is_frame(bytes, chunk.start) {
            MODEL.playing.play(&MODEL, &bytes[chunk.start..chunk.end], chunk.start, &mut played)?;
        }
        Ok(())
    })?;
    Ok(played)
}

// What the step to the next frame can do wrong besides: where it begins, offsets past the bytes, what it tells.
readings! { STEPS: TopLevel;
    StepNotBefore128 = OtherNextFrame(|bytes, at| Document.next_frame(bytes, at.max(FILE_HEADER as u64)));
    StepFromNextChunk = OtherNextFrame(|bytes, at| {
        if at > bytes.len() as u64 {
            return Document.next_frame(bytes, at);
        }
        let chunk = Document.chunk_at(bytes, bytes.len(), at as usize)?;
        Document.next_frame(bytes, chunk.end as u64)
    });
    StepToAnyChunk = OtherNextFrame(|bytes, at| {
        if at > bytes.len() as u64 {
            return Document.next_frame(bytes, at);
        }
        Document.chunk_at(bytes, bytes.len(), at as usize)
    });
    OffsetOf32Bits = OtherNextFrame(|bytes, at| Document.next_frame(bytes, at & u64::from(u32::MAX)));
    OffsetPastBytesIs4 = OtherNextFrame(|bytes, at| {
        if at > bytes.len() as u64 {
            return Err(Refusal { number: number::CUT_SHORT, place: at });
        }
        Document.next_frame(bytes, at)
    });
    OffsetPastBytesAtEnd = OtherNextFrame(|bytes, at| Document.next_frame(bytes, at.min(bytes.len() as u64)));
    PlaceOfFirstChunk = OtherNextFrame(|bytes, at| {
        Document.next_frame(bytes, at).map_err(|refusal| Refusal { place: at, ..refusal })
    });
    SpanWithoutHeader = OtherNextFrame(|bytes, at| {
        Document.next_frame(bytes, at).map(|frame| Span { start: frame.start + FRAME_HEADER, ..frame })
    });
    SpanOfLength = OtherNextFrame(|bytes, at| {
        Document.next_frame(bytes, at).map(|frame| Span { end: frame.end - frame.start, ..frame })
    });
}
