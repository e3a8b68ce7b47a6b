//! Other listings.

use super::trailers::as_flc;
use super::{readings, rules};
use crate::model::listing::{Listing, Listings};
use crate::model::trailer::{walked, Walked};
use crate::model::{
    kind, number, require, word_at, Document, Format, Model, Refusal, Span, CHUNK_HEADER, FRAME_HEADER, FRAME_TYPE,
    MOST_DEPTH, MOST_LISTED, PREFIX_TYPE,
};

rules! { Listings;
    OtherMayList: may_list(length: usize) -> bool;
    OtherLines: lines(model: &Model, bytes: &[u8]) -> Result<String, Refusal>;
    OtherRefused: refused(refusal: Refusal) -> String;
    OtherTopLevel: top_level(reel: &Walked) -> Vec<Span>;
    OtherMayOpen: may_open(depth: usize) -> bool;
    OtherLine: line(listing: &Listing, chunk: Span) -> String;
    OtherStaysShut: stays_shut(listing: &Listing, chunk: Span) -> bool;
    OtherHolds: holds(listing: &Listing, chunk: Span) -> Option<(usize, usize)>;
    OtherChildAt: child_at(bytes: &[u8], place: usize, end: usize) -> Option<Span>;
    OtherList: list(model: &Model, bytes: &[u8], out: &mut [u8]) -> Result<usize, Refusal>;
}

readings! { ALL: Listings;
    LimitOneLess = OtherMayList(|length| length < MOST_LISTED);
    LimitOneMore = OtherMayList(|length| length <= MOST_LISTED + 1);
    LimitAfterWalk = OtherLines(|model, bytes| {
        walked(model, bytes)?;
        Document.lines(model, bytes)
    });
    TrailerListed = OtherLines(|model, bytes| {
        let text = Document.lines(model, bytes)?;
        model.check_trailer(bytes)?;
        Ok(text)
    });
    RefusedAtPlace0 = OtherRefused(|refusal| Document.refused(Refusal { place: 0, ..refusal }));
    OkLeftOut = OtherLines(|model, bytes| {
        Document.lines(model, bytes).map(|text| text.trim_end_matches("ok\n").to_string())
    });
    RingLeftOut = OtherTopLevel(|reel| reel.chunks[..reel.chunks.len() - 1].to_vec());
    AfterRingListed = OtherLines(|model, bytes| {
        let text = Document.lines(model, bytes)?.trim_end_matches("ok\n").to_string();
        let reel = walked(model, bytes)?;
        let mut listing = Listing { bytes, within: Vec::new(), text };
        let mut place = reel.frames[reel.frames.len() - 1].end;
        while let Some(chunk) = Document.child_at(bytes, place, reel.header.size) {
            Document.chunk(&mut listing, chunk);
            place = chunk.end;
        }
        Ok(listing.text + "ok\n")
    });
    Depth9Listed = OtherMayOpen(|depth| depth < MOST_DEPTH + 1);
    Depth8LeftOut = OtherMayOpen(|depth| depth < MOST_DEPTH - 1);
    DepthFrom1 = OtherLine(|listing, chunk| {
        let line = Document.line(listing, chunk);
        format!("{}{}", listing.within.len() + 1, &line[1..])
    });
    PlacesInContainer = OtherLine(|listing, chunk| {
        let from = listing.within.last().map_or(0, |container| container.start);
        let (depth, kind, size) = (listing.within.len(), listing.kind_of(chunk), chunk.end - chunk.start);
        format!("{depth} {} {kind} {size}\n", chunk.start - from)
    });
    TableOpened = OtherStaysShut(|_, _| false);
    StampsInStampsShut = OtherStaysShut(|listing, chunk| {
        let is_stamp = |chunk: &Span| listing.kind_of(*chunk) == kind::PSTAMP;
        is_stamp(&chunk) && listing.within.iter().any(is_stamp)
    });
    StampsShut = OtherStaysShut(|listing, chunk| listing.kind_of(chunk) == kind::PSTAMP);
    TopStampsShut = OtherStaysShut(|listing, chunk| {
        Document.stays_shut(listing, chunk) || (listing.kind_of(chunk) == kind::PSTAMP && listing.within.is_empty())
    });
    PrefixShut = OtherStaysShut(|listing, chunk| {
        Document.stays_shut(listing, chunk) || listing.kind_of(chunk) == PREFIX_TYPE
    });
    InnerPrefixShut = OtherStaysShut(|listing, chunk| {
        Document.stays_shut(listing, chunk) || (listing.kind_of(chunk) == PREFIX_TYPE && !listing.within.is_empty())
    });
    InnerFramesShut = OtherStaysShut(|listing, chunk| {
        Document.stays_shut(listing, chunk) || (listing.kind_of(chunk) == FRAME_TYPE && !listing.within.is_empty())
    });
    StampChildAfter16 = OtherHolds(|listing, chunk| {
        let (place, count) = Document.holds(listing, chunk)?;
        match listing.kind_of(chunk) {
            kind::PSTAMP if chunk.start + FRAME_HEADER > chunk.end => None,
            kind::PSTAMP => Some((chunk.start + FRAME_HEADER, count)),
            _ => Some((place, count)),
        }
    });
    StampOfManyChildren = OtherHolds(|listing, chunk| {
        let many = listing.kind_of(chunk) == kind::PSTAMP;
        Document.holds(listing, chunk).map(|(place, count)| (place, if many { usize::MAX } else { count }))
    });
    CountUnread = OtherHolds(|listing, chunk| Document.holds(listing, chunk).map(|(place, _)| (place, usize::MAX)));
    CountOneLess = OtherHolds(|listing, chunk| {
        let is_counted = listing.kind_of(chunk) != kind::PSTAMP;
        Document.holds(listing, chunk).map(|(place, count)| (place, count.saturating_sub(usize::from(is_counted))))
    });
    CountOfOneByte = OtherHolds(|listing, chunk| {
        Document.holds(listing, chunk).map(|(place, count)| (place, count & 0xFF))
    });
    ShortContainerOpened = Misfit(|_, listing, container, place| {
        if place > container.end {
            list_line(listing, place);
        }
    });
    MisfitSteppedOver = Misfit(|listings, listing, container, place| {
        if let Some(child) = Document.child_at(listing.bytes, place + CHUNK_HEADER, container.end) {
            listings.chunk(listing, child);
        }
    });
    ChildPastContainerListed = Misfit(|_, listing, container, place| {
        if place <= container.end {
            list_line(listing, place);
        }
    });
    ChildToTheEndMisfits = OtherChildAt(|bytes, place, end| {
        Document.child_at(bytes, place, end).filter(|child| child.end < end)
    });
    ChildOfHeaderAloneMisfits = OtherChildAt(|bytes, place, end| {
        Document.child_at(bytes, place, end).filter(|child| child.end - child.start > CHUNK_HEADER)
    });
    ChildFramesOf16 = OtherChildAt(|bytes, place, end| {
        let is_right = |child: &Span| word_at(bytes, place + 4) != FRAME_TYPE || child.end - place >= FRAME_HEADER;
        Document.child_at(bytes, place, end).filter(is_right)
    });
    RefusalsAnswered = OtherList(|model, bytes, out| {
        Document.lines(model, bytes)?;
        Document.list(model, bytes, out)
    });
    OutNeedsOneMore = OtherList(|model, bytes, out| {
        require(Document.text(model, bytes).len() < out.len(), number::SHORT_OUTPUT, 0)?;
        Document.list(model, bytes, out)
    });
    ListingWrittenWhenShort = OtherList(|model, bytes, out| {
        let text = Document.text(model, bytes).into_bytes();
        let room = text.len().min(out.len());
        out[..room].copy_from_slice(&text[..room]);
        Document.list(model, bytes, out)
    });
}

/// Listings that do something else than to stop at the place of the first child that doesn't fit; that of a container
/// shorter than its header lies past it.
struct Misfit(fn(&dyn Listings, &mut Listing, Span, usize));

impl Listings for Misfit {
    fn children(&self, listing: &mut Listing, container: Span) {
        let Some((mut place, count)) = holds_if_longer(listing, container) else { return };
        for _ in 0..count {
            let Some(child) = Document.child_at(listing.bytes, place, container.end) else {
                return (self.0)(self, listing, container, place);
            };
            self.chunk(listing, child);
            place = child.end;
        }
    }
}

/// What a chunk would hold if it were as long as all the bytes from its start on.
fn holds_if_longer(listing: &Listing, chunk: Span) -> Option<(usize, usize)> {
    Document.holds(listing, Span { end: listing.bytes.len(), ..chunk })
}

/// Lists what stands at this place, whatever container it is in.
fn list_line(listing: &mut Listing, place: usize) {
    if let Some(child) = Document.child_at(listing.bytes, place, listing.bytes.len()) {
        let line = Document.line(listing, child);
        listing.text.push_str(&line);
    }
}

// What a listing can do wrong with an FLI.
readings! { FLI: Listings;
    FliListed = OtherLines(|model, bytes| Document.lines(model, &as_flc(bytes)));
    FliUnlistedAfterItsHeader = OtherLines(|model, bytes| {
        let header = model.read_header(bytes)?;
        require(header.format == Format::Flc, number::WRONG_TYPE, 0)?;
        Document.lines(model, bytes)
    });
}
