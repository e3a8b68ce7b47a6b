//! What a file's bytes are spent on.

use super::numbers::counted;
use super::stored::{chunks, kind_name, sub_chunks, FRAME_HEADER, FRAME_KIND};
use flic::{check_trailer, Chunk, FILE_HEADER};
use std::collections::BTreeMap;

/// Something that takes bytes of a file.
#[derive(Clone, Copy, Debug, PartialEq, Eq, PartialOrd, Ord)]
pub enum What {
    FileHeader,
    FrameHeaders,
    /// A sub-chunk of this kind.
    Kind(u16),
    SpareInFrames,
    /// A chunk of this kind outside frames.
    Other(u16),
    AfterRing,
    Trailer,
    /// Behind the reel, and not its trailer.
    Behind,
}

impl What {
    pub fn name(&self) -> String {
        match self {
            What::FileHeader => "file header".to_string(),
            What::FrameHeaders => "frame headers".to_string(),
            What::Kind(kind) => format!("kind {kind}: {}", kind_name(*kind)),
            What::SpareInFrames => "spare bytes in frames".to_string(),
            What::Other(kind) => format!("kind {kind} outside frames: {}", kind_name(*kind)),
            What::AfterRing => "after the ring".to_string(),
            What::Trailer => "trailer".to_string(),
            What::Behind => "behind the reel, not its trailer".to_string(),
        }
    }

    /// Whether a reel that is built anew from the pictures has nothing of it.
    fn is_lost(&self) -> bool {
        match self {
            What::FileHeader | What::FrameHeaders | What::Trailer => false,
            What::Kind(kind) => !matches!(kind, 4 | 7 | 11 | 12 | 13 | 15 | 16),
            What::SpareInFrames | What::Other(_) | What::AfterRing | What::Behind => true,
        }
    }
}

/// How often something is there, and how many bytes that is.
#[derive(Clone, Copy, Debug, PartialEq, Eq)]
pub struct Share {
    pub what: What,
    pub count: usize,
    pub bytes: usize,
}

impl Share {
    /// Of a share that isn't kept: how much of what there was.
    fn loss(&self) -> String {
        let bytes = counted(self.bytes, "byte");
        let chunks = |kind: u16| format!("{} of kind {kind} ({})", counted(self.count, "chunk"), kind_name(kind));
        match self.what {
            What::Kind(kind) => format!("{} in frames", chunks(kind)),
            What::Other(kind) => format!("{} outside frames", chunks(kind)),
            What::SpareInFrames => format!("{bytes} to spare in frames"),
            What::AfterRing => format!("{bytes} after the ring"),
            _ => format!("{bytes} behind the reel that aren't its trailer"),
        }
    }
}

/// The shares of a file whose frames, the ring last, lie there in a reel of this size; they sum up to the file.
pub fn shares(frames: &[Chunk], size: usize, bytes: &[u8]) -> Vec<Share> {
    let mut shares: BTreeMap<What, (usize, usize)> = BTreeMap::new();
    let mut add = |what: What, length: usize| {
        if length > 0 {
            let (count, bytes) = shares.entry(what).or_default();
            (*count, *bytes) = (*count + 1, *bytes + length);
        }
    };
    add(What::FileHeader, FILE_HEADER);
    let mut at = FILE_HEADER;
    for frame in frames {
        chunks(&bytes[at..frame.offset]).for_each(|chunk| add(What::Other(chunk.kind), chunk.size));
        at = frame.end();
        add(What::FrameHeaders, FRAME_HEADER);
        let mut held = FRAME_HEADER;
        for chunk in sub_chunks(&bytes[frame.offset..frame.end()]) {
            add(What::Kind(chunk.kind), chunk.size);
            held += chunk.size;
        }
        add(What::SpareInFrames, frame.size - held);
    }
    for chunk in chunks(&bytes[at..size]) {
        add(What::Other(chunk.kind), chunk.size);
        at += chunk.size;
    }
    add(What::AfterRing, size - at);
    add(if check_trailer(bytes).is_ok() { What::Trailer } else { What::Behind }, bytes.len() - size);
    shares.into_iter().map(|(what, (count, bytes))| Share { what, count, bytes }).collect()
}

/// What a reel that is built anew keeps nothing of, in words.
pub fn lost(shares: &[Share]) -> Vec<String> {
    shares.iter().filter(|share| share.what.is_lost()).map(Share::loss).collect()
}

/// The chunks outside frames that stand in these bytes, each with all its bytes.
pub fn others(bytes: &[u8]) -> Vec<u8> {
    let mut at = 0;
    let mut found = Vec::new();
    for chunk in chunks(bytes) {
        if chunk.kind != FRAME_KIND {
            found.extend(&bytes[at..at + chunk.size]);
        }
        at += chunk.size;
    }
    found
}

#[cfg(test)]
mod tests {
    use super::*;
    use flic::{CheckedReel, Milliseconds, Reel, Size, State};

    /// One frame with spare bytes, a chunk before it, bytes after the ring, and bytes behind the reel.
    fn file() -> Vec<u8> {
        let size = Size::new(2, 1).unwrap();
        let mut reel = Reel::open(size, Milliseconds(70)).unwrap();
        let mut state = State::blank(size);
        state.picture.pixels_mut().copy_from_slice(&[1, 2]);
        state.palette.set_colour(1, [9; 3]);
        reel.add(&state).unwrap();
        let mut bytes = reel.close().unwrap();
        let frame = CheckedReel::new(&bytes).unwrap().frame_chunks()[0];
        bytes.splice(frame.end()..frame.end(), [0; 5]);
        bytes[frame.offset] += 5;
        bytes.splice(128..128, [8, 0, 0, 0, 0, 0xF1, 5, 5]);
        bytes.extend([7, 0, 0, 0, 9, 0, 1, 1, 2, 3]);
        let whole = bytes.len() as u32;
        bytes[..4].copy_from_slice(&whole.to_le_bytes());
        bytes.extend([0; 7]);
        bytes
    }

    fn found(bytes: &[u8]) -> Vec<Share> {
        let reel = CheckedReel::new(bytes).unwrap();
        shares(reel.frame_chunks(), reel.header().size as usize, bytes)
    }

    #[test]
    fn the_shares_sum_up_to_the_file() {
        let bytes = file();
        let shares = found(&bytes);
        assert_eq!(shares.iter().map(|share| share.bytes).sum::<usize>(), bytes.len());
        let rows: Vec<(String, usize, usize)> =
            shares.iter().map(|share| (share.what.name(), share.count, share.bytes)).collect();
        let expected = [
            ("file header", 1, 128),
            ("frame headers", 2, 32),
            ("kind 4: colours, 256 levels", 1, 13),
            ("kind 16: COPY, full", 1, 8),
            ("spare bytes in frames", 1, 5),
            ("kind 9 outside frames: unknown", 1, 7),
            ("kind 61696 outside frames: prefix", 1, 8),
            ("after the ring", 1, 3),
            ("behind the reel, not its trailer", 1, 7),
        ];
        assert_eq!(rows, expected.map(|(name, count, bytes)| (name.to_string(), count, bytes)));
    }

    #[test]
    fn what_a_new_reel_has_nothing_of() {
        let lost = lost(&found(&file()));
        let expected = [
            "5 bytes to spare in frames",
            "1 chunk of kind 9 (unknown) outside frames",
            "1 chunk of kind 61696 (prefix) outside frames",
            "3 bytes after the ring",
            "7 bytes behind the reel that aren't its trailer",
        ];
        assert_eq!(lost, expected);
    }

    #[test]
    fn other_chunks_are_whole_and_no_frames() {
        let chunk = |kind: u16| [&[8, 0, 0, 0][..], &kind.to_le_bytes(), &[5, 5]].concat();
        let bytes = [chunk(1), chunk(FRAME_KIND), chunk(2), vec![9; 9]].concat();
        assert_eq!(others(&bytes), [chunk(1), chunk(2)].concat());
    }
}
