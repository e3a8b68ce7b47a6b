//! What a file is that is neither an FLC nor an FLI, by its first bytes.

use super::stored::{format_of, StoredHeader, FLC_MAGIC, FLI_MAGIC};

/// What a file is, and what to do with it.
#[derive(Clone, Debug, PartialEq, Eq)]
pub struct Foreign {
    pub found: String,
    pub advice: &'static str,
}

const PICTURE: &str = "make a reel from pictures with flic build";
const FILM: &str = "write its pictures out with the tool that made it, then make a reel from them with flic build";
const PACKED: &str = "unpack it first";
const OTHER: &str = "check which file it is";

/// Fronts, the offset at which each stands, what they are called, and what to do.
const FRONTS: [(&[u8], usize, &str, &str); 21] = [
    (b"\x89PNG", 0, "a PNG picture", PICTURE),
    (b"GIF8", 0, "a GIF", FILM),
    (b"\xFF\xD8\xFF", 0, "a JPEG picture", PICTURE),
    (b"BM", 0, "a BMP picture", PICTURE),
    (b"P1", 0, "a PBM picture", PICTURE),
    (b"P2", 0, "a PGM picture", PICTURE),
    (b"P3", 0, "a PPM picture", PICTURE),
    (b"P4", 0, "a PBM picture", PICTURE),
    (b"P5", 0, "a PGM picture", PICTURE),
    (b"P6", 0, "a PPM picture", PICTURE),
    (b"II*\0", 0, "a TIFF picture", PICTURE),
    (b"MM\0*", 0, "a TIFF picture", PICTURE),
    (b"WEBP", 8, "a WebP picture", PICTURE),
    (b"AVI ", 8, "an AVI film", FILM),
    (b"ftyp", 4, "an MP4 film", FILM),
    (b"\x1A\x45\xDF\xA3", 0, "a WebM or Matroska film", FILM),
    (b"PK\x03\x04", 0, "a ZIP archive", PACKED),
    (b"\x1F\x8B", 0, "a gzip file", PACKED),
    (b"7z\xBC\xAF", 0, "a 7z archive", PACKED),
    (b"%PDF", 0, "a PDF document", OTHER),
    (b"<", 0, "a text of HTML or XML", OTHER),
];

/// None where the bytes may be a reel's, cut or damaged.
pub fn foreign(bytes: &[u8]) -> Option<Foreign> {
    if format_of(bytes).is_some() {
        return None;
    }
    let front = FRONTS.iter().find(|(front, at, _, _)| bytes.get(*at..).is_some_and(|from| from.starts_with(front)));
    match front {
        Some((_, _, name, advice)) => Some(Foreign { found: format!("this is {name}"), advice }),
        None => StoredHeader::of(bytes).map(|header| Foreign {
            found: format!(
                "this is neither an FLC nor an FLI: its magic is {:04X}, not {FLC_MAGIC:04X} or {FLI_MAGIC:04X}",
                header.magic
            ),
            advice: OTHER,
        }),
    }
}

#[cfg(test)]
mod tests {
    use super::*;

    fn found(bytes: &[u8]) -> Option<String> {
        foreign(bytes).map(|foreign| foreign.found)
    }

    #[test]
    fn files_are_known_by_their_fronts() {
        let named = |bytes: &[u8]| found(bytes).unwrap();
        assert_eq!(named(b"\x89PNG\r\n\x1a\n"), "this is a PNG picture");
        assert_eq!(named(b"GIF89a"), "this is a GIF");
        assert_eq!(named(b"RIFF\0\0\0\0WEBPVP8"), "this is a WebP picture");
        assert_eq!(named(b"\0\0\0\x20ftypisom"), "this is an MP4 film");
        assert_eq!(named(b"P6 1 1"), "this is a PPM picture");
        let neither = "this is neither an FLC nor an FLI: its magic is 0707, not AF12 or AF11";
        assert_eq!(named(&[7; 128]), neither);
    }

    #[test]
    fn a_damaged_reel_is_no_other_file() {
        assert_eq!(found(b""), None);
        assert_eq!(found(&[0; 127]), None);
        assert_eq!((found(b"BM\0\0\x12\xAF"), found(b"BM\0\0\x11\xAF")), (None, None));
    }
}
