//! Pictures in files: PPM (P6, P3), PGM (P5, P2) and PNG are read, P6 is written.

use super::png;
use flic::{Size, State};

const MAXIMUM: usize = 255;
/// The highest level that a picture's file can speak of.
const MOST_LEVEL: usize = 65_535;
/// A picture with more pixels isn't read: its size is a mistake.
pub const MOST_PIXELS: usize = 100_000_000;

/// A picture of red, green and blue, of any size.
#[derive(Clone, Debug, PartialEq, Eq)]
pub struct Image {
    pub width: usize,
    pub height: usize,
    /// Row by row.
    pub pixels: Vec<[u8; 3]>,
}

impl Image {
    /// The size, if a board takes it.
    pub fn size(&self) -> Option<Size> {
        match (u16::try_from(self.width), u16::try_from(self.height)) {
            (Ok(width), Ok(height)) => Size::new(width, height).ok(),
            _ => None,
        }
    }

    /// The size in words.
    pub fn measures(&self) -> String {
        format!("{} by {}", self.width, self.height)
    }

    /// Reads one picture, or says what is wrong with it and what to do.
    pub fn read(bytes: &[u8]) -> Result<Image, String> {
        if bytes.starts_with(png::MAGIC) {
            return png::read(bytes);
        }
        let (grey, plain) = match bytes.get(..2) {
            Some(b"P2") => (true, true),
            Some(b"P3") => (false, true),
            Some(b"P5") => (true, false),
            Some(b"P6") => (false, false),
            _ => return Err("isn't a PNG, PPM (P6, P3) or PGM (P5, P2) picture: convert it first".to_string()),
        };
        let mut words = Words { bytes, at: 2 };
        let [width, height, maximum] = [words.number("width")?, words.number("height")?, words.number("maximum")?];
        let area = pixels(width, height)?;
        if !(1..=MOST_LEVEL).contains(&maximum) {
            return Err(format!("is damaged: its levels go up to {maximum}, not to 1 to {MOST_LEVEL}; make it anew"));
        }
        let count = area * if grey { 1 } else { 3 };
        let levels = if plain { words.plain_levels(count, maximum)? } else { words.raw_levels(count, maximum)? };
        if !words.rest().iter().all(u8::is_ascii_whitespace) {
            return Err("holds more than one picture, or more than its size says: give one picture a file".to_string());
        }
        let pixels = match grey {
            true => levels.iter().map(|level| [*level; 3]).collect(),
            false => levels.chunks_exact(3).map(|levels| [levels[0], levels[1], levels[2]]).collect(),
        };
        Ok(Image { width, height, pixels })
    }
}

/// How many pixels a picture of this size has, if one can be.
pub fn pixels(width: usize, height: usize) -> Result<usize, String> {
    match width.checked_mul(height) {
        Some(count @ 1..=MOST_PIXELS) => Ok(count),
        _ => Err(format!("is {width} by {height}, which no picture is that can be read: make it anew")),
    }
}

/// What a state shows, as a PPM file (P6).
pub fn ppm(state: &State) -> Vec<u8> {
    let size = state.size();
    let mut bytes = format!("P6\n{} {}\n{MAXIMUM}\n", size.width(), size.height()).into_bytes();
    bytes.extend(state.rgb());
    bytes
}

/// The words of a picture's file, read from the front.
struct Words<'a> {
    bytes: &'a [u8],
    at: usize,
}

impl Words<'_> {
    fn rest(&self) -> &[u8] {
        &self.bytes[self.at..]
    }

    /// Steps over white space, and over comments: `#` to the end of the line, however that is written.
    fn skip_space(&mut self) {
        let mut in_comment = false;
        while let Some(byte) = self.rest().first() {
            in_comment = if in_comment { !matches!(byte, b'\n' | b'\r') } else { *byte == b'#' };
            if !in_comment && !byte.is_ascii_whitespace() {
                return;
            }
            self.at += 1;
        }
    }

    fn number(&mut self, name: &str) -> Result<usize, String> {
        self.skip_space();
        let digits = self.rest().iter().take_while(|byte| byte.is_ascii_digit()).count();
        let text = String::from_utf8_lossy(&self.rest()[..digits]).into_owned();
        self.at += digits;
        match text.parse() {
            Ok(number) => Ok(number),
            Err(_) => Err(format!("is damaged: its {name} isn't a number; make it anew")),
        }
    }

    /// Levels as bytes, two for each where the maximum has two, behind the one white space that ends the header.
    fn raw_levels(&mut self, count: usize, maximum: usize) -> Result<Vec<u8>, String> {
        if !self.rest().first().is_some_and(u8::is_ascii_whitespace) {
            return Err("is damaged: no white space stands before its pixels; make it anew".to_string());
        }
        let length = count * if maximum > MAXIMUM { 2 } else { 1 };
        // The end of a line may have two bytes, if there are enough behind it.
        let has_two = self.rest().starts_with(b"\r\n") && self.rest().len() >= length + 2;
        self.at += if has_two { 2 } else { 1 };
        let Some(levels) = self.rest().get(..length) else {
            let found = self.rest().len();
            return Err(format!("is cut short: it has {found} of {length} bytes of pixels; copy it anew"));
        };
        let levels = match maximum > MAXIMUM {
            true => levels
                .chunks_exact(2)
                .map(|pair| byte(usize::from(pair[0]) << 8 | usize::from(pair[1]), maximum))
                .collect(),
            false => levels.iter().map(|level| byte(usize::from(*level), maximum)).collect::<Result<_, _>>(),
        };
        self.at += length;
        levels
    }

    /// Levels as words.
    fn plain_levels(&mut self, count: usize, maximum: usize) -> Result<Vec<u8>, String> {
        let mut levels = Vec::with_capacity(count);
        while levels.len() < count {
            self.skip_space();
            if self.rest().is_empty() {
                return Err(format!("is cut short: it has {} of {count} levels; copy it anew", levels.len()));
            }
            levels.push(byte(self.number("level")?, maximum)?);
        }
        self.skip_space();
        Ok(levels)
    }
}

/// A level of so many as one of 256, the nearest.
fn byte(level: usize, maximum: usize) -> Result<u8, String> {
    match level <= maximum {
        true => Ok(((level * MAXIMUM + maximum / 2) / maximum) as u8),
        false => Err(format!("is damaged: a level is {level}, over {maximum}; make it anew")),
    }
}

#[cfg(test)]
mod tests {
    use super::*;

    fn read(bytes: &[u8]) -> Vec<[u8; 3]> {
        Image::read(bytes).unwrap().pixels
    }

    fn error(bytes: &[u8]) -> String {
        Image::read(bytes).unwrap_err()
    }

    #[test]
    fn the_four_forms() {
        assert_eq!(read(b"P6\n2 1\n255\n\x01\x02\x03\x04\x05\x06"), [[1, 2, 3], [4, 5, 6]]);
        assert_eq!(read(b"P3 2 1 255 1 2 3 4 5 6"), [[1, 2, 3], [4, 5, 6]]);
        assert_eq!(read(b"P5 1 2 255\t\x00\xFF"), [[0; 3], [255; 3]]);
        assert_eq!(read(b"P2\n1 2\n255\n0\n255\n"), [[0; 3], [255; 3]]);
    }

    #[test]
    fn levels_up_to_any_maximum_become_those_of_256() {
        assert_eq!(read(b"P5 4 1 1 \x00\x01\x00\x01"), [[0; 3], [255; 3], [0; 3], [255; 3]]);
        assert_eq!(read(b"P2 4 1 15 0 1 8 15"), [[0; 3], [17; 3], [136; 3], [255; 3]]);
        assert_eq!(read(b"P6 1 1 65535 \x00\x00\x80\x00\xFF\xFF"), [[0, 128, 255]]);
        assert_eq!(read(b"P3 1 1 1000 0 500 1000"), [[0, 128, 255]]);
        assert_eq!(read(b"P5 2 1 256 \x01\x00\x00\x80"), [[255; 3], [128; 3]]);
        // All 256 levels stay as they are.
        let levels: Vec<u8> = (0..=255).collect();
        let file = [b"P5 256 1 255 ", &levels[..]].concat();
        assert_eq!(read(&file), levels.iter().map(|level| [*level; 3]).collect::<Vec<_>>());
    }

    #[test]
    fn lines_may_end_as_in_dos() {
        assert_eq!(read(b"P6\r\n# dos\r\n2 1\r\n255\r\n\x01\x02\x03\x04\x05\x06"), [[1, 2, 3], [4, 5, 6]]);
        assert_eq!(read(b"P3\r\n1 1\r\n255\r\n1 2 3\r\n"), [[1, 2, 3]]);
        // One white space, and a pixel that looks like the end of a line.
        assert_eq!(read(b"P5 2 1 255\r\n\x07"), [[10; 3], [7; 3]]);
        assert_eq!(read(b"P5 # old\r2 1 255\r\n\x07"), [[10; 3], [7; 3]]);
    }

    #[test]
    fn sizes_that_a_board_takes() {
        let size = |width, height| Image { width, height, pixels: Vec::new() }.size().map(Size::pixels);
        assert_eq!((size(320, 200), size(321, 1), size(1, 201), size(65_537, 1)), (Some(64_000), None, None, None));
    }

    #[test]
    fn comments_are_stepped_over() {
        assert_eq!(read(b"P5 # one\n#\n1 #two\n1\n# three\n255\n#"), [[b'#'; 3]]);
        assert_eq!(read(b"P2 1 2 255 7 # seven\n8 # eight"), [[7; 3], [8; 3]]);
    }

    #[test]
    fn what_is_wrong_is_said() {
        assert!(error(b"").contains("isn't a PNG, PPM"));
        assert!(error(b"P4 1 1 \x00").contains("isn't a PNG, PPM"));
        assert!(error(b"P6").contains("its width isn't a number"));
        assert!(error(b"P6 1 x 255 abc").contains("its height isn't a number"));
        assert!(error(b"P6 99999999999999999999999 1 255 abc").contains("its width isn't a number"));
        assert!(error(b"P6 10001 10000 255 ").contains("is 10001 by 10000"));
        assert!(error(b"P6 18446744073709551615 2 255 ").contains("by 2, which no picture is"));
        assert!(error(b"P6 0 1 255 ").contains("is 0 by 1"));
        assert!(error(b"P6 1 1 65536 abcdef").contains("its levels go up to 65536, not to 1 to 65535"));
        assert!(error(b"P6 1 1 0 abc").contains("its levels go up to 0"));
        assert!(error(b"P5 1 1 7 \x08").contains("a level is 8, over 7"));
        assert!(error(b"P6 1 1 65535 abcde").contains("5 of 6 bytes"));
        assert!(error(b"P6 1 1 255").contains("no white space"));
        assert!(error(b"P6 1 1 255 ab").contains("2 of 3 bytes"));
        assert!(error(b"P6 1 1 255 abcd").contains("more than one picture"));
        assert!(error(b"P3 1 1 255 1 2").contains("2 of 3 levels"));
        assert!(error(b"P3 1 1 255 1 2 256").contains("a level is 256"));
        assert!(error(b"P3 1 1 255 1 2 x").contains("its level isn't a number"));
        assert!(error(b"P3 1 1 255 1 2 3 4").contains("more than one picture"));
    }

    #[test]
    fn what_is_written_is_read_back() -> flic::Result<()> {
        let mut state = State::blank(Size::new(2, 1)?);
        state.palette.set_colour(9, [b'#', b' ', b'\n']);
        state.picture.pixels_mut()[0] = 9;
        assert_eq!(read(&ppm(&state)), [[b'#', b' ', b'\n'], [0; 3]]);
        Ok(())
    }
}
