//! Slices as the file of a case holds them: runs of one byte packed, so that a picture of 320 by 200 takes few bytes.

/// The mark of a run in a part's length, and the most bytes of a part.
const RUN: u16 = 0x8000;
const MOST: usize = 0x7FFF;
/// So many equal bytes are a run.
const LEAST: usize = 4;

/// How many bytes from here on are equal.
fn equal(slice: &[u8], at: usize) -> usize {
    slice[at..].iter().take(MOST).take_while(|byte| **byte == slice[at]).count()
}

/// Parts of a slice: a length with the mark and one byte, or a length and as many bytes.
pub fn packed(slice: &[u8]) -> Vec<u8> {
    let mut bytes = Vec::new();
    let mut at = 0;
    while at < slice.len() {
        let run = equal(slice, at);
        if run >= LEAST {
            bytes.extend((RUN | run as u16).to_le_bytes());
            bytes.push(slice[at]);
            at += run;
        } else {
            let length = (at..slice.len()).take(MOST).take_while(|from| equal(slice, *from) < LEAST).count();
            bytes.extend((length as u16).to_le_bytes());
            bytes.extend(&slice[at..at + length]);
            at += length;
        }
    }
    bytes
}

/// Takes the parts of a slice of this length from the front, if they are all there.
pub fn unpacked(rest: &mut &[u8], length: u64) -> Option<Vec<u8>> {
    let mut slice = Vec::new();
    while (slice.len() as u64) < length {
        let part = u16::from_le_bytes([*rest.first()?, *rest.get(1)?]);
        let count = usize::from(part & !RUN);
        let stored = if part & RUN == 0 { count } else { 1 };
        let bytes = rest.get(2..2 + stored)?;
        slice.extend(if part & RUN == 0 { bytes.to_vec() } else { bytes.repeat(count) });
        *rest = &rest[2 + stored..];
        if count == 0 {
            return None;
        }
    }
    (slice.len() as u64 == length).then_some(slice)
}
