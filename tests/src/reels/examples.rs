//! Document 01's example of a whole reel, as it says, and the smallest FLI.

/// The speed that the example is opened with here; document 01 leaves it to the caller.
pub const SPEED: u32 = 70;

/// The blank reel of 1 by 1 with one frame: 160 bytes.
pub fn blank_reel() -> Vec<u8> {
    let mut bytes = vec![0; 128];
    bytes[..12].copy_from_slice(&[0xA0, 0, 0, 0, 0x12, 0xAF, 1, 0, 1, 0, 1, 0]);
    bytes[12..20].copy_from_slice(&[8, 0, 3, 0, SPEED as u8, 0, 0, 0]);
    bytes[26..30].copy_from_slice(&[0x42, 0x49, 0x4C, 0x46]);
    bytes[34..42].copy_from_slice(&[0x42, 0x49, 0x4C, 0x46, 1, 0, 1, 0]);
    bytes[80..88].copy_from_slice(&[0x80, 0, 0, 0, 0x90, 0, 0, 0]);
    let frame = [16, 0, 0, 0, 0xFA, 0xF1, 0, 0, 0, 0, 0, 0, 0, 0, 0, 0];
    [bytes, frame.to_vec(), frame.to_vec()].concat()
}

/// Which header fields are 0 until the close: size, frames, flags and both oframes.
pub fn zero_until_close(offset: usize) -> bool {
    matches!(offset, 0..=3 | 6 | 7 | 14 | 15 | 80..=87)
}

/// The jiffies that the FLI is opened with; 71 milliseconds.
pub const JIFFIES: u32 = 5;

/// The blank FLI of one frame: 160 bytes, of which those from 18 to 127 are 0.
pub fn blank_fli() -> Vec<u8> {
    let mut bytes = vec![0; 128];
    bytes[..12].copy_from_slice(&[0xA0, 0, 0, 0, 0x11, 0xAF, 1, 0, 0x40, 1, 200, 0]);
    bytes[12..18].copy_from_slice(&[8, 0, 0, 0, JIFFIES as u8, 0]);
    let frame = [16, 0, 0, 0, 0xFA, 0xF1, 0, 0, 0, 0, 0, 0, 0, 0, 0, 0];
    [bytes, frame.to_vec(), frame.to_vec()].concat()
}
