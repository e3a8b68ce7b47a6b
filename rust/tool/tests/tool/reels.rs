//! Reels as other tools write them.

use flic::{write_frame, CheckedReel, Format, State};

const FRAME: u16 = 0xF1FA;

/// The same reel with every frame a COPY and all colours, a chunk before them, and bytes after the ring.
pub fn sloppy(bytes: &[u8]) -> Vec<u8> {
    let reel = CheckedReel::new(bytes).unwrap();
    let mut sloppy = bytes[..128].to_vec();
    sloppy.extend(chunk(0xF100, &[1, 2, 3, 4]));
    for frame in reel.frames() {
        sloppy.extend(frame_of(&frame.state));
    }
    sloppy.extend([9; 20]);
    let size = sloppy.len() as u32;
    sloppy[..4].copy_from_slice(&size.to_le_bytes());
    sloppy
}

pub fn frame_of(state: &State) -> Vec<u8> {
    let colours = [&[1, 0, 0, 0], &state.palette.bytes()[..]].concat();
    let chunks = [chunk(4, &colours), chunk(99, b"old bytes"), chunk(16, state.picture.pixels())].concat();
    chunk(FRAME, &[&[3, 0, 0, 0, 0, 0, 0, 0, 0, 0], &chunks[..]].concat())
}

pub fn chunk(kind: u16, body: &[u8]) -> Vec<u8> {
    let size = body.len() as u32 + 6;
    [&size.to_le_bytes()[..], &kind.to_le_bytes(), body].concat()
}

/// The bytes with the size field at this offset made so many larger.
pub fn lengthened(bytes: &[u8], at: usize, by: u32) -> Vec<u8> {
    let mut bytes = bytes.to_vec();
    let size = u32::from_le_bytes(bytes[at..at + 4].try_into().unwrap()) + by;
    bytes[at..at + 4].copy_from_slice(&size.to_le_bytes());
    bytes
}

/// The same file with the size of its reel in the header.
pub fn sized(mut bytes: Vec<u8>) -> Vec<u8> {
    let size = bytes.len() as u32;
    bytes[..4].copy_from_slice(&size.to_le_bytes());
    bytes
}

/// The same FLI with every frame from the second on as an FLC has it, and where its chunks of kind 7 stand.
pub fn in_form_of_flc(fli: &[u8]) -> (Vec<u8>, Vec<usize>) {
    let states: Vec<State> = CheckedReel::new(fli).unwrap().frames().map(|frame| frame.state).collect();
    let mut bytes =
        [&fli[..128], &write_frame(Format::Fli, &State::blank(states[0].size()), &states[0]).unwrap()].concat();
    let mut places = Vec::new();
    for pair in states.windows(2) {
        let frame = write_frame(Format::Flc, &pair[0], &pair[1]).unwrap();
        let mut at = 16;
        while frame[at + 4] != 7 {
            at += u32::from_le_bytes(frame[at..at + 4].try_into().unwrap()) as usize;
        }
        places.push(bytes.len() + at);
        bytes.extend(frame);
    }
    (sized(bytes), places)
}
