//! Reels in house form, as this tool writes them.

use super::progress::Progress;
use flic::{check_reel, check_trailer, write_trailer, CheckedReel, Format, Header, Reel};

/// The same pictures and delay in house form, in the same format, with a trailer if the file has one.
pub fn house(reel: &CheckedReel, bytes: &[u8], what: String) -> flic::Result<Vec<u8>> {
    let mut house = house_in(reel.format(), reel, what)?;
    if has_trailer(bytes) {
        write_trailer(&mut house)?;
    }
    Ok(house)
}

/// The same pictures in house form of a format, the delay as near as that has it.
pub fn house_in(format: Format, reel: &CheckedReel, what: String) -> flic::Result<Vec<u8>> {
    let frames = usize::from(reel.header().frames);
    let progress = Progress::new(what, frames);
    let mut house = Reel::open_as(format, reel.size(), reel.header().speed)?;
    for frame in reel.frames().take(frames) {
        house.add(&frame.state)?;
        progress.step();
    }
    closed(house)
}

/// A reel closed and checked.
pub fn closed(reel: Reel) -> flic::Result<Vec<u8>> {
    let bytes = reel.close()?;
    check_reel(&bytes)?;
    Ok(bytes)
}

/// Whether a reel's trailer stands behind it.
pub fn has_trailer(bytes: &[u8]) -> bool {
    let behind = Header::read(bytes).map_or(0, |header| bytes.len() - header.size as usize);
    behind > 0 && check_trailer(bytes).is_ok()
}

/// Whether a reel's file is as this tool would write it.
pub fn is_house(reel: &CheckedReel, bytes: &[u8]) -> bool {
    house(reel, bytes, "comparing".to_string()).is_ok_and(|house| house == bytes)
}

/// A line about what isn't in a reel that was built anew, if there is anything.
pub fn not_kept(what: Vec<String>) -> Option<String> {
    match what.is_empty() {
        true => None,
        false => Some(format!("not kept: {}", what.join(", "))),
    }
}
