//! Copies a reel with a ring that is written from frame 1 to itself, whatever shows last: `wrong_ring IN OUT`.

use flic::{write_frame, CheckedReel};
use std::error::Error;
use std::{env, fs, process};

fn main() -> Result<(), Box<dyn Error>> {
    let files: Vec<_> = env::args_os().skip(1).collect();
    let [file, out] = &files[..] else {
        eprintln!("usage: wrong_ring IN OUT");
        process::exit(2);
    };
    let bytes = fs::read(file)?;
    fs::write(out, with_wrong_ring(&bytes)?)?;
    Ok(())
}

fn with_wrong_ring(bytes: &[u8]) -> Result<Vec<u8>, Box<dyn Error>> {
    let reel = CheckedReel::new(bytes)?;
    let (Some(first), Some(ring)) = (reel.frames().next(), reel.frame_chunks().last()) else {
        return Err("a reel has a frame and a ring".into());
    };
    let mut wrong = bytes[..ring.offset].to_vec();
    wrong.extend(write_frame(reel.format(), &first.state, &first.state)?);
    let size = u32::try_from(wrong.len())?;
    wrong[..4].copy_from_slice(&size.to_le_bytes());
    Ok(wrong)
}
