//! Files that a command makes anew: what may be replaced.

use super::failure::{wrong, Outcome};
use super::files::{advice, may_be_taken};
use super::name::Shown;
use std::fs::File;
use std::io::Read;
use std::path::Path;

/// How far into a file a command's mark is looked for.
const FRONT: u64 = 2_048;

/// Refuses a target that is there already, unless this command made it, by the mark near its front, or that is wanted.
pub fn may_be_written(target: &Path, mark: &str, is_forced: bool) -> Outcome {
    let why = "is there already: give another name, or --force to replace it";
    may_be_taken(target, || Ok(is_forced || holds(target, mark)?), why)
}

fn holds(file: &Path, mark: &str) -> Outcome<bool> {
    let mut front = Vec::new();
    match File::open(file).and_then(|file| file.take(FRONT).read_to_end(&mut front)) {
        Ok(_) => Ok(front.windows(mark.len()).any(|window| window == mark.as_bytes())),
        Err(error) => wrong(format!("{}: can't be read: {error}{}", file.shown(), advice(&error))),
    }
}
