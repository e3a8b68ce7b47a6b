//! `flic trailer`: the index of frame offsets behind a reel, checked or written.

use super::Command;
use crate::tool::arguments::Arguments;
use crate::tool::failure::{misused, wrong, Outcome};
use crate::tool::name::Shown;
use crate::tool::progress::Progress;
use crate::tool::say::say;
use crate::tool::target::say_beside;
use crate::tool::{files, refused};
use flic::{check_trailer, write_trailer, Header};
use std::path::Path;

pub const COMMAND: Command = Command {
    name: "trailer",
    usage: "check|write FILE",
    summary: "checks or writes the index of frame offsets behind a reel",
    about: "\
check   says whether what stands behind the reel is its trailer, or nothing; exit status 1 if it is something else.
write   writes the trailer behind the reel, in place of whatever stands there.

Neither opens a frame; flic check does. Both are for FLC files: an FLI has no trailer.",
    options: &[],
    run,
};

fn run(arguments: Arguments) -> Outcome {
    let [task, file] = arguments.exactly(["check or write", "FILE"])?;
    match task.to_str() {
        Some("check") => check(&file),
        Some("write") => write(&file),
        _ => misused(format!("{} isn't check or write", task.shown())),
    }
}

fn check(file: &Path) -> Outcome {
    let progress = Progress::new(format!("reading {}", file.shown()), 0);
    let bytes = files::read_reel(file)?;
    drop(progress);
    match check_trailer(&bytes) {
        Ok(()) if behind(&bytes) == 0 => say(&format!("{}: ok, without a trailer\n", file.shown())),
        Ok(()) => say(&format!("{}: ok, a trailer of {} bytes\n", file.shown(), behind(&bytes))),
        Err(why) => wrong(refused::line(file, &bytes, why)),
    }
}

fn write(file: &Path) -> Outcome {
    let progress = Progress::new(format!("reading {}", file.shown()), 0);
    let mut bytes = files::read(file)?;
    drop(progress);
    let before = bytes.len();
    let was_right = check_trailer(&bytes).is_ok();
    let written = write_trailer(&mut bytes);
    refused::accepted(file, &bytes, written)?;
    let replaced = match was_right {
        true => String::new(),
        false => format!(", in place of {} bytes that weren't its trailer", before - (bytes.len() - behind(&bytes))),
    };
    files::may_be_replaced(file)?;
    files::write(file, &bytes)?;
    say_beside(file, &format!("{}: a trailer of {} bytes{replaced}", files::target_name(file), behind(&bytes)))
}

/// How many bytes stand behind the reel.
fn behind(bytes: &[u8]) -> usize {
    Header::read(bytes).map_or(0, |header| bytes.len() - header.size as usize)
}
