//! The reel that a command writes, and what it replaces.

use super::arguments::Opt;
use super::failure::{wrong, Outcome};
use super::name::Shown;
use super::numbers::counted;
use super::say::{complain, say};
use super::stored::format_of;
use super::{files, house};
use flic::{CheckedReel, Format};
use std::fs;
use std::path::Path;

pub const FORCE: Opt =
    Opt { name: "--force", value: None, about: "replaces OUT if it is an FLC or FLI file, whoever made it" };

/// Where a reel is written to; `-` is standard output.
pub struct Target<'a> {
    path: &'a Path,
    /// `, in place of ..`, or nothing.
    replaced: String,
}

impl<'a> Target<'a> {
    /// Refuses a path whose loss would be noticed: anything but an FLC or FLI file, and without --force one that isn't
    /// as this tool writes them.
    pub fn new(path: &'a Path, is_forced: bool) -> Outcome<Target<'a>> {
        files::may_be_replaced(path)?;
        let there = fs::metadata(path).map_or(0, |about| about.len() as usize);
        if files::is_standard(path) || there == 0 {
            return Ok(Target { path, replaced: String::new() });
        }
        let bytes = files::read_reel(path)?;
        let reel = CheckedReel::new(&bytes);
        let held = match &reel {
            Ok(reel) => {
                format!("{} and the ring, {}", counted(reel.header().frames.into(), "frame"), counted(there, "byte"))
            }
            Err(_) => {
                let format = format_of(&bytes).unwrap_or(Format::Flc);
                format!("an {format} file of {} that a check refuses", counted(there, "byte"))
            }
        };
        if !is_forced && !reel.is_ok_and(|reel| house::is_house(&reel, &bytes)) {
            return wrong(format!(
                "{}: is there already, {held}, and isn't as flic writes them: replace it with --force, or give another name",
                path.shown()
            ));
        }
        Ok(Target { path, replaced: format!(", in place of {held}") })
    }

    pub fn name(&self) -> String {
        files::target_name(self.path)
    }

    /// Writes the bytes and says what they are, in lines before and in one that begins with the name.
    pub fn deliver(&self, bytes: &[u8], before: &str, words: &str) -> Outcome {
        files::write(self.path, bytes)?;
        say_beside(self.path, &format!("{before}{}: {words}{}", self.name(), self.replaced))
    }
}

/// Says what was written: on standard error where standard output has the bytes.
pub fn say_beside(target: &Path, text: &str) -> Outcome {
    match files::is_standard(target) {
        true => {
            complain(text);
            Ok(())
        }
        false => say(&format!("{text}\n")),
    }
}
