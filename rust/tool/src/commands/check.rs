//! `flic check`: says of each file whether a board can play it for ever.

use super::Command;
use crate::tool::arguments::{Arguments, Opt};
use crate::tool::failure::{misused, Failure, Outcome};
use crate::tool::files;
use crate::tool::formats::{ending, named};
use crate::tool::json::Json;
use crate::tool::name::Shown;
use crate::tool::numbers::grouped;
use crate::tool::progress::Progress;
use crate::tool::refused::Told;
use crate::tool::say::{complain, say};
use crate::tool::stored::format_of;
use crate::tool::walk::{is_folder, reels};
use flic::{check_reel, check_trailer, Format, Header};
use std::path::Path;

pub const JSON: Opt = Opt { name: "--json", value: None, about: "says it as JSON, for programs" };

pub const COMMAND: Command = Command {
    name: "check",
    usage: "FILE.. [-q] [--json]",
    summary: "plays every frame and the ring, and checks the trailer",
    about: "\
Plays every frame and the ring of each file, and checks what stands behind the reel of an FLC, if anything does. A file
is an FLC or an FLI by its magic, whatever its name. A FILE may be a folder: every file .flc and .fli in it is checked,
and in the folders within it.
Prints 'FILE: ok', or the refusal's number, its offset, the frame in which it lies, what was found, and what to do; of
several files also how many are ok and how many refused, last. A name that stands for the other format is said. A file
may be of any size.
Exit status 1 if any file is refused or can't be read, or a folder holds none.",
    options: &[Opt { name: "-q", value: None, about: "prints only what is refused" }, JSON],
    run,
};

fn run(arguments: Arguments) -> Outcome {
    if arguments.files.is_empty() {
        return misused("FILE is missing".to_string());
    }
    let mut report = Report::new(arguments.has("-q"), arguments.has(JSON.name));
    for found in arguments.files.iter().flat_map(|given| reels(given)) {
        match found {
            Ok(file) => report.take(&file, verdict(&file))?,
            Err((file, words)) => report.take(&file, Err(Failure::Wrong(words)))?,
        }
    }
    report.is_long = arguments.files.len() > 1 || is_folder(&arguments.files[0]);
    report.finish()
}

/// What a file is found to be.
struct Verdict {
    /// By the magic.
    format: Option<Format>,
    /// What is wrong with it, if anything is.
    told: Option<Told>,
}

fn verdict(file: &Path) -> Outcome<Verdict> {
    let _progress = Progress::new(format!("checking {}", file.shown()), 0);
    let bytes = files::read_reel(file)?;
    Ok(Verdict { format: format_of(&bytes), told: checked(&bytes).err().map(|why| Told::of(&bytes, why)) })
}

/// Checks the reel, and what stands behind it.
pub fn checked(bytes: &[u8]) -> flic::Result<()> {
    check_reel(bytes)?;
    checked_behind(bytes)
}

/// Checks what stands behind a reel that is right; an FLI has no trailer, and what stands behind it is of no concern.
pub fn checked_behind(bytes: &[u8]) -> flic::Result<()> {
    let header = Header::read(bytes)?;
    match header.format == Format::Flc && bytes.len() > header.size as usize {
        true => check_trailer(bytes),
        false => Ok(()),
    }
}

/// What is said of the files, and how many were how.
#[derive(Default)]
struct Report {
    is_quiet: bool,
    /// Whether it ends with the numbers.
    is_long: bool,
    ok: usize,
    refused: usize,
    unread: usize,
    /// A value for each file, where JSON is wanted.
    json: Option<Vec<Json>>,
}

impl Report {
    fn new(is_quiet: bool, is_json: bool) -> Report {
        Report { is_quiet, json: is_json.then(Vec::new), ..Report::default() }
    }

    fn take(&mut self, file: &Path, verdict: Outcome<Verdict>) -> Outcome {
        let (error, Verdict { format, told }) = match verdict {
            Ok(verdict) => (None, verdict),
            Err(Failure::Wrong(words)) => (Some(words), Verdict { format: None, told: None }),
            Err(other) => return Err(other),
        };
        *match (&error, &told) {
            (None, None) => &mut self.ok,
            (None, Some(_)) => &mut self.refused,
            (Some(_), _) => &mut self.unread,
        } += 1;
        match (&mut self.json, error, told) {
            (Some(files), error, told) => {
                if !(self.is_quiet && error.is_none() && told.is_none()) {
                    files.push(value(file, error, format, told.as_ref()));
                }
                Ok(())
            }
            (None, Some(words), _) => {
                complain(&format!("flic: {words}"));
                Ok(())
            }
            (None, None, Some(told)) => say(&format!("{}: {told}\n", file.shown())),
            (None, None, None) if self.is_quiet => Ok(()),
            (None, None, None) => say(&format!("{}: ok{}\n", file.shown(), misnamed(file, format))),
        }
    }

    fn finish(self) -> Outcome {
        let all_right = self.refused + self.unread == 0;
        if let Some(files) = self.json {
            let object = Json::Object(vec![
                ("files", Json::List(files)),
                ("ok", Json::number(self.ok)),
                ("refused", Json::number(self.refused)),
                ("unread", Json::number(self.unread)),
            ]);
            say(&format!("{object}\n"))?;
        } else if self.is_long && !self.is_quiet {
            let unread = match self.unread {
                0 => String::new(),
                count => format!(", {} not checked", grouped(count)),
            };
            say(&format!("{} ok, {} refused{unread}\n", grouped(self.ok), grouped(self.refused)))?;
        }
        match all_right {
            true => Ok(()),
            false => Err(Failure::Said),
        }
    }
}

/// What is said of a right reel whose name stands for the other format, which a board may go by.
fn misnamed(file: &Path, format: Option<Format>) -> String {
    match (named(file), format) {
        (Some(name), Some(format)) if name != format => format!(
            ", but it is an {format}: rename it to end in {}, or make an {name} of it with flic convert",
            ending(format)
        ),
        _ => String::new(),
    }
}

fn value(file: &Path, error: Option<String>, format: Option<Format>, told: Option<&Told>) -> Json {
    Json::Object(vec![
        ("file", Json::name(file)),
        ("format", Json::format(format)),
        ("ok", Json::Bool(error.is_none() && told.is_none())),
        ("refusal", Json::refusal(told)),
        ("error", error.map_or(Json::Null, Json::Text)),
    ])
}
