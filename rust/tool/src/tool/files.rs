//! Files: read whole, and written so that a failure leaves what was there. `-` is standard input and output.

use super::failure::{wrong, Failure, Outcome};
use super::name::Shown;
use super::progress::Progress;
use super::stored::mended;
use flic::{Header, Refusal, Refused, FILE_HEADER, TRAILER_MOST};
use std::ffi::OsString;
use std::fs::{self, File, OpenOptions};
use std::io::{self, ErrorKind, IsTerminal, Read, Write};
use std::os::unix::fs::{chown, MetadataExt};
use std::path::{Path, PathBuf};
use std::process;

/// How much of a file is read at a time, until its reel is there.
const WINDOW: u64 = 1 << 20;

/// Whether standard input or output is meant.
pub fn is_standard(file: &Path) -> bool {
    file.as_os_str() == "-"
}

/// How a file that is written is called.
pub fn target_name(target: &Path) -> String {
    match is_standard(target) {
        true => "standard output".to_string(),
        false => target.shown(),
    }
}

/// Whether two names are one file's.
pub fn are_one(one: &Path, other: &Path) -> bool {
    let number = |file: &Path| fs::metadata(file).map(|about| (about.dev(), about.ino())).ok();
    !is_standard(one) && !is_standard(other) && number(one).is_some() && number(one) == number(other)
}

pub fn read(file: &Path) -> Outcome<Vec<u8>> {
    let mut source = Source::open(file)?;
    source.read_rest()?;
    Ok(source.bytes)
}

/// Reads what the check of a file depends on.
pub fn read_reel(file: &Path) -> Outcome<Vec<u8>> {
    let mut source = Source::open(file)?;
    source.read_reel()?;
    Ok(source.bytes)
}

/// A file that is being read.
pub struct Source<'a> {
    file: &'a Path,
    from: Box<dyn Read>,
    pub bytes: Vec<u8>,
}

impl<'a> Source<'a> {
    pub fn open(file: &'a Path) -> Outcome<Source<'a>> {
        let from: Box<dyn Read> = match is_standard(file) {
            true => Box::new(io::stdin()),
            false => Box::new(File::open(file).or_else(|error| unreadable(file, &error))?),
        };
        Ok(Source { file, from, bytes: Vec::new() })
    }

    /// Reads what the check depends on: the reel, as long as its header says, and what stands behind it, but no more of
    /// that than one byte over the longest trailer.
    pub fn read_reel(&mut self) -> Outcome {
        self.reel().or_else(|error| unreadable(self.file, &error))
    }

    fn reel(&mut self) -> io::Result<()> {
        let end = loop {
            let found = self.from.by_ref().take(WINDOW).read_to_end(&mut self.bytes)?;
            match Header::read(&self.bytes) {
                Ok(header) => break header.size as usize + TRAILER_MOST + 1,
                // The reel may go on in what isn't read yet.
                Err(Refused { refusal: Refusal::Cut, .. }) if found > 0 => {}
                // So the check will refuse it, whatever comes behind.
                Err(_) => return Ok(()),
            }
        };
        let missing = end.saturating_sub(self.bytes.len());
        self.from.by_ref().take(missing as u64).read_to_end(&mut self.bytes)?;
        self.bytes.truncate(end);
        Ok(())
    }

    /// Reads on where the header is refused and doesn't say where the reel ends, but frames may stand behind it.
    pub fn read_on(&mut self) -> Outcome {
        if Header::read(&self.bytes).is_ok() || Header::read(&mended(&self.bytes)).is_err() {
            return Ok(());
        }
        match self.from.by_ref().take(u32::MAX.into()).read_to_end(&mut self.bytes) {
            Ok(_) => Ok(()),
            Err(error) => unreadable(self.file, &error),
        }
    }

    /// Reads what isn't read yet, to the end of the file.
    pub fn read_rest(&mut self) -> Outcome {
        match self.from.read_to_end(&mut self.bytes) {
            Ok(_) => Ok(()),
            Err(error) => unreadable(self.file, &error),
        }
    }
}

fn unreadable<T>(file: &Path, error: &io::Error) -> Outcome<T> {
    wrong(format!("{}: can't be read: {error}{}", file.shown(), advice(error)))
}

/// Puts the bytes into a temporary file beside the target, which then takes the target's name, owner and mode.
pub fn write(target: &Path, bytes: &[u8]) -> Outcome {
    if is_standard(target) {
        return put_out(bytes);
    }
    let _progress = Progress::new(format!("writing {}", target.shown()), 0);
    put(target, bytes).or_else(|error| {
        let kept = if target.exists() { "; what was there is as it was" } else { "; nothing was written" };
        wrong(format!("{}: can't be written: {error}{}{kept}", target.shown(), advice(&error)))
    })
}

fn put_out(bytes: &[u8]) -> Outcome {
    let mut out = io::stdout().lock();
    match out.write_all(bytes).and_then(|()| out.flush()) {
        Ok(()) => Ok(()),
        Err(error) if error.kind() == ErrorKind::BrokenPipe => Err(Failure::Said),
        Err(error) => wrong(format!("standard output: can't be written: {error}{}", advice(&error))),
    }
}

/// Refuses a standard output that would show bytes as letters.
fn no_terminal() -> Outcome {
    match io::stdout().is_terminal() {
        true => wrong("standard output is a terminal: send it to a file or a program with > or |".to_string()),
        false => Ok(()),
    }
}

/// Refuses a target that can't be written, and one that is there already and isn't ours to replace: why says so then.
/// Standard output must not be a terminal.
pub fn may_be_taken(target: &Path, is_ours: impl FnOnce() -> Outcome<bool>, why: &str) -> Outcome {
    if is_standard(target) {
        return no_terminal();
    }
    let why = match fs::metadata(target) {
        Err(_) if !target.is_symlink() => return Ok(()),
        Err(_) => "is a link that leads nowhere: give another name, or remove it first",
        Ok(about) if about.is_dir() => "is a directory: give the name of a file",
        Ok(about) if !about.is_file() => "isn't an ordinary file: give another name",
        Ok(about) if about.permissions().readonly() => {
            "is write-protected: make it writable first, or give another name"
        }
        Ok(_) if is_ours()? => return Ok(()),
        Ok(_) => why,
    };
    wrong(format!("{}: {why}", target.shown()))
}

/// Refuses a target whose loss would be noticed: anything but an FLC or FLI file that may be written.
pub fn may_be_replaced(target: &Path) -> Outcome {
    let why = "is there already and isn't an FLC or FLI file: give another name, or remove it first";
    may_be_taken(target, || is_reel_or_empty(target), why)
}

fn is_reel_or_empty(file: &Path) -> Outcome<bool> {
    let mut front = Vec::new();
    match File::open(file).and_then(|file| file.take(FILE_HEADER as u64).read_to_end(&mut front)) {
        Ok(_) => Ok(front.is_empty() || is_reel(front)),
        Err(error) => unreadable(file, &error),
    }
}

/// Whether a file that begins so has the magic of an FLC or FLI file, right or damaged: that is judged first, once there
/// are as many bytes as a header has.
fn is_reel(mut front: Vec<u8>) -> bool {
    front.resize(FILE_HEADER, 0);
    !matches!(Header::read(&front), Err(Refused { refusal: Refusal::WrongType, .. }))
}

fn put(target: &Path, bytes: &[u8]) -> io::Result<()> {
    // Behind a link stands the file that is meant.
    let target = fs::canonicalize(target).unwrap_or_else(|_| target.to_path_buf());
    let (temporary, mut file) = temporary_beside(&target)?;
    let done = file
        .write_all(bytes)
        .and_then(|()| file.sync_all())
        .and_then(|()| match fs::metadata(&target) {
            Ok(about) => take_over(&temporary, &about),
            Err(_) => Ok(()),
        })
        .and_then(|()| fs::rename(&temporary, &target));
    if done.is_err() {
        let _ = fs::remove_file(&temporary);
    }
    done
}

/// Gives a new file the owner, the group and the mode of the one that it replaces.
fn take_over(new: &Path, old: &fs::Metadata) -> io::Result<()> {
    let own = fs::metadata(new)?;
    if (own.uid(), own.gid()) != (old.uid(), old.gid()) {
        chown(new, Some(old.uid()), Some(old.gid())).map_err(|_| {
            io::Error::other("it belongs to another user or group; give another name, or run this as its owner")
        })?;
    }
    fs::set_permissions(new, old.permissions())
}

fn temporary_beside(target: &Path) -> io::Result<(PathBuf, File)> {
    if target.file_name().is_none() {
        return Err(io::Error::new(ErrorKind::InvalidInput, "this is no file's name"));
    }
    let mut attempt = 0;
    loop {
        let path = target.with_file_name(temporary_name(target, attempt));
        match OpenOptions::new().write(true).create_new(true).open(&path) {
            Err(error) if error.kind() == ErrorKind::AlreadyExists && attempt < 100 => attempt += 1,
            Err(error) => return Err(error),
            Ok(file) => return Ok((path, file)),
        }
    }
}

/// The name under which something is written that will have the target's.
pub fn temporary_name(target: &Path, attempt: usize) -> OsString {
    let mut name = OsString::from(".");
    name.push(target.file_name().unwrap_or_default());
    name.push(format!(".{}-{attempt}.tmp", process::id()));
    name
}

/// What to do about an error, as the end of a sentence.
pub fn advice(error: &io::Error) -> &'static str {
    match error.kind() {
        ErrorKind::NotFound | ErrorKind::NotADirectory => "; check the name and the directory",
        ErrorKind::AlreadyExists => "; give another name",
        ErrorKind::PermissionDenied => "; check who may read and write there",
        ErrorKind::IsADirectory => "; give the name of a file",
        ErrorKind::StorageFull => "; make room first",
        ErrorKind::OutOfMemory => "; it is larger than the memory that is free",
        ErrorKind::ReadOnlyFilesystem => "; give a place that can be written to",
        _ => "",
    }
}
