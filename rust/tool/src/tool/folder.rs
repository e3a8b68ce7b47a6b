//! A directory that a command fills: finished, or gone again.

use super::failure::{wrong, Outcome};
use super::files;
use super::name::Shown;
use flic_boundary::files::sync_around;
use flic_boundary::terminal::{catch_signals, caught};
use std::fs::{self, File};
use std::io::{self, ErrorKind, Write};
use std::path::{Path, PathBuf};

/// A new or an empty directory, and the files that were put into it. They are removed where it isn't finished.
pub struct Folder<'a> {
    path: &'a Path,
    /// Where a new one is filled: only once it is finished it takes its name.
    new: Option<PathBuf>,
    written: Vec<PathBuf>,
    is_finished: bool,
}

impl<'a> Folder<'a> {
    /// From now on a signal that would end the program ends what is being done.
    pub fn begin(path: &'a Path) -> Outcome<Folder<'a>> {
        let is_new = make_or_find_empty(path)?;
        catch_signals();
        let mut folder = Folder { path, new: None, written: Vec::new(), is_finished: false };
        if is_new {
            folder.new = Some(path.with_file_name(files::temporary_name(path, 0)));
            fs::create_dir(folder.place()).or_else(|error| folder.failed(path, &error))?;
        }
        Ok(folder)
    }

    fn place(&self) -> &Path {
        self.new.as_deref().unwrap_or(self.path)
    }

    pub fn add(&mut self, name: &str, bytes: &[u8]) -> Outcome {
        if caught().is_some() {
            return wrong(format!("{}: ended by a signal; {}", self.path.shown(), self.removed()));
        }
        self.put(name, bytes).or_else(|error| self.failed(&self.path.join(name), &error))
    }

    fn put(&mut self, name: &str, bytes: &[u8]) -> io::Result<()> {
        let path = self.place().join(name);
        let mut file = File::create_new(&path)?;
        self.written.push(path);
        file.write_all(bytes)
    }

    /// Waits until all of it is on the disk.
    pub fn finish(mut self) -> Outcome {
        let synced = File::open(self.place()).and_then(|directory| sync_around(&directory));
        let finished = synced.and_then(|()| match &self.new {
            Some(new) => fs::rename(new, self.path),
            None => Ok(()),
        });
        finished.or_else(|error| self.failed(self.path, &error))?;
        self.is_finished = true;
        Ok(())
    }

    fn failed(&self, what: &Path, error: &io::Error) -> Outcome {
        let advice = files::advice(error);
        wrong(format!("{}: can't be written: {error}{advice}; {}", what.shown(), self.removed()))
    }

    fn removed(&self) -> String {
        let path = self.path.shown();
        match self.new {
            Some(_) => format!("{path} is removed again"),
            None => format!("{path} is empty again"),
        }
    }
}

impl Drop for Folder<'_> {
    fn drop(&mut self) {
        if self.is_finished {
            return;
        }
        // Where this fails the disk is gone, or someone else has put something there.
        for file in &self.written {
            let _ = fs::remove_file(file);
        }
        if let Some(new) = &self.new {
            let _ = fs::remove_dir(new);
            let _ = fs::remove_dir(self.path);
        }
    }
}

/// Whether the directory had to be made.
fn make_or_find_empty(directory: &Path) -> Outcome<bool> {
    match fs::create_dir(directory) {
        Ok(()) => return Ok(true),
        Err(error) if error.kind() == ErrorKind::AlreadyExists && directory.is_dir() => {}
        Err(error) => {
            let advice = files::advice(&error);
            return wrong(format!("{}: the directory can't be made: {error}{advice}", directory.shown()));
        }
    }
    match fs::read_dir(directory).map(|mut entries| entries.next()) {
        Ok(None) => Ok(false),
        Ok(Some(Ok(entry))) => {
            let held = entry.file_name().shown();
            wrong(format!("{}: isn't empty, it holds {held}: give a new or an empty directory", directory.shown()))
        }
        Ok(Some(Err(error))) | Err(error) => {
            wrong(format!("{}: can't be read: {error}{}", directory.shown(), files::advice(&error)))
        }
    }
}
