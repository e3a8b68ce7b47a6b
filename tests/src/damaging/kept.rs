//! Keeps the case at hand in a mapped file, so that it is there after a call that ended the process.

use super::case::Case;
use super::pages::MappedFile;
use std::fs::{create_dir_all, remove_file, OpenOptions};
use std::path::{Path, PathBuf};

/// More than any case takes.
const LENGTH: usize = 1 << 22;

pub struct Kept {
    path: PathBuf,
    file: MappedFile,
}

impl Kept {
    /// Makes the file, and the directory that it stands in.
    pub fn at(path: &Path) -> std::io::Result<Kept> {
        if let Some(directory) = path.parent() {
            create_dir_all(directory)?;
        }
        let file = OpenOptions::new().read(true).write(true).create(true).truncate(true).open(path)?;
        file.set_len(LENGTH as u64)?;
        Ok(Kept { path: path.to_path_buf(), file: MappedFile::of(&file, LENGTH)? })
    }

    pub fn keep(&mut self, case: &Case) {
        let file = case.file();
        assert!(file.len() <= LENGTH, "a case of {} bytes is larger than the file that keeps it", file.len());
        self.file.bytes_mut()[..file.len()].copy_from_slice(&file);
    }

    /// Takes the file away after a run that ended well.
    pub fn remove(self) {
        // What isn't removed is overwritten by the next run.
        let _ = remove_file(&self.path);
    }
}
