//! The reels in folders.

use super::files;
use super::formats::named;
use super::name::Shown;
use std::fs::{self, DirEntry};
use std::io;
use std::path::{Path, PathBuf};

/// A file to be looked at, or why there is none.
pub type Found = Result<PathBuf, (PathBuf, String)>;

/// The file itself, or the reels in a folder and in the folders within it, sorted by name. Links to folders aren't
/// followed.
pub fn reels(given: &Path) -> Vec<Found> {
    if !is_folder(given) {
        return vec![Ok(given.to_path_buf())];
    }
    let mut found = Vec::new();
    go_down(given, &mut found);
    match found.is_empty() {
        true => vec![Err((given.to_path_buf(), format!("{}: holds no file .flc or .fli", given.shown())))],
        false => found,
    }
}

pub fn is_folder(given: &Path) -> bool {
    !files::is_standard(given) && given.is_dir()
}

fn go_down(folder: &Path, found: &mut Vec<Found>) {
    let entries = match sorted(folder) {
        Ok(entries) => entries,
        Err(error) => {
            let words = format!("{}: can't be read: {error}{}", folder.shown(), files::advice(&error));
            return found.push(Err((folder.to_path_buf(), words)));
        }
    };
    for entry in entries {
        let path = entry.path();
        if entry.file_type().is_ok_and(|kind| kind.is_dir()) {
            go_down(&path, found);
        } else if named(&path).is_some() && !path.is_dir() {
            found.push(Ok(path));
        }
    }
}

fn sorted(folder: &Path) -> io::Result<Vec<DirEntry>> {
    let mut entries = fs::read_dir(folder)?.collect::<io::Result<Vec<DirEntry>>>()?;
    entries.sort_by_key(DirEntry::file_name);
    Ok(entries)
}
