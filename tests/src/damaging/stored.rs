//! The stored cases: those that runs have found, and one for each answer that they should go on meeting.

use super::case::Case;
use super::met::named;
use flic_tests::model::Format;
use std::collections::{BTreeMap, BTreeSet};
use std::fs;
use std::io::Result;
use std::path::{Path, PathBuf};

/// Where the stored cases stand.
pub fn directory() -> PathBuf {
    Path::new(env!("CARGO_MANIFEST_DIR")).join("damage/cases")
}

/// Stores a case, and gives the file's path from the directory of the tests.
pub fn store(case: &Case, name: &str) -> Result<String> {
    fs::create_dir_all(directory())?;
    fs::write(directory().join(format!("{name}.bin")), case.file())?;
    Ok(format!("damage/cases/{name}.bin"))
}

/// Whether a file is one of the stored cases.
pub fn is_stored(file: &Path) -> bool {
    let canonical = |path: &Path| path.canonicalize().ok();
    file.parent().and_then(canonical).is_some_and(|parent| Some(parent) == canonical(&directory()))
}

/// The name under which a case with a difference is stored.
pub fn found_name(case: &Case) -> String {
    format!("found-{:016x}", case.seed)
}

/// The files of the stored cases, in the order of their names.
pub fn files() -> Result<Vec<PathBuf>> {
    let mut files = Vec::new();
    for entry in fs::read_dir(directory())? {
        let path = entry?.path();
        if path.extension().is_some_and(|extension| extension == "bin") {
            files.push(path);
        }
    }
    files.sort();
    Ok(files)
}

/// Reads the file of a case.
pub fn load(path: &Path) -> std::result::Result<Case, String> {
    let bytes = fs::read(path).map_err(|error| format!("{}: {error}", path.display()))?;
    Case::of_file(&bytes).map_err(|message| format!("{}: {message}", path.display()))
}

/// An entry point, the format and what it answered; or what a frame met on the way in which it was read, whose name tells
/// the format.
pub type Answer = (&'static str, Format, u32);

/// The smallest case met for each answer.
#[derive(Default)]
pub struct Collection {
    smallest: BTreeMap<Answer, (Case, BTreeSet<Answer>)>,
}

impl Collection {
    pub fn take(&mut self, case: &Case, answers: &BTreeSet<Answer>) {
        let length = case.file().len();
        for answer in answers {
            if self.smallest.get(answer).is_none_or(|(smallest, _)| length < smallest.file().len()) {
                self.smallest.insert(*answer, (case.clone(), answers.clone()));
            }
        }
    }

    /// Stores cases until every answer that was met is met again by one of them; an answer is the name of its case.
    pub fn store(&self) -> Result<usize> {
        let mut met = BTreeSet::new();
        let mut stored = 0;
        for (answer @ (entry, format, number), (case, answers)) in self.smallest.iter().rev() {
            if !met.contains(answer) {
                met.extend(answers.iter().copied());
                store(case, &format!("{}-{number:02}", named(entry, *format)))?;
                stored += 1;
            }
        }
        Ok(stored)
    }
}
