//! What docs/PROMISES.md, ARCHITECTURE.md and REFUSALS.md name is there: definitions, theorems, functions, files, must-fail
//! edits.

use std::collections::BTreeSet;
use std::fs;
use std::path::{Path, PathBuf};

const DOCUMENTS: [&str; 3] = ["docs/PROMISES.md", "docs/ARCHITECTURE.md", "docs/REFUSALS.md"];

/// Words in code type that name nothing of the project: shell commands, text of the listing.
const WORDS: [&str; 3] = ["ok", "rt", "cargo"];

fn root() -> PathBuf {
    Path::new(env!("CARGO_MANIFEST_DIR")).join("..")
}

fn files(folder: &Path, found: &mut Vec<PathBuf>) {
    for entry in fs::read_dir(folder).into_iter().flatten().flatten() {
        let path = entry.path();
        match path.is_dir() {
            true => files(&path, found),
            false => found.push(path),
        }
    }
}

fn is_name(word: &str) -> bool {
    let letter = |c: char| c.is_alphanumeric() || "_-′·".contains(c);
    word.chars().next().is_some_and(char::is_alphabetic) && word.chars().all(letter)
}

/// What a line of a definition or of code declares.
fn declared(line: &str) -> Vec<String> {
    let line = line.trim();
    let code = [
        "pub fn ",
        "pub extern \"C\" fn ",
        "fn ",
        "pub struct ",
        "struct ",
        "pub enum ",
        "enum ",
        "pub const ",
        "const ",
    ];
    for start in code {
        if let Some(rest) = line.strip_prefix(start) {
            let end = rest.find(|c: char| !c.is_alphanumeric() && c != '_').unwrap_or(rest.len());
            return vec![rest[..end].to_string()];
        }
    }
    let mut rest = line;
    for mark in ["unfoldable ", "abbrev ", "pub ", "record ", "data "] {
        rest = rest.strip_prefix(mark).unwrap_or(rest);
    }
    let before = rest.split([':', '(', '{', '=']).next().unwrap_or("");
    before.split_whitespace().filter(|word| is_name(word)).map(str::to_string).collect()
}

fn names() -> BTreeSet<String> {
    let root = root();
    let mut names: BTreeSet<String> = WORDS.iter().map(|word| word.to_string()).collect();
    for folder in ["crates", "tests", "include"] {
        let mut found = Vec::new();
        files(&root.join(folder), &mut found);
        for file in found {
            let kind = file.extension().and_then(|kind| kind.to_str()).unwrap_or("");
            if let Some(stem) = file.file_stem().and_then(|stem| stem.to_str()) {
                names.insert(stem.to_string());
            }
            let text = match kind {
                "antt" | "rt" | "rs" | "h" => fs::read_to_string(&file).unwrap_or_default(),
                _ => continue,
            };
            match kind {
                "h" => names.extend(text.split(|c: char| !c.is_alphanumeric() && c != '_').map(str::to_string)),
                _ => names.extend(text.lines().flat_map(declared)),
            }
        }
    }
    for entry in fs::read_dir(root.join("crates")).into_iter().flatten().flatten() {
        names.insert(entry.file_name().to_string_lossy().into_owned());
    }
    names
}

/// The words of a document that stand in code type.
fn in_code(text: &str) -> impl Iterator<Item = &str> {
    text.split("```").step_by(2).flat_map(|plain| plain.split('`').skip(1).step_by(2))
}

fn words(text: &str) -> impl Iterator<Item = &str> {
    text.split(|c: char| c.is_whitespace() || "`,;()|".contains(c)).map(|word| word.trim_end_matches(['.', ':']))
}

#[test]
fn definitions_and_functions_are_there() {
    let names = names();
    let mut missing = Vec::new();
    for document in DOCUMENTS {
        let text = fs::read_to_string(root().join(document)).unwrap();
        for word in in_code(&text).filter(|word| is_name(word) && !names.contains(*word)) {
            missing.push(format!("{document}: `{word}`"));
        }
    }
    assert!(missing.is_empty(), "named and not there:\n{}", missing.join("\n"));
}

#[test]
fn files_are_there() {
    let mut missing = Vec::new();
    for document in DOCUMENTS {
        let text = fs::read_to_string(root().join(document)).unwrap();
        for word in words(&text).filter(|word| word.contains("/specs/") || word.contains("/proofs/")) {
            let word = word.strip_prefix("crates/").unwrap_or(word);
            let file = root().join("crates").join(word);
            if !file.exists() && !file.with_extension("antt").exists() && !word.contains('*') {
                missing.push(format!("{document}: {word}"));
            }
        }
    }
    assert!(missing.is_empty(), "named and not there:\n{}", missing.join("\n"));
}

#[test]
fn edits_are_there() {
    let mut missing = Vec::new();
    for document in DOCUMENTS.iter().chain(&["docs/DECISIONS.md"]) {
        let text = fs::read_to_string(root().join(document)).unwrap();
        for line in text.lines() {
            for part in line.split("must-fail ").skip(1) {
                for word in part.split([',', ';']).map(|word| word.trim().trim_end_matches(['|', ' ', '.'])) {
                    let Some((name, label)) = word.split_once('/') else { break };
                    if !is_name(name) || !is_name(label) {
                        break;
                    }
                    if !root().join(format!("crates/{name}/must-fail/{label}.edit")).exists() {
                        missing.push(format!("{document}: must-fail {name}/{label}"));
                    }
                }
            }
        }
    }
    assert!(missing.is_empty(), "named and not there:\n{}", missing.join("\n"));
}
