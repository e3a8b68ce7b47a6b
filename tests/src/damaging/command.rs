//! The command line of the damage run.

use super::self_check::TRESPASSES;
use std::path::PathBuf;

pub const USAGE: &str = "usage: damage [SECONDS] [--base SEED] [--last FILE] [--collect]
       damage --stored | --self-check | --replay FILE";

const DEFAULT_SECONDS: u64 = 60;

/// What a run of some seconds is asked for.
#[derive(Debug, PartialEq, Eq)]
pub struct Run {
    pub seconds: u64,
    pub base: Option<u64>,
    /// Where the case at hand is kept.
    pub last: Option<PathBuf>,
    /// Whether the smallest case for each answer is stored.
    pub collect: bool,
}

/// What the command line asks for.
#[derive(Debug, PartialEq, Eq)]
pub enum Task {
    Run(Run),
    Stored,
    SelfCheck,
    Replay(PathBuf),
    Trespass(String),
}

pub fn task(arguments: &[String]) -> Result<Task, String> {
    let words: Vec<&str> = arguments.iter().map(String::as_str).collect();
    match words[..] {
        ["--stored"] => Ok(Task::Stored),
        ["--self-check"] => Ok(Task::SelfCheck),
        ["--replay", file] => Ok(Task::Replay(file.into())),
        ["--trespass", word] if TRESPASSES.contains(&word) => Ok(Task::Trespass(word.to_string())),
        _ => run(&words).map(Task::Run),
    }
}

fn run(words: &[&str]) -> Result<Run, String> {
    let mut run = Run { seconds: DEFAULT_SECONDS, base: None, last: None, collect: false };
    let mut words = words.iter();
    while let Some(word) = words.next() {
        let mut value = || words.next().ok_or(format!("{word} wants a value"));
        match *word {
            "--base" => run.base = Some(number(value()?)?),
            "--last" => run.last = Some(value()?.into()),
            "--collect" => run.collect = true,
            _ if word.starts_with('-') => return Err(format!("{word} isn't known")),
            _ => run.seconds = number(word)?,
        }
    }
    Ok(run)
}

fn number(word: &str) -> Result<u64, String> {
    word.parse().map_err(|_| format!("{word} isn't a whole number below 2^64"))
}
