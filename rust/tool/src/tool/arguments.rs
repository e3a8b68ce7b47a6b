//! The words behind a command's name, sorted into options and the rest.

use super::failure::{misused, Outcome};
use super::name::Shown;
use std::ffi::{OsStr, OsString};
use std::path::{Path, PathBuf};

/// An option that a command knows.
pub struct Opt {
    pub name: &'static str,
    /// What its value is called; none where it takes no value.
    pub value: Option<&'static str>,
    /// What it does, in a line.
    pub about: &'static str,
}

impl Opt {
    /// As it is written: the name, and what its value is called.
    pub fn usage(&self) -> String {
        match self.value {
            Some(value) => format!("{} {value}", self.name),
            None => self.name.to_string(),
        }
    }
}

#[derive(Debug, Default)]
pub struct Arguments {
    /// The words that aren't options, in their order.
    pub files: Vec<PathBuf>,
    given: Vec<(&'static str, OsString)>,
    pub wants_help: bool,
}

impl Arguments {
    /// Sorts the words; after `--` no word is an option.
    pub fn sorted(words: impl IntoIterator<Item = OsString>, options: &[Opt]) -> Outcome<Arguments> {
        let mut arguments = Arguments::default();
        let mut words = words.into_iter();
        while let Some(word) = words.next() {
            let text = word.to_string_lossy();
            if text == "--" {
                arguments.files.extend(words.by_ref().map(PathBuf::from));
            } else if text == "--help" || text == "-h" {
                arguments.wants_help = true;
            } else if text.starts_with('-') && text != "-" {
                arguments.take_option(&text, &mut words, options)?;
            } else {
                arguments.files.push(PathBuf::from(word));
            }
        }
        Ok(arguments)
    }

    fn take_option(&mut self, text: &str, words: &mut dyn Iterator<Item = OsString>, options: &[Opt]) -> Outcome {
        let (name, attached) = match text.split_once('=') {
            Some((name, value)) => (name, Some(OsString::from(value))),
            None => (text, None),
        };
        let Some(option) = options.iter().find(|option| option.name == name) else {
            let names: Vec<&str> = options.iter().map(|option| option.name).chain(["--help"]).collect();
            let file = match Path::new(text).exists() {
                true => format!("; if the file is meant, write ./{}", text.shown()),
                false => String::new(),
            };
            return misused(format!("there is no option {}{}{file}", name.shown(), hint(name, &names)));
        };
        let value = match (option.value.is_some(), attached) {
            (false, Some(_)) => return misused(format!("{name} takes no value")),
            (false, None) => OsString::new(),
            (true, attached) => match attached.or_else(|| words.next()) {
                Some(value) => value,
                None => return misused(format!("{name} needs a value behind it")),
            },
        };
        if self.value(option.name).is_some() {
            return misused(format!("{name} is given twice"));
        }
        self.given.push((option.name, value));
        Ok(())
    }

    pub fn has(&self, name: &str) -> bool {
        self.value(name).is_some()
    }

    /// What was given with an option.
    pub fn value(&self, name: &str) -> Option<&OsStr> {
        self.given.iter().find(|(given, _)| *given == name).map(|(_, value)| value.as_os_str())
    }

    /// The whole number given with an option, if it lies between `least` and 2^32 - 1.
    pub fn number(&self, name: &str, least: u32) -> Outcome<Option<u32>> {
        let Some(value) = self.value(name) else { return Ok(None) };
        match value.to_str().and_then(|text| text.parse().ok()) {
            Some(number) if number >= least => Ok(Some(number)),
            _ => misused(format!(
                "{name} takes a whole number from {least} to {}, not {}",
                u32::MAX,
                Path::new(value).shown()
            )),
        }
    }

    /// The files, if there are as many as are named.
    pub fn exactly<const COUNT: usize>(self, names: [&str; COUNT]) -> Outcome<[PathBuf; COUNT]> {
        let given = self.files.len();
        self.files.try_into().or_else(|files: Vec<PathBuf>| match names.get(given) {
            Some(name) => misused(format!("{name} is missing")),
            None => misused(format!("{} is one word too many", files[COUNT].shown())),
        })
    }
}

/// `: did you mean ..?` where one of the names is nearly the word.
pub fn hint(word: &str, names: &[&str]) -> String {
    let nearest = names.iter().map(|name| (distance(word, name), name)).min();
    match nearest {
        Some((0..=2, name)) => format!(": did you mean {name}?"),
        _ => String::new(),
    }
}

/// How many letters must be put in, taken out or changed to get from one word to the other.
fn distance(from: &str, to: &str) -> usize {
    let to: Vec<char> = to.chars().collect();
    let mut row: Vec<usize> = (0..=to.len()).collect();
    for (line, letter) in from.chars().enumerate() {
        let mut corner = row[0];
        row[0] = line + 1;
        for (at, other) in to.iter().enumerate() {
            let changed = corner + usize::from(letter != *other);
            corner = row[at + 1];
            row[at + 1] = changed.min(row[at] + 1).min(corner + 1);
        }
    }
    row[to.len()]
}

#[cfg(test)]
mod tests {
    use super::super::failure::Failure;
    use super::*;

    const OPTIONS: [Opt; 2] = [
        Opt { name: "--speed", value: Some("MS"), about: "how long" },
        Opt { name: "--trailer", value: None, about: "an index" },
    ];

    fn sorted(words: &[&str]) -> Outcome<Arguments> {
        Arguments::sorted(words.iter().map(OsString::from), &OPTIONS)
    }

    fn error(words: &[&str]) -> String {
        match sorted(words) {
            Err(Failure::Usage(text)) => text,
            other => panic!("{other:?}"),
        }
    }

    #[test]
    fn options_stand_anywhere() {
        for words in [["out", "--speed", "70", "--trailer", "a"], ["--trailer", "out", "a", "--speed", "70"]] {
            let arguments = sorted(&words).unwrap();
            assert_eq!(arguments.files, [PathBuf::from("out"), PathBuf::from("a")]);
            assert_eq!((arguments.number("--speed", 0).unwrap(), arguments.has("--trailer")), (Some(70), true));
        }
        assert_eq!(sorted(&["--speed=8"]).unwrap().number("--speed", 0).unwrap(), Some(8));
        assert_eq!(sorted(&["--", "--speed"]).unwrap().files, [PathBuf::from("--speed")]);
    }

    #[test]
    fn what_is_wrong_is_said() {
        assert_eq!(error(&["--sped", "1"]), "there is no option --sped: did you mean --speed?");
        assert_eq!(error(&["--loud"]), "there is no option --loud");
        assert_eq!(error(&["--speed"]), "--speed needs a value behind it");
        assert_eq!(error(&["--trailer=yes"]), "--trailer takes no value");
        assert_eq!(error(&["--trailer", "--trailer"]), "--trailer is given twice");
        for value in ["", "x", "-1", "4294967296", "1.5", "0"] {
            assert!(sorted(&["--speed", value]).unwrap().number("--speed", 1).is_err(), "{value}");
        }
    }

    #[test]
    fn files_are_counted() {
        assert!(sorted(&["a", "b"]).unwrap().exactly(["IN", "OUT"]).is_ok());
        let message = |words: &[&str]| match sorted(words).unwrap().exactly(["IN", "OUT"]) {
            Err(Failure::Usage(text)) => text,
            other => panic!("{other:?}"),
        };
        assert_eq!(message(&["a"]), "OUT is missing");
        assert_eq!(message(&["a", "b", "c"]), "c is one word too many");
    }

    #[test]
    fn distances() {
        let of = |from, to| distance(from, to);
        assert_eq!((of("", "abc"), of("abc", "abc"), of("chek", "check"), of("kitten", "sitting")), (3, 0, 1, 3));
    }
}
