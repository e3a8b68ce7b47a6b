//! How a file's name is shown: a name may hold anything, also what would move a terminal's cursor or fake a line.

use std::ffi::OsStr;
use std::path::{Path, PathBuf};

/// A name that can be shown.
pub trait Shown {
    /// The name with every control character, and every one that changes the direction of writing, as an escape.
    fn shown(&self) -> String;
}

impl Shown for str {
    fn shown(&self) -> String {
        let letter = |letter: char| match is_plain(letter) {
            true => letter.to_string(),
            false => letter.escape_default().to_string(),
        };
        self.chars().map(letter).collect()
    }
}

impl Shown for OsStr {
    fn shown(&self) -> String {
        self.to_string_lossy().shown()
    }
}

/// What is read; `-` is standard input.
impl Shown for Path {
    fn shown(&self) -> String {
        match self.as_os_str().shown() {
            name if name == "-" => "standard input".to_string(),
            name => name,
        }
    }
}

impl Shown for PathBuf {
    fn shown(&self) -> String {
        self.as_path().shown()
    }
}

fn is_plain(letter: char) -> bool {
    let turns = matches!(letter, '\u{200e}' | '\u{200f}' | '\u{202a}'..='\u{202e}' | '\u{2066}'..='\u{2069}');
    !letter.is_control() && !turns
}

#[cfg(test)]
mod tests {
    use super::*;
    use std::os::unix::ffi::OsStrExt;

    #[test]
    fn what_a_terminal_would_act_on_is_escaped() {
        assert_eq!("menu für heute.flc".shown(), "menu für heute.flc");
        assert_eq!(Path::new("a\nb: ok\t\x1b[2J\u{9b}\x7f").shown(), r"a\nb: ok\t\u{1b}[2J\u{9b}\u{7f}");
        assert_eq!("clf\u{202e}.exe".shown(), r"clf\u{202e}.exe");
        assert_eq!(Path::new(OsStr::from_bytes(b"a\xFFb")).shown(), "a\u{FFFD}b");
    }
}
