//! The terminal while a reel plays in it: raw, on its second screen, without a cursor, and as it was afterwards, however
//! that comes about.

use super::failure::{wrong, Failure, Outcome};
use flic_boundary::terminal::{self, Modes};
use std::fs::File;
use std::io::{self, IsTerminal, Read, Write};
use std::sync::{Mutex, Once, PoisonError};
use std::{env, panic};

/// The second screen, wiped, and no cursor.
const ENTER: &str = "\x1b[?1049h\x1b[?25l\x1b[2J";
/// Plain colours, the cursor, the first screen.
const LEAVE: &str = "\x1b[0m\x1b[?25h\x1b[?1049l";
/// Where a terminal doesn't know its size.
const USUAL: Measures = Measures { columns: 80, rows: 24 };

/// How to leave the terminal; nothing where it is as it was.
static TO_RESTORE: Mutex<Option<(File, Modes)>> = Mutex::new(None);

/// The size of a terminal in characters.
#[derive(Clone, Copy, Debug, PartialEq, Eq)]
pub struct Measures {
    pub columns: usize,
    pub rows: usize,
}

pub struct Terminal {
    keys: File,
}

/// What a wait has met.
pub enum Met {
    Nothing,
    Keys(Vec<u8>),
    /// One that asks the program to end.
    Signal,
}

/// Refuses what isn't a terminal that can show pictures.
pub fn must_be_there() -> Outcome {
    let found = match env::var("TERM") {
        _ if !io::stdout().is_terminal() => "standard output isn't a terminal",
        Ok(kind) if kind == "dumb" => "this terminal can't be drawn on (TERM is dumb)",
        _ => return Ok(()),
    };
    wrong(format!("{found}: play in one that shows 24-bit colours, or write the pictures with flic frames FILE DIR"))
}

impl Terminal {
    /// Takes the terminal, which must be there, until this is dropped or the program panics.
    pub fn open() -> Outcome<Terminal> {
        Terminal::taken().or_else(|error| {
            wrong(format!(
                "the terminal's keys can't be read: {error}; write the pictures with flic frames FILE DIR instead"
            ))
        })
    }

    fn taken() -> io::Result<Terminal> {
        static HOOK: Once = Once::new();
        let keys = File::options().read(true).write(true).open("/dev/tty")?;
        let before = terminal::modes(&keys)?;
        terminal::catch_signals();
        HOOK.call_once(|| {
            let hook = panic::take_hook();
            panic::set_hook(Box::new(move |about| {
                restore();
                hook(about);
            }));
        });
        *TO_RESTORE.lock().unwrap_or_else(PoisonError::into_inner) = Some((keys.try_clone()?, before));
        let terminal = Terminal { keys };
        terminal::set_modes(&terminal.keys, &terminal::raw(&before))?;
        put(ENTER)?;
        Ok(terminal)
    }

    pub fn measures(&self) -> Measures {
        match terminal::measures(&self.keys) {
            Ok((columns @ 1.., rows @ 1..)) => Measures { columns: columns.into(), rows: rows.into() },
            _ => USUAL,
        }
    }

    pub fn show(&mut self, text: &str) -> Outcome {
        put(text).map_err(|error| Failure::Wrong(format!("the terminal can't be written to: {error}")))
    }

    /// Waits for keys, for so many milliseconds at most.
    pub fn wait(&mut self, milliseconds: u16) -> Outcome<Met> {
        let found = terminal::wait(&self.keys, milliseconds).and_then(|is_there| {
            let mut keys = vec![0; 64];
            let count = if is_there { self.keys.read(&mut keys)? } else { 0 };
            keys.truncate(count);
            Ok((is_there, keys))
        });
        match found {
            _ if terminal::caught().is_some() => Ok(Met::Signal),
            Ok((false, _)) => Ok(Met::Nothing),
            Ok((true, keys)) if !keys.is_empty() => Ok(Met::Keys(keys)),
            Ok((true, _)) => wrong("the terminal is gone".to_string()),
            Err(error) => wrong(format!("the terminal's keys can't be read: {error}")),
        }
    }
}

impl Drop for Terminal {
    fn drop(&mut self) {
        restore();
    }
}

fn put(text: &str) -> io::Result<()> {
    let mut out = io::stdout().lock();
    out.write_all(text.as_bytes()).and_then(|()| out.flush())
}

/// Makes the terminal what it was, once.
fn restore() {
    let taken = TO_RESTORE.lock().unwrap_or_else(PoisonError::into_inner).take();
    if let Some((keys, before)) = taken {
        // Where this fails no terminal is left to be restored.
        let _ = put(LEAVE);
        let _ = terminal::set_modes(&keys, &before);
    }
}

#[cfg(test)]
mod tests {
    use super::*;

    #[test]
    #[should_panic(expected = "on purpose")]
    #[ignore = "takes the terminal it runs in; tests/terminal runs it in tmux's"]
    fn a_panic_gives_the_terminal_back() {
        let _terminal = Terminal::open().expect("a terminal");
        panic!("on purpose");
    }
}
