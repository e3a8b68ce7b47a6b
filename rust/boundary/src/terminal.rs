//! What the tool needs of a terminal, through the system's C library: its modes, its size, waiting for a key, and the
//! signals that would end the program before the terminal is as it was.

use std::io::{Error, ErrorKind, Result};
use std::os::fd::{AsFd, AsRawFd};
use std::sync::atomic::{AtomicI32, Ordering};

/// A `struct termios`, whose fields only the C library looks at; no system has a longer one.
#[repr(C, align(16))]
#[derive(Clone, Copy)]
pub struct Modes([u8; 256]);

/// A `struct winsize`.
#[repr(C)]
#[derive(Default)]
struct Measures {
    rows: u16,
    columns: u16,
    pixels: [u16; 2],
}

/// A `struct pollfd`.
#[repr(C)]
struct Polled {
    file: i32,
    wanted: i16,
    met: i16,
}

const AFTER_OUTPUT: i32 = 1;
/// Linux's TIOCGWINSZ.
const ASK_MEASURES: usize = 0x5413;
const READABLE: i16 = 1;
/// Hang-up, interrupt and termination.
const ENDING: [i32; 3] = [1, 2, 15];

extern "C" {
    fn tcgetattr(file: i32, modes: *mut Modes) -> i32;
    fn tcsetattr(file: i32, when: i32, modes: *const Modes) -> i32;
    fn cfmakeraw(modes: *mut Modes);
    fn ioctl(file: i32, request: usize, ...) -> i32;
    fn poll(files: *mut Polled, count: usize, milliseconds: i32) -> i32;
    fn signal(number: i32, handler: extern "C" fn(i32)) -> usize;
}

fn done(result: i32) -> Result<()> {
    match result {
        0.. => Ok(()),
        _ => Err(Error::last_os_error()),
    }
}

/// The modes that a terminal has.
pub fn modes(terminal: &impl AsFd) -> Result<Modes> {
    let mut modes = Modes([0; 256]);
    // SAFETY: the modes have room for what is written there.
    done(unsafe { tcgetattr(terminal.as_fd().as_raw_fd(), &mut modes) })?;
    Ok(modes)
}

/// These modes, but with every key handed on at once and as it is, Ctrl-C too, and none shown.
pub fn raw(modes: &Modes) -> Modes {
    let mut raw = *modes;
    // SAFETY: these are modes as the C library gave them.
    unsafe { cfmakeraw(&mut raw) };
    raw
}

/// Sets a terminal's modes, after what was written to it has been shown.
pub fn set_modes(terminal: &impl AsFd, modes: &Modes) -> Result<()> {
    // SAFETY: these are modes as the C library gave them.
    done(unsafe { tcsetattr(terminal.as_fd().as_raw_fd(), AFTER_OUTPUT, modes) })
}

/// How many columns and rows a terminal has; 0 where it doesn't know.
pub fn measures(terminal: &impl AsFd) -> Result<(u16, u16)> {
    let mut measures = Measures::default();
    // SAFETY: the request writes a `struct winsize`.
    done(unsafe { ioctl(terminal.as_fd().as_raw_fd(), ASK_MEASURES, &mut measures) })?;
    Ok((measures.columns, measures.rows))
}

/// Waits until something can be read, for so many milliseconds at most; a signal ends the wait.
pub fn wait(terminal: &impl AsFd, milliseconds: u16) -> Result<bool> {
    let mut polled = Polled { file: terminal.as_fd().as_raw_fd(), wanted: READABLE, met: 0 };
    // SAFETY: one file is handed in, and counted as one.
    match done(unsafe { poll(&mut polled, 1, milliseconds.into()) }) {
        Err(error) if error.kind() == ErrorKind::Interrupted => Ok(false),
        other => other.map(|()| polled.met != 0),
    }
}

/// The last signal that was caught.
static CAUGHT: AtomicI32 = AtomicI32::new(0);

extern "C" fn catch(number: i32) {
    CAUGHT.store(number, Ordering::Relaxed);
}

/// From now on a signal that would end the program is told by [`caught`] instead.
pub fn catch_signals() {
    for number in ENDING {
        // SAFETY: the handler stores a number and does nothing else.
        unsafe { signal(number, catch) };
    }
}

/// The number of the signal that asked the program to end.
pub fn caught() -> Option<i32> {
    Some(CAUGHT.load(Ordering::Relaxed)).filter(|number| *number != 0)
}

#[cfg(test)]
mod tests {
    use super::*;
    use std::fs::File;
    use std::io::Write;
    use std::os::unix::net::UnixStream;
    use std::process::{self, Command};
    use std::time::{Duration, Instant};

    #[test]
    fn what_is_no_terminal_has_neither_modes_nor_a_size() {
        let file = File::open("/dev/null").unwrap();
        assert!(modes(&file).is_err());
        assert!(measures(&file).is_err());
        assert!(set_modes(&file, &Modes([0; 256])).is_err());
    }

    #[test]
    fn a_wait_ends_with_a_key_or_with_its_time() {
        let (keys, mut typist) = UnixStream::pair().unwrap();
        let start = Instant::now();
        assert!(!wait(&keys, 30).unwrap());
        assert!(start.elapsed() >= Duration::from_millis(30));
        typist.write_all(b"q").unwrap();
        assert!(wait(&keys, u16::MAX).unwrap());
        assert!(start.elapsed() < Duration::from_secs(30));
    }

    #[test]
    fn a_signal_is_caught() {
        catch_signals();
        assert_eq!(caught(), None);
        let kill = format!("kill {}", process::id());
        assert!(Command::new("sh").args(["-c", &kill]).status().unwrap().success());
        let start = Instant::now();
        while caught().is_none() && start.elapsed() < Duration::from_secs(30) {
            std::thread::yield_now();
        }
        assert_eq!(caught(), Some(15));
    }
}
