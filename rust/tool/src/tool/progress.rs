//! A line on the terminal about work that takes longer than a second.

use flic_boundary::terminal::measures;
use std::io::{self, IsTerminal, Write};
use std::sync::atomic::{AtomicUsize, Ordering};
use std::sync::{Arc, Condvar, Mutex};
use std::thread::{self, JoinHandle};
use std::time::{Duration, Instant};

const PATIENCE: Duration = Duration::from_secs(1);
const INTERVAL: Duration = Duration::from_millis(200);
/// Where the terminal doesn't know its width.
const USUAL: usize = 80;
/// What stands for the middle of a long name.
const GAP: &str = "[..]";

/// Shows itself from the first second on, and is wiped away when it is dropped.
pub struct Progress {
    shared: Arc<Shared>,
    line: Option<JoinHandle<()>>,
}

struct Shared {
    what: String,
    done: AtomicUsize,
    total: usize,
    is_over: Mutex<bool>,
    bell: Condvar,
}

impl Progress {
    /// `total` is how many steps there will be; 0 where they can't be counted.
    pub fn new(what: String, total: usize) -> Progress {
        let (done, is_over, bell) = (AtomicUsize::new(0), Mutex::new(false), Condvar::new());
        let shared = Arc::new(Shared { what, done, total, is_over, bell });
        let line = io::stderr().is_terminal().then(|| {
            let shared = Arc::clone(&shared);
            thread::spawn(move || shared.show())
        });
        Progress { shared, line }
    }

    pub fn step(&self) {
        self.shared.done.fetch_add(1, Ordering::Relaxed);
    }
}

impl Drop for Progress {
    fn drop(&mut self) {
        if let Ok(mut is_over) = self.shared.is_over.lock() {
            *is_over = true;
        }
        self.shared.bell.notify_all();
        if let Some(line) = self.line.take() {
            let _ = line.join();
        }
    }
}

impl Shared {
    fn show(&self) {
        let start = Instant::now();
        let mut pause = PATIENCE;
        while !self.is_over_after(pause) {
            let _ = write!(io::stderr(), "\r{}\x1b[K", self.text(start.elapsed(), columns()));
            pause = INTERVAL;
        }
        if pause == INTERVAL {
            let _ = write!(io::stderr(), "\r\x1b[K");
        }
    }

    fn is_over_after(&self, pause: Duration) -> bool {
        let Ok(is_over) = self.is_over.lock() else { return true };
        match self.bell.wait_timeout_while(is_over, pause, |is_over| !*is_over) {
            Ok((is_over, _)) => *is_over,
            Err(_) => true,
        }
    }

    /// The line, short of the last column: one that is wider than the terminal couldn't be wiped away.
    fn text(&self, elapsed: Duration, columns: usize) -> String {
        let seconds = elapsed.as_secs();
        let end = match self.total {
            0 => format!(" .. {seconds} s"),
            total => format!(" .. {} of {total}, {seconds} s", self.done.load(Ordering::Relaxed)),
        };
        let room = columns.saturating_sub(1);
        let text = shortened(&self.what, room.saturating_sub(end.len())) + &end;
        front(&text, room)
    }
}

/// The width of the terminal that the line stands on.
fn columns() -> usize {
    match measures(&io::stderr()) {
        Ok((columns @ 1.., _)) => columns.into(),
        _ => USUAL,
    }
}

/// The text in so many columns, a third of them for its front where its middle is left out.
fn shortened(text: &str, room: usize) -> String {
    if width(text) <= room {
        return text.to_string();
    }
    let room = room.saturating_sub(GAP.len());
    let start = front(text, room / 3);
    let end: String = text.chars().rev().collect();
    let end: String = front(&end, room - room / 3).chars().rev().collect();
    start + GAP + &end
}

/// As much of the text's front as fits.
fn front(text: &str, room: usize) -> String {
    let mut left = room;
    let fits = |letter: &char| {
        let fits = columns_of(*letter) <= left;
        left = left.saturating_sub(columns_of(*letter));
        fits
    };
    text.chars().take_while(fits).collect()
}

fn width(text: &str) -> usize {
    text.chars().map(columns_of).sum()
}

/// At most so many columns does a letter take.
fn columns_of(letter: char) -> usize {
    if letter.is_ascii() {
        1
    } else {
        2
    }
}

#[cfg(test)]
mod tests {
    use super::*;

    fn text(what: &str, total: usize, seconds: u64, columns: usize) -> String {
        Progress::new(what.to_string(), total).shared.text(Duration::from_secs(seconds), columns)
    }

    #[test]
    fn a_line_has_room_on_a_terminal() {
        let what = format!("building {}menu.flc", "boards/".repeat(30));
        let expected = "building boards/b[..]boards/boards/boards/boards/menu.flc .. 0 of 4000, 10000 s";
        assert_eq!(text(&what, 4_000, 10_000, 80), expected);
        assert_eq!(text(&what, 0, 3, 40), "building [..]rds/boards/menu.flc .. 3 s");
        assert!(text(&what, 0, 3, 300).starts_with(&what));
        assert_eq!(text("building menu.flc", 0, 3, 25), "building menu.flc .. 3 s");
        assert_eq!(text("building menu.flc", 0, 3, 24), "buil[..]menu.flc .. 3 s");
        for columns in 0..200 {
            let line = text("checking speisekarten/für-heute/寿司の写真.flc", 77, 1_234, columns);
            assert!(width(&line) < columns.max(1), "{columns}: {line}");
        }
    }

    #[test]
    fn steps_are_counted() {
        let progress = Progress::new("adding".to_string(), 5);
        progress.step();
        progress.step();
        assert_eq!(progress.shared.text(Duration::from_secs(3), 80), "adding .. 2 of 5, 3 s");
        assert_eq!(text("checking", 0, 0, 80), "checking .. 0 s");
    }

    #[test]
    fn quick_work_is_not_waited_for() {
        let start = Instant::now();
        drop(Progress::new(String::new(), 0));
        assert!(start.elapsed() < PATIENCE);
    }
}
