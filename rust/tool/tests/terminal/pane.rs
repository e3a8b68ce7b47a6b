//! A terminal of a certain size in which one command runs: a tmux server of its own, gone when the test is over.

use crate::screen::{parsed, Cell};
use std::path::PathBuf;
use std::process::{self, Command};
use std::sync::atomic::{AtomicUsize, Ordering};
use std::time::{Duration, Instant};
use std::{env, fs, thread};

/// After this time something that should happen won't.
const PATIENCE: Duration = Duration::from_secs(60);
const PAUSE: Duration = Duration::from_millis(20);
/// Stands on the screen before the command runs.
const BEFORE: &str = "what was there before";

pub struct Pane {
    /// Holds the server's socket, whose name can't be long.
    directory: PathBuf,
}

/// How a command left its terminal.
pub struct Ended {
    text: String,
    modes: [String; 2],
    has_cursor: bool,
    has_second_screen: bool,
}

impl Ended {
    /// What stands on the screen behind what was there before; the last line is the status.
    pub fn said(&self) -> &str {
        self.text.trim_end().strip_prefix(BEFORE).expect("what was there before is there again").trim_start()
    }

    pub fn assert_restored(&self) {
        assert!(!self.modes[0].is_empty());
        assert_eq!(self.modes[0], self.modes[1], "the terminal's modes, before and after");
        assert!(self.has_cursor, "the cursor is hidden");
        assert!(!self.has_second_screen, "the second screen shows");
    }
}

impl Pane {
    /// Runs the command, as a shell takes it, in a new directory.
    pub fn new(columns: usize, rows: usize, command: &str) -> Pane {
        static NUMBER: AtomicUsize = AtomicUsize::new(0);
        let name = format!("flic-{}-{}", process::id(), NUMBER.fetch_add(1, Ordering::Relaxed));
        let directory = env::temp_dir().join(name);
        fs::create_dir(&directory).unwrap();
        let script = format!(
            "echo '{BEFORE}'\nstty -g >modes-before\n({command})\necho \"status $?\"\nstty -g >modes-after\n\
             >over\nexec sleep 600\n"
        );
        fs::write(directory.join("script"), script).unwrap();
        let pane = Pane { directory };
        let (columns, rows) = (columns.to_string(), rows.to_string());
        let directory = pane.directory.to_str().unwrap();
        pane.tmux(&["new-session", "-d", "-x", &columns, "-y", &rows, "-c", directory, "sh", "script"]);
        pane
    }

    fn tmux(&self, words: &[&str]) -> String {
        let output = self.command(words).output().expect("tmux is on the path");
        assert!(output.status.success(), "tmux {words:?}: {}", String::from_utf8_lossy(&output.stderr));
        String::from_utf8(output.stdout).unwrap()
    }

    fn command(&self, words: &[&str]) -> Command {
        let mut command = Command::new("tmux");
        command.args(["-u", "-f", "/dev/null", "-S"]).arg(self.directory.join("socket")).args(words);
        command
    }

    fn is_set(&self, name: &str) -> bool {
        self.tmux(&["display-message", "-p", &format!("#{{{name}}}")]).trim_end() == "1"
    }

    pub fn has_second_screen(&self) -> bool {
        self.is_set("alternate_on")
    }

    pub fn has_cursor(&self) -> bool {
        self.is_set("cursor_flag")
    }

    pub fn text(&self) -> String {
        self.tmux(&["capture-pane", "-p"])
    }

    /// The rows of the screen, as wide as what stands in them.
    pub fn screen(&self) -> Vec<Vec<Cell>> {
        parsed(&self.tmux(&["capture-pane", "-p", "-e"]))
    }

    pub fn press(&self, keys: &[&str]) {
        self.tmux(&[&["send-keys"], keys].concat());
    }

    pub fn resize(&self, columns: usize, rows: usize) {
        self.tmux(&["resize-window", "-x", &columns.to_string(), "-y", &rows.to_string()]);
    }

    /// Sends a signal to the process whose number stands in the file `pid`.
    pub fn signal(&self, signal: &str) {
        let kill = format!("kill -{signal} {}", self.file("pid"));
        assert!(Command::new("sh").args(["-c", &kill]).status().unwrap().success());
    }

    fn file(&self, name: &str) -> String {
        fs::read_to_string(self.directory.join(name)).unwrap()
    }

    pub fn is_over(&self) -> bool {
        self.directory.join("over").exists()
    }

    /// Waits until something holds.
    pub fn until(&self, what: &str, mut holds: impl FnMut() -> bool) {
        let start = Instant::now();
        while !holds() {
            assert!(start.elapsed() < PATIENCE, "{what} didn't come:\n{}", self.text());
            thread::sleep(PAUSE);
        }
    }

    /// Looks whether something holds for some time.
    pub fn stays(&self, time: Duration, mut holds: impl FnMut() -> bool) {
        let start = Instant::now();
        while start.elapsed() < time {
            assert!(holds(), "{}", self.text());
            thread::sleep(PAUSE);
        }
    }

    /// Waits until the command has ended.
    pub fn ended(&self) -> Ended {
        self.until("the end", || self.is_over());
        self.until("the status", || self.text().lines().any(|line| line.starts_with("status ")));
        Ended {
            text: self.text(),
            modes: [self.file("modes-before"), self.file("modes-after")],
            has_cursor: self.has_cursor(),
            has_second_screen: self.has_second_screen(),
        }
    }
}

impl Drop for Pane {
    fn drop(&mut self) {
        let _ = self.command(&["kill-server"]).output();
        let _ = fs::remove_dir_all(&self.directory);
    }
}
