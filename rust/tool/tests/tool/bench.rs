//! A directory in which the tool is run, gone when the test is over.

use std::fs;
use std::io::Write;
use std::os::unix::fs::PermissionsExt;
use std::os::unix::process::CommandExt;
use std::path::{Path, PathBuf};
use std::process::{self, Command, Output, Stdio};
use std::sync::atomic::{AtomicUsize, Ordering};

/// A user who owns nothing, and a group.
const NOBODY: u32 = 65_534;

pub struct Bench {
    directory: PathBuf,
}

/// How a run of the tool ended, and what it said.
pub struct Run {
    pub status: i32,
    pub out: String,
    pub err: String,
}

impl Run {
    pub fn of(output: Output) -> Run {
        Run {
            status: output.status.code().unwrap(),
            out: String::from_utf8(output.stdout).unwrap(),
            err: String::from_utf8(output.stderr).unwrap(),
        }
    }
}

/// A number as the tool writes it, with a comma after each thousand.
pub fn grouped(number: usize) -> String {
    match number {
        0..1_000 => number.to_string(),
        _ => format!("{},{:03}", grouped(number / 1_000), number % 1_000),
    }
}

impl Bench {
    pub fn new() -> Bench {
        static NUMBER: AtomicUsize = AtomicUsize::new(0);
        let name = format!("{}-{}", process::id(), NUMBER.fetch_add(1, Ordering::Relaxed));
        let directory = Path::new(env!("CARGO_TARGET_TMPDIR")).join(name);
        fs::create_dir_all(&directory).unwrap();
        Bench { directory }
    }

    /// A bench with pictures `1.ppm`, `2.ppm` and so on.
    pub fn with_pictures(pictures: &[Vec<u8>]) -> Bench {
        let bench = Bench::new();
        for (at, picture) in pictures.iter().enumerate() {
            bench.write(&format!("{}.ppm", at + 1), picture);
        }
        bench
    }

    /// A bench with `reel.flc`, built of the pictures.
    pub fn with_reel(pictures: &[Vec<u8>]) -> Bench {
        Bench::with_built(pictures, &["reel.flc", "--speed", "70"])
    }

    /// A bench with `reel.fli`, built of the pictures, which are 320 by 200.
    pub fn with_fli(pictures: &[Vec<u8>]) -> Bench {
        Bench::with_built(pictures, &["reel.fli", "--jiffies", "5"])
    }

    fn with_built(pictures: &[Vec<u8>], reel: &[&str]) -> Bench {
        let bench = Bench::with_pictures(pictures);
        let names: Vec<String> = (1..=pictures.len()).map(|number| format!("{number}.ppm")).collect();
        let names: Vec<&str> = names.iter().map(String::as_str).collect();
        bench.done(&[&["build"], reel, &names].concat());
        bench
    }

    pub fn path(&self, name: &str) -> PathBuf {
        self.directory.join(name)
    }

    pub fn write(&self, name: &str, bytes: &[u8]) {
        fs::write(self.path(name), bytes).unwrap();
    }

    pub fn read(&self, name: &str) -> Vec<u8> {
        fs::read(self.path(name)).unwrap()
    }

    /// What lies in a directory of the bench, sorted; `.` is the bench itself.
    pub fn names(&self, directory: &str) -> Vec<String> {
        let entries = fs::read_dir(self.path(directory)).unwrap();
        let mut names: Vec<String> = entries.map(|entry| entry.unwrap().file_name().into_string().unwrap()).collect();
        names.sort();
        names
    }

    /// Makes a file longer without filling the disk: what is added has bytes of 0.
    pub fn lengthen(&self, name: &str, length: u64) {
        fs::OpenOptions::new().write(true).open(self.path(name)).unwrap().set_len(length).unwrap();
    }

    pub fn protect(&self, name: &str) {
        let mut permissions = fs::metadata(self.path(name)).unwrap().permissions();
        permissions.set_readonly(true);
        fs::set_permissions(self.path(name), permissions).unwrap();
    }

    /// Lets everyone read and write a file or a directory of the bench.
    pub fn open_to_all(&self, name: &str) {
        fs::set_permissions(self.path(name), fs::Permissions::from_mode(0o777)).unwrap();
    }

    /// Whether the tests run as the system's owner, who alone may run the tool as someone else.
    pub fn may_become_nobody(&self) -> bool {
        self.command(&["--version"]).uid(NOBODY).gid(NOBODY).output().is_ok()
    }

    /// A run as a user who owns nothing.
    pub fn run_as_nobody(&self, words: &[&str]) -> Run {
        Run::of(self.command(words).uid(NOBODY).gid(NOBODY).output().unwrap())
    }

    pub fn run(&self, words: &[&str]) -> Run {
        Run::of(self.command(words).output().unwrap())
    }

    /// A run that is given this on standard input.
    pub fn run_with(&self, words: &[&str], input: &[u8]) -> Run {
        let mut command = self.command(words);
        let mut child = command.stdin(Stdio::piped()).stdout(Stdio::piped()).stderr(Stdio::piped()).spawn().unwrap();
        // A run that fails before it reads may have gone away.
        let _ = child.stdin.take().unwrap().write_all(input);
        Run::of(child.wait_with_output().unwrap())
    }

    pub fn command(&self, words: &[&str]) -> Command {
        let mut command = Command::new(env!("CARGO_BIN_EXE_flic"));
        command.args(words).current_dir(&self.directory);
        command
    }

    /// What the tool says where it must succeed.
    pub fn done(&self, words: &[&str]) -> String {
        let run = self.run(words);
        assert_eq!((run.status, run.err.as_str()), (0, ""), "{words:?}: {}", run.out);
        run.out
    }

    /// What the tool says on standard error where it must fail with this status, and leave the bench as it is.
    pub fn fails(&self, status: i32, words: &[&str]) -> String {
        let before = self.names(".");
        let run = self.run(words);
        assert_eq!(run.status, status, "{words:?}: {}{}", run.out, run.err);
        assert_eq!(self.names("."), before, "{words:?}");
        run.err
    }

    /// The pictures that a reel of the bench shows, in the order of the files' names.
    pub fn frames(&self, reel: &str, laps: &str) -> Vec<Vec<u8>> {
        let directory = format!("frames of {reel} {laps}");
        self.done(&["frames", reel, &directory, "--laps", laps]);
        let frames = self.names(&directory).iter().map(|name| self.read(&format!("{directory}/{name}"))).collect();
        fs::remove_dir_all(self.path(&directory)).unwrap();
        frames
    }
}

impl Drop for Bench {
    fn drop(&mut self) {
        let _ = fs::remove_dir_all(&self.directory);
    }
}
