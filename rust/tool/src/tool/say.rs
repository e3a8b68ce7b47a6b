//! Standard output, where a reader that has gone away ends the command quietly, and standard error.

use super::failure::{wrong, Failure, Outcome};
use std::io::{self, ErrorKind, Write};

pub fn say(text: &str) -> Outcome {
    let mut out = io::stdout().lock();
    match out.write_all(text.as_bytes()).and_then(|()| out.flush()) {
        Ok(()) => Ok(()),
        Err(error) if error.kind() == ErrorKind::BrokenPipe => Err(Failure::Said),
        Err(error) => wrong(format!("standard output can't be written: {error}")),
    }
}

/// Says on standard error what is wrong; where that can't be written, no one is there to be told.
pub fn complain(text: &str) {
    let _ = writeln!(io::stderr(), "{text}");
}
