//! `flic replay`: which frame showed after each recorded reading of a board's clock.

use super::Command;
use crate::tool::arguments::Arguments;
use crate::tool::failure::{misused, wrong, Outcome};
use crate::tool::say::say;
use crate::tool::{files, refused};
use flic::replay;
use std::io::{self, Read};

pub const COMMAND: Command = Command {
    name: "replay",
    usage: "FILE < READINGS",
    summary: "says which frame showed after each reading of a clock",
    about: "\
Says what a board that plays the reel showed, from recorded readings of its millisecond counter, which has 32 bits and
rolls over. Standard input has a reading a line, a whole number from 0 to 4294967295: the first line is the reading at
which the board was started, every further line is a tick. For each tick a line is printed, with the number of the frame
that showed after it; the ring has the number after the last frame's.",
    options: &[],
    run,
};

fn run(arguments: Arguments) -> Outcome {
    let [file] = arguments.exactly(["FILE"])?;
    if files::is_standard(&file) {
        return misused("standard input has the readings: give the reel as a file".to_string());
    }
    let bytes = files::read_reel(&file)?;
    let reel = refused::checked(&file, &bytes)?;
    let mut text = Vec::new();
    if let Err(error) = io::stdin().lock().read_to_end(&mut text) {
        return wrong(format!("standard input can't be read: {error}{}", files::advice(&error)));
    }
    let readings = readings(&String::from_utf8_lossy(&text))
        .or_else(|words| wrong(format!("standard input: {words}: give one whole number a line, 0 to {}", u32::MAX)))?;
    let Some((start, ticks)) = readings.split_first() else {
        return wrong(
            "standard input is empty: its first line is the reading at which the board was started".to_string(),
        );
    };
    let header = reel.header();
    let numbers = replay(header.speed, header.frames.into(), *start, ticks);
    let numbers = refused::accepted(&file, &bytes, numbers)?;
    say(&numbers.iter().map(|number| format!("{number}\n")).collect::<String>())
}

/// The readings, or the first line that is none.
fn readings(text: &str) -> Result<Vec<u32>, String> {
    let reading = |(at, line): (usize, &str)| {
        line.trim().parse().map_err(|_| format!("line {} is no reading: '{}'", at + 1, line.escape_debug()))
    };
    text.lines().enumerate().map(reading).collect()
}

#[cfg(test)]
mod tests {
    use super::*;

    #[test]
    fn a_reading_a_line() {
        assert_eq!(readings("7\n 4294967295 \r\n0"), Ok(vec![7, u32::MAX, 0]));
        assert_eq!(readings(""), Ok(vec![]));
    }

    #[test]
    fn the_first_bad_line_is_named() {
        let words = |text| readings(text).unwrap_err();
        assert_eq!(words("1\n4294967296\nx\n"), "line 2 is no reading: '4294967296'");
        assert_eq!(words("1\n2\n\n3\n"), "line 3 is no reading: ''");
        assert_eq!(words("-1\n"), "line 1 is no reading: '-1'");
        assert_eq!(words("1 2\n"), "line 1 is no reading: '1 2'");
    }
}
