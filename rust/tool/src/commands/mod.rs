//! The commands, one module each.

mod build;
mod check;
mod convert;
mod diff;
mod frames;
mod info;
mod list;
mod manual;
mod page;
mod play;
mod repair;
mod replay;
mod rewrite;
mod sheet;
mod tiles;
mod trailer;

use crate::tool::arguments::{Arguments, Opt};
use crate::tool::failure::Outcome;

/// A row of the table of commands: all that the tool says about a command is made from it.
pub struct Command {
    pub name: &'static str,
    /// The words behind the name.
    pub usage: &'static str,
    /// One line for the list of commands.
    pub summary: &'static str,
    /// What it does, in paragraphs; the options aren't explained there.
    pub about: &'static str,
    pub options: &'static [Opt],
    pub run: fn(Arguments) -> Outcome,
}

/// What the tool does, in a line.
pub const SUMMARY: &str = "checks, shows and makes FLC and FLI reels for menu boards";

/// How a command ends, and what it may leave.
pub const EXIT: &str = "\
Exit status: 0 done, 1 refused or failed, 2 wrong usage.
The name - is standard input for a file that is read, and standard output for one that is written.
What is written has a temporary name first, .NAME.NUMBER.tmp; one that an interrupted run left can be removed.
";

pub const ALL: [Command; 16] = [
    check::COMMAND,
    info::COMMAND,
    list::COMMAND,
    play::COMMAND,
    replay::COMMAND,
    frames::COMMAND,
    tiles::COMMAND,
    sheet::COMMAND,
    page::COMMAND,
    diff::COMMAND,
    build::COMMAND,
    repair::COMMAND,
    rewrite::COMMAND,
    convert::COMMAND,
    trailer::COMMAND,
    manual::COMMAND,
];

/// The most letters of a line.
const LINE: usize = 120;

impl Command {
    /// The usage line, broken where it is too long, but not within brackets.
    pub fn usage(&self) -> String {
        let mut lines = vec![format!("usage: flic {}", self.name)];
        let mut depth = 0;
        for word in self.usage.split(' ') {
            let last = lines.len() - 1;
            match depth == 0 && lines[last].len() + 1 + word.len() > LINE {
                true => lines.push(format!("          {word}")),
                false => lines[last] += &format!(" {word}"),
            }
            depth += word.matches('[').count();
            depth -= word.matches(']').count();
        }
        lines.join("\n")
    }

    /// The usage line, what the command does, and its options.
    pub fn help(&self) -> String {
        let width = self.options.iter().map(|option| option.usage().len()).max().unwrap_or(0);
        let option = |option: &Opt| format!("  {:width$}   {}\n", option.usage(), option.about);
        let options: String = self.options.iter().map(option).collect();
        let gap = if options.is_empty() { "" } else { "\n" };
        format!("{}\n\n{}\n{gap}{options}", self.usage(), self.about)
    }
}

#[cfg(test)]
mod tests {
    use super::*;

    #[test]
    fn every_option_stands_in_the_usage_line_and_in_the_help() {
        for command in &ALL {
            for option in command.options {
                assert!(command.usage.contains(&option.usage()), "{}: {}", command.name, option.name);
                assert!(command.help().contains(&format!("\n  {} ", option.usage())), "{}", command.help());
            }
            let named = command.usage.split([' ', '[', ']']).filter(|word| word.starts_with('-')).count();
            assert_eq!(named, command.options.len(), "{}", command.usage);
        }
    }

    #[test]
    fn no_line_is_too_long_to_be_read() {
        for command in &ALL {
            let longest = command.help().lines().map(str::len).max();
            assert!(longest <= Some(LINE), "{}: {longest:?}", command.name);
            assert!(!command.about.ends_with('\n') && !command.about.is_empty(), "{}", command.name);
        }
    }
}
