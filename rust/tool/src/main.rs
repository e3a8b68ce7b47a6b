//! The command-line tool `flic`.

mod commands;
mod tool;

use commands::Command;
use std::env;
use std::ffi::OsString;
use std::process::ExitCode;
use tool::arguments::{hint, Arguments};
use tool::failure::{misused, Failure, Outcome};
use tool::name::Shown;
use tool::say::{complain, say};

fn main() -> ExitCode {
    let mut words = env::args_os().skip(1);
    let name = words.next();
    match run(name.as_ref(), words) {
        Ok(()) => ExitCode::SUCCESS,
        Err(failure) => {
            tell(&failure, name.as_ref());
            ExitCode::from(failure.status())
        }
    }
}

fn run(name: Option<&OsString>, mut words: impl Iterator<Item = OsString>) -> Outcome {
    let Some(name) = name.map(|name| name.to_string_lossy()) else {
        return misused("a command is missing".to_string());
    };
    if matches!(&*name, "--help" | "-h" | "help") {
        return match words.next() {
            Some(about) => say(&command(&about.to_string_lossy())?.help()),
            None => say(&help()),
        };
    }
    if matches!(&*name, "--version" | "-V") {
        return say(concat!("flic ", env!("CARGO_PKG_VERSION"), "\n"));
    }
    let command = command(&name)?;
    let arguments = Arguments::sorted(words, command.options)?;
    match arguments.wants_help {
        true => say(&command.help()),
        false => (command.run)(arguments),
    }
}

fn command(name: &str) -> Outcome<&'static Command> {
    command_named(name).map_or_else(
        || {
            let names: Vec<&str> = commands::ALL.iter().map(|command| command.name).collect();
            misused(format!("there is no command {}{}", name.shown(), hint(name, &names)))
        },
        Ok,
    )
}

fn command_named(name: &str) -> Option<&'static Command> {
    const COMMANDS: &[Command] = &commands::ALL;
    COMMANDS.iter().find(|command| command.name == name)
}

fn help() -> String {
    let mut text = format!("usage: flic COMMAND ..\n\nflic {}.\n\n", commands::SUMMARY);
    for command in &commands::ALL {
        text += &format!("  {:8} {}\n", command.name, command.summary);
    }
    text + "\nflic help COMMAND says more. " + commands::EXIT
}

/// Says on standard error what went wrong, and for a wrong command line what would be right.
fn tell(failure: &Failure, name: Option<&OsString>) {
    match failure {
        Failure::Said => {}
        Failure::Wrong(words) => complain(&format!("flic: {words}")),
        Failure::Usage(words) => {
            complain(&format!("flic: {words}"));
            match name.and_then(|name| command_named(&name.to_string_lossy())) {
                Some(command) => complain(&format!("{}\nflic {} --help says more", command.usage(), command.name)),
                None => complain("usage: flic COMMAND ..\nflic --help lists the commands"),
            }
        }
    }
}
