//! The command line that the test binaries share.

use std::process::exit;

/// What the command line asks for.
pub enum Task {
    Whole { base: u64 },
    SelfCheck,
    Batch { family: String, seed: u64 },
}

/// Reads the command line, or says what is wrong with it and ends.
pub fn task_or_exit(program: &str, families: &[&str], default_base: u64) -> Task {
    let arguments: Vec<String> = std::env::args().skip(1).collect();
    match task(&arguments, families, default_base) {
        Ok(task) => task,
        Err(message) => {
            eprintln!("{message}");
            eprintln!("usage: {program} [--self-check] [--base SEED] [--family NAME --seed SEED]");
            exit(2);
        }
    }
}

fn task(arguments: &[String], families: &[&str], default_base: u64) -> Result<Task, String> {
    let words: Vec<&str> = arguments.iter().map(String::as_str).collect();
    match words[..] {
        [] => Ok(Task::Whole { base: default_base }),
        ["--self-check"] => Ok(Task::SelfCheck),
        ["--base", base] => Ok(Task::Whole { base: seed(base)? }),
        ["--family", name, "--seed", word] if families.contains(&name) => {
            Ok(Task::Batch { family: name.to_string(), seed: seed(word)? })
        }
        ["--family", name, "--seed", _] => {
            Err(format!("there is no family {name}: take one of {}", families.join(", ")))
        }
        _ => Err("these arguments aren't known".to_string()),
    }
}

fn seed(word: &str) -> Result<u64, String> {
    word.parse().map_err(|_| format!("{word} isn't a seed: give a whole number below 2^64"))
}

/// Ends a run that met something wrong, with what to do next.
pub fn fail(what: &str, next: &str) -> ! {
    println!("{what}");
    println!("next: {next}");
    exit(1);
}

/// Ends a self-check in which something wrong was not seen.
pub fn require_seen(name: &str, seen: Option<u64>) {
    match seen {
        Some(inputs) => println!("self-check: {name} seen after {inputs} inputs"),
        None => fail(&format!("self-check: {name} was not seen"), "add inputs to the families that show it"),
    }
}
