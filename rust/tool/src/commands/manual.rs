//! `flic manual`: the man page, and completions for shells, made from the table of commands.

use super::{Command, ALL, EXIT, SUMMARY};
use crate::tool::arguments::{Arguments, Opt};
use crate::tool::failure::{misused, Outcome};
use crate::tool::name::Shown;
use crate::tool::say::say;

pub const COMMAND: Command = Command {
    name: "manual",
    usage: "[man|bash|zsh|fish]",
    summary: "prints the man page, or a shell's completions",
    about: "\
Prints the man page, as man and groff read it, or what bash, zsh or fish need to complete commands and options.
./install puts each where it is found; bash reads it at once with: eval \"$(flic manual bash)\"",
    options: &[],
    run,
};

fn run(arguments: Arguments) -> Outcome {
    match &arguments.files[..] {
        [] => say(&man()),
        [form] => match form.to_str() {
            Some("man") => say(&man()),
            Some("bash") => say(&bash()),
            Some("zsh") => say(&zsh()),
            Some("fish") => say(&fish()),
            _ => misused(format!("{} isn't man, bash, zsh or fish", form.shown())),
        },
        [_, more, ..] => misused(format!("{} is one word too many", more.shown())),
    }
}

/// The words that stand for themselves behind a command's name: `check|write` in its usage.
fn words(command: &Command) -> Vec<&'static str> {
    let first = command.usage.split(' ').next().unwrap_or_default().trim_matches(['[', ']']);
    match first.contains('|') {
        true => first.split('|').collect(),
        false => Vec::new(),
    }
}

fn man() -> String {
    let mut page = format!(
        ".TH FLIC 1 \"\" \"flic {}\" \"\"\n.SH NAME\nflic \\- {}\n.SH SYNOPSIS\n.B flic\n.I COMMAND\n\\&..\n.SH COMMANDS\n",
        env!("CARGO_PKG_VERSION"),
        roff(SUMMARY)
    );
    for command in &ALL {
        page += &format!(".SS \"flic {} {}\"\n", command.name, roff(command.usage));
        page += &paragraphs(command.about);
        for option in command.options {
            page += &format!(".TP\n.B {}\n{}\n", roff(&option.usage()), roff(option.about));
        }
    }
    page + ".SH EXIT STATUS\n" + &paragraphs(EXIT)
}

/// Text as paragraphs; lines that are indented stay as they are.
fn paragraphs(text: &str) -> String {
    let paragraph = |lines: &str| match lines.starts_with(' ') {
        true => format!(".PP\n.nf\n{}\n.fi\n", roff(lines)),
        false => format!(".PP\n{}\n", roff(lines)),
    };
    text.trim_end().split("\n\n").map(paragraph).collect()
}

/// Letters that groff would take for something else.
fn roff(text: &str) -> String {
    let line = |line: &str| {
        let front = if line.starts_with(['.', '\'']) { "\\&" } else { "" };
        format!("{front}{}", line.replace('\\', "\\e").replace('-', "\\-").replace('\'', "\\(aq").replace('"', "\\(dq"))
    };
    text.lines().map(line).collect::<Vec<String>>().join("\n")
}

fn options(command: &Command) -> Vec<&'static str> {
    command.options.iter().map(|option| option.name).chain(["--help"]).collect()
}

fn bash() -> String {
    let names: Vec<&str> = ALL.iter().map(|command| command.name).collect();
    let mut text = format!(
        "# bash completion for flic\n_flic() {{\n    local word=${{COMP_WORDS[COMP_CWORD]}} words=\n    \
         if [ \"$COMP_CWORD\" -eq 1 ]; then\n        words='{} --help --version'\n    else\n        \
         case ${{COMP_WORDS[1]}} in\n",
        names.join(" ")
    );
    for command in &ALL {
        let (words, options) = (words(command).join(" "), options(command).join(" "));
        text += &format!("            {})\n                words='{options}'\n", command.name);
        if !words.is_empty() {
            text += &format!("                [ \"$COMP_CWORD\" -ne 2 ] || words='{words} --help'\n");
        }
        text += "                ;;\n";
    }
    text + "        esac
        # Without a dash files are meant, unless the command has words of its own.
        case $word/$words in
            -*/* | */[!-]*) ;;
            *) words= ;;
        esac
    fi
    COMPREPLY=($(compgen -W \"$words\" -- \"$word\"))
}
complete -o default -F _flic flic
"
}

fn zsh() -> String {
    let mut text = "#compdef flic\n_flic() {\n    local -a commands\n    commands=(\n".to_string();
    for command in &ALL {
        text += &format!("        '{}:{}'\n", command.name, quoted(command.summary));
    }
    text += "    )\n    if (( CURRENT == 2 )); then\n        _describe command commands\n        return\n    fi\n";
    text += "    shift words\n    (( CURRENT-- ))\n    case $words[1] in\n";
    for command in &ALL {
        let option = |option: &Opt| match option.value {
            Some(value) => format!(" '{}[{}]:{value}:'", option.name, quoted(option.about)),
            None => format!(" '{}[{}]'", option.name, quoted(option.about)),
        };
        let options: String = command.options.iter().map(option).collect();
        let words = match words(command).join(" ") {
            words if words.is_empty() => String::new(),
            words => format!(" '1:what:({words})'"),
        };
        text += &format!("        {}) _arguments{options}{words} '*:file:_files' ;;\n", command.name);
    }
    text + "    esac\n}\n_flic \"$@\"\n"
}

/// Without the letters that zsh would take for something else within its quotes and brackets.
fn quoted(text: &str) -> String {
    text.replace('\'', "'\\''").replace('[', "(").replace(']', ")").replace(':', "\\:")
}

fn fish() -> String {
    let mut text = "# fish completion for flic\n".to_string();
    for command in &ALL {
        let Command { name, summary, .. } = command;
        let summary = summary.replace('\'', "\\'");
        text += &format!("complete -c flic -n __fish_use_subcommand -f -a {name} -d '{summary}'\n");
        let seen = format!("complete -c flic -n '__fish_seen_subcommand_from {name}'");
        for word in words(command) {
            text += &format!("{seen} -a {word}\n");
        }
        for option in command.options {
            let value = if option.value.is_some() { " -x" } else { "" };
            let about = option.about.replace('\'', "\\'");
            let form = if option.name.starts_with("--") { "-l" } else { "-s" };
            text += &format!("{seen} {form} {}{value} -d '{about}'\n", option.name.trim_start_matches('-'));
        }
    }
    text
}

#[cfg(test)]
mod tests {
    use super::*;

    #[test]
    fn every_command_and_option_is_in_each_form() {
        let (man, bash, zsh, fish) = (man(), bash(), zsh(), fish());
        for command in &ALL {
            let name = command.name;
            assert!(man.contains(&format!(".SS \"flic {name} ")), "{name}");
            assert!(bash.contains(&format!("            {name})\n")), "{name}");
            assert!(zsh.contains(&format!("        '{name}:")) && zsh.contains(&format!("        {name}) ")), "{name}");
            assert!(fish.contains(&format!(" -a {name} -d ")), "{name}");
            for option in command.options {
                let written = option.name;
                assert!(man.contains(&format!(".B {}", written.replace('-', "\\-"))), "{name} {written}");
                let form = written.replacen("--", "-l ", 1).replacen("-q", "-s q", 1);
                assert!(fish.contains(&format!("from {name}' {form}")), "{name} {form}");
                let row = zsh.lines().find(|line| line.starts_with(&format!("        {name}) "))).unwrap();
                assert!(row.contains(&format!("'{written}[")), "{row}");
            }
        }
    }

    #[test]
    fn what_groff_would_misread_is_written_otherwise() {
        assert_eq!(roff(".a -b 'c' \"d\" \\e"), "\\&.a \\-b \\(aqc\\(aq \\(dqd\\(dq \\ee");
        assert_eq!(paragraphs("one\ntwo\n\n    three"), ".PP\none\ntwo\n.PP\n.nf\n    three\n.fi\n");
        assert!(man().lines().all(|line| !line.starts_with('\'')));
    }

    #[test]
    fn words_that_stand_for_themselves() {
        let of = |name: &str| words(ALL.iter().find(|command| command.name == name).unwrap());
        assert_eq!((of("trailer"), of("manual")), (vec!["check", "write"], vec!["man", "bash", "zsh", "fish"]));
        assert!(of("check").is_empty());
    }
}
