//! The manual page as roff. What it says of commands and options is what --help says: it is taken from the same
//! place; only the parts after them are written by hand, in manual/foot.roff.

use clap::builder::StyledStr;
use clap::{Arg, Command};

const FOOT: &str = include_str!("manual/foot.roff");

/// The page of a command.
pub fn page(mut command: Command) -> String {
    command.build();
    let name = command.get_name().to_string();
    let version = command.get_version().unwrap_or_default().to_string();
    let about = text(command.get_about());
    let mut commands = String::new();
    leaves(&mut command, &mut commands);
    format!(
        ".TH {} 1 \"\" \"oddersnow\\-bench {version}\" \"User Commands\"\n.SH NAME\n{name} \\- {}\n.SH SYNOPSIS\n\
         .B {name}\n.I command\n.RI [ options ]\n.SH DESCRIPTION\n{}.SH COMMANDS\n{commands}{FOOT}",
        name.to_uppercase(),
        escaped(about.trim_start_matches("The bench: ")),
        paragraphs(&text(command.get_long_about())),
    )
}

/// A part for each command that has none below it.
fn leaves(command: &mut Command, page: &mut String) {
    let mut below = false;
    for inner in command.get_subcommands_mut() {
        below = true;
        leaves(inner, page);
    }
    if !below {
        page.push_str(&part(command));
    }
}

/// A command: how it is called, what it does, its words and its options.
fn part(command: &mut Command) -> String {
    let usage = command.render_usage().to_string();
    let called = usage.trim_start_matches("Usage: ").trim();
    let mut part = format!(
        ".SS {}\n{}",
        quoted(called),
        paragraphs(&text(command.get_about()))
    );
    for argument in command.get_arguments() {
        if !argument.is_hide_set() {
            part.push_str(&row(argument));
        }
    }
    part
}

/// An option or a word: its names and values, then what it means, with its default and what it can be.
fn row(argument: &Arg) -> String {
    let mut row = format!(".TP\n{}\n{}", head(argument), lines(&meaning(argument)));
    if argument.get_action().takes_values() {
        for value in argument.get_possible_values() {
            row.push_str(&format!(".br\n.B {}\n", escaped(value.get_name())));
            if value.get_help().is_some() {
                row.push_str(&lines(&text(value.get_help())));
            }
        }
    }
    row
}

fn meaning(argument: &Arg) -> String {
    let help = argument.get_long_help().or_else(|| argument.get_help());
    let mut meaning = text(help);
    let defaults = argument.get_default_values();
    if argument.get_action().takes_values() && !defaults.is_empty() {
        let shown: Vec<_> = defaults
            .iter()
            .map(|value| value.to_string_lossy())
            .collect();
        meaning.push_str(&format!(" [default: {}]", shown.join(" ")));
    }
    meaning
}

fn head(argument: &Arg) -> String {
    let mut names = Vec::new();
    names.extend(argument.get_short().map(|short| format!("-{short}")));
    names.extend(argument.get_long().map(|long| format!("--{long}")));
    let mut words = vec![names.join(", ")];
    if argument.get_action().takes_values() {
        let id = argument.get_id().as_str().to_uppercase();
        match argument.get_value_names() {
            Some(values) => words.extend(values.iter().map(|value| value.to_string())),
            None => words.push(id),
        }
    }
    format!(".B {}", quoted(words.join(" ").trim()))
}

fn text(words: Option<&StyledStr>) -> String {
    words.map(ToString::to_string).unwrap_or_default()
}

/// Text as paragraphs, parted where it has an empty line.
fn paragraphs(text: &str) -> String {
    let parts: Vec<String> = text.split("\n\n").map(lines).collect();
    parts.join(".PP\n")
}

fn lines(text: &str) -> String {
    let words: Vec<&str> = text.split_whitespace().collect();
    format!("{}\n", escaped(&words.join(" ")))
}

/// An argument of a macro.
fn quoted(text: &str) -> String {
    format!("\"{}\"", escaped(text).replace('"', "\\(dq"))
}

/// Text in which roff finds no command of its own.
fn escaped(text: &str) -> String {
    let text = text
        .replace('\\', "\\e")
        .replace('-', "\\-")
        .replace('\'', "\\(aq");
    if text.starts_with('.') {
        return format!("\\&{text}");
    }
    text
}

#[cfg(test)]
mod tests {
    use super::*;

    #[test]
    fn roff_finds_no_command_in_text() {
        assert_eq!(lines(".x 'a'\n  b-c \\d"), "\\&.x \\(aqa\\(aq b\\-c \\ed\n");
        assert_eq!(quoted("say \"no\""), "\"say \\(dqno\\(dq\"");
    }

    #[test]
    fn a_page_has_each_command_below_and_its_options() {
        let inner = Command::new("inner").about("Does it").arg(
            Arg::new("size")
                .short('s')
                .long("how-large")
                .value_name("BYTES")
                .default_value("64")
                .help("The size"),
        );
        let page = page(
            Command::new("outer")
                .about("Says it")
                .subcommand(Command::new("middle").subcommand(inner)),
        );
        let wanted = ".SS \"outer middle inner [OPTIONS]\"\nDoes it\n.TP\n.B \"\\-s, \\-\\-how\\-large BYTES\"\nThe size [default: 64]\n";
        assert!(page.contains(wanted), "{page}");
    }
}
