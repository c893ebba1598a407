//! Help, made from the table of commands.

use crate::say::{heading, print, usage, DONE};
use crate::table::{Command, ABOUT, COMMANDS, NAME, NOTES, STATUSES};
use crate::words::Given;

/// How wide a line may be.
const WIDTH: usize = 100;

pub fn run(given: &Given) -> Result<u8, String> {
    match given.name(0).map(|name| (Command::of(name), name)) {
        None => all(),
        Some((Some(command), _)) => one(command),
        Some((None, name)) => Ok(usage(&format!("{} is no command", name.to_string_lossy()))),
    }
}

/// The list of commands, and what holds for all of them.
pub fn all() -> Result<u8, String> {
    let mut out = format!("{NAME}: {ABOUT}\n\n{}\n", heading("Commands:"));
    for command in COMMANDS {
        out += &format!("  {NAME} {}\n{}", command.usage(), block(command.brief, 6));
    }
    out += &format!("\n{NAME} help COMMAND says more of one of them, and what its options do; {NAME} --version shows the version.\n\n");
    out += &NOTES.iter().map(|note| block(note, 0)).collect::<String>();
    out += &format!("{}\n", statuses());
    out += &format!("\n{}\n", heading("Examples:"));
    for example in COMMANDS.iter().flat_map(|command| command.examples) {
        out += &format!("  {NAME} {example}\n");
    }
    print(out.as_bytes()).map(|()| DONE)
}

/// All about one command.
pub fn one(command: &Command) -> Result<u8, String> {
    let mut out = format!("{NAME} {}\n\n{}", command.usage(), block(&format!("{}: {}", command.name, command.brief), 0));
    for paragraph in command.more {
        out += &format!("\n{}", block(paragraph, 0));
    }
    if !command.options.is_empty() {
        out += &format!("\n{}\n", heading("Options:"));
    }
    for option in command.options {
        out += &format!("  {}\n{}", option.shown(), block(option.help, 6));
    }
    out += &format!("\n{}\n", statuses());
    if !command.examples.is_empty() {
        out += &format!("\n{}\n", heading("Examples:"));
    }
    for example in command.examples {
        out += &format!("  {NAME} {example}\n");
    }
    print(out.as_bytes()).map(|()| DONE)
}

fn statuses() -> String {
    let said: Vec<String> = STATUSES.iter().map(|(status, what)| format!("{status} {}", what.split(';').next().unwrap_or(what))).collect();
    format!("Exit status: {}.", said.join(", "))
}

/// A text in lines, each so many spaces to the right.
fn block(text: &str, left: usize) -> String {
    let mut out = String::new();
    let mut line = String::new();
    for word in text.split(' ') {
        if !line.is_empty() && left + line.len() + 1 + word.len() > WIDTH {
            out += &format!("{:left$}{line}\n", "");
            line.clear();
        }
        if !line.is_empty() {
            line.push(' ');
        }
        line += word;
    }
    out + &format!("{:left$}{line}\n", "")
}
