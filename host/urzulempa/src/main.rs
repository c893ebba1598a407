//! The command. Its words are read by the table of commands, `table`, whose rows name what runs them.

mod calls;
mod choose;
mod completions;
mod cycle;
mod help;
mod json;
mod keep;
mod lists;
mod made;
mod man;
mod mended;
mod refused;
mod salvage;
mod say;
mod season;
mod summary;
mod table;
mod unreached;
mod wall_text;
mod what_if;
mod words;

use say::{print, trouble, usage, DONE, TROUBLE};
use std::ffi::OsString;
use std::process::ExitCode;
use table::{Command, NAME};
use words::Given;

fn main() -> ExitCode {
    let words: Vec<OsString> = std::env::args_os().skip(1).collect();
    ExitCode::from(run(&words).unwrap_or_else(|why| {
        trouble(&why);
        TROUBLE
    }))
}

fn run(words: &[OsString]) -> Result<u8, String> {
    let Some((first, rest)) = words.split_first() else { return Ok(usage("no command")) };
    let asks = |word: &OsString| word == "--help" || word == "-h";
    if asks(first) {
        return help::all();
    }
    if first == "--version" || first == "-V" {
        return version();
    }
    let Some(command) = Command::of(first) else { return Ok(usage(&format!("{} is no command", first.to_string_lossy()))) };
    if rest.iter().take_while(|word| *word != "--").any(asks) {
        return help::one(command);
    }
    match Given::of(command, rest) {
        Ok(given) => (command.run)(&given),
        Err(why) => Ok(usage(&why)),
    }
}

/// The command's version, and the sum of the proved sources that its library was made from.
fn version() -> Result<u8, String> {
    print(format!("{NAME} {} (library of sources {})\n", env!("CARGO_PKG_VERSION"), env!("URZULEMPA_SOURCES")).as_bytes()).map(|()| DONE)
}
