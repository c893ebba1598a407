//! Standard output and standard error: what is printed to the byte, what is said in lines, and in which colours.

use std::cell::RefCell;
use std::env;
use std::io::{self, IsTerminal, Write};

/// The exit statuses, which the table tells.
pub const DONE: u8 = 0;
pub const TROUBLE: u8 = 1;
pub const REFUSED: u8 = 2;
pub const USAGE: u8 = 64;

thread_local! {
    /// The file that the lines are about, where a call has several.
    static ABOUT: RefCell<String> = const { RefCell::new(String::new()) };
}

/// Runs something whose lines are about one file of several: each begins with its name.
pub fn about<T>(name: &str, run: impl FnOnce() -> T) -> T {
    ABOUT.with(|about| about.replace(format!("{name}: ")));
    let ran = run();
    ABOUT.with(|about| about.take());
    ran
}

/// Prints bytes as they are. A reader that has gone is no trouble.
pub fn print(bytes: &[u8]) -> Result<(), String> {
    let mut out = io::stdout().lock();
    match out.write_all(bytes).and_then(|()| out.flush()) {
        Err(e) if e.kind() != io::ErrorKind::BrokenPipe => Err(format!("standard output: {e}")),
        _ => Ok(()),
    }
}

/// Says a line on standard error.
pub fn say(line: &str) {
    ABOUT.with(|about| {
        let _ = writeln!(io::stderr().lock(), "{}{}", about.borrow(), painted(line));
    });
}

/// Says what went wrong, which the exit status tells too.
pub fn trouble(why: &str) {
    say(&format!("urzulempa: {why}"));
}

/// Says what is wrong with the words that were given.
pub fn usage(why: &str) -> u8 {
    trouble(&format!("{why}; `urzulempa --help` shows the commands"));
    USAGE
}

/// The beginning of a line that says what it is: a refusal or trouble in red, the rest as it stands.
fn painted(line: &str) -> String {
    let head = if line.starts_with("refused ") {
        line.find([' ', ':']).and_then(|first| line[first + 1..].find([' ', ':']).map(|second| first + 1 + second))
    } else {
        line.starts_with("urzulempa:").then_some("urzulempa:".len())
    };
    match head {
        Some(end) if colours(io::stderr().is_terminal()) => format!("\x1b[1;31m{}\x1b[0m{}", &line[..end], &line[end..]),
        _ => line.to_owned(),
    }
}

/// A heading of what is printed, bold on a terminal.
pub fn heading(text: &str) -> String {
    if colours(io::stdout().is_terminal()) {
        format!("\x1b[1m{text}\x1b[0m")
    } else {
        text.to_owned()
    }
}

/// Whether a stream gets colours: NO_COLOR says no, CLICOLOR_FORCE yes; else a terminal does, unless it is dumb.
fn colours(terminal: bool) -> bool {
    let set = |name: &str| env::var_os(name).filter(|value| !value.is_empty());
    if set("NO_COLOR").is_some() {
        return false;
    }
    set("CLICOLOR_FORCE").is_some_and(|value| value != "0") || terminal && set("TERM").map_or(true, |term| term != "dumb")
}
