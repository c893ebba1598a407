//! The manual page, made from the table of commands.

use crate::say::{print, DONE};
use crate::table::{Command, ABOUT, COMMANDS, NAME, NOTES, STATUSES};
use crate::words::Given;

pub fn run(_: &Given) -> Result<u8, String> {
    print(page().as_bytes()).map(|()| DONE)
}

fn page() -> String {
    let mut out = format!(".TH URZULEMPA 1 \"\" \"{NAME} {}\" \"User Commands\"\n", env!("CARGO_PKG_VERSION"));
    out += &format!(".SH NAME\n{NAME} \\- {}\n.SH SYNOPSIS\n", plain(ABOUT));
    out += &format!(".B {NAME}\n.I COMMAND\n[\\fIWORD\\fR ...]\n.br\n.B {NAME}\n.B \\-\\-help\n|\n.B \\-\\-version\n.SH DESCRIPTION\n");
    for note in NOTES {
        out += &format!("{}\n.PP\n", plain(note));
    }
    out += ".SH COMMANDS\n";
    COMMANDS.iter().for_each(|command| out += &section(command));
    out += ".SH EXIT STATUS\n";
    for (status, what) in STATUSES {
        out += &format!(".TP\n.B {status}\n{}\n", plain(what));
    }
    out += ".SH ENVIRONMENT\n.TP\n.B NO_COLOR\nno colours, also on a terminal\n.TP\n.B CLICOLOR_FORCE\ncolours also where there is no terminal\n";
    out += ".SH EXAMPLES\n.nf\n";
    for example in COMMANDS.iter().flat_map(|command| command.examples) {
        out += &format!("{}\n", plain(&format!("{NAME} {example}")));
    }
    out + ".fi\n"
}

fn section(command: &Command) -> String {
    let mut out = format!(".SS {}\n.B {}\n.PP\n{}.\n", plain(command.name), plain(&format!("{NAME} {}", command.usage())), capital(&plain(command.brief)));
    for paragraph in command.more {
        out += &format!(".PP\n{}\n", plain(paragraph));
    }
    for option in command.options {
        out += &format!(".TP\n.B {}\n{}\n", plain(&option.shown()), plain(option.help));
    }
    out
}

fn capital(text: &str) -> String {
    let mut letters = text.chars();
    letters.next().map(|first| first.to_uppercase().chain(letters).collect()).unwrap_or_default()
}

/// A text as roff takes it: backslashes and hyphens escaped, no line that begins with a dot or a quote.
fn plain(text: &str) -> String {
    let text = text.replace('\\', "\\e").replace('-', "\\-").replace('\'', "\\(aq").replace('`', "\\(ga").replace('^', "\\(ha").replace('~', "\\(ti");
    if text.starts_with('.') {
        format!("\\&{text}")
    } else {
        text
    }
}
