//! The words of a call, read by its row in the table of commands.

use crate::table::{Command, Opt, Times, What};
use std::ffi::{OsStr, OsString};
use std::os::unix::ffi::{OsStrExt, OsStringExt};

/// What the words behind a command ask for.
pub struct Given {
    pub command: &'static Command,
    args: Vec<OsString>,
    /// In the order in which they stand, each with its value.
    options: Vec<(&'static str, OsString)>,
}

impl Given {
    /// Reads the words behind a command, or says what is wrong with them.
    ///
    /// An option may stand anywhere, with its value in the next word or behind `=`. `--` ends the options. Where a text is wanted, a word
    /// that begins with a hyphen and is no option of this command is that text.
    pub fn of(command: &'static Command, words: &[OsString]) -> Result<Self, String> {
        let mut given = Given { command, args: Vec::new(), options: Vec::new() };
        let mut rest = words.iter();
        while let Some(word) = rest.next() {
            if word == "--" {
                given.args.extend(rest.by_ref().cloned());
            } else if word == "-" || !word.as_bytes().starts_with(b"-") {
                given.args.push(word.clone());
            } else if let Some((option, value)) = found(command, word) {
                given.take(option, value, &mut rest)?;
            } else if given.wants_text() {
                given.args.push(word.clone());
            } else {
                return Err(format!("{} is no option of {}", word.to_string_lossy(), command.name));
            }
        }
        given.counted()?;
        Ok(given)
    }

    fn take<'w>(&mut self, option: &'static Opt, value: Option<OsString>, rest: &mut impl Iterator<Item = &'w OsString>) -> Result<(), String> {
        let value = match (&option.value, value) {
            (None, None) => OsString::new(),
            (None, Some(_)) => return Err(format!("{} takes no value", option.name)),
            (Some(wanted), value) => {
                let value = value.or_else(|| rest.next().cloned()).filter(|value| (wanted.fits)(value));
                let again = option.once && self.has(option.name);
                value.filter(|_| !again).ok_or_else(|| format!("{} wants {}", option.name, wanted.wants))?
            }
        };
        self.options.push((option.name, value));
        Ok(())
    }

    /// Whether the next word stands where the command wants a text.
    fn wants_text(&self) -> bool {
        let at = self.args.len().min(self.command.args.len().saturating_sub(1));
        !self.args.is_empty() && self.command.args.get(at).is_some_and(|arg| matches!(arg.what, What::Text))
    }

    /// Whether there are as many words as the command wants.
    fn counted(&self) -> Result<(), String> {
        let Command { name, args, options, .. } = self.command;
        let least = args.iter().filter(|arg| matches!(arg.times, Times::Once | Times::Several)).count();
        let open = args.iter().any(|arg| matches!(arg.times, Times::Several | Times::Rest));
        let wanted: Vec<&str> = args.iter().filter(|arg| !matches!(arg.times, Times::Maybe | Times::Rest)).map(|arg| arg.name).collect();
        let wanted = listed(&wanted);
        if self.args.len() < least {
            return Err(format!("{name} wants {wanted}"));
        }
        if self.args.len() > args.len() && !open {
            let texts = args.iter().any(|arg| matches!(arg.what, What::Text));
            let more = if texts { ": put quotes around a text that has spaces" } else { ", and no more words" };
            return Err(if args.is_empty() { format!("{name} wants no more words") } else { format!("{name} wants {wanted}{more}") });
        }
        let lacking = options.iter().find(|option| option.required && !self.has(option.name));
        lacking.map_or(Ok(()), |option| Err(format!("{name} wants {}", option.shown())))?;
        match self.args.iter().filter(|word| *word == "-").count() {
            0 | 1 => Ok(()),
            _ if args.iter().any(|arg| matches!(arg.times, Times::Several)) => Err("standard input can be read once only".into()),
            _ => Ok(()),
        }
    }

    /// A word by its place among those that are no options.
    pub fn name(&self, at: usize) -> Option<&OsStr> {
        self.args.get(at).map(OsString::as_os_str)
    }

    /// All words from a place on that are no options.
    pub fn names(&self, from: usize) -> &[OsString] {
        self.args.get(from..).unwrap_or_default()
    }

    /// A word as a text; what is no UTF-8 in it is in no file either.
    pub fn text(&self, at: usize) -> Option<String> {
        self.name(at).map(|word| word.to_string_lossy().into_owned())
    }

    pub fn has(&self, option: &str) -> bool {
        self.options.iter().any(|(name, _)| *name == option)
    }

    /// The value of an option; the last one counts.
    pub fn value(&self, option: &str) -> Option<&OsStr> {
        self.options.iter().rev().find(|(name, _)| *name == option).map(|(_, value)| value.as_os_str())
    }

    /// The number that is the value of an option.
    pub fn number<N: std::str::FromStr>(&self, option: &str) -> Option<N> {
        self.value(option)?.to_str()?.parse().ok()
    }

    /// Which of two options stands last.
    pub fn either(&self, on: &str, off: &str) -> Option<bool> {
        self.options.iter().rev().find(|(name, _)| *name == on || *name == off).map(|(name, _)| *name == on)
    }
}

/// The option that a word names, and the value behind its `=`.
fn found(command: &'static Command, word: &OsStr) -> Option<(&'static Opt, Option<OsString>)> {
    let bytes = word.as_bytes();
    let (name, value) = match bytes.iter().position(|byte| *byte == b'=') {
        Some(at) if bytes.starts_with(b"--") => (&bytes[..at], Some(OsString::from_vec(bytes[at + 1..].to_vec()))),
        _ => (bytes, None),
    };
    command.options.iter().find(|option| option.name.as_bytes() == name).map(|option| (option, value))
}

/// Words as a person lists them: a, b and c.
fn listed(words: &[&str]) -> String {
    match words {
        [] => String::new(),
        [one] => (*one).to_owned(),
        [before @ .., last] => format!("{} and {last}", before.join(", ")),
    }
}
