//! The words of a line: bare ones, texts in quotes, labels, commas.

use super::{FORBID, ORIGINS};

#[derive(Clone, Debug, PartialEq, Eq)]
pub enum Word {
    /// As it stands: a keyword, or a text that needs no quotes.
    Bare(String),
    /// A text that stood in quotes, and so is no keyword.
    Quoted(String),
    /// Behind its `@`.
    Label(String),
    Comma,
}

impl Word {
    /// The text that a word stands for.
    pub fn text(&self) -> Option<&str> {
        match self {
            Self::Bare(text) | Self::Quoted(text) => Some(text),
            Self::Label(_) | Self::Comma => None,
        }
    }
}

/// The words of a line, up to its comment. A label with a colon in front is taken off first.
pub fn words(line: &str) -> Result<Vec<Word>, String> {
    let mut words = Vec::new();
    let mut rest = line.trim_start();
    while !rest.is_empty() && !rest.starts_with('#') {
        let first = rest.chars().next();
        rest = match first {
            Some(',') => {
                words.push(Word::Comma);
                &rest[1..]
            }
            Some('"') => quoted(&rest[1..], &mut words)?,
            _ => bare(rest, &mut words)?,
        };
        rest = rest.trim_start();
    }
    Ok(words)
}

/// Takes a text in quotes, from behind the first of them; in it a backslash stands before a quote or a backslash.
fn quoted<'a>(text: &'a str, words: &mut Vec<Word>) -> Result<&'a str, String> {
    let mut said = String::new();
    let mut letters = text.char_indices();
    while let Some((at, letter)) = letters.next() {
        match letter {
            '"' => {
                words.push(Word::Quoted(said));
                let rest = &text[at + 1..];
                let apart = rest.chars().next().map_or(true, |c| c == ',' || c.is_whitespace());
                return if apart { Ok(rest) } else { Err("behind a text in quotes stands a space or a comma; in it, a quote is written \\\"".into()) };
            }
            '\\' => match letters.next() {
                Some((_, c @ ('"' | '\\'))) => said.push(c),
                _ => return Err("in a text in quotes a backslash stands before a quote or a backslash: write \\\" or \\\\".into()),
            },
            c => said.push(c),
        }
    }
    Err("a text in quotes has no end: write \" behind it".into())
}

/// Takes a word up to the next space, but for commas at its end.
fn bare<'a>(text: &'a str, words: &mut Vec<Word>) -> Result<&'a str, String> {
    let end = text.find(char::is_whitespace).unwrap_or(text.len());
    let said = text[..end].trim_end_matches(',');
    if said.contains('"') {
        return Err(format!("{said} has a quote in it: write the whole text in quotes, and \\\" for a quote in it"));
    }
    if let Some(label) = said.strip_prefix('@') {
        words.push(Word::Label(label_of(label)?));
    } else {
        words.push(Word::Bare(said.to_owned()));
    }
    Ok(&text[said.len()..])
}

/// The label before a line, without `@` and colon, and what is behind it.
pub fn labelled(line: &str) -> Result<(Option<String>, &str), String> {
    let line = line.trim();
    let end = line.find(char::is_whitespace).unwrap_or(line.len());
    match line[..end].strip_prefix('@') {
        None => Ok((None, line)),
        Some(word) => match word.strip_suffix(':') {
            Some(label) => Ok((Some(label_of(label)?), &line[end..])),
            None => Err(format!("@{word} begins the line: behind a line's label stands a colon, @{word}:")),
        },
    }
}

fn label_of(label: &str) -> Result<String, String> {
    let fits = !label.is_empty() && label.chars().all(|c| c.is_ascii_alphanumeric() || "-_.".contains(c));
    if fits {
        Ok(label.to_owned())
    } else {
        Err(format!("@{label} is no label: letters, digits, -, _ and . make one; a text that begins with @ stands in quotes"))
    }
}

/// A text as a line shows it: in quotes where a bare word would be read as something else.
pub fn shown(text: &str) -> String {
    let keyword = text == FORBID || ORIGINS.iter().any(|(_, word)| *word == text);
    let plain = !text.is_empty() && text.chars().all(|c| ('!'..='~').contains(&c) && c != '"');
    if plain && !keyword && !text.starts_with(['#', '@', ',']) && !text.ends_with(',') {
        return text.to_owned();
    }
    let mut said = String::from("\"");
    for c in text.chars() {
        if c == '"' || c == '\\' {
            said.push('\\');
        }
        said.push(c);
    }
    said + "\""
}
