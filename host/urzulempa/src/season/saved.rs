//! A saved report: a line that says what it is, then the 27 numbers of a report, each on a line behind its name.

use crate::json::Json;
use std::fmt;
use urzulempa::{Report, REPORT_NUMBERS};

const TITLE: &str = "urzulempa season 1";

/// The most bytes of the line of a number: the longest name, a space and 20 digits.
const MOST_LINE: usize = "first-file".len() + 1 + 20;

/// The most bytes of a saved report.
pub const MOST_BYTES: usize = TITLE.len() + 1 + REPORT_NUMBERS * (MOST_LINE + 1);

/// The name of each number.
fn name(at: usize) -> String {
    match at {
        0 => "done".into(),
        1..=18 => format!("refused-{at}"),
        _ => ["nodes", "edges", "groups", "missing", "lines", "depth", "first-file", "named"][at - 19].into(),
    }
}

pub fn text(report: &Report) -> String {
    let numbers = report.numbers().into_iter().enumerate();
    let lines: String = numbers.map(|(at, number)| format!("{} {number}\n", name(at))).collect();
    format!("{TITLE}\n{lines}")
}

/// The first bad or missing line, from 1, and what is wrong with it.
#[derive(Debug, PartialEq, Eq)]
pub struct Fault {
    line: usize,
    why: String,
}

impl Fault {
    /// For a program, with what to do.
    pub fn json(&self, hint: &str) -> Json {
        Json::Object(vec![
            ("number", Json::Null),
            ("at", "line".into()),
            ("place", self.line.into()),
            ("record", Json::Null),
            ("byte", Json::Null),
            ("message", self.why.as_str().into()),
            ("more", vec![hint].into()),
        ])
    }
}

impl fmt::Display for Fault {
    fn fmt(&self, f: &mut fmt::Formatter<'_>) -> fmt::Result {
        write!(f, "refused at line {}: {}", self.line, self.why)
    }
}

/// The line of a number: the title stands before them.
fn line_of(at: usize) -> usize {
    at + 2
}

/// Takes exactly what [`text`] writes of a season's report. Of one that is longer than any can be a byte more is enough.
pub fn read(text: &[u8]) -> Result<Report, Fault> {
    let lines: Vec<&[u8]> = text.split(|&byte| byte == b'\n').collect();
    // What lies behind the last newline is no whole line.
    let whole = lines.len() - 1;
    let title = lines[0];
    if title != TITLE.as_bytes() && !(whole == 0 && TITLE.as_bytes().starts_with(title)) {
        let other = title.starts_with(b"urzulempa season ");
        let why = if other {
            "it is a report of another version than 1: a newer release wrote it, or it is damaged".into()
        } else {
            format!("it is not `{TITLE}`: this is no saved report")
        };
        return Err(Fault { line: 1, why });
    }
    if whole < line_of(REPORT_NUMBERS) - 1 {
        // What is there may be bad before it is cut.
        for at in 0..whole.saturating_sub(1) {
            number_of(lines[at + 1], at)?;
        }
        // Of a line that is longer than any can be there may be more than was read.
        if whole > 0 && lines[whole].len() > MOST_LINE {
            number_of(lines[whole], whole - 1)?;
        }
        let why = if lines[whole].is_empty() { "it is missing: the report was cut" } else { "it has no newline at its end: the report was cut" };
        return Err(Fault { line: whole + 1, why: why.into() });
    }
    let mut numbers = [0; REPORT_NUMBERS];
    for (at, number) in numbers.iter_mut().enumerate() {
        *number = number_of(lines[at + 1], at)?;
    }
    if lines[REPORT_NUMBERS + 1..] != [b""] {
        return Err(Fault { line: line_of(REPORT_NUMBERS), why: "something stands behind the last line of the report".into() });
    }
    sound(&numbers)
}

/// The number of a line that has its name before it.
fn number_of(line: &[u8], at: usize) -> Result<u64, Fault> {
    let (name, fault) = (name(at), |why: String| Fault { line: line_of(at), why });
    let shown = || line[..line.len().min(40)].escape_ascii().to_string();
    let Some(digits) = line.strip_prefix(name.as_bytes()).and_then(|rest| rest.strip_prefix(b" ")) else {
        return Err(fault(format!("it is \"{}\", and `{name}` with a number is wanted there", shown())));
    };
    let number = std::str::from_utf8(digits).ok().filter(|digits| digits.bytes().all(|byte| byte.is_ascii_digit()));
    match number.and_then(|digits| digits.parse::<u64>().ok().filter(|number| number.to_string() == digits)) {
        Some(number) => Ok(number),
        None => Err(fault(format!("\"{}\" ends in no number from 0 to {}, without leading zeros", shown(), u64::MAX))),
    }
}

/// Numbers that a season can have: else one of them was changed.
fn sound(numbers: &[u64; REPORT_NUMBERS]) -> Result<Report, Fault> {
    let fault = |at: usize, why: &str| Err(Fault { line: line_of(at), why: format!("{} is {}, {why}", name(at), numbers[at]) });
    let mut files = 0u64;
    for (at, &number) in numbers[..19].iter().enumerate() {
        match files.checked_add(number) {
            Some(sum) => files = sum,
            None => return fault(at, "and the files would pass 64 bits"),
        }
    }
    let [depth, first, named] = [numbers[24], numbers[25], numbers[26]];
    match named {
        0 if depth != 0 => fault(24, "though no file is named"),
        0 if first != 0 => fault(25, "though no file is named"),
        1 if first >= files => fault(25, &format!("and there are {files} files, numbered from 0")),
        0 | 1 => Ok((*numbers).into()),
        _ => fault(26, "and not 0 or 1"),
    }
}

#[cfg(test)]
mod tests {
    use super::*;
    use urzulempa::Deepest;

    fn report() -> Report {
        let mut refused = [0; 18];
        (refused[0], refused[10]) = (3, 1);
        Report { done: 12, refused, nodes: 50, edges: u64::MAX, groups: 7, missing: 0, lines: 99, deepest: Some(Deepest { depth: 4, file: 15 }) }
    }

    #[test]
    fn what_is_written_is_read() {
        for report in [Report::default(), report()] {
            assert_eq!(read(text(&report).as_bytes()), Ok(report));
        }
        assert_eq!(text(&report()).lines().count(), 28);
    }

    /// Every byte changed to some others, and every cut: refused with a line of the report, or another number that a season can have.
    #[test]
    fn whatever_is_damaged_is_refused_or_is_a_report() {
        let whole = text(&report());
        let lines = whole.lines().count();
        for cut in 0..whole.len() {
            let line = whole[..cut].matches('\n').count() + 1;
            assert_eq!(read(&whole.as_bytes()[..cut]).map_err(|fault| fault.line), Err(line), "cut at {cut}");
        }
        for at in 0..whole.len() {
            for byte in [0, b'\n', b' ', b'0', b'9', b'-', b'+', b'x', 0xff] {
                let mut damaged = whole.clone().into_bytes();
                damaged[at] = byte;
                match read(&damaged) {
                    Ok(report) => assert_eq!(text(&report).as_bytes(), damaged),
                    Err(fault) => assert!((1..=lines + 1).contains(&fault.line), "{fault}"),
                }
            }
        }
        assert_eq!(read((whole.clone() + "\n").as_bytes()).map_err(|fault| fault.line), Err(29));
        assert_eq!(read((whole.clone() + "x").as_bytes()).map_err(|fault| fault.line), Err(29));
        assert!(whole.len() <= MOST_BYTES);
        // What is too long is no cut.
        for at in 0..REPORT_NUMBERS {
            let digits = format!("{} {}", name(at), "1".repeat(MOST_BYTES));
            let long: String = whole.lines().enumerate().map(|(n, line)| if n == at + 1 { digits.clone() + "\n" } else { format!("{line}\n") }).collect();
            let fault = read(&long.as_bytes()[..MOST_BYTES + 1]).expect_err("too long");
            assert!(fault.line == at + 2 && fault.why.contains("ends in no number"), "{fault}");
        }
    }
}
