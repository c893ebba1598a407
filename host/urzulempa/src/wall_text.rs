//! A text of the wall display, checked: how much is in it, or what is wrong with its first bad line.

use crate::json::Json;
use urzulempa::wall::{BadLine, Chart, MOST_LABEL};
use urzulempa::{MOST_EDGES, MOST_NODES};

/// How many nodes and edges were read.
pub fn told(chart: &Chart<'_>) -> String {
    let counted = |n: usize, what: &str| format!("{n} {what}{}", if n == 1 { "" } else { "s" });
    format!("{}, {}\n", counted(chart.nodes.len(), "node"), counted(chart.edges.len(), "edge"))
}

/// The same for a program, or the first bad line.
pub fn json(name: &str, text: &[u8], read: &Result<Chart<'_>, BadLine>) -> Json {
    let refusal = |bad: &BadLine| {
        let fields = [("number", 3u64.into()), ("at", "line".into()), ("place", bad.0.into()), ("message", fault(text, *bad).into())];
        Json::Object(fields.into())
    };
    Json::Object(vec![
        ("file", name.into()),
        ("done", read.is_ok().into()),
        ("nodes", read.as_ref().ok().map(|chart| chart.nodes.len()).into()),
        ("edges", read.as_ref().ok().map(|chart| chart.edges.len()).into()),
        ("refusal", read.as_ref().err().map(refusal).into()),
    ])
}

/// What is wrong with the first bad line of a text; those before it are as they should be.
pub fn fault(text: &[u8], BadLine(number): BadLine) -> String {
    let lines: Vec<&[u8]> = text.split(|byte| *byte == b'\n').collect();
    let before = usize::try_from(number).unwrap_or(0).saturating_sub(1).min(lines.len() - 1);
    let (line, cut) = (lines[before], before + 1 == lines.len());
    let sharp = lines[..before].iter().position(|line| *line == b"#");
    match sharp {
        None if cut && line.is_empty() && before == 0 => "the text is empty, and a node is wanted at least".into(),
        None if cut && line.is_empty() => "it is missing: the text ends before the line with #".into(),
        _ if cut => "it has no newline at its end, so the text was cut".into(),
        None => node_fault(line, before),
        Some(nodes) => edge_fault(line, nodes, before - nodes - 1),
    }
}

/// Of a line behind so many nodes.
fn node_fault(line: &[u8], nodes: usize) -> String {
    if line == b"#" {
        return "no node stands before the line with #".into();
    }
    if nodes == MOST_NODES {
        return format!("{MOST_NODES} nodes are the most, and # alone is wanted behind them");
    }
    let Some(space) = line.iter().position(|byte| *byte == b' ') else {
        return "it is neither # alone nor a number, a space and a label".into();
    };
    let (number, label) = (&line[..space], &line[space + 1..]);
    if number != nodes.to_string().as_bytes() {
        return format!("it begins with \"{}\", and {nodes}, the number of the next node, is wanted there", shown(number));
    }
    label_fault(label, space + 1)
}

/// Of a line behind so many edges, between so many nodes.
fn edge_fault(line: &[u8], nodes: usize, edges: usize) -> String {
    if edges == MOST_EDGES {
        return "1,024 edges are the most".into();
    }
    let mut words = line.splitn(3, |byte| *byte == b' ');
    let (Some(source), Some(target), Some(label)) = (words.next(), words.next(), words.next()) else {
        return "it is not the number of a node, a space, the number of another, a space and a label".into();
    };
    for (end, word) in [("source", source), ("target", target)] {
        if (0..nodes).any(|node| node.to_string().as_bytes() == word) {
            continue;
        }
        let digits = !word.is_empty() && word.iter().all(u8::is_ascii_digit);
        return match word {
            _ if !digits => format!("its {end} is \"{}\", which is no number", shown(word)),
            [b'0', _, ..] => format!("its {end} is \"{}\", and a number has no leading zeros", shown(word)),
            _ => format!("its {end} is {}, and the last node is {}", shown(word), nodes - 1),
        };
    }
    label_fault(label, line.len() - label.len())
}

/// Of a label that begins behind so many bytes of its line.
fn label_fault(label: &[u8], begin: usize) -> String {
    let bad = label.iter().position(|byte| !(32..=126).contains(byte));
    match bad {
        _ if label.is_empty() => "it has no label".into(),
        Some(at) => format!("byte {} of the line is {}, and a label's are 32 to 126", begin + at + 1, label[at]),
        None => format!("its label has {} bytes, and {MOST_LABEL} are the most", label.len()),
    }
}

/// The first bytes of a word, those that can't be printed as numbers.
fn shown(word: &[u8]) -> String {
    let dots = if word.len() > 24 { ".." } else { "" };
    format!("{}{dots}", word[..word.len().min(24)].escape_ascii())
}
