//! The wall display's text and its reader on both sides: rooms and lists that suffice and that do not, and texts of every kind.

use crate::calls::{every_kind, filled};
use crate::{hand_made, report, Tally};
use oracle::generate;
use oracle::rng::Rng;
use oracle::wall::{self, Chart, Counts, Line, EDGES, LABEL, NODES};
use oracle::Refusal;

/// The text of a file into a room, and the bytes that stand there before.
#[derive(Clone, Copy, Debug)]
struct Export {
    room: usize,
    fill: u64,
}

impl Export {
    /// The answer's number, or what differs, where the model draws this.
    fn run(&self, file: &[u8], drawn: &Result<Chart, Refusal>) -> Result<u64, String> {
        let mut theirs = filled(self.room, self.fill);
        let mut ours = theirs.clone();
        let model = drawn.as_ref().map_or_else(|refusal| (*refusal).into(), |chart| chart.put(&mut theirs));
        let port = urzulempa::tgf(file, &mut ours);
        let a = (model.number, model.place, model.bytes, model.units, model.depth);
        let b = (port.number, port.place, port.bytes, port.units, port.depth);
        if a == b && theirs == ours {
            return Ok(a.0);
        }
        let at = theirs.iter().zip(&ours).position(|(x, y)| x != y);
        let text = |room: &[u8], n: u64| room[..room.len().min(usize::try_from(n).unwrap_or(0))].escape_ascii().to_string();
        let texts = format!("model: {}\nport: {}", text(&theirs, model.bytes), text(&ours, port.bytes));
        Err(format!("number, place, bytes, units, depth: model {a:?}, port {b:?}; first byte that differs: {at:?}\n{texts}"))
    }
}

/// A text read into both lists, which have so many numbers, and what stands there before.
#[derive(Clone, Copy, Debug)]
struct Import {
    nodes: usize,
    edges: usize,
    fill: u64,
}

impl Import {
    /// The answer's number, or what differs.
    fn run(&self, text: &[u8]) -> Result<u64, String> {
        let list = |len: usize, fill: u64| -> Vec<u32> { filled(4 * len, fill).chunks(4).map(|b| u32::from_le_bytes([b[0], b[1], b[2], b[3]])).collect() };
        let (mut their_nodes, mut their_edges) = (list(self.nodes, self.fill), list(self.edges, !self.fill));
        let (mut our_nodes, mut our_edges) = (their_nodes.clone(), their_edges.clone());
        let a = oracle::tgf_read(text, &mut their_nodes, &mut their_edges);
        let ours = urzulempa::tgf_read(text, &mut our_nodes, &mut our_edges);
        let b = Counts { number: ours.number, place: ours.place, nodes: ours.nodes, edges: ours.edges };
        if a == b && their_nodes == our_nodes && their_edges == our_edges {
            return Ok(a.number);
        }
        let node = their_nodes.iter().zip(&our_nodes).position(|(x, y)| x != y);
        let edge = their_edges.iter().zip(&our_edges).position(|(x, y)| x != y);
        Err(format!("model {a:?}, port {b:?}; first number that differs: of the nodes {node:?}, of the edges {edge:?}"))
    }
}

/// Each list as long as is needed, one short and longer, with the other one so as well; both of no length and of any. Of a text that is
/// refused, lists that are never short, and some.
fn imports(text: &[u8], rng: &mut Rng) -> Vec<Import> {
    let lists = match wall::read(text) {
        Ok(found) => {
            let (nodes, edges) = (2 * found.nodes.len(), 4 * found.edges.len());
            let (fewer, less) = (nodes - 1, edges.saturating_sub(1));
            let (more, several) = (nodes + rng.between(1, 9), edges + rng.between(1, 9));
            let any = (rng.below(nodes + 3), rng.below(edges + 3));
            vec![(nodes, edges), (fewer, edges), (nodes, less), (fewer, less), (more, several), (more, less), (fewer, several), (0, 0), any]
        }
        Err(_) => vec![(2 * NODES, 4 * EDGES), (rng.below(9), rng.below(9))],
    };
    lists.into_iter().map(|(nodes, edges)| Import { nodes, edges, fill: rng.next() }).collect()
}

/// "It accepts exactly what these line rules write": what the port reads is written as this very text, by the model's writer.
fn states(text: &[u8]) -> Result<Option<Chart>, String> {
    let Ok(chart) = urzulempa::wall::read(text) else { return Ok(None) };
    let line = |line: &urzulempa::wall::Line<'_>| Line { source: line.source, target: line.target, label: line.label.into() };
    let read = Chart { nodes: chart.nodes.iter().map(|&label| label.into()).collect(), edges: chart.edges.iter().map(line).collect() };
    if !read.is_good() {
        return Err("the port reads what no text may hold".into());
    }
    if read.text() != text {
        return Err("what the port reads is not written as this text".into());
    }
    Ok(Some(read))
}

/// How much is tried of a file: rooms around the ends of so many lines, so many of the lists for its text, and so many damaged texts.
#[derive(Clone, Copy)]
pub struct Effort {
    lines: usize,
    lists: usize,
    damaged: usize,
}

/// Beside the other calls.
pub const IN_SHORT: Effort = Effort { lines: 0, lists: 2, damaged: 1 };
const IN_FULL: Effort = Effort { lines: 3, lists: usize::MAX, damaged: 3 };

/// The text of a file in rooms of every kind, read back, and read when damaged; a difference is reported.
pub fn differs(tally: &mut Tally, whence: &str, file: &[u8], rng: &mut Rng, effort: Effort) -> bool {
    let drawn = wall::chart(file);
    for room in rooms(&drawn, rng, effort) {
        let export = Export { room, fill: rng.next() };
        match export.run(file, &drawn) {
            Ok(number) => tally.count(number),
            Err(_) => {
                report(whence, file, &export, |f| export.run(f, &wall::chart(f)).err());
                return true;
            }
        }
    }
    let Ok(chart) = drawn else { return false };
    let text = chart.text();
    chart_differs(tally, whence, &chart, rng, effort.lists)
        || (0..effort.damaged).any(|_| text_differs(tally, &format!("{whence}, damaged"), &damaged(&text, rng), rng, 2))
}

/// Rooms 0, exact, one short, one more and any; and around the ends of some lines. Where nothing is drawn, 0 and two others.
fn rooms(drawn: &Result<Chart, Refusal>, rng: &mut Rng, effort: Effort) -> Vec<usize> {
    let Ok(chart) = drawn else { return vec![0, rng.below(300), 4_000] };
    let text = chart.text();
    let mut ends: Vec<usize> = (1..=text.len()).filter(|&end| text[end - 1] == b'\n').collect();
    let exact = ends.pop().unwrap_or(0);
    let any = rng.below(exact + 40);
    if effort.lines == 0 {
        return vec![exact, exact - 1, any];
    }
    while ends.len() > effort.lines {
        ends.swap_remove(rng.below(ends.len()));
    }
    let around = ends.into_iter().flat_map(|end| [end - 1, end, end + 1]);
    [0, exact, exact - 1, exact + 1, any, 1 << 16].into_iter().chain(around).collect()
}

/// A text read into at most so many of the lists; a difference is reported.
fn text_differs(tally: &mut Tally, whence: &str, text: &[u8], rng: &mut Rng, most: usize) -> bool {
    let mut imports = imports(text, rng);
    while imports.len() > most {
        imports.swap_remove(rng.below(imports.len()));
    }
    for import in imports {
        match import.run(text) {
            Ok(number) => tally.count(number),
            Err(_) => {
                report_text(whence, text, &format!("{import:?}"), |t| import.run(t).err());
                return true;
            }
        }
    }
    tally.texts += 1;
    match states(text) {
        Ok(read) => tally.read += u64::from(read.is_some()),
        Err(_) => {
            report_text(whence, text, "what was read", |t| states(t).err());
            return true;
        }
    }
    false
}

/// The text of a graph: it is read exactly if the graph is good, and to that graph.
fn chart_differs(tally: &mut Tally, whence: &str, chart: &Chart, rng: &mut Rng, most: usize) -> bool {
    let text = chart.text();
    if text_differs(tally, whence, &text, rng, most) {
        return true;
    }
    let read = states(&text).ok().flatten();
    let same = if chart.is_good() { read.as_ref() == Some(chart) } else { read.is_none() };
    if !same {
        println!("compare: 1 difference: {whence}: the text of this graph is read as another, or a bad one is read\n{chart:?}\n{read:?}");
    }
    !same
}

/// Prints the smallest text found that shows a difference, and what it is.
fn report_text(whence: &str, text: &[u8], tried: &str, differs: impl Fn(&[u8]) -> Option<String>) {
    let mut best = text.to_vec();
    let mut stretch = best.len();
    while stretch > 0 {
        let mut at = 0;
        while at < best.len() {
            let without = [&best[..at], &best[best.len().min(at + stretch)..]].concat();
            if differs(&without).is_some() {
                best = without
            } else {
                at += stretch
            }
        }
        stretch /= 2;
    }
    println!("compare: 1 difference: {whence}, {tried}");
    println!("the smallest text found has {} bytes: {}", best.len(), best.escape_ascii());
    println!("{}", differs(&best).unwrap_or_default());
}

/// Bytes that a number, a label or a line's end may turn on.
const TELLING: &[u8] = b"\n\n  ##00123456789x~\r\t\0\x1f\x7f\x80\xff";

/// A text with one to three changes: bytes, lines, numbers, its end.
fn damaged(text: &[u8], rng: &mut Rng) -> Vec<u8> {
    let mut text = text.to_vec();
    for _ in 0..rng.between(1, 3) {
        if text.is_empty() {
            break;
        }
        let at = rng.below(text.len());
        let byte = *rng.pick(TELLING);
        let mut lines: Vec<Vec<u8>> = text.split_inclusive(|b| *b == b'\n').map(<[u8]>::to_vec).collect();
        let (one, two) = (rng.below(lines.len()), rng.below(lines.len()));
        match rng.below(12) {
            0 | 1 => text[at] = byte,
            2 | 3 => text.insert(at, byte),
            4 => drop(text.remove(at)),
            5 => text.truncate(at),
            6 => drop(text.pop()),
            7 => text.push(byte),
            change => {
                match change {
                    8 => lines.swap(one, two),
                    9 => drop(lines.remove(one)),
                    10 => lines.insert(one, lines[two].clone()),
                    _ => lines[one].insert(0, b'0'),
                }
                text = lines.concat();
            }
        }
    }
    text
}

/// A graph that comes from no file: labels of any length and any bytes that a line can hold, numbers around the limits.
fn any_chart(rng: &mut Rng) -> Chart {
    let nodes = match rng.below(40) {
        0 => rng.between(126, 130),
        1 => 0,
        2 => rng.between(9, 12),
        3 => rng.between(98, 102),
        _ => rng.between(1, 8),
    };
    let edges = if rng.below(40) == 0 { rng.between(1_022, 1_026) } else { rng.below(14) };
    // one graph in eight may have bad labels, one in eight edges to a node that is not there
    let (bad_labels, bad_ends) = (rng.below(8) == 0, rng.below(8) == 0);
    let text = |rng: &mut Rng| -> String {
        let length = match rng.below(12) {
            0 => LABEL,
            1 if bad_labels => [0, LABEL + 1, LABEL + 40][rng.below(3)],
            _ => rng.between(1, LABEL),
        };
        let byte = |rng: &mut Rng| match rng.below(60) {
            0 if bad_labels => *rng.pick(b"\x1f\x7f\r\t\0"),
            1..=9 => *rng.pick(b" #0123456789"),
            _ => rng.between(32, 126) as u8,
        };
        (0..length).map(|_| char::from(byte(rng))).collect()
    };
    let labels = (0..nodes).map(|_| text(rng)).collect();
    let end = |rng: &mut Rng| if bad_ends && rng.below(6) == 0 { nodes + rng.below(3) } else { rng.below(nodes.max(1)) };
    let edges = (0..edges).map(|_| Line { source: end(rng), target: end(rng), label: text(rng) }).collect();
    Chart { nodes: labels, edges }
}

/// Texts that are made in full: a small one with each byte set to each value, left out, doubled and with each value put before it, cut
/// at each byte, its neighbours swapped; the text of a file with every kind of record, each byte set to some values.
fn exhaustive() -> Vec<(String, Vec<u8>)> {
    let line = |source, target, label: &str| Line { source, target, label: label.into() };
    let nodes = ["<root>", "unresolved", " #", "0 1 2", "reason: ~", "a", "b", "c", "d", "e", "f 10"].map(String::from).to_vec();
    let small = Chart { nodes, edges: vec![line(0, 10, "x *"), line(10, 1, " "), line(2, 2, "#")] }.text();
    let mut texts: Vec<(String, Vec<u8>)> = (0..=small.len()).map(|at| (format!("cut at {at}"), small[..at].to_vec())).collect();
    for at in 0..small.len() {
        let (before, behind) = small.split_at(at);
        texts.push((format!("without byte {at}"), [before, &behind[1..]].concat()));
        for value in 0..=255 {
            texts.push((format!("byte {at} set to {value}"), [before, &[value], &behind[1..]].concat()));
            texts.push((format!("{value} before byte {at}"), [before, &[value], behind].concat()));
        }
        if at > 0 {
            let mut swapped = small.clone();
            swapped.swap(at - 1, at);
            texts.push((format!("byte {at} swapped with the one before"), swapped));
        }
    }
    let whole = wall::chart(&every_kind()).map(|chart| chart.text()).unwrap_or_default();
    for at in 0..whole.len() {
        for &value in TELLING {
            texts.push((format!("of every kind, byte {at} set to {value}"), [&whole[..at], &[value], &whole[at + 1..]].concat()));
        }
    }
    texts
}

/// Graphs around each limit: nodes, edges, the lengths of labels and their bytes, at the first and the last of them.
fn around() -> Vec<(String, Chart)> {
    let of = |nodes: usize, edges: usize| Chart {
        nodes: (0..nodes).map(|n| format!("p {n}")).collect(),
        edges: (0..edges).map(|n| Line { source: n % nodes.max(1), target: (n * 7) % nodes.max(1), label: format!("r {n}") }).collect(),
    };
    let mut charts = Vec::new();
    for nodes in [0, 1, 2, 9, 10, 11, 99, 100, 101, 127, 128, 129, 130, 200] {
        for edges in [0, 1, 2, 1_023, 1_024, 1_025, 1_100] {
            charts.push((format!("{nodes} nodes, {edges} edges"), of(nodes, edges)));
        }
    }
    for length in [0, 1, 2, LABEL - 1, LABEL, LABEL + 1, 255, 256, 300] {
        for at in [0, 64, 127] {
            let mut chart = of(128, 1_024);
            chart.nodes[at] = "n".repeat(length);
            charts.push((format!("a label of {length} bytes at node {at}"), chart));
            let mut chart = of(128, 1_024);
            chart.edges[8 * at].label = " ".repeat(length);
            charts.push((format!("a label of {length} spaces at edge {}", 8 * at), chart));
        }
    }
    for byte in (0..128u8).filter(|byte| *byte != b'\n') {
        for label in [char::from(byte).to_string(), format!("a{}", char::from(byte)), format!("{}a", char::from(byte))] {
            let mut chart = of(3, 3);
            chart.nodes[1] = label.clone();
            charts.push((format!("byte {byte} in the label of a node"), chart));
            let mut chart = of(3, 3);
            chart.edges[1].label = label;
            charts.push((format!("byte {byte} in the label of an edge"), chart));
        }
    }
    for (source, target) in [(3, 0), (0, 3), (10, 0), (0, 30), (256, 0), (0, 65_536), (1 << 32, 0), (0, (1 << 32) + 1)] {
        let mut chart = of(3, 3);
        chart.edges[2] = Line { source, target, label: "x".into() };
        charts.push((format!("an edge from {source} to {target} of 3 nodes"), chart));
    }
    charts
}

/// The wall display alone; true if a difference was found.
pub fn walls(n: u64, seed: u64) -> bool {
    let mut tally = Tally::default();
    let mut rng = Rng::new(seed);
    for (whence, chart) in around() {
        if chart_differs(&mut tally, &whence, &chart, &mut rng, usize::MAX) {
            return true;
        }
    }
    for (whence, text) in exhaustive() {
        if text_differs(&mut tally, &whence, &text, &mut rng, 2) {
            return true;
        }
    }
    for (name, file) in hand_made() {
        if differs(&mut tally, &name, &file, &mut rng, IN_FULL) {
            return true;
        }
    }
    for index in 0..n {
        let (shape, shape_seed) = generate::pick(index, seed);
        let Some(file) = generate::file(shape, shape_seed) else { continue };
        let mut rng = Rng::new(shape_seed ^ index.rotate_left(16));
        let chart = any_chart(&mut rng);
        let whence = format!("graph {index} of seed {seed}");
        if differs(&mut tally, &format!("shape {shape} seed {shape_seed}"), &file, &mut rng, IN_FULL)
            || chart_differs(&mut tally, &whence, &chart, &mut rng, 3)
            || text_differs(&mut tally, &format!("{whence}, damaged"), &damaged(&chart.text(), &mut rng), &mut rng, 2)
        {
            return true;
        }
    }
    let Tally { answers, texts, read, .. } = tally;
    println!(
        "compare: {n} generated files and {} made by hand, {texts} texts, {read} of them read, {answers} answers compared, 0 differences; answers by number: {}",
        hand_made().len(),
        tally.seen()
    );
    false
}
