//! The adapter's files: the graph that conflict.rs draws of a file, written again by way of what resolvo makes public. What the port
//! says of that file has to be what conflict.rs says of the first.

use crate::{hand_made, report};
use oracle::generate;
use oracle::reader::{self, Tables};
use oracle::Problem;
use std::collections::{BTreeMap, HashMap};

/// Explanations and drawings are compared in rooms of these sizes: where one is full, all before it.
const LINES: usize = 1 << 16;
const DRAWING: usize = 1 << 18;

/// What was compared.
#[derive(Default)]
struct Tally {
    graphs: u64,
    answers: u64,
    nodes: u64,
    edges: u64,
    /// Graphs with a ForbidMultipleInstances that draws no edge, as the file has them.
    starts: u64,
    /// Endless texts, edition 1.
    endless: u64,
    first_bytes: u64,
    bytes: u64,
}

/// N accepted graphs; true if a difference was found. A graph that the adapter writes no file of is one.
pub fn adapts(n: u64, seed: u64) -> bool {
    let mut tally = Tally::default();
    let mut shapes: BTreeMap<&str, u64> = BTreeMap::new();
    for (name, file) in hand_made() {
        if differs(&mut tally, &name, &file).is_none() {
            return true;
        }
    }
    let by_hand = tally.graphs;
    let mut index = 0;
    while tally.graphs < by_hand + n {
        let (shape, shape_seed) = generate::pick(index, seed);
        index += 1;
        let Some(file) = generate::file(shape, shape_seed) else { continue };
        match differs(&mut tally, &format!("shape {shape} seed {shape_seed}"), &file) {
            Some(true) => *shapes.entry(shape).or_default() += 1,
            Some(false) => {}
            None => return true,
        }
    }
    let Tally { graphs, answers, nodes, edges, starts, endless, first_bytes, bytes } = tally;
    println!("compare: {graphs} graphs, {by_hand} of them of files made by hand, the others of {index} generated ones over {} shapes: the adapter wrote a file of each", shapes.len());
    println!("compare: {answers} answers of the port compared with conflict.rs's on the first file, {nodes} nodes and {edges} edges among them, 0 differences; {endless} of the explanations are endless in edition 1");
    println!("compare: {starts} graphs have a ForbidMultipleInstances without an edge; {first_bytes} bytes became {bytes}");
    false
}

/// Whether the file has a graph, and then none of the answers differs; none where one does, which is reported.
fn differs(tally: &mut Tally, whence: &str, file: &[u8]) -> Option<bool> {
    match again(tally, file) {
        Ok(accepted) => Some(accepted),
        Err(_) => {
            report(whence, file, &"the adapter's file", |f| again(&mut Tally::default(), f).err());
            None
        }
    }
}

fn again(tally: &mut Tally, file: &[u8]) -> Result<bool, String> {
    let Ok(adapted) = oracle::adapted(file) else { return Ok(false) };
    let made = adapted.map_err(|error| format!("the adapter: {error}"))?;
    let problem = Problem::read(file).map_err(|refusal| format!("{refusal:?}"))?;
    let model = problem.model().map_err(|refusal| format!("{refusal:?}"))?;
    let same = Same::new(file, &made)?;
    tally.nodes += same.nodes(&model.nodes())?;
    tally.edges += same.edges(&model.edges())?;
    same.in_order()?;
    tally.answers += 3 + texts(tally, file, &made, &same)?;
    tally.graphs += 1;
    tally.starts += u64::from(made.chunks(32).filter(|record| record[0] == 21).count() > model.edges().iter().filter(|edge| edge.kind == 3).count());
    tally.first_bytes += file.len() as u64;
    tally.bytes += made.len() as u64;
    Ok(true)
}

/// Every text: numbers, bytes, units and depth, and all bytes of the room. How many there were.
fn texts(tally: &mut Tally, file: &[u8], made: &[u8], same: &Same<'_>) -> Result<u64, String> {
    type Theirs = fn(&[u8], u64, &mut [u8]) -> oracle::Answer;
    type Ours = fn(&[u8], u64, &mut [u8]) -> urzulempa::Answer;
    let calls: [(&str, u64, usize, Theirs, Ours); 8] = [
        ("explain", 0, LINES, oracle::explain, urzulempa::explain),
        ("explain", 1, LINES, oracle::explain, urzulempa::explain),
        ("edition 2", 0, LINES, |f, o, r| oracle::explain_edition(f, 2, o, r), |f, o, r| urzulempa::explain_edition(f, 2, o, r)),
        ("edition 2", 1, LINES, |f, o, r| oracle::explain_edition(f, 2, o, r), |f, o, r| urzulempa::explain_edition(f, 2, o, r)),
        ("air", 1, LINES, oracle::explain_air, urzulempa::explain_air),
        ("graphviz", 0, DRAWING, oracle::graphviz, urzulempa::graphviz),
        ("graphviz", 1, DRAWING, oracle::graphviz, urzulempa::graphviz),
        ("wall", 0, DRAWING, |f, _, r| oracle::tgf(f, r), |f, _, r| urzulempa::tgf(f, r)),
    ];
    for (name, option, room, theirs, ours) in calls {
        let (mut a, mut b) = (vec![0; room], vec![0; room]);
        let (x, y) = (theirs(file, option, &mut a), ours(made, option, &mut b));
        tally.endless += u64::from(x.number == 11);
        let place = match x.number {
            // a solvable, by its number in either file; a clause, of which there are others
            11 => same.solvable(x.place, y.place),
            15 => true,
            _ => x.place == y.place,
        };
        let alike = (x.number, x.bytes, x.units, x.depth) == (y.number, y.bytes, y.units, y.depth) && place && a == b;
        if !alike {
            let text = |room: &[u8], bytes: u64| String::from_utf8_lossy(&room[..bytes as usize]).into_owned();
            return Err(format!(
                "{name}, option {option}: conflict.rs {x:?}, the port on the adapter's file {y:?}\n{}\n{}",
                text(&a, x.bytes),
                text(&b, y.bytes)
            ));
        }
    }
    Ok(calls.len() as u64)
}

/// Both files' tables. What a number names is compared by its texts, and by which numbers stand where: one number of the first file
/// is always the same one of the other.
struct Same<'a> {
    first: Tables<'a>,
    made: Tables<'a>,
    file: &'a [u8],
}

/// Numbers of the first file by kind, each with its number in the other; and back.
#[derive(Default)]
struct Pairs {
    there: HashMap<(u16, u16), u16>,
    back: HashMap<(u16, u16), u16>,
}

impl Pairs {
    fn agree(&mut self, kind: u16, first: u16, made: u16) -> bool {
        *self.there.entry((kind, first)).or_insert(made) == made && *self.back.entry((kind, made)).or_insert(first) == first
    }
}

impl<'a> Same<'a> {
    fn new(first: &'a [u8], made: &'a [u8]) -> Result<Same<'a>, String> {
        let check = urzulempa::check(made);
        if check.number != 0 {
            return Err(format!("the adapter's file is refused: {check:?}"));
        }
        let first = reader::read(first).map_err(|refusal| format!("{refusal:?}"))?;
        let tables = reader::read(made).map_err(|refusal| format!("{refusal:?}"))?;
        Ok(Same { first, made: tables, file: made })
    }

    fn solvable_text(tables: &Tables<'a>, number: u16) -> [&'a str; 2] {
        let solvable = tables.solvables[usize::from(number)];
        [tables.names[usize::from(solvable.name)], solvable.text]
    }

    fn solvable(&self, first: u64, made: u64) -> bool {
        Self::solvable_text(&self.first, first as u16) == Self::solvable_text(&self.made, made as u16)
    }

    /// What a node stands for, as it is shown.
    fn node(tables: &Tables<'a>, kind: u16, number: u16) -> [&'a str; 2] {
        match kind {
            1 => Self::solvable_text(tables, number),
            3 => ["", tables.reasons[usize::from(number)]],
            _ => [""; 2],
        }
    }

    /// What an edge names, as it is shown.
    fn edge(tables: &Tables<'a>, kind: u16, named: u16) -> [&'a str; 2] {
        match kind {
            0 => ["", tables.requirements[usize::from(named)]],
            1 => Self::solvable_text(tables, named),
            2 => {
                let set = tables.version_sets[usize::from(named)];
                [tables.names[usize::from(set.name)], set.text]
            }
            _ => [""; 2],
        }
    }

    /// The same nodes under the same numbers, with their labels and groups. How many.
    fn nodes(&self, first: &[oracle::Node]) -> Result<u64, String> {
        let mut list = [urzulempa::Node::default(); urzulempa::MOST_NODES];
        let answer = urzulempa::nodes(self.file, &mut list);
        if answer.number != 0 {
            return Err(format!("nodes: {answer:?}"));
        }
        let made = &list[..first.len()];
        let mut pairs = Pairs::default();
        for (at, (x, y)) in first.iter().zip(made).enumerate() {
            let labels = (x.kind, x.group, x.installable, x.missing) == (y.kind, y.group, y.installable, y.missing);
            if !labels || !pairs.agree(x.kind, x.number, y.number) || Self::node(&self.first, x.kind, x.number) != Self::node(&self.made, y.kind, y.number) {
                return Err(format!("node {at}: conflict.rs {x:?}, the port on the adapter's file {y:?}"));
            }
        }
        if list.get(first.len()).is_some_and(|more| *more != urzulempa::Node::default()) {
            return Err(format!("more than {} nodes", first.len()));
        }
        Ok(first.len() as u64)
    }

    /// The same edges under the same numbers. How many.
    fn edges(&self, first: &[oracle::Edge]) -> Result<u64, String> {
        let mut list = vec![0; 5 * urzulempa::MOST_EDGES];
        let answer = urzulempa::edge_numbers(self.file, &mut list);
        if (answer.number, answer.bytes) != (0, 10 * first.len() as u64) {
            return Err(format!("edges: {answer:?}, and conflict.rs has {}", first.len()));
        }
        let mut pairs = Pairs::default();
        for (at, (x, y)) in first.iter().zip(list.chunks(5)).enumerate() {
            let ends = [x.source, x.target, x.kind] == y[..3];
            if !ends || !pairs.agree(x.kind, x.named, y[3]) || Self::edge(&self.first, x.kind, x.named) != Self::edge(&self.made, y[2], y[3]) {
                return Err(format!("edge {at}: conflict.rs {x:?}, the port on the adapter's file {y:?}"));
            }
        }
        Ok(first.len() as u64)
    }

    /// The file stands in the order that `urzulempa_write` gives, and has these kinds and no others.
    fn in_order(&self) -> Result<(), String> {
        match urzulempa::written(self.file) {
            Ok(written) if written == self.file => {}
            other => return Err(format!("the adapter's file is not in order: {other:?}")),
        }
        match self.file.chunks(32).find(|record| !matches!(record[0], 1..=7 | 17 | 19..=22)) {
            Some(record) => Err(format!("the adapter's file has kind {}", record[0])),
            None => Ok(()),
        }
    }
}
