//! The cases P1 to P11 of document 01 and P7's graph text, on the real code.

use crate::draft::{record, Draft};
use crate::reader::kind;
use crate::{check, explain, graphviz, samples, Answer, Problem};

/// One statement of document 01, what the oracle gives for it, and what it has to give.
pub struct Case {
    pub name: &'static str,
    pub states: &'static str,
    pub gives: String,
    pub wanted: String,
}

impl Case {
    pub fn holds(&self) -> bool {
        self.gives == self.wanted
    }
}

const P7_TEXT: &str = "\
replay * cannot be installed because there are no viable options:
└─ replay 2 | 1 would require
   └─ codec 9, for which no candidates were found.
";

const P7_GRAPH: &str = "digraph {\"<root>\" -> \"replay 2\"[color=black, label=\"replay *\"];\
\"replay 2\" -> \"unresolved\"[color=red, label=\"codec 9\"];}";

pub fn all() -> Vec<Case> {
    let mut cases = vec![
        Case {
            name: "P1",
            states: "no records: one node, explanation of 0 bytes, answer 0",
            gives: format!("{} nodes, {}", labels(&[]).len(), shown(told(&[], 4_096))),
            wanted: format!("1 nodes, {}", answer(0, 0, 0, 0, 0)),
        },
        Case {
            name: "P2",
            states: "33 bytes: 1",
            gives: shown(told(&[0; 33], 4_096)),
            wanted: answer(1, 0, 0, 0, 0),
        },
        Case {
            name: "P3",
            states: "Learnt in the core: 7; outside it: no refusal",
            gives: format!("{}; {}", shown(check(&learnt(1))), shown(check(&learnt(0)))),
            wanted: format!("{}; {}", answer(7, 0, 0, 0, 0), answer(0, 0, 0, 0, 0)),
        },
        Case {
            name: "P4",
            states: "node 128 accepted, 129: 8",
            gives: format!("{}; {}", shown(check(&wide(128))), shown(check(&wide(129)))),
            wanted: format!("{}; {}", answer(0, 0, 0, 0, 0), answer(8, 0, 0, 0, 0)),
        },
        Case {
            name: "P5",
            states: "solvable reached by no edge path: 9",
            gives: shown(check(&unreached())),
            wanted: answer(9, 1, 0, 0, 0),
        },
        Case {
            name: "P6",
            states: "option 2 with bad length: 12",
            gives: shown(explain(&[0; 33], 2, &mut [])),
            wanted: answer(12, 0, 0, 0, 0),
        },
    ];
    cases.extend(replay_cases());
    cases.extend(depth_cases());
    cases
}

fn replay_cases() -> Vec<Case> {
    let file = samples::replay();
    let mut room = [LENT; 154];
    let short = explain(&file, 0, &mut room);
    let cut = &P7_TEXT[..100];
    vec![
        Case {
            name: "P7",
            states: "all four nodes are missing, none installable",
            gives: labels(&file).join(", "),
            wanted: ["missing"; 4].join(", "),
        },
        Case {
            name: "P7",
            states: "option 0, 155 bytes",
            gives: format!("{}\n{}", shown(told(&file, 155)), text(&file, 155)),
            wanted: format!("{}\n{P7_TEXT}", answer(0, 0, 155, 3, 1)),
        },
        Case {
            name: "P8",
            states: "P7 with room 154: 10, place 2, 100 bytes",
            gives: format!(
                "{}\n{}",
                shown(short),
                String::from_utf8_lossy(&room[..100])
            ),
            wanted: format!("{}\n{cut}", answer(10, 2, 100, 2, 1)),
        },
        Case {
            name: "P8",
            states: "lent bytes past those written stay",
            gives: stay(&room[100..]),
            wanted: stay(&[LENT; 54]),
        },
        Case {
            name: "P7",
            states: "as simplified graph text, with no newline",
            gives: graph_text(&file),
            wanted: P7_GRAPH.to_string(),
        },
    ]
}

fn depth_cases() -> Vec<Case> {
    let [deck, pair, lone] = [
        samples::deck_and_panel(),
        samples::merged_pair(),
        samples::lone_package(),
    ];
    let brief = |file: &[u8]| {
        let a = told(file, 4_096);
        format!("{}, {} lines, depth {}", a.number, a.units, a.depth)
    };
    vec![
        Case {
            name: "P9",
            states: "11 after 5 lines, depth 2",
            gives: brief(&deck),
            wanted: "11, 5 lines, depth 2".to_string(),
        },
        Case {
            name: "P10",
            states: "ends after 7 lines, depth 3, the bound met",
            gives: format!("{}, bound {}", brief(&pair), bound(&pair)),
            wanted: "0, 7 lines, depth 3, bound 3".to_string(),
        },
        Case {
            name: "P11",
            states: "done, 2 lines, depth 0, bound 1",
            gives: format!("{}, bound {}", brief(&lone), bound(&lone)),
            wanted: "0, 2 lines, depth 0, bound 1".to_string(),
        },
    ]
}

/// What the lent room holds before a call.
const LENT: u8 = 0xee;

fn stay(bytes: &[u8]) -> String {
    let kept = bytes.iter().filter(|&&byte| byte == LENT).count();
    format!("{kept} of {} bytes", bytes.len())
}

fn answer(number: u64, place: u64, bytes: u64, units: u64, depth: u64) -> String {
    format!("number {number} place {place} bytes {bytes} units {units} depth {depth}")
}

pub fn shown(a: Answer) -> String {
    answer(a.number, a.place, a.bytes, a.units, a.depth)
}

fn told(file: &[u8], room: usize) -> Answer {
    explain(file, 0, &mut vec![0; room])
}

fn text(file: &[u8], room: usize) -> String {
    let mut room = vec![0; room];
    let a = explain(file, 0, &mut room);
    String::from_utf8_lossy(&room[..a.bytes as usize]).into_owned()
}

fn graph_text(file: &[u8]) -> String {
    let mut room = vec![0; 4_096];
    let a = graphviz(file, 1, &mut room);
    String::from_utf8_lossy(&room[..a.bytes as usize]).into_owned()
}

/// The labels of each node in words, or the refusal.
fn labels(file: &[u8]) -> Vec<String> {
    let word = |node: crate::Node| match (node.installable, node.missing) {
        (0, 0) => "neither",
        (1, 0) => "installable",
        (0, 1) => "missing",
        _ => "both",
    };
    let problem = Problem::read(file).expect("the reader takes the file");
    let model = problem.model().expect("the graph can be built");
    let words = model.nodes().into_iter().map(word);
    words.map(str::to_string).collect()
}

fn bound(file: &[u8]) -> u64 {
    let problem = Problem::read(file).expect("the reader takes the file");
    let model = problem.model().expect("the graph can be built");
    model.depth_bound()
}

fn learnt(core: u8) -> Vec<u8> {
    record(kind::LEARNT, core, [0, 0, 0], "").to_vec()
}

/// The root requires so many solvables that, with root and unresolved, `nodes` are added.
fn wide(nodes: usize) -> Vec<u8> {
    let mut d = Draft::new();
    let name = d.name("wide");
    let all: Vec<u16> = (2..nodes)
        .map(|i| d.solvable(name, &i.to_string()))
        .collect();
    d.root_needs("wide *", &all);
    d.file()
}

/// Forbidding multiple instances adds the node of its solvable, and no edge leads there.
fn unreached() -> Vec<u8> {
    let mut d = Draft::new();
    let name = d.name("lost");
    let lost = d.solvable(name, "1");
    d.forbid(lost, name);
    d.file()
}
