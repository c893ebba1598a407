//! A question of document 02, order 10, answered twice by conflict.rs: on the graph that was built, with the exclusion added behind
//! it, and on the file with one more Excluded clause at the end of its core. "The outcome must be what the graph rules give for the
//! file's core with one more Excluded clause [..]: the same nodes, edges and labels, compared by what a node stands for."

use std::collections::{BTreeMap, BTreeSet};

use crate::{Edge, Model, Node, Problem, Refusal};

/// The solvable that is asked about, and the reason: numbers of 64 bits, as a caller may hand them over.
#[derive(Clone, Copy, Debug, PartialEq, Eq)]
pub struct Question {
    pub solvable: u64,
    pub reason: u64,
}

/// How the two ways compare where neither refuses.
#[derive(Clone, Copy, Debug, Default, PartialEq, Eq)]
pub struct Agreed {
    /// The nodes have the same numbers: nothing is added, or unresolved stays.
    pub numbers: bool,
    /// The members of each group come in the same order, and so the texts are equal.
    pub members: bool,
    /// Some group has two members or more.
    pub groups: bool,
    /// So many nodes have another label than before the question.
    pub changed: usize,
}

/// A node by what it stands for: its kind and number.
type What = (u16, u16);

/// A node but for numbers of nodes: the members of its group, both labels, its clause.
#[derive(Debug, PartialEq, Eq)]
pub struct Standing {
    members: BTreeSet<What>,
    labels: (u8, u8),
    clause: u16,
}

fn what(node: &Node) -> What {
    (node.kind, node.number)
}

/// The nodes by what they stand for; no two stand for the same.
pub fn standing(nodes: &[Node]) -> BTreeMap<What, Standing> {
    let of = |node: &Node| {
        let group = nodes.iter().filter(|other| other.group == node.group);
        let standing = Standing {
            members: group.map(what).collect(),
            labels: (node.installable, node.missing),
            clause: node.clause,
        };
        (what(node), standing)
    };
    nodes.iter().map(of).collect()
}

/// The edges, oldest first, by what their ends stand for.
fn between(nodes: &[Node], edges: &[Edge]) -> Vec<(What, What, [u16; 3])> {
    let end = |node: u16| what(&nodes[usize::from(node)]);
    let of = |e: &Edge| (end(e.source), end(e.target), [e.kind, e.named, e.clause]);
    edges.iter().map(of).collect()
}

/// The members of each group of two or more, in node order.
fn groups(nodes: &[Node]) -> BTreeMap<What, Vec<What>> {
    let mut groups: BTreeMap<u16, Vec<What>> = BTreeMap::new();
    for node in nodes {
        groups.entry(node.group).or_default().push(what(node));
    }
    let several = groups.into_values().filter(|group| group.len() > 1);
    let least = |group: &Vec<What>| *group.iter().min().expect("it has members");
    several.map(|group| (least(&group), group)).collect()
}

/// The room and the lines of a text that is compared.
const ROOM: usize = 24 << 10;
const LINES: u64 = 400;

/// The graph as it is before the question.
struct Before {
    nodes: Vec<Node>,
    edges: Vec<Edge>,
    cycle: Option<usize>,
    clauses: usize,
}

/// Both ways on one question: the refusal that both give (17 is only asked of the graph that was built), how they agree, or what
/// differs.
pub fn agree(file: &[u8], question: Question) -> Result<Result<Agreed, Refusal>, String> {
    let problem = match Problem::read(file) {
        Ok(problem) => problem,
        Err(refusal) => return Ok(Err(refusal)),
    };
    let model = match problem.model() {
        Ok(model) => model,
        Err(refusal) => return Ok(Err(refusal)),
    };
    let Question { solvable, reason } = question;
    let (solvables, reasons, clauses) = problem.counts();
    let before = Before {
        nodes: model.nodes(),
        edges: model.edges(),
        cycle: model.lowest_on_cycle(),
        clauses,
    };
    let is_it = |node: &Node| node.kind == 1 && u64::from(node.number) == solvable;
    let has_node = before.nodes.iter().any(is_it);
    let known = solvable < solvables as u64 && reason < reasons as u64 && has_node;
    let asked = model.excluding(solvable, reason);
    if !known {
        return unknown(asked);
    }
    let longer = Problem::read(file).map(|p| p.longer(solvable as u16, reason as u16));
    let longer = longer.expect("it was read before");
    weigh(&before, question, asked, longer.model())
}

/// "4 for an unknown solvable or reason, or a solvable without a node, place 0".
fn unknown(asked: Result<Model<'_, '_>, Refusal>) -> Result<Result<Agreed, Refusal>, String> {
    let due = Refusal {
        number: 4,
        place: 0,
    };
    match asked {
        Err(refusal) if refusal == due => Ok(Err(due)),
        Err(refusal) => Err(format!("{due:?} was due, and not {refusal:?}")),
        Ok(_) => Err(format!("{due:?} was due")),
    }
}

/// What came of both ways: 8 of both, with the number of clauses for its place; 17 where there is a cycle; or two graphs.
fn weigh(
    before: &Before,
    question: Question,
    asked: Result<Model<'_, '_>, Refusal>,
    rebuilt: Result<Model<'_, '_>, Refusal>,
) -> Result<Result<Agreed, Refusal>, String> {
    match (asked, rebuilt, before.cycle) {
        (Err(asked), Err(rebuilt), _) if asked == rebuilt && rebuilt.number == 8 => {
            if rebuilt.place != before.clauses as u64 {
                return Err(format!("8 with the place {}", rebuilt.place));
            }
            Ok(Err(asked))
        }
        (Err(asked), Ok(rebuilt), Some(node)) => {
            let due = Refusal {
                number: 17,
                place: node as u64,
            };
            if asked != due || rebuilt.lowest_on_cycle().is_none() {
                return Err(format!("{due:?} was due, and not {asked:?}"));
            }
            Ok(Err(due))
        }
        (Ok(asked), Ok(rebuilt), None) => {
            behind(before, &asked, question)?;
            let mut agreed = alike(&asked, &rebuilt)?;
            agreed.changed = untouched(before, &asked, question)?;
            Ok(Ok(agreed))
        }
        (asked, rebuilt, _) => {
            let said = |r: Result<Model<'_, '_>, Refusal>| r.map(|m| m.nodes().len());
            let (asked, rebuilt) = (said(asked), said(rebuilt));
            Err(format!("asked {asked:?}, rebuilt {rebuilt:?}"))
        }
    }
}

/// The nodes and edges that were there keep their places; at most one node is added, the last, and one edge, the newest, both with
/// the number of clauses. "A reason that already has a node uses it; a second exclusion of the same package adds a second edge."
fn behind(before: &Before, asked: &Model<'_, '_>, question: Question) -> Result<(), String> {
    let (nodes, now) = (asked.nodes(), asked.edges());
    let reason = (3, question.reason as u16);
    let had = before.nodes.iter().any(|node| what(node) == reason);
    let stays = |(a, b): (&Node, &Node)| what(a) == what(b) && a.clause == b.clause;
    let kept = nodes.iter().zip(&before.nodes).all(stays);
    if !kept || nodes.len() != before.nodes.len() + usize::from(!had) {
        return Err("the nodes that were there don't keep their places".to_string());
    }
    let (Some(last), Some(newest)) = (nodes.last(), now.last()) else {
        return Err("no edge".to_string());
    };
    if !had && (what(last), usize::from(last.clause)) != (reason, before.clauses) {
        return Err(format!("the new node is {last:?}"));
    }
    let ends = [newest.source, newest.target].map(|node| what(&nodes[usize::from(node)]));
    let wanted = ([(1, question.solvable as u16), reason], 4, before.clauses);
    if (ends, newest.kind, usize::from(newest.clause)) != wanted {
        return Err(format!("the newest edge is {newest:?}"));
    }
    if now[..now.len() - 1] != before.edges {
        return Err("the edges that were there don't stay".to_string());
    }
    Ok(())
}

/// "the same nodes, edges and labels, compared by what a node stands for", the text but for the order of members; and all of it where
/// the nodes have the same numbers.
fn alike(asked: &Model<'_, '_>, rebuilt: &Model<'_, '_>) -> Result<Agreed, String> {
    let (ours, theirs) = (asked.nodes(), rebuilt.nodes());
    if standing(&ours) != standing(&theirs) || ours.len() != theirs.len() {
        return Err(format!("nodes, asked {ours:?}, rebuilt {theirs:?}"));
    }
    let (our_edges, their_edges) = (asked.edges(), rebuilt.edges());
    if between(&ours, &our_edges) != between(&theirs, &their_edges) {
        return Err(format!(
            "edges, asked {our_edges:?}, rebuilt {their_edges:?}"
        ));
    }
    let numbers = ours.iter().map(what).eq(theirs.iter().map(what));
    if numbers && (ours != theirs || our_edges != their_edges) {
        return Err("equal numbers, and another list".to_string());
    }
    let text = |model: &Model<'_, '_>, by_number: bool| {
        let mut room = vec![0; ROOM];
        let answer = match by_number {
            true => model.by_number(&mut room, LINES),
            false => model.explain(false, &mut room),
        };
        room.truncate(answer.bytes as usize);
        (answer, String::from_utf8_lossy(&room).into_owned())
    };
    let members = groups(&ours) == groups(&theirs);
    for by_number in [true, false] {
        let (a, b) = (text(asked, by_number), text(rebuilt, by_number));
        if a != b && (by_number || members) {
            return Err(format!("texts, asked {a:?}, rebuilt {b:?}"));
        }
    }
    Ok(Agreed {
        numbers,
        members,
        groups: !groups(&ours).is_empty(),
        changed: 0,
    })
}

/// "the labels of every package from which the chosen one can't be reached are not rewritten": they are as they were. How many others
/// changed.
fn untouched(before: &Before, asked: &Model<'_, '_>, question: Question) -> Result<usize, String> {
    let chosen = (1, question.solvable as u16);
    let at = before.nodes.iter().position(|node| what(node) == chosen);
    let mut leads: BTreeSet<usize> = at.into_iter().collect();
    loop {
        let into = |edge: &&Edge| leads.contains(&usize::from(edge.target));
        let sources = before.edges.iter().filter(into);
        let next: BTreeSet<usize> = sources.map(|e| usize::from(e.source)).collect();
        if next.is_subset(&leads) {
            break;
        }
        leads.extend(next);
    }
    let labels = |node: &Node| (node.installable, node.missing);
    let now = asked.nodes();
    let differ = |at: &usize| labels(&before.nodes[*at]) != labels(&now[*at]);
    let changed: Vec<usize> = (0..before.nodes.len()).filter(differ).collect();
    match changed.iter().find(|at| !leads.contains(at)) {
        Some(at) => Err(format!(
            "the label of node {at} changed, and it does not lead there"
        )),
        None => Ok(changed.len()),
    }
}
