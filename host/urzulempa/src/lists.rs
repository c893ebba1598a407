//! The nodes and edges of a file in words, each with the record of the clause that added it.

use crate::json::Json;
use urzulempa::{decode, Edge, EdgeKind, Node, NO_CLAUSE};

/// One line a node, behind a line that names the columns.
pub fn node_lines(file: &[u8], nodes: &[Node]) -> String {
    let mut out = String::from("node kind number group installable missing clause what\n");
    for (n, node) in nodes.iter().enumerate() {
        let kind = kind(node);
        let Node { number, group, installable, missing, clause, .. } = node;
        let what = what(file, node);
        let record = if *clause == NO_CLAUSE { None } else { decode::clause(file, u64::from(*clause)) };
        let record = record.map(|r| format!("  {r}")).unwrap_or_default();
        out += &format!("{n} {kind} {number} {group} {installable} {missing} {clause} {what}{record}\n");
    }
    out
}

fn kind(node: &Node) -> &'static str {
    ["root", "solvable", "unresolved", "excluded"].get(usize::from(node.kind)).copied().unwrap_or("?")
}

fn what(file: &[u8], node: &Node) -> String {
    if node.kind == 3 {
        decode::reason(file, node.number).unwrap_or_default()
    } else {
        shown(file, node)
    }
}

/// The nodes for a program.
pub fn node_json(file: &[u8], nodes: &[Node]) -> Json {
    let one = |(n, node): (usize, &Node)| {
        let clause = Some(node.clause).filter(|clause| *clause != NO_CLAUSE);
        let members = nodes.iter().filter(|other| other.group == node.group).count();
        Json::Object(vec![
            ("node", n.into()),
            ("kind", kind(node).into()),
            ("number", node.number.into()),
            ("what", what(file, node).into()),
            ("group", node.group.into()),
            ("members", members.into()),
            ("installable", (node.installable == 1).into()),
            ("missing", (node.missing == 1).into()),
            ("clause", clause.into()),
            ("record", clause.and_then(|clause| decode::clause_record(file, clause.into())).into()),
        ])
    };
    Json::List(nodes.iter().enumerate().map(one).collect())
}

/// The edges for a program; with a package, only those that touch it.
pub fn edge_json(file: &[u8], nodes: &[Node], edges: &[Edge], package: Option<&str>) -> Json {
    let one = |edge: &&Edge| {
        let end = |n: u16| nodes.get(usize::from(n)).map(|node| shown(file, node));
        let (kind, number) = match edge.kind {
            EdgeKind::Requires(n) => ("requires", Some(n)),
            EdgeKind::Locked(n) => ("locked", Some(n)),
            EdgeKind::Constrains(n) => ("constrains", Some(n)),
            EdgeKind::ForbidMultiple => ("forbid-multiple", None),
            EdgeKind::Excluded => ("excluded", None),
            EdgeKind::Unknown(_) => ("?", None),
        };
        let names = match edge.kind {
            EdgeKind::Requires(n) => decode::requirement(file, n),
            EdgeKind::Locked(n) => decode::solvable(file, n),
            EdgeKind::Constrains(n) => decode::version_set(file, n),
            _ => None,
        };
        Json::Object(vec![
            ("source", edge.source.into()),
            ("target", edge.target.into()),
            ("from", end(edge.source).into()),
            ("to", end(edge.target).into()),
            ("kind", kind.into()),
            ("number", number.into()),
            ("names", names.into()),
            ("clause", edge.clause.into()),
            ("record", decode::clause_record(file, edge.clause.into()).into()),
        ])
    };
    Json::List(edges.iter().filter(|edge| touches(file, nodes, edge, package)).map(|edge| one(&edge)).collect())
}

/// Whether an edge touches a package, if one is wanted: as an end, or as the locked one.
fn touches(file: &[u8], nodes: &[Node], edge: &Edge, package: Option<&str>) -> bool {
    let Some(wanted) = package else { return true };
    let end = |node: &Node| if node.kind == 1 { is_package(file, node.number, wanted) } else { shown(file, node) == wanted };
    let locked = if let EdgeKind::Locked(solvable) = edge.kind { Some(solvable) } else { None };
    [edge.source, edge.target].into_iter().filter_map(|n| nodes.get(usize::from(n))).any(end) || locked.is_some_and(|s| is_package(file, s, wanted))
}

/// One line for each merge group that a graph text draws once: what it is drawn as, and for how many.
pub fn groups(file: &[u8]) -> Vec<String> {
    let nodes = urzulempa::node_list(file).unwrap_or_default();
    let members = |n: usize| nodes.iter().filter(|node| usize::from(node.group) == n).count();
    let drawn = nodes.iter().enumerate().map(|(n, node)| (node, members(n))).filter(|(_, members)| *members > 1);
    drawn.map(|(node, members)| format!("{} is drawn for {members} packages that are alike", shown(file, node))).collect()
}

/// Names as a person lists them: all up to four, else the first three and how many more.
pub fn several(names: &[String]) -> String {
    match names {
        [] => String::new(),
        [one] => one.clone(),
        [before @ .., last] if names.len() <= 4 => format!("{} and {last}", before.join(", ")),
        _ => format!("{} and {} more", names[..3].join(", "), names.len() - 3),
    }
}

/// One line an edge: its ends, what it stands for, the clause that added it and that clause's record. With a package, only the
/// edges that touch it.
pub fn edge_lines(file: &[u8], nodes: &[Node], edges: &[Edge], package: Option<&str>) -> String {
    let mut out = String::new();
    for edge in edges {
        if !touches(file, nodes, edge, package) {
            continue;
        }
        let ends = [edge.source, edge.target].map(|n| nodes.get(usize::from(n)));
        let [source, target] = ends.map(|node| node.map(|n| shown(file, n)).unwrap_or_default());
        let record = decode::clause(file, u64::from(edge.clause)).unwrap_or_default();
        out += &format!("{source} -> {target}  {}  clause {}, {record}\n", stands_for(file, edge.kind), edge.clause);
    }
    out
}

/// Whether a solvable is meant by a text: its package's name, or name, space and version.
fn is_package(file: &[u8], solvable: u16, text: &str) -> bool {
    decode::package(file, solvable).is_some_and(|name| name == text) || decode::solvable(file, solvable).is_some_and(|shown| shown == text)
}

/// Whether a file has a package of that text at all.
pub fn has_package(file: &[u8], text: &str) -> bool {
    (0..decode::solvables(file)).any(|s| is_package(file, s, text))
}

/// A node as the graph text shows it.
pub fn shown(file: &[u8], node: &Node) -> String {
    match node.kind {
        0 => "<root>".into(),
        1 => decode::solvable(file, node.number).unwrap_or_default(),
        2 => "unresolved".into(),
        _ => format!("reason: {}", decode::reason(file, node.number).unwrap_or_default()),
    }
}

fn stands_for(file: &[u8], kind: EdgeKind) -> String {
    match kind {
        EdgeKind::Requires(r) => format!("requires \"{}\"", decode::requirement(file, r).unwrap_or_default()),
        EdgeKind::Locked(s) => format!("{} is locked", decode::solvable(file, s).unwrap_or_default()),
        EdgeKind::Constrains(v) => format!("constrains \"{}\"", decode::version_set(file, v).unwrap_or_default()),
        EdgeKind::ForbidMultiple => "only one of the two can be installed".into(),
        EdgeKind::Excluded => "is excluded".into(),
        EdgeKind::Unknown(n) => format!("kind {n}, which does not exist"),
    }
}
