//! What the command says of generated files that are refused with 8, 9 and 11: which packages, what filled the graph, which cycle.

use std::io::Write;
use std::process::{Command, Stdio};
use urzulempa::{check, decode, edge_list, explain_plain, node_list, EdgeKind, Refusal, Tables};

const COMMAND: &str = concat!(env!("CARGO_MANIFEST_DIR"), "/../target/release/urzulempa");

/// What the command says of a file on standard error, in lines.
fn said(words: &[&str], file: &[u8]) -> Vec<String> {
    let child = Command::new(COMMAND).args(words).stdin(Stdio::piped()).stdout(Stdio::null()).stderr(Stdio::piped()).spawn();
    let mut child = child.unwrap_or_else(|e| panic!("{COMMAND}: {e}: build host/urzulempa for release into host/target first"));
    let _ = child.stdin.take().expect("a pipe").write_all(file);
    let out = child.wait_with_output().expect("the command ends");
    assert_eq!(out.status.code(), Some(2));
    String::from_utf8_lossy(&out.stderr).lines().map(str::to_owned).collect()
}

/// Files of every shape, as many of each.
fn files(each: u64) -> impl Iterator<Item = (String, Vec<u8>)> {
    let shapes: Vec<&str> = oracle::generate::shapes().collect();
    shapes.into_iter().flat_map(move |shape| (0..each).map(move |seed| (format!("{shape} {seed}"), oracle::generate::file(shape, seed).expect("a shape"))))
}

/// A record, as docs/FORMAT.md lays it out.
fn record(kind: u8, first: u8, fields: [u16; 3]) -> Vec<u8> {
    let mut bytes = vec![kind, first];
    fields.iter().for_each(|field| bytes.extend(field.to_le_bytes()));
    bytes.resize(32, 0);
    bytes
}

/// The file with one more requirement of the root, which these solvables offer.
fn required(file: &[u8], solvables: &[u16]) -> Vec<u8> {
    let count = |kind: u8| file.chunks_exact(32).filter(|r| r[0] == kind).count() as u16;
    let (requirement, variable) = (count(4), count(7));
    let mut longer = file.to_vec();
    let mut named = record(4, 1, [requirement, 0, 0]);
    named[8] = b'x';
    longer.extend(named);
    solvables.iter().for_each(|solvable| longer.extend(record(5, 0, [requirement, *solvable, 0])));
    longer.extend(record(7, 0, [variable, 0, 0]));
    longer.extend(record(19, 1, [variable, requirement, 0]));
    longer
}

/// The packages that 9 names are those that are wanting: with a requirement of the root for all of them the refusal goes, and without
/// any of those that nothing else of them leads to it stays.
#[test]
fn refusal_9_names_what_is_not_reached() {
    let (mut named, mut unnamed) = (0, 0);
    for (whence, file) in files(60) {
        let Some(Refusal::Unreached(node)) = check(&file).refusal() else { continue };
        let lines = said(&["check", "-"], &file);
        assert!(lines[0].starts_with(&format!("refused 9 at node {node}: ")), "{whence}: {lines:?}");
        let Some(list) = lines[2..].iter().find_map(|line| line.strip_prefix("nothing leads from the root to ")) else {
            unnamed += 1;
            continue;
        };
        assert!(lines[1].starts_with(&format!("node {node} is ")), "{whence}: {lines:?}");
        let solvables: Vec<u16> = (0..decode::solvables(&file)).collect();
        // Texts may repeat: then which is meant can't be told from them.
        let shown: Vec<String> = solvables.iter().map(|s| decode::solvable(&file, *s).expect("a solvable")).collect();
        let wanting: Vec<u16> =
            list.split(", ").flat_map(|name| solvables.iter().copied().filter(|s| shown[usize::from(*s)] == name).collect::<Vec<_>>()).collect();
        assert!(!wanting.is_empty(), "{whence}: {list}");
        let after = check(&required(&file, &wanting)).refusal();
        assert!(!matches!(after, Some(Refusal::Unreached(_))), "{whence}: {list}: {after:?}");
        if list.split(", ").count() == wanting.len() {
            // With none of them the same node is named, whatever else is required: it is a new node at most.
            let others: Vec<u16> = solvables.iter().copied().filter(|s| !wanting.contains(s)).take(1).collect();
            let after = check(&required(&file, &others)).refusal();
            assert!(others.is_empty() || matches!(after, Some(Refusal::Unreached(_) | Refusal::GraphFull(_) | Refusal::TableFull(_))), "{whence}: {after:?}");
        }
        named += 1;
    }
    println!("9: {named} named, {unnamed} not");
    assert!(named > 100 && unnamed * 20 < named, "{named} were named, {unnamed} not");
}

/// What is told of a full graph adds up: no more nodes and edges than a graph has.
#[test]
fn refusal_8_counts_what_filled_the_graph() {
    let (mut counted, mut not) = (0, 0);
    for (whence, file) in files(60) {
        let Some(Refusal::GraphFull(clause)) = check(&file).refusal() else { continue };
        let lines = said(&["check", "-"], &file);
        assert!(lines[0].starts_with(&format!("refused 8 at clause {clause}, ")), "{whence}: {lines:?}");
        let Some(counts) = lines[1].strip_prefix("before it the graph has ") else {
            assert!(lines[1].ends_with(" clauses of the core stand before it"), "{whence}: {lines:?}");
            not += 1;
            continue;
        };
        let numbers: Vec<usize> = counts.split(' ').filter_map(|word| word.parse().ok()).collect();
        assert!(matches!(numbers[..], [nodes, edges] if nodes <= 128 && edges <= 1_024 && (nodes > 1 || edges > 0)), "{whence}: {counts}");
        counted += 1;
    }
    println!("8: {counted} counted, {not} not");
    assert!(counted > 20 && counted > not, "{counted} were counted, {not} not");
}

/// The cycle that 11 names is one of the graph: it goes through that package, by requirements alone, and through none that a merge group
/// or a conflict keeps from being opened again.
#[test]
fn refusal_11_names_a_cycle_of_the_graph() {
    let mut named = 0;
    let mut room = vec![0; 1 << 16];
    for (whence, file) in files(60) {
        let Some(Refusal::Endless(solvable)) = explain_plain(&file, &mut room).refusal() else { continue };
        let lines = said(&["explain", "-", "--room", "65536"], &file);
        let cycle = lines.iter().find_map(|line| line.strip_prefix("cycle: ")).unwrap_or_else(|| panic!("{whence}: {lines:?}"));
        let names: Vec<&str> = cycle.split(" → ").collect();
        let package = decode::solvable(&file, u16::try_from(solvable).expect("a number")).expect("a solvable");
        assert!(names.len() > 1 && names.first() == names.last() && names.contains(&package.as_str()), "{whence}: {cycle}");
        let (nodes, edges) = (node_list(&file).expect("accepted"), edge_list(&file).expect("accepted"));
        let shown = |n: u16| decode::solvable(&file, nodes[usize::from(n)].number).filter(|_| nodes[usize::from(n)].kind == 1).unwrap_or_default();
        let opened = |n: u16| {
            let alone = nodes.iter().filter(|node| node.group == nodes[usize::from(n)].group).count() == 1;
            alone && edges.iter().filter(|edge| edge.source == n).all(|edge| matches!(edge.kind, EdgeKind::Requires(_)))
        };
        for pair in names.windows(2) {
            let leads = |edge: &&urzulempa::Edge| shown(edge.source) == pair[0] && shown(edge.target) == pair[1] && opened(edge.source) && opened(edge.target);
            assert!(edges.iter().any(|edge| leads(&edge)), "{whence}: {cycle}: no way from {} to {}", pair[0], pair[1]);
        }
        named += 1;
    }
    println!("11: {named} named");
    assert!(named > 100, "{named} were named");
    // A file without one has none.
    assert!(Tables::new().write().is_ok_and(|file| explain_plain(&file, &mut room).is_done()));
}
