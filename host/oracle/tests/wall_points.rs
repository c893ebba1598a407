//! The wall display's text and its reader (document 02, order 14), each point on a smallest file or text. Each call goes to the port
//! too, which has to give the same answer and leave the same bytes and numbers.
#![cfg(has_conflict_rs)]

mod common;

use oracle::draft::Draft;
use oracle::generate::{self, limits};
use oracle::wall::{self, Chart, Counts, Line};
use oracle::{samples, Answer};

fn tgf(file: &[u8], room: &mut [u8]) -> Answer {
    let mut ours = room.to_vec();
    let port = urzulempa::tgf(file, &mut ours);
    let model = common::same(oracle::tgf(file, room), port);
    assert!(ours == room, "the port leaves other bytes");
    model
}

fn tgf_read(text: &[u8], nodes: &mut [u32], edges: &mut [u32]) -> Counts {
    let (mut our_nodes, mut our_edges) = (nodes.to_vec(), edges.to_vec());
    let port = urzulempa::tgf_read(text, &mut our_nodes, &mut our_edges);
    let port = Counts {
        number: port.number,
        place: port.place,
        nodes: port.nodes,
        edges: port.edges,
    };
    let model = oracle::tgf_read(text, nodes, edges);
    assert_eq!(port, model, "the port's answer and the model's");
    assert!(our_nodes == nodes && our_edges == edges, "other numbers");
    model
}

/// The text with room to spare.
fn exported(file: &[u8]) -> String {
    let mut room = vec![0xee; 1 << 16];
    let answer = tgf(file, &mut room);
    assert_eq!((answer.number, answer.place, answer.depth), (0, 0, 0));
    assert!(room
        .split_off(answer.bytes as usize)
        .iter()
        .all(|&byte| byte == 0xee));
    let text = String::from_utf8(room).expect("labels are plain ASCII");
    assert_eq!(
        answer.units,
        text.lines().count() as u64,
        "a unit is a line"
    );
    assert!(text.ends_with('\n'), "every line ends in a newline");
    text
}

/// The graph of a text, or the number of its first bad line, with nothing changed.
fn read(text: &[u8]) -> Result<Chart, u64> {
    let (mut nodes, mut edges) = (vec![7; 256], vec![7; 4_096]);
    let counts = tgf_read(text, &mut nodes, &mut edges);
    if counts.number != 0 {
        assert_eq!((counts.number, counts.nodes, counts.edges), (3, 0, 0));
        assert!(nodes.iter().chain(&edges).all(|&n| n == 7));
        return Err(counts.place);
    }
    assert_eq!(counts.place, 0);
    let (two, four) = (2 * counts.nodes as usize, 4 * counts.edges as usize);
    assert!(nodes[two..].iter().chain(&edges[four..]).all(|&n| n == 7));
    let chart = wall::read(text).expect("it was read").chart(text);
    assert_eq!(
        (chart.nodes.len() as u64, chart.edges.len() as u64),
        (counts.nodes, counts.edges)
    );
    Ok(chart)
}

fn line(source: usize, target: usize, label: &str) -> Line {
    Line {
        source,
        target,
        label: label.into(),
    }
}

/// So many nodes and edges, with short labels.
fn chart(nodes: usize, edges: usize) -> Chart {
    Chart {
        nodes: (0..nodes).map(|n| format!("p {n}")).collect(),
        edges: (0..edges)
            .map(|n| line(n % nodes, n * 3 % nodes, "r"))
            .collect(),
    }
}

/// A file with every kind of node and every kind of edge.
fn every_kind() -> Vec<u8> {
    let mut d = Draft::new();
    let deck = d.name("deck");
    let (three, two) = (d.solvable(deck, "3"), d.solvable(deck, "2"));
    let panel = d.package("panel", "5");
    d.root_needs("deck *", &[three, two]);
    d.root_needs("panel *", &[panel]);
    d.needs(panel, "codec 9", &[]);
    let reason = d.reason("too old");
    let set = d.version_set(deck, "<3");
    d.excludes(two, reason);
    d.constrains(panel, three, set);
    d.forbid(three, deck);
    d.forbid(two, deck);
    d.locks(three, two);
    d.file()
}

/// As many nodes as can be, unresolved among them.
fn widest() -> Vec<u8> {
    let mut d = Draft::new();
    let name = d.name("p");
    let all: Vec<u16> = (0..126).map(|n| d.solvable(name, &n.to_string())).collect();
    d.root_needs("p *", &all);
    d.root_needs("codec 9", &[]);
    d.file()
}

#[test]
fn no_records_are_one_node_and_no_edge() {
    assert_eq!(exported(&[]), "0 <root>\n#\n");
}

#[test]
fn p7_to_the_byte() {
    let wanted = "0 <root>\n1 unresolved\n2 replay 2\n3 replay 1\n#\n0 2 replay *\n0 3 replay *\n2 1 codec 9\n3 1 codec 9\n";
    assert_eq!(exported(&samples::replay()), wanted);
}

#[test]
fn every_kind_of_node_and_edge_has_the_graph_text_s_words() {
    let wanted = [
        "0 <root>",
        "1 unresolved",
        "2 deck 3",
        "3 deck 2",
        "4 panel 5",
        "5 reason: too old",
        "#",
        "0 2 deck *",
        "0 3 deck *",
        "0 4 panel *",
        "4 1 codec 9",
        "3 5 excluded",
        "4 2 <3",
        "2 3 already installed",
        "0 3 already installed",
    ];
    assert_eq!(exported(&every_kind()).lines().collect::<Vec<_>>(), wanted);
}

/// conflict.rs's graph text, put together from the wall's text: for each root and package the edges, newest first.
fn graph_text(text: &str) -> String {
    let chart = read(text.as_bytes()).expect("an exported text is read");
    let mut out = "digraph {".to_string();
    for (node, source) in chart.nodes.iter().enumerate() {
        for edge in chart.edges.iter().rev().filter(|edge| edge.source == node) {
            let target = &chart.nodes[edge.target];
            let black = ["already installed", "excluded"]
                .iter()
                .all(|&said| edge.label != said)
                && target != "unresolved";
            let color = if black { "black" } else { "red" };
            out += &format!(
                "\"{source}\" -> \"{target}\"[color={color}, label=\"{}\"];",
                edge.label
            );
        }
    }
    out + "}"
}

#[test]
fn labels_and_edges_are_those_of_conflict_rs_s_graph_text() {
    // Constraints are red as well, and their labels can't be told from requirements': files without them.
    for (name, file) in [
        ("replay", samples::replay()),
        ("ring", samples::deck_and_panel()),
        ("pair", samples::merged_pair()),
        ("lone", samples::lone_package()),
    ] {
        let (_, drawn) = common::drawn(&file, 0);
        assert_eq!(graph_text(&exported(&file)), drawn, "{name}");
    }
    // With every kind of edge, the color left out.
    let bare = |text: String| {
        text.replace("[color=black, ", "[")
            .replace("[color=red, ", "[")
    };
    for file in [
        every_kind(),
        samples::rack(),
        limits::nodes(128),
        limits::edges(1_024),
    ] {
        let (_, drawn) = common::drawn(&file, 0);
        assert_eq!(bare(graph_text(&exported(&file))), bare(drawn));
    }
}

#[test]
fn merged_packages_are_not_folded() {
    let file = samples::merged_pair();
    let groups: Vec<u16> = common::list(&file).iter().map(|node| node.group).collect();
    assert_eq!(groups, [0, 1, 2, 1], "nodes 1 and 3 are merged");
    let wanted = "0 <root>\n1 pair 1\n2 x 1\n3 pair 2\n#\n0 2 x *\n2 3 pair *\n2 1 pair *\n3 2 x *\n1 2 x *\n";
    assert_eq!(exported(&file), wanted);
}

#[test]
fn edges_stand_oldest_first_as_the_edge_list_has_them() {
    for file in [
        every_kind(),
        samples::rack(),
        samples::replay(),
        limits::edges(1_024),
    ] {
        let listed = common::edge_list(&file);
        let chart = read(exported(&file).as_bytes()).expect("it is read");
        let ends = chart.edges.iter().map(|edge| (edge.source, edge.target));
        assert!(ends.eq(listed
            .iter()
            .map(|edge| (usize::from(edge.source), usize::from(edge.target)))));
    }
}

#[test]
fn nothing_is_escaped_and_spaces_of_texts_stay() {
    let mut d = Draft::new();
    let name = d.name(" #");
    let odd = d.solvable(name, "\"\\ ");
    d.root_needs("  \\n\" ", &[odd]);
    let reason = d.reason("# ");
    d.excludes(odd, reason);
    let text = exported(&d.file());
    // The last node takes unresolved's number.
    assert_eq!(
        text,
        "0 <root>\n1 reason: # \n2  # \"\\ \n#\n0 2   \\n\" \n2 1 excluded\n"
    );
    let chart = read(text.as_bytes()).expect("it is read");
    assert_eq!(chart.nodes, ["<root>", "reason: # ", " # \"\\ "]);
    assert_eq!(
        chart.edges,
        [line(0, 2, "  \\n\" "), line(2, 1, "excluded")]
    );
}

#[test]
fn the_longest_labels_have_49_bytes_and_are_read() {
    let mut d = Draft::new();
    let long = d.package(&"n".repeat(24), &"v".repeat(24));
    d.root_needs(&"r".repeat(24), &[long]);
    let chart = read(exported(&d.file()).as_bytes()).expect("it is read");
    assert_eq!((chart.nodes[1].len(), chart.edges[0].label.len()), (49, 24));
}

#[test]
fn ten_leaves_whole_lines_in_every_room() {
    for file in [samples::replay(), every_kind()] {
        let text = exported(&file).into_bytes();
        let ends: Vec<usize> = (1..=text.len())
            .filter(|&at| text[at - 1] == b'\n')
            .collect();
        for size in 0..=text.len() + 1 {
            let mut room = vec![0xee; size];
            let answer = tgf(&file, &mut room);
            let whole = ends.iter().filter(|&&end| end <= size).count();
            let bytes = if whole == 0 { 0 } else { ends[whole - 1] };
            let (number, place) = if size < text.len() {
                (10, whole as u64)
            } else {
                (0, 0)
            };
            assert_eq!((answer.number, answer.place), (number, place));
            assert_eq!(
                (answer.bytes, answer.units, answer.depth),
                (bytes as u64, whole as u64, 0)
            );
            assert_eq!(room[..bytes], text[..bytes]);
            assert!(room[bytes..].iter().all(|&byte| byte == 0xee));
        }
    }
}

#[test]
fn refusals_1_to_9_come_first_and_change_nothing() {
    let shapes = [
        "cut",
        "random-bytes",
        "unused-bytes",
        "records-swapped",
        "wrong-origins",
        "learnt-small",
        "unreached",
    ];
    let mut seen = [false; 10];
    let generated = shapes
        .iter()
        .flat_map(|shape| (0..40).filter_map(move |seed| generate::file(shape, seed)));
    let made = [
        vec![0; 33],
        limits::nodes(129),
        limits::edges(1_025),
        limits::holding(limits::Table::Names, 129),
    ];
    for file in generated.chain(made) {
        let wanted = common::check(&file);
        for size in [0, 5, 4_000] {
            let mut room = vec![0xee; size];
            let answer = tgf(&file, &mut room);
            if wanted.number != 0 {
                assert_eq!(answer, wanted);
                assert!(room.iter().all(|&byte| byte == 0xee));
            }
        }
        seen[wanted.number as usize] = true;
    }
    assert!(seen.iter().all(|&seen| seen), "{seen:?}");
}

#[test]
fn the_largest_graphs_are_exported_and_read_back() {
    let mut largest = (0, 0);
    for file in [widest(), limits::edges(1_024)] {
        let chart = read(exported(&file).as_bytes()).expect("it is read");
        assert_eq!(chart.nodes.len(), common::list(&file).len());
        assert_eq!(chart.edges.len(), common::edge_list(&file).len());
        assert_eq!(chart.text(), exported(&file).into_bytes());
        largest = (
            largest.0.max(chart.nodes.len()),
            largest.1.max(chart.edges.len()),
        );
    }
    assert_eq!(largest, (128, 1_024));
}

#[test]
fn the_first_bad_or_missing_line_is_named() {
    let table: &[(&str, u64)] = &[
        // No node line at all, and no line with #.
        ("", 1),
        ("#\n", 1),
        ("\n", 1),
        ("0 a\n", 2),
        ("0 a\n1 b\n", 3),
        // Node lines out of turn.
        ("1 a\n#\n", 1),
        ("0 a\n0 b\n#\n", 2),
        ("0 a\n2 b\n#\n", 2),
        ("0 a\n01 b\n#\n", 2),
        ("00 a\n#\n", 1),
        ("+0 a\n#\n", 1),
        (" 0 a\n#\n", 1),
        ("-0 a\n#\n", 1),
        ("0x a\n#\n", 1),
        // One space, and a label behind it.
        ("0\n#\n", 1),
        ("0 \n#\n", 1),
        ("0a\n#\n", 1),
        ("0\ta\n#\n", 1),
        // # alone.
        ("0 a\n# \n", 2),
        ("0 a\n #\n", 2),
        ("0 a\n##\n", 2),
        ("0 a\n\n#\n", 2),
        ("0 a\n#\n#\n", 3),
        ("0 a\n#\n\n", 3),
        ("0 a\r\n#\r\n", 1),
        ("0 a\n#\r\n", 2),
        // Unfinished last lines.
        ("0 a", 1),
        ("0 a\n#", 2),
        ("0 a\n#\n0 0 x", 3),
        ("0 a\n#\n0 0 x\n0", 4),
        // Edges between nodes that exist.
        ("0 a\n#\n0 1 x\n", 3),
        ("0 a\n#\n1 0 x\n", 3),
        ("0 a\n#\n0 0 x\n0 9 x\n", 4),
        ("0 a\n#\n00 0 x\n", 3),
        ("0 a\n#\n0 00 x\n", 3),
        ("0 a\n#\n0 0\n", 3),
        ("0 a\n#\n0 0 \n", 3),
        ("0 a\n#\n0  0 x\n", 3),
        ("0 a\n#\n 0 0 x\n", 3),
        ("0 a\n#\n0\n", 3),
        ("0 a\n#\n0 4294967296 x\n", 3),
        ("0 a\n#\n18446744073709551616 0 x\n", 3),
        ("0 a\n#\n0 0 x\n\n0 0 x\n", 4),
        // A node line behind #.
        ("0 a\n#\n1 b\n", 3),
        // The first of several.
        ("0 a\n#\n0 7 x\n0 8 x\n0", 3),
    ];
    for (text, wanted) in table {
        assert_eq!(read(text.as_bytes()), Err(*wanted), "{text:?}");
    }
}

#[test]
fn what_looks_odd_and_is_good() {
    let good =
        |text: &str| read(text.as_bytes()).unwrap_or_else(|line| panic!("{text:?}: line {line}"));
    assert_eq!(good("0 #\n#\n").nodes, ["#"]);
    assert_eq!(good("0  \n#\n").nodes, [" "]);
    assert_eq!(good("0 0 0\n#\n0 0 0 0\n").edges, [line(0, 0, "0 0")]);
    assert_eq!(
        good("0 a\n#\n0 0  # \n0 0 #\n").edges,
        [line(0, 0, " # "), line(0, 0, "#")]
    );
    // Labels may be equal, and edges parallel.
    assert_eq!(good("0 a\n1 a\n#\n1 0 x\n1 0 x\n").edges.len(), 2);
}

#[test]
fn nodes_up_to_128_and_edges_up_to_1024() {
    for (nodes, edges) in [(1, 0), (1, 1_024), (128, 0), (128, 1_024), (127, 1_023)] {
        let chart = chart(nodes, edges);
        assert_eq!(read(&chart.text()), Ok(chart));
    }
    // Line 129 has to be #, whatever else comes.
    assert_eq!(read(&chart(129, 0).text()), Err(129));
    assert_eq!(read(&chart(200, 3).text()), Err(129));
    let text = chart(129, 0).text();
    assert_eq!(read(&text[..text.len() - 3]), Err(129));
    // Edge 1,025 stands behind the nodes and #.
    assert_eq!(read(&chart(1, 1_025).text()), Err(1 + 1 + 1_025));
    assert_eq!(read(&chart(128, 2_000).text()), Err(128 + 1 + 1_025));
}

#[test]
fn labels_of_1_to_49_bytes_from_32_to_126() {
    for length in [0, 1, 2, 48, 49, 50, 51, 300] {
        let label = "x".repeat(length);
        let good = (1..=49).contains(&length);
        let node = format!("0 a\n1 {label}\n#\n");
        assert_eq!(
            read(node.as_bytes()).map(drop),
            if good { Ok(()) } else { Err(2) },
            "{length}"
        );
        let edge = format!("0 a\n#\n0 0 {label}\n");
        assert_eq!(
            read(edge.as_bytes()).map(drop),
            if good { Ok(()) } else { Err(3) },
            "{length}"
        );
    }
    for byte in (0..=255).filter(|&byte| byte != b'\n') {
        let good = (32..=126).contains(&byte);
        let node = [b"0 a", &[byte][..], b"b\n#\n"].concat();
        assert_eq!(
            read(&node).map(drop),
            if good { Ok(()) } else { Err(1) },
            "{byte}"
        );
        let edge = [b"0 a\n#\n0 0 ", &[byte][..], b"\n"].concat();
        assert_eq!(
            read(&edge).map(drop),
            if good { Ok(()) } else { Err(3) },
            "{byte}"
        );
    }
}

#[test]
fn the_lists_say_where_labels_lie() {
    let text = b"0 <root>\n1 x 1\n#\n0 1 x *\n1 1  \n";
    let (mut nodes, mut edges) = ([7; 5], [7; 9]);
    let counts = tgf_read(text, &mut nodes, &mut edges);
    assert_eq!(
        (counts.number, counts.place, counts.nodes, counts.edges),
        (0, 0, 2, 2)
    );
    assert_eq!(nodes, [2, 6, 11, 3, 7]);
    assert_eq!(edges, [0, 1, 21, 3, 1, 1, 29, 1, 7]);
}

#[test]
fn lists_too_short_for_a_good_text_are_10_with_nothing_changed() {
    let text = b"0 a\n1 b\n2 c\n#\n0 1 x\n0 2 y\n";
    for nodes in 0..=7 {
        for edges in 0..=9 {
            let (mut two, mut four) = (vec![7; nodes], vec![7; edges]);
            let counts = tgf_read(text, &mut two, &mut four);
            if nodes >= 6 && edges >= 8 {
                assert_eq!(
                    (counts.number, counts.place, counts.nodes, counts.edges),
                    (0, 0, 3, 2)
                );
            } else {
                assert_eq!(
                    (counts.number, counts.place, counts.nodes, counts.edges),
                    (10, 0, 0, 0)
                );
                assert!(two.iter().chain(&four).all(|&n| n == 7));
            }
        }
    }
    // A bad text is 3 whatever is lent.
    let counts = tgf_read(&text[..text.len() - 1], &mut [], &mut []);
    assert_eq!((counts.number, counts.place), (3, 6));
    // No list of edges is wanted where there are none.
    assert_eq!(tgf_read(b"0 a\n#\n", &mut [0; 2], &mut []).number, 0);
}

#[test]
fn a_text_damaged_at_any_byte_is_read_as_the_rules_say() {
    let text = exported(&every_kind()).into_bytes();
    let mut accepted = 0;
    for at in 0..text.len() {
        for byte in *b"\n #019x\r\x1f\x7f" {
            let set = [&text[..at], &[byte][..], &text[at + 1..]].concat();
            let put = [&text[..at], &[byte][..], &text[at..]].concat();
            for damaged in [set, put] {
                // What is read is written as this very text.
                if let Ok(chart) = read(&damaged) {
                    assert_eq!(chart.text(), damaged);
                    assert!(chart.is_good());
                    accepted += 1;
                }
            }
        }
        let at_line = text[..at].iter().filter(|&&byte| byte == b'\n').count() as u64 + 1;
        let sharp = text
            .windows(3)
            .position(|three| three == b"\n#\n")
            .expect("#")
            + 3;
        // Cut at the end of a line, a text without edges or with fewer of them is good.
        let good = at >= sharp && text[at - 1] == b'\n';
        assert_eq!(
            read(&text[..at]).map(drop),
            if good { Ok(()) } else { Err(at_line) },
            "cut at {at}"
        );
    }
    assert!(accepted > 100, "{accepted}");
}
