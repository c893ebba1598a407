//! Short ways to the oracle for tests of one file each. Each call goes to the port too, which has to give the same answer and
//! leave the same bytes.

#![allow(dead_code)]

use oracle::asked::{agree, Question};
use oracle::draft::Draft;
use oracle::{Answer, Edge, Node, Problem, Salvaged};

/// The port's answer has to be the other one: conflict.rs's, or that of the model beside it.
pub fn same(theirs: Answer, ours: urzulempa::Answer) -> Answer {
    let port = Answer {
        number: ours.number,
        place: ours.place,
        bytes: ours.bytes,
        units: ours.units,
        depth: ours.depth,
    };
    assert_eq!(port, theirs, "the port's answer and the other one");
    theirs
}

pub fn check(file: &[u8]) -> Answer {
    same(oracle::check(file), urzulempa::check(file))
}

pub fn explain_plain(file: &[u8], room: &mut [u8]) -> Answer {
    let mut ours = room.to_vec();
    let port = urzulempa::explain_plain(file, &mut ours);
    let answer = same(oracle::explain_plain(file, room), port);
    assert!(ours == room, "the port's plain call leaves other bytes");
    answer
}

/// Where the room is small a plain call in one like it is compared, too.
pub fn explain(file: &[u8], option: u64, room: &mut [u8]) -> Answer {
    if room.len() <= 1 << 16 {
        explain_plain(file, &mut room.to_vec());
    }
    let mut ours = room.to_vec();
    let port = urzulempa::explain(file, option, &mut ours);
    let answer = same(oracle::explain(file, option, room), port);
    assert!(ours == room, "the port leaves other bytes");
    answer
}

/// Edition 1 has to be what `explain` gives, too.
pub fn explain_edition(file: &[u8], edition: u64, option: u64, room: &mut [u8]) -> Answer {
    let (mut ours, mut first) = (room.to_vec(), room.to_vec());
    let port = urzulempa::explain_edition(file, edition, option, &mut ours);
    let answer = same(oracle::explain_edition(file, edition, option, room), port);
    assert!(ours == room, "the port leaves other bytes");
    if edition == 1 {
        assert_eq!(explain(file, option, &mut first), answer);
        assert!(first == room, "edition 1 leaves other bytes than explain");
    }
    answer
}

/// Where the profile takes the file, `explain` has to give the same, too.
pub fn explain_air(file: &[u8], option: u64, room: &mut [u8]) -> Answer {
    let (mut ours, mut whole) = (room.to_vec(), room.to_vec());
    let port = urzulempa::explain_air(file, option, &mut ours);
    let answer = same(oracle::explain_air(file, option, room), port);
    assert!(ours == room, "the port leaves other bytes");
    if !(15..=17).contains(&answer.number) {
        assert_eq!(explain(file, option, &mut whole), answer);
        assert!(whole == room, "the profile leaves other bytes than explain");
    }
    answer
}

/// Number and place of the air profile's answer with room to spare. A refusal leaves every byte.
pub fn aired(file: &[u8]) -> (u64, u64) {
    let mut room = vec![0xee; 1 << 16];
    let answer = explain_air(file, 0, &mut room);
    if answer.number != 0 {
        assert_eq!((answer.bytes, answer.units, answer.depth), (0, 0, 0));
        assert!(room.iter().all(|&byte| byte == 0xee));
    }
    (answer.number, answer.place)
}

pub fn graphviz(file: &[u8], option: u64, room: &mut [u8]) -> Answer {
    let mut ours = room.to_vec();
    let port = urzulempa::graphviz(file, option, &mut ours);
    let answer = same(oracle::graphviz(file, option, room), port);
    assert!(ours == room, "the port leaves other bytes");
    answer
}

fn entry(n: &Node) -> urzulempa::Node {
    urzulempa::Node {
        kind: n.kind,
        number: n.number,
        group: n.group,
        installable: n.installable,
        missing: n.missing,
        clause: n.clause,
    }
}

/// A call that fills a list of nodes, on both sides.
fn listed(
    list: &mut [Node],
    theirs: impl FnOnce(&mut [Node]) -> Answer,
    ours: impl FnOnce(&mut [urzulempa::Node]) -> urzulempa::Answer,
) -> Answer {
    let mut port: Vec<urzulempa::Node> = list.iter().map(entry).collect();
    let answer = same(theirs(list), ours(&mut port));
    let theirs: Vec<urzulempa::Node> = list.iter().map(entry).collect();
    assert_eq!(port, theirs, "the port leaves other entries");
    answer
}

pub fn nodes(file: &[u8], list: &mut [Node]) -> Answer {
    let ours = |list: &mut [urzulempa::Node]| urzulempa::nodes(file, list);
    listed(list, |list| oracle::nodes(file, list), ours)
}

/// What if this solvable were excluded for this reason too. The file with one more clause has to give the same, too, by what a node
/// stands for.
pub fn what_if(file: &[u8], solvable: u64, reason: u64, list: &mut [Node]) -> Answer {
    let question = Question { solvable, reason };
    let both = agree(file, question).unwrap_or_else(|said| panic!("{question:?}: {said}"));
    let theirs = |list: &mut [Node]| oracle::what_if(file, solvable, reason, list);
    let ours = |list: &mut [urzulempa::Node]| urzulempa::what_if(file, solvable, reason, list);
    let answer = listed(list, theirs, ours);
    match both {
        Ok(_) => assert!([0, 10].contains(&answer.number)),
        Err(refusal) => assert_eq!(answer, Answer::from(refusal)),
    }
    answer
}

pub fn what_if_explain(
    file: &[u8],
    solvable: u64,
    reason: u64,
    option: u64,
    room: &mut [u8],
) -> Answer {
    let mut ours = room.to_vec();
    let port = urzulempa::what_if_explain(file, solvable, reason, option, &mut ours);
    let theirs = oracle::what_if_explain(file, solvable, reason, option, room);
    let answer = same(theirs, port);
    assert!(ours == room, "the port leaves other bytes");
    answer
}

/// The nodes then, or a refusal's number and place, by which the list and a room stay as they were.
pub fn asked(file: &[u8], solvable: u64, reason: u64) -> Result<Vec<Node>, (u64, u64)> {
    let past = Node {
        kind: 7,
        ..Node::default()
    };
    let mut list = vec![past; 128];
    let answer = what_if(file, solvable, reason, &mut list);
    let mut room = vec![0xee; 1 << 16];
    let told = what_if_explain(file, solvable, reason, 0, &mut room);
    if answer.number != 0 {
        assert_eq!(told, answer);
        assert_eq!((answer.bytes, answer.units, answer.depth), (0, 0, 0));
        assert!(list.iter().all(|&node| node == past));
        assert!(room.iter().all(|&byte| byte == 0xee));
        return Err((answer.number, answer.place));
    }
    let said = (answer.place, answer.bytes, answer.units, answer.depth);
    assert_eq!((said, told.number), ((0, 0, 1, 0), 0));
    list.retain(|&node| node != past);
    Ok(list)
}

/// The lines of the explanation then, with option 0.
pub fn lines_then(file: &[u8], solvable: u64, reason: u64) -> Vec<String> {
    let mut room = vec![0; 1 << 16];
    let answer = what_if_explain(file, solvable, reason, 0, &mut room);
    assert_eq!(answer.number, 0);
    let text = String::from_utf8_lossy(&room[..answer.bytes as usize]).into_owned();
    text.lines().map(str::to_string).collect()
}

pub fn edge_numbers(file: &[u8], list: &mut [u16]) -> Answer {
    let mut ours = list.to_vec();
    let port = urzulempa::edge_numbers(file, &mut ours);
    let answer = same(oracle::edges(file, list), port);
    assert!(ours == list, "the port leaves other numbers");
    answer
}

pub fn salvage(file: &[u8], room: &mut [u8], list: &mut [u16]) -> Salvaged {
    let (mut our_room, mut our_list) = (room.to_vec(), list.to_vec());
    let ours = urzulempa::salvage(file, &mut our_room, &mut our_list);
    let port = Salvaged {
        number: ours.number,
        place: ours.place,
        bytes: ours.bytes,
        replaced: ours.replaced,
        dropped: ours.dropped,
    };
    let model = oracle::salvage(file, room, list);
    assert_eq!(port, model, "the port's answer and the model's");
    assert!(our_room == room, "the port leaves another room");
    assert!(our_list == list, "the port leaves another list");
    model
}

/// The repaired file, the replaced records and how many bytes were dropped; or a refusal's number and place.
pub type Mended = Result<(Vec<u8>, Vec<u16>, u64), (u64, u64)>;

/// What a repair gives.
pub fn mended(file: &[u8]) -> Mended {
    let (mut room, mut list) = (vec![7; file.len() + 32], vec![7; 1_030]);
    let answer = salvage(file, &mut room, &mut list);
    if answer.number != 0 {
        let Salvaged { number, place, .. } = answer;
        assert_eq!((answer.bytes, answer.replaced, answer.dropped), (0, 0, 0));
        assert!(room.iter().all(|&byte| byte == 7) && list.iter().all(|&n| n == 7));
        return Err((number, place));
    }
    assert_eq!(answer.place, 0);
    assert!(room
        .split_off(answer.bytes as usize)
        .iter()
        .all(|&byte| byte == 7));
    assert!(list
        .split_off(answer.replaced as usize)
        .iter()
        .all(|&n| n == 7));
    Ok((room, list, answer.dropped))
}

/// The explanation with room to spare.
pub fn told(file: &[u8], option: u64) -> (Answer, String) {
    written(explain, file, option)
}

/// The explanation by the rules of an edition, option 0, with room to spare.
pub fn told_edition(file: &[u8], edition: u64) -> (Answer, Vec<String>) {
    let mut room = vec![0; 1 << 16];
    let answer = explain_edition(file, edition, 0, &mut room);
    room.truncate(answer.bytes as usize);
    let text = String::from_utf8(room).expect("whole units are UTF-8");
    (answer, text.lines().map(str::to_string).collect())
}

/// The graph text with room to spare.
pub fn drawn(file: &[u8], option: u64) -> (Answer, String) {
    written(graphviz, file, option)
}

fn written(
    call: fn(&[u8], u64, &mut [u8]) -> Answer,
    file: &[u8],
    option: u64,
) -> (Answer, String) {
    let mut room = vec![0; 1 << 16];
    let answer = call(file, option, &mut room);
    room.truncate(answer.bytes as usize);
    (
        answer,
        String::from_utf8(room).expect("whole units are UTF-8"),
    )
}

/// The lines of the explanation with option 0.
pub fn lines(file: &[u8]) -> Vec<String> {
    let (_, text) = told(file, 0);
    text.lines().map(str::to_string).collect()
}

pub fn list(file: &[u8]) -> Vec<Node> {
    let mut list = vec![Node::default(); 128];
    assert_eq!(nodes(file, &mut list).number, 0);
    let problem = Problem::read(file).expect("the reader takes the file");
    let model = problem.model().expect("the graph can be built");
    list.truncate(model.nodes().len());
    list
}

/// How many edges there are; the port has to draw the same text, too.
pub fn edges(file: &[u8]) -> usize {
    drawn(file, 0);
    edge_list(file).len()
}

/// The edges, oldest first.
pub fn edge_list(file: &[u8]) -> Vec<Edge> {
    let mut list = vec![0; 5 * 1_024];
    let answer = edge_numbers(file, &mut list);
    assert_eq!(answer.number, 0);
    let five = |n: &[u16]| Edge {
        source: n[0],
        target: n[1],
        kind: n[2],
        named: n[3],
        clause: n[4],
    };
    list.chunks(5)
        .take(answer.bytes as usize / 10)
        .map(five)
        .collect()
}

/// Number and place of what `check` answers.
pub fn checked(file: &[u8]) -> (u64, u64) {
    let answer = check(file);
    assert_eq!((answer.bytes, answer.units, answer.depth), (0, 0, 0));
    (answer.number, answer.place)
}

pub const ACCEPTED: (u64, u64) = (0, 0);

/// One package of each name, all of which the root requires, in this order.
pub fn packages(names: &[&str]) -> (Draft, Vec<u16>) {
    let mut d = Draft::new();
    let all: Vec<u16> = names.iter().map(|name| d.package(name, "1")).collect();
    d.root_needs("all *", &all);
    (d, all)
}

/// So many packages that the root requires. Unresolved goes unless something is missing.
pub fn wide(count: usize) -> (Draft, Vec<u16>) {
    let mut d = Draft::new();
    let name = d.name("wide");
    let all: Vec<u16> = (0..count)
        .map(|i| d.solvable(name, &i.to_string()))
        .collect();
    d.root_needs("wide *", &all);
    (d, all)
}

/// Such a load with two reasons, of which none has a node.
pub fn with_reasons((mut d, all): (Draft, Vec<u16>)) -> (Draft, Vec<u16>) {
    d.reason("too old");
    d.reason("recalled");
    (d, all)
}

/// The edges as they would be with one more exclusion: source, target, kind and clause.
pub fn edges_then(file: &[u8], solvable: u64, reason: u64) -> Vec<[u16; 4]> {
    let problem = Problem::read(file).expect("the reader takes the file");
    let model = problem.model().expect("the graph can be built");
    let asked = model.excluding(solvable, reason);
    let edges = asked.expect("the question can be asked").edges();
    let four = |e: &Edge| [e.source, e.target, e.kind, e.clause];
    edges.iter().map(four).collect()
}
