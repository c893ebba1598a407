//! One call on one file, on both sides.

use oracle::rng::Rng;

#[derive(Clone, Copy, Debug, PartialEq, Eq)]
pub enum Call {
    Check,
    Explain,
    Plain,
    /// The explanation by the rules of this edition.
    Edition(u64),
    /// The explanation in the air profile.
    Air,
    Graph,
    Nodes,
    Edges,
}

/// A call with its option, the size of what is lent, and the bytes that stand there before.
#[derive(Clone, Copy, Debug)]
pub struct Trial {
    pub call: Call,
    pub option: u64,
    pub room: usize,
    pub fill: u64,
}

/// A list of this many numbers holds every graph's edges.
const ALL_EDGES: usize = 5 * urzulempa::MOST_EDGES;

/// Rooms up to this size are ample for most files; larger texts are cut by 10 on both sides.
pub const AMPLE: usize = 16 << 10;

impl Trial {
    /// The answer's number, or what differs.
    pub fn run(&self, file: &[u8]) -> Result<u64, String> {
        match self.call {
            Call::Check => same(self, oracle::check(file), urzulempa::check(file), &[], &[]),
            Call::Nodes => self.nodes(file),
            Call::Edges => self.edges(file),
            _ => self.text(file),
        }
    }

    fn text(&self, file: &[u8]) -> Result<u64, String> {
        let mut theirs = filled(self.room, self.fill);
        let mut ours = theirs.clone();
        let (a, b) = match self.call {
            Call::Graph => (oracle::graphviz(file, self.option, &mut theirs), urzulempa::graphviz(file, self.option, &mut ours)),
            Call::Air => (oracle::explain_air(file, self.option, &mut theirs), urzulempa::explain_air(file, self.option, &mut ours)),
            Call::Plain => (oracle::explain_plain(file, &mut theirs), urzulempa::explain_plain(file, &mut ours)),
            // "Edition 1 stays for the archive and remains the Rust's."
            Call::Edition(1) => (oracle::explain(file, self.option, &mut theirs), urzulempa::explain_edition(file, 1, self.option, &mut ours)),
            Call::Edition(e) => (oracle::explain_edition(file, e, self.option, &mut theirs), urzulempa::explain_edition(file, e, self.option, &mut ours)),
            _ => (oracle::explain(file, self.option, &mut theirs), urzulempa::explain(file, self.option, &mut ours)),
        };
        if self.call == Call::Edition(2) && a.number == 11 {
            return Err("edition 2 gives 11".into());
        }
        if self.call == Call::Air && a.number == 11 {
            return Err("11 inside the air profile".into());
        }
        same(self, a, b, &theirs, &ours)
    }

    fn nodes(&self, file: &[u8]) -> Result<u64, String> {
        let bytes = filled(self.room * 10, self.fill);
        let mut theirs: Vec<oracle::Node> = bytes.chunks(10).map(their_node).collect();
        let mut ours: Vec<urzulempa::Node> = bytes.chunks(10).map(our_node).collect();
        let (a, b) = (oracle::nodes(file, &mut theirs), urzulempa::nodes(file, &mut ours));
        let flat = |[kind, number, group, clause]: [u16; 4], i: u8, m: u8| {
            let [k, n, g, c] = [kind, number, group, clause].map(u16::to_le_bytes);
            [k, n, g, [i, m], c].concat()
        };
        let theirs: Vec<u8> = theirs.iter().flat_map(|n| flat([n.kind, n.number, n.group, n.clause], n.installable, n.missing)).collect();
        let ours: Vec<u8> = ours.iter().flat_map(|n| flat([n.kind, n.number, n.group, n.clause], n.installable, n.missing)).collect();
        same(self, a, b, &theirs, &ours)
    }

    fn edges(&self, file: &[u8]) -> Result<u64, String> {
        let bytes = filled(self.room * 2, self.fill);
        let mut theirs: Vec<u16> = bytes.chunks(2).map(|two| word(two, 0)).collect();
        let mut ours = theirs.clone();
        let (a, b) = (oracle::edges(file, &mut theirs), urzulempa::edge_numbers(file, &mut ours));
        let flat = |list: &[u16]| -> Vec<u8> { list.iter().flat_map(|n| n.to_le_bytes()).collect() };
        same(self, a, b, &flat(&theirs), &flat(&ours))
    }
}

fn word(bytes: &[u8], at: usize) -> u16 {
    u16::from_le_bytes([bytes[at], bytes[at + 1]])
}

/// An entry as ten bytes of a lent list lay it out.
pub fn their_node(b: &[u8]) -> oracle::Node {
    oracle::Node { kind: word(b, 0), number: word(b, 2), group: word(b, 4), installable: b[6], missing: b[7], clause: word(b, 8) }
}

pub fn our_node(b: &[u8]) -> urzulempa::Node {
    urzulempa::Node { kind: word(b, 0), number: word(b, 2), group: word(b, 4), installable: b[6], missing: b[7], clause: word(b, 8) }
}

/// Bytes of every value, so that an untouched one is seen.
pub fn filled(len: usize, seed: u64) -> Vec<u8> {
    let mut rng = Rng::new(seed);
    (0..len).map(|_| (rng.next() >> 32) as u8).collect()
}

fn same(trial: &Trial, theirs: oracle::Answer, ours: urzulempa::Answer, their_room: &[u8], our_room: &[u8]) -> Result<u64, String> {
    let a = (theirs.number, theirs.place, theirs.bytes, theirs.units, theirs.depth);
    let b = (ours.number, ours.place, ours.bytes, ours.units, ours.depth);
    if a == b && their_room == our_room {
        return Ok(a.0);
    }
    let at = their_room.iter().zip(our_room).position(|(x, y)| x != y);
    let text = |bytes: &[u8], n: u64| String::from_utf8_lossy(&bytes[..bytes.len().min(usize::try_from(n).unwrap_or(0))]).into_owned();
    let texts = if matches!(trial.call, Call::Nodes | Call::Edges) {
        // An entry of either list has ten bytes.
        let entry = at.unwrap_or(0) / 10;
        let shown = |list: &[u8]| list.chunks(10).nth(entry).map(<[u8]>::to_vec);
        format!("entry {entry}: conflict.rs {:?}, port {:?}", shown(their_room), shown(our_room))
    } else {
        format!("conflict.rs:\n{}\nport:\n{}", text(their_room, theirs.bytes), text(our_room, ours.bytes))
    };
    Err(format!("number, place, bytes, units, depth: conflict.rs {a:?}, port {b:?}; first byte that differs: {at:?}\n{texts}"))
}

/// Every call on a file: options 0, 1 and bad ones; rooms 0, exact, one short, random and ample, for the plain call one more as well, and
/// those that end within a group that is shown short or, in the graph text, between a backslash and its quote; lists of edges with one
/// number more; both editions and bad ones; the air profile.
pub fn trials(file: &[u8], rng: &mut Rng) -> Vec<Trial> {
    let mut trials = vec![Trial { call: Call::Check, option: 0, room: 0, fill: 0 }];
    let whole = oracle::check(file).number == 0;
    for call in [Call::Explain, Call::Graph] {
        for option in [0, 1] {
            let mut room = vec![0; AMPLE];
            let exact = if whole { measure(call, file, option, &mut room) } else { 0 };
            let some = (rng.next() % (exact as u64 + 40)) as usize;
            let mut rooms = vec![0, exact, exact.saturating_sub(1), some, AMPLE];
            rooms.extend(dots(&room[..exact], rng, 2));
            if call == Call::Graph {
                rooms.extend(quotes(file, option, &room[..exact], rng, 2));
            }
            for room in rooms {
                trials.push(Trial { call, option, room, fill: rng.next() });
            }
        }
        let bad = [2, 3, 255, 256, 1 << 32, u64::MAX, rng.next() | 2][(rng.next() % 7) as usize];
        trials.push(Trial { call, option: bad, room: (rng.next() % 300) as usize, fill: rng.next() });
    }
    let plain = if whole { measure(Call::Plain, file, 0, &mut vec![0; AMPLE]) } else { 0 };
    for room in [plain, plain.saturating_sub(1), plain + 1, (rng.next() % 2000) as usize] {
        trials.push(Trial { call: Call::Plain, option: 0, room, fill: rng.next() });
    }
    let nodes = if whole { count_nodes(file) } else { 0 };
    for room in [0, nodes, nodes.saturating_sub(1), (rng.next() % 129) as usize, 128] {
        trials.push(Trial { call: Call::Nodes, option: 0, room, fill: rng.next() });
    }
    let numbers = if whole { 5 * count_edges(file) } else { 0 };
    let some = (rng.next() % (numbers as u64 + 11)) as usize;
    for room in [0, numbers, numbers.saturating_sub(1), numbers + 1, some, ALL_EDGES] {
        trials.push(Trial { call: Call::Edges, option: 0, room, fill: rng.next() });
    }
    // One in three, since each has its like among the calls above; `compare editions` makes them all.
    let editions = editions(file, rng, 1);
    trials.extend(editions.into_iter().filter(|_| rng.next() % 3 == 0));
    trials.extend(air(file, rng, 1));
    trials
}

/// The explanation in the air profile: options 0 and 1, in rooms 0, exact, one short, one more, random and ample, and around the ends
/// of at most so many lines; bad options. Where nothing is written the rooms are 0, a small one, and one that a text would fit into.
pub fn air(file: &[u8], rng: &mut Rng, lines: usize) -> Vec<Trial> {
    let mut trials = Vec::new();
    for option in [0, 1] {
        let mut room = vec![0; AMPLE];
        let exact = measure(Call::Air, file, option, &mut room);
        let some = (rng.next() % (exact as u64 + 40)) as usize;
        let mut rooms = if exact == 0 { vec![0, some, 400 + (rng.next() % 2000) as usize] } else { vec![0, exact, exact - 1, exact + 1, some, AMPLE] };
        rooms.extend(line_ends(&room[..exact], rng, lines));
        rooms.extend(dots(&room[..exact], rng, 1));
        trials.extend(rooms.into_iter().map(|room| Trial { call: Call::Air, option, room, fill: rng.next() }));
    }
    let bad = [2, 3, 255, 256, 1 << 32, (1 << 32) | 1, u64::MAX, rng.next() | 2][(rng.next() % 8) as usize];
    trials.push(Trial { call: Call::Air, option: bad, room: (rng.next() % 300) as usize, fill: rng.next() });
    trials
}

/// The places around the ends of at most so many lines of a text, chosen at random, but for the last, whose end is the text's.
pub fn line_ends(text: &[u8], rng: &mut Rng, lines: usize) -> Vec<usize> {
    let mut ends: Vec<usize> = text.iter().enumerate().filter(|(_, byte)| **byte == b'\n').map(|(at, _)| at + 1).collect();
    ends.pop();
    while ends.len() > lines {
        ends.swap_remove((rng.next() % ends.len() as u64) as usize);
    }
    ends.into_iter().flat_map(|end| [end - 1, end, end + 1]).collect()
}

/// What stands for the left-out versions of a long group (document 02, order 6).
const DOTS: &[u8] = b" | ... | ";

/// The places before, inside and behind the dots of at most so many groups of a text, chosen at random, and around the ends of their
/// lines.
fn dots(text: &[u8], rng: &mut Rng, groups: usize) -> Vec<usize> {
    let mut found: Vec<usize> = text.windows(DOTS.len()).enumerate().filter(|(_, part)| *part == DOTS).map(|(at, _)| at).collect();
    while found.len() > groups {
        found.swap_remove((rng.next() % found.len() as u64) as usize);
    }
    let end = |at: usize| at + text[at..].iter().position(|byte| *byte == b'\n').map_or(0, |rest| rest + 1);
    found.into_iter().flat_map(|at| (at..=at + DOTS.len()).chain([end(at).saturating_sub(1), end(at), end(at) + 1])).collect()
}

/// The places around at most so many quotes that have a backslash before them in a graph text, chosen at random, and around the ends of
/// the units that they stand in.
fn quotes(file: &[u8], option: u64, text: &[u8], rng: &mut Rng, most: usize) -> Vec<usize> {
    let mut found: Vec<usize> = text.windows(2).enumerate().filter(|(_, two)| *two == b"\\\"").map(|(at, _)| at).collect();
    while found.len() > most {
        found.swap_remove((rng.next() % found.len() as u64) as usize);
    }
    let ends = |at: usize| {
        let fits = |room: &usize| measure(Call::Graph, file, option, &mut vec![0; *room]) > at;
        let end = (at + 1..=text.len()).collect::<Vec<_>>().partition_point(|room| !fits(room)) + at + 1;
        [at, at + 1, at + 2, end - 1, end, end + 1]
    };
    found.into_iter().flat_map(ends).collect()
}

/// The explanation by edition: both with options 0 and 1, in rooms 0, exact, one short, one more, random and ample, and around the
/// ends of at most so many lines; bad editions and bad options, each alone and both.
pub fn editions(file: &[u8], rng: &mut Rng, lines: usize) -> Vec<Trial> {
    let mut trials = Vec::new();
    let whole = oracle::check(file).number == 0;
    for edition in [1, 2] {
        let call = Call::Edition(edition);
        for option in [0, 1] {
            let mut room = vec![0; AMPLE];
            let exact = if whole { measure(call, file, option, &mut room) } else { 0 };
            let mut rooms = vec![0, exact, exact.saturating_sub(1), exact + 1, (rng.next() % (exact as u64 + 40)) as usize, AMPLE];
            rooms.extend(line_ends(&room[..exact], rng, lines));
            rooms.extend(dots(&room[..exact], rng, 1));
            trials.extend(rooms.into_iter().map(|room| Trial { call, option, room, fill: rng.next() }));
        }
    }
    let some = |rng: &mut Rng| [3, 4, 255, 256, 257, 258, (1 << 32) | 1, (1 << 32) | 2, rng.next() | 4][(rng.next() % 9) as usize];
    for edition in [0, 3, u64::MAX, some(rng)] {
        for option in [0, 1, 2] {
            trials.push(Trial { call: Call::Edition(edition), option, room: (rng.next() % 300) as usize, fill: rng.next() });
        }
    }
    for edition in [1, 2] {
        for option in [2, u64::MAX, some(rng)] {
            trials.push(Trial { call: Call::Edition(edition), option, room: (rng.next() % 300) as usize, fill: rng.next() });
        }
    }
    trials
}

fn measure(call: Call, file: &[u8], option: u64, room: &mut [u8]) -> usize {
    let answer = match call {
        Call::Graph => oracle::graphviz(file, option, room),
        Call::Plain => oracle::explain_plain(file, room),
        Call::Edition(edition) => oracle::explain_edition(file, edition, option, room),
        Call::Air => oracle::explain_air(file, option, room),
        _ => oracle::explain(file, option, room),
    };
    usize::try_from(answer.bytes).unwrap_or(0)
}

fn count_nodes(file: &[u8]) -> usize {
    let problem = oracle::Problem::read(file);
    problem.ok().and_then(|p| p.model().ok().map(|m| m.nodes().len())).unwrap_or(0)
}

fn count_edges(file: &[u8]) -> usize {
    oracle::Problem::read(file).ok().and_then(|p| p.edges().ok()).map_or(0, |edges| edges.len())
}

/// A file with every kind of record, which is accepted.
pub fn every_kind() -> Vec<u8> {
    let texted = |kind: u8, a: u16, b: u16, text: &str| record(kind, text.len() as u8, [a, b, 0], text);
    let plain = |kind: u8, first: u8, a: u16, b: u16, c: u16| record(kind, first, [a, b, c], "");
    [
        texted(1, 0, 0, "codec"),
        texted(1, 1, 0, "deck"),
        texted(2, 0, 0, "9.1"),
        texted(2, 1, 1, "2"),
        texted(3, 0, 0, ">=9"),
        texted(4, 0, 0, "codec *"),
        texted(4, 1, 0, "deck 2"),
        plain(5, 0, 0, 0, 0),
        plain(5, 0, 1, 1, 0),
        texted(6, 0, 0, "not for this truck"),
        plain(7, 0, 0, 0, 0),
        plain(7, 0, 1, 1, 0),
        plain(7, 0, 2, 1, 1),
        plain(7, 0, 3, 2, 0),
        plain(7, 0, 4, 3, 0),
        plain(7, 0, 5, 4, 0),
        plain(7, 0, 6, 5, 0),
        plain(16, 1, 0, 0, 0),
        plain(19, 1, 0, 0, 0),
        plain(25, 1, 4, 0, 0),
        plain(19, 1, 4, 1, 0),
        plain(17, 1, 1, 0, 0),
        plain(18, 0, 0, 0, 0),
        plain(20, 1, 1, 2, 0),
        plain(21, 1, 1, 3, 0),
        plain(22, 1, 2, 1, 0),
        plain(23, 1, 2, 5, 0),
        plain(24, 1, 1, 5, 0),
        plain(8, 0, 4, 2, 0),
    ]
    .concat()
}

fn record(kind: u8, first: u8, fields: [u16; 3], text: &str) -> Vec<u8> {
    let mut bytes = vec![kind, first];
    for field in fields {
        bytes.extend(field.to_le_bytes());
    }
    bytes.extend(text.as_bytes());
    bytes.resize(32, 0);
    bytes
}
