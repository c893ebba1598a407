//! The recorded answers: a fixed list of files and calls with what conflict.rs answers, for a program that has no Rust
//! beside it (`crates/replay`).
//!
//! The list is a row of heads of twelve 64-bit numbers, lowest byte first:
//!
//! - a file: 1, its length, the seed, how many calls follow, the length of its shape's name, the name in the 56 bytes that
//!   are left; then the file's bytes.
//! - a call on the file before it: 2, call, option, room, then the answer's number, place, bytes, units and depth, and the
//!   checksum of the whole room after the call. Call 0 is check, 1 explain, 2 the plain explanation, which names no option, 3 the graph text,
//!   4 the node list, whose room is counted in entries, 5 the edge list, whose room is counted in numbers, 6 the explanation
//!   by edition 2, and 7 the explanation in the air profile. 8 and 9 are the repair of a damaged file, which conflict.rs does
//!   not have and [`salvage`] gives, with the count of replaced records as units and the bytes dropped as depth: 8 with the
//!   checksum of the room, beside a list of [`NUMBERS`], 9 with that of the list, whose room is counted in numbers, beside a
//!   room of [`MOST`]. 10 and 11 read and change a settings file, which is the file before them and which [`settings`] takes;
//!   the option is the version of the reader or writer. 10 has indent as bytes, simplify as units and the edition as depth,
//!   and no room. The room of 11 begins with the file, all of which is used. 12 writes the file that rows make, which are the
//!   file before it, by [`write`]. 13 and 14 are the node list and the explanation with one more exclusion, by [`what_if`] and
//!   [`what_if_explain`]: what conflict.rs says of the graph that it built with the exclusion behind it. 15 is the text of the
//!   wall display, by [`tgf`]. 16 and 17 read such a text, which is the file before them, by [`tgf_read`], with the nodes as
//!   units and the edges as depth: 16 with the checksum of the nodes' list beside an edges' list of [`EDGE_NUMBERS`], 17 with
//!   that of the edges' list beside a nodes' list of [`NODE_NUMBERS`]; the room is counted in numbers. 18 and 19 are the season's
//!   calls, by [`season::season`] and [`season::join`]. Their file begins with a report, in words of eight bytes, lowest first. 18
//!   adds the file that stands behind it; its checksum goes on from the room over the report after the call. 19 puts the report
//!   that stands behind it there; its checksum is that of the report after the call, and it has no room. A room holds [`FILL`] in
//!   every other byte before the call. The two words behind the checksum are the setting and the content that 11 asks for, the
//!   solvable and the reason of 13 and 14, the edition of 18 and how many words its report has, how many words the two reports of
//!   19 have, and 0 for the other calls.
//! - the end: 3, how many files, how many answers.

use std::collections::BTreeSet;

use crate::asked::Question;
use crate::generate::what_if as asking;
use crate::rng::Rng;
use crate::season;
use crate::settings::{self, LARGEST_SETTINGS, RECORD};
use crate::wall::{self, Chart, Line, EDGES, LABEL, NODES};
use crate::{
    check, edges, explain, explain_air, explain_edition, explain_plain, generate, graphviz, nodes,
    salvage, tgf, tgf_read, what_if, what_if_explain, write, Answer, Node, Problem,
};

/// What stands in every byte that is lent.
const FILL: u8 = 165;
/// The same in a number of two bytes.
const PAIR: u16 = u16::from_le_bytes([FILL; 2]);
/// The same in a number of four bytes.
const WIDE: u32 = u32::from_le_bytes([FILL; 4]);
/// The largest room that the program lends.
const MOST: usize = 1 << 16;
/// The largest list of numbers that the program lends.
const NUMBERS: usize = 1 << 13;
/// The numbers of the most nodes and of the most edges that a text of the wall display has.
const NODE_NUMBERS: usize = 2 * NODES;
const EDGE_NUMBERS: usize = 4 * EDGES;
/// A room that is ample for most small files.
const AMPLE: usize = 6 << 10;
/// Files are chosen among those of this many seeds.
const SEEDS: u64 = 12;

const FILE: u64 = 1;
const CALL: u64 = 2;
const END: u64 = 3;

#[derive(Clone, Copy)]
enum Call {
    Check,
    Explain(u64),
    Plain,
    Graph(u64),
    Nodes,
    Edges,
    Second(u64),
    Air(u64),
    Mend,
    Replaced,
    Held(u64),
    Change(u64, u64, u64),
    Write,
    Asked(Question),
    AskedText(Question, u64),
    Wall,
    WallNodes,
    WallEdges,
    Season {
        edition: u64,
        option: u64,
        words: usize,
    },
    Join(usize, usize),
}

/// How much is lent: a size, one that follows from what a call needs, or that of the file and some bytes behind it.
#[derive(Clone, Copy)]
enum Room {
    Of(usize),
    Exact,
    OneShort,
    Half,
    Behind(usize),
}

/// Each file gets the first and some of the others in turn.
const TRIALS: [(Call, Room); 16] = [
    (Call::Explain(0), Room::Of(AMPLE)),
    (Call::Check, Room::Of(0)),
    (Call::Explain(1), Room::Exact),
    (Call::Graph(1), Room::Of(AMPLE)),
    (Call::Nodes, Room::Of(128)),
    (Call::Plain, Room::Half),
    (Call::Graph(0), Room::Exact),
    (Call::Explain(0), Room::OneShort),
    (Call::Nodes, Room::Exact),
    (Call::Graph(2), Room::Of(40)),
    (Call::Plain, Room::Exact),
    (Call::Graph(0), Room::Half),
    (Call::Explain(1), Room::Half),
    (Call::Nodes, Room::OneShort),
    (Call::Explain(u64::MAX), Room::Of(100)),
    (Call::Graph(1), Room::OneShort),
];

/// Each file gets one of these in turn.
const EDGE_ROOMS: [Room; 4] = [Room::Of(5 * 1_024), Room::Exact, Room::OneShort, Room::Half];

/// A file gets one of these in turn, and one that the repair changes gets all.
const MENDED: [(Call, Room); 5] = [
    (Call::Mend, Room::Of(MOST)),
    (Call::Replaced, Room::Exact),
    (Call::Mend, Room::OneShort),
    (Call::Replaced, Room::OneShort),
    (Call::Mend, Room::Exact),
];

/// Options and rooms of an explanation by edition 2 and of one in the air profile: each file gets one of these in turn.
const EXPLAINED: [(u64, Room); 7] = [
    (0, Room::Of(AMPLE)),
    (1, Room::Exact),
    (0, Room::OneShort),
    (1, Room::Of(AMPLE)),
    (0, Room::Half),
    (1, Room::OneShort),
    (2, Room::Of(60)),
];

/// Versions, settings and contents of a change, and rooms of it: each settings file gets three of these in turn.
const CHANGES: [(u64, u64, u64, Room); 14] = [
    (2, 3, 2, Room::Behind(RECORD)),
    (1, 1, 0, Room::Behind(40)),
    (2, 2, 1, Room::Behind(RECORD - 1)),
    (1, 3, 1, Room::Behind(RECORD)),
    (2, 1, 1, Room::Behind(RECORD)),
    (2, 3, 3, Room::Behind(RECORD)),
    (0, 1, 0, Room::Behind(RECORD)),
    (2, 3, 1, Room::Behind(64)),
    (1, 2, 0, Room::Behind(RECORD)),
    (2, 0, 1, Room::Behind(RECORD)),
    (2, 1, 256, Room::Behind(RECORD)),
    (3, 3, 2, Room::Behind(RECORD)),
    (2, 2, 0, Room::Behind(0)),
    (2, 257, 1, Room::Behind(RECORD)),
];

/// Rooms of rows: every third file and each with 1 or 6, taken as rows, gets one of these in turn, and rows in another order get two.
const ROW_ROOMS: [Room; 3] = [Room::Exact, Room::OneShort, Room::Of(MOST)];
/// Rows in another order are those of the first files of about this many shapes, where they are small.
const MIXED: usize = 20;

/// A question about the nodes, or about the text with an option, and rooms of it: each question gets one of these in turn.
const ASKED: [(Option<u64>, Room); 9] = [
    (None, Room::Of(128)),
    (Some(0), Room::Of(AMPLE)),
    (Some(1), Room::Exact),
    (None, Room::Exact),
    (Some(0), Room::OneShort),
    (None, Room::OneShort),
    (Some(1), Room::Half),
    (Some(0), Room::Exact),
    (Some(2), Room::Of(60)),
];
/// Files that are asked about: so many of each shape of order 10, and the first of every so manyth shape where it is small and
/// drawn.
const FAMILIES: [(&str, u64); 3] = [
    ("what-if-families", 20),
    ("what-if-limits", 4),
    ("what-if-records", 1),
];
const ABOUT: usize = 3;

/// Rooms of the wall display's text: each file gets one of these in turn.
const WALL_ROOMS: [Room; 4] = [Room::Exact, Room::Of(AMPLE), Room::OneShort, Room::Half];
/// A text of the wall display gets three of these in turn.
const READ: [(Call, Room); 6] = [
    (Call::WallNodes, Room::Exact),
    (Call::WallEdges, Room::Exact),
    (Call::WallNodes, Room::OneShort),
    (Call::WallEdges, Room::OneShort),
    (Call::WallNodes, Room::Of(NODE_NUMBERS + 10)),
    (Call::WallEdges, Room::Of(EDGE_NUMBERS + 10)),
];
/// Texts are those of the first file of every so manyth shape, where they are small.
const TEXTS: usize = 5;

/// Editions, options and rooms of a file that is added to a report: each gets the first and two others in turn.
const ADDED: [(u64, u64, Room); 11] = [
    (1, 1, Room::Of(AMPLE)),
    (2, 0, Room::Exact),
    (1, 0, Room::OneShort),
    (2, 1, Room::Half),
    (1, 1, Room::Exact),
    (1, 2, Room::Of(60)),
    (2, 1, Room::OneShort),
    (0, 1, Room::Of(60)),
    (1, 0, Room::Of(AMPLE)),
    (3, 0, Room::Of(60)),
    (2, u64::MAX, Room::Of(0)),
];
/// Reports of another length than 27, of which every third file gets one.
const OTHERS: [usize; 4] = [26, 0, 28, 1];
/// Files that are added: every so manyth of the small ones that are done, and about so many of each refusal, the smallest.
const DONE: usize = 4;
const REFUSED: usize = 2;
/// Lengths of two reports that are joined, beside 27 and 27: each pair gets one of these in turn.
const JOINED: [(usize, usize); 7] = [
    (27, 26),
    (26, 27),
    (28, 26),
    (27, 0),
    (0, 27),
    (1, 1),
    (0, 0),
];
/// So many pairs of reports.
const PAIRS: u64 = 48;

/// What some calls have to be answered with, each at least once: all that they can give.
const GIVEN: [(u64, &[u64]); 15] = [
    (1, &[0, 1, 2, 3, 4, 5, 6, 7, 8, 9, 10, 11, 12]),
    (3, &[0, 1, 2, 3, 4, 5, 6, 7, 8, 9, 10, 12]),
    (5, &[0, 1, 2, 3, 4, 5, 6, 7, 8, 9, 10]),
    (6, &[0, 1, 2, 3, 4, 5, 6, 7, 8, 9, 10, 12]),
    (7, &[0, 1, 2, 3, 4, 5, 6, 7, 8, 9, 10, 12, 15, 16, 17]),
    (10, &[0, 1, 3, 12, 18]),
    (11, &[0, 1, 3, 10, 12, 18]),
    (12, &[0, 1, 2, 3, 4, 5, 6, 10]),
    (13, &[0, 1, 2, 3, 4, 5, 6, 7, 8, 9, 10, 17]),
    (14, &[0, 1, 2, 3, 4, 5, 6, 7, 8, 9, 10, 12, 17]),
    (15, &[0, 1, 2, 3, 4, 5, 6, 7, 8, 9, 10]),
    (16, &[0, 3, 10]),
    (17, &[0, 3, 10]),
    (18, &[0, 1, 2, 3, 4, 5, 6, 7, 8, 9, 10, 11, 12, 14]),
    (19, &[0, 10, 14]),
];

/// A file with the heads of its calls.
struct Recorded {
    shape: &'static str,
    seed: u64,
    file: Vec<u8>,
    calls: Vec<[u64; 12]>,
}

/// The list, or why it would not do.
pub fn list() -> Result<Vec<u8>, String> {
    let mut all = Vec::new();
    for shape in generate::recorded() {
        for (seed, file) in chosen(shape) {
            let calls = calls(&file, all.len());
            all.push(Recorded {
                shape,
                seed,
                file,
                calls,
            });
        }
    }
    let seasons = seasons(&all);
    all.extend(
        settings_files()
            .into_iter()
            .enumerate()
            .map(|(index, file)| Recorded {
                shape: "settings",
                seed: index as u64,
                calls: settings_calls(&file, index),
                file,
            }),
    );
    all.extend(rows());
    all.extend(asked());
    all.extend(texts());
    all.extend(seasons);
    all.extend(pairs());
    let mut out = Vec::new();
    let mut met = BTreeSet::new();
    for one in &all {
        put(&mut out, &file_head(one));
        out.extend_from_slice(&one.file);
        for head in &one.calls {
            met.insert((head[1], head[4]));
            put(&mut out, head);
        }
    }
    let answers: usize = all.iter().map(|one| one.calls.len()).sum();
    put(
        &mut out,
        &[
            END,
            all.len() as u64,
            answers as u64,
            0,
            0,
            0,
            0,
            0,
            0,
            0,
            0,
            0,
        ],
    );
    let each = |&(call, numbers): &(u64, &'static [u64])| numbers.iter().map(move |&n| (call, n));
    match GIVEN.iter().flat_map(each).find(|pair| !met.contains(pair)) {
        Some((call, number)) => Err(format!("no call {call} is answered with {number}")),
        None => Ok(out),
    }
}

/// The smallest file of each answer that `check` gives a shape, then the next in size: two of a shape, three of one near a
/// limit, and one where all are large.
fn chosen(shape: &str) -> Vec<(u64, Vec<u8>)> {
    let make = |seed| generate::file(shape, seed).expect("a name of the list");
    let mut all: Vec<(u64, Vec<u8>)> = (0..SEEDS).map(|seed| (seed, make(seed))).collect();
    all.sort_by_key(|(seed, file)| (file.len(), *seed));
    all.dedup_by(|(_, a), (_, b)| a == b);
    let most = match all[0].1.len() {
        0..=5_000 => 2,
        5_001..=10_000 => 3,
        _ => 1,
    };
    let mut met = BTreeSet::new();
    let (mut first, rest): (Vec<_>, Vec<_>) = all
        .into_iter()
        .partition(|(_, file)| met.insert(check(file).number));
    first.extend(rest);
    first.truncate(most);
    first
}

fn calls(file: &[u8], index: usize) -> Vec<[u64; 12]> {
    let others = TRIALS.len() - 1;
    let turn = (0..3).map(|i| 1 + (4 * index + i) % others);
    let picked = std::iter::once(0).chain(turn).map(|i| TRIALS[i]);
    let edges = (Call::Edges, EDGE_ROOMS[index % EDGE_ROOMS.len()]);
    let (option, room) = EXPLAINED[index % EXPLAINED.len()];
    let explained = [(Call::Second(option), room), (Call::Air(option), room)];
    let turn = index % MENDED.len();
    let repair = mended(file, &mut [0; MOST], &mut [0; NUMBERS]);
    let mends = match repair.units + repair.depth {
        0 => &MENDED[turn..=turn],
        _ => &MENDED,
    };
    let all = picked.chain([edges]).chain(explained);
    let all = all.chain(mends.iter().copied());
    let refusal = check(file).number;
    let written = (index % 3 == 0 || refusal == 1 || refusal == 6)
        .then(|| (Call::Write, ROW_ROOMS[index / 3 % ROW_ROOMS.len()]));
    // A file that is refused is asked about twice, and every third of the others once.
    let asks = match refusal {
        0 => usize::from(index % 3 == 1),
        _ => 2,
    };
    let questions = questions(file, index, 1).into_iter().take(asks);
    let hung = (Call::Wall, WALL_ROOMS[index % WALL_ROOMS.len()]);
    let all = all.chain(written).chain(questions).chain([hung]);
    all.map(|trial| answered(file, trial)).collect()
}

/// Questions about a file: up to so many of a solvable and a reason that it has, and three of which it has one or none.
fn questions(file: &[u8], index: usize, most: usize) -> Vec<(Call, Room)> {
    let mut rng = Rng::named("recorded questions", index as u64);
    let all = asking::questions(file, &mut rng, most);
    let trial = |(turn, question): (usize, Question)| {
        let (option, room) = ASKED[(5 * index + turn) % ASKED.len()];
        let text = |option| Call::AskedText(question, option);
        (option.map_or(Call::Asked(question), text), room)
    };
    all.into_iter().enumerate().map(trial).collect()
}

/// Files with reasons, and questions about them.
fn asked() -> Vec<Recorded> {
    let of = |&(shape, seeds): &(&'static str, u64)| (0..seeds).map(move |seed| (shape, seed));
    let make = |(shape, seed)| {
        let file = generate::file(shape, seed).expect("a name of the list");
        (shape, seed, file)
    };
    let families = FAMILIES.iter().flat_map(of).map(make);
    let shapes = generate::recorded().step_by(ABOUT);
    let others = shapes.map(|shape| {
        let (seed, file) = chosen(shape).swap_remove(0);
        (shape, seed, file)
    });
    let small = others.filter(|(_, _, file)| file.len() <= 1_500 && check(file).number == 0);
    let mut all = Vec::new();
    for (index, (shape, seed, file)) in families.chain(small).enumerate() {
        let file = asking::with_reasons(file, &mut Rng::named("recorded reasons", seed));
        let questions = questions(&file, index, 6);
        // Three are about what the file does not have.
        if questions.len() == 3 {
            continue;
        }
        let calls = questions.into_iter().map(|trial| answered(&file, trial));
        all.push(Recorded {
            shape,
            seed,
            calls: calls.collect(),
            file,
        });
    }
    all
}

/// Texts of the wall display: those of small files, as they are and with one byte changed; small ones, most of them bad; those at and
/// past each limit.
fn texts() -> Vec<Recorded> {
    let mut all: Vec<Vec<u8>> = Vec::new();
    for shape in generate::recorded().step_by(TEXTS) {
        let (seed, file) = chosen(shape).swap_remove(0);
        let text = wall::chart(&file).map_or(Vec::new(), |chart| chart.text());
        if text.is_empty() || text.len() > 1_500 {
            continue;
        }
        let mut rng = Rng::named("recorded texts", seed);
        let mut changed = text.clone();
        changed[rng.below(text.len())] = *rng.pick(b"\n #0x");
        all.extend([text, changed]);
    }
    all.extend(SMALL_TEXTS.map(<[u8]>::to_vec));
    for (nodes, edges, label) in [
        (NODES, EDGES, 1),
        (NODES, 3, LABEL),
        (NODES + 1, 0, 1),
        (1, EDGES + 1, 1),
        (2, 2, LABEL + 1),
        (11, 30, 7),
    ] {
        let edge = |n: usize| Line {
            source: n % nodes,
            target: 7 * n % nodes,
            label: "e".repeat(label),
        };
        let chart = Chart {
            nodes: vec!["n".repeat(label); nodes],
            edges: (0..edges).map(edge).collect(),
        };
        all.push(chart.text());
    }
    let recorded = |(index, file): (usize, Vec<u8>)| {
        let turns = (0..3).map(|i| READ[(index + i) % READ.len()]);
        Recorded {
            shape: "texts",
            seed: index as u64,
            calls: turns.map(|trial| answered(&file, trial)).collect(),
            file,
        }
    };
    all.into_iter().enumerate().map(recorded).collect()
}

const SMALL_TEXTS: [&[u8]; 20] = [
    b"",
    b"#\n",
    b"0 a\n",
    b"0 a\n#",
    b"0 a\n#\n",
    b"1 a\n#\n",
    b"00 a\n#\n",
    b"0 \n#\n",
    b"0 a\r\n#\n",
    b"0 a\n2 b\n#\n",
    b"0 a\n\n#\n",
    b"0 a\n# \n",
    b"0 a\x7f\n#\n",
    b"0 a\n#\n0 0 b",
    b"0 a\n#\n0 1 b\n",
    b"0 a\n#\n0 00 b\n",
    b"0 a\n#\n0 0 \n",
    b"0 a\n#\n0 0 b\n\n",
    b"0  a b\n1 #\n#\n1 0 c  d\n0 0 0 0\n",
    b"0 a\n1 b\n#\n1 4294967296 c\n",
];

/// A season over small files, with files of every answer: each stands behind the report of those before it, and every third also
/// behind one that holds anything.
fn seasons(files: &[Recorded]) -> Vec<Recorded> {
    let told = |file: &[u8]| season::told(file, 1, 1, &mut [0; AMPLE]).answer.number;
    let mut small: Vec<&[u8]> = files.iter().map(|one| one.file.as_slice()).collect();
    small.sort_by_key(|file| file.len());
    let mut met = [0; 19];
    small.retain(|file| {
        let number = told(file) as usize;
        met[number] += 1;
        match number {
            0 => file.len() <= 1_500 && met[0] % DONE == 1,
            6..=8 => met[number] == 1,
            10 => false,
            11 => met[number] <= 2 * REFUSED,
            _ => met[number] <= REFUSED,
        }
    });
    Rng::named("recorded season", 0).shuffle(&mut small);
    let mut report = [0; season::NUMBERS];
    let mut all = Vec::new();
    for (index, file) in small.into_iter().enumerate() {
        let mut lent = vec![report];
        if index % 3 == 2 {
            lent.push(anything(&mut Rng::named("recorded reports", index as u64)));
        }
        for report in lent {
            let file = [&bytes(&report), file].concat();
            all.push(Recorded {
                shape: "seasons",
                seed: all.len() as u64,
                calls: season_calls(&file, all.len()),
                file,
            });
        }
        season::season(&mut report, file, 1, 1, &mut [0; AMPLE]);
    }
    all
}

/// A file that is added to the report before it gets the first of [`ADDED`] and two others in turn; every third is also lent
/// with a report of another length. It begins elsewhere then, and is not read.
fn season_calls(file: &[u8], index: usize) -> Vec<[u64; 12]> {
    let others = ADDED.len() - 1;
    let turn = (0..2).map(|i| 1 + (2 * index + i) % others);
    let picked = std::iter::once(0).chain(turn).map(|i| {
        let (edition, option, room) = ADDED[i];
        (edition, option, season::NUMBERS, room)
    });
    let words = OTHERS[index / 3 % OTHERS.len()].min(file.len() / 8);
    let other = (index % 3 == 0).then_some((1, 1, words, Room::Of(60)));
    let call = |(edition, option, words, room)| {
        let call = Call::Season {
            edition,
            option,
            words,
        };
        answered(file, (call, room))
    };
    picked.chain(other).map(call).collect()
}

/// A report that may be lent, also where no season has it: small counts, and at times one that is near its width.
fn anything(rng: &mut Rng) -> [u64; season::NUMBERS] {
    let mut report = [0; season::NUMBERS];
    for number in &mut report {
        *number = rng.next() >> rng.between(33, 63);
    }
    if rng.chance(50) {
        let near = [u64::MAX, u64::MAX - 1, u64::MAX - 40, 1 << 63];
        report[rng.below(season::NUMBERS)] = *rng.pick(&near);
    }
    report[26] = *rng.pick(&[0, 1, 1, 2, u64::MAX]);
    report
}

/// Two reports behind one another, and some that are longer.
fn pairs() -> Vec<Recorded> {
    let make = |seed: u64| {
        let mut rng = Rng::named("recorded pairs", seed);
        let (mut first, mut second) = (anything(&mut rng), anything(&mut rng));
        let none = [0; season::NUMBERS];
        let (turn, more) = (seed as usize / 12, seed / 6 % 2);
        match seed % 6 {
            0 => first = none,
            1 => second = none,
            // A count at its width, and one past it; so the files, and the file number.
            2 => {
                (first, second) = (none, none);
                let at = [0, 9, 19, 23][turn % 4];
                (first[at], second[at]) = (u64::MAX - 5, 5 + more);
            }
            3 => {
                (first, second) = (none, none);
                (first[turn], second[10 + turn]) = (1 << 63, (1 << 63) - 1 + more);
            }
            4 => {
                (first, second) = (none, none);
                (first[0], first[7]) = (1 << 63, (1 << 63) - 3);
                second[24..].copy_from_slice(&[u64::MAX, 2 + more, 1]);
            }
            _ => {}
        }
        let mut file = bytes(&[first, second].concat());
        if seed % 12 == 11 {
            file.resize(2 * 8 * 64, 1);
        }
        let other = JOINED[seed as usize % JOINED.len()];
        let longer: &[(usize, usize)] = match seed % 12 {
            11 => &[(27, 64), (64, 27), (64, 64)],
            _ => &[],
        };
        let lengths = [(season::NUMBERS, season::NUMBERS), other].into_iter();
        let lengths = lengths.chain(longer.iter().copied());
        let trials = lengths.map(|(one, two)| (Call::Join(one, two), Room::Of(0)));
        Recorded {
            shape: "reports",
            seed,
            calls: trials.map(|trial| answered(&file, trial)).collect(),
            file,
        }
    };
    (0..PAIRS).map(make).collect()
}

fn bytes(words: &[u64]) -> Vec<u8> {
    words.iter().flat_map(|word| word.to_le_bytes()).collect()
}

/// A report of so many words, and what stands behind it.
fn lent(file: &[u8], words: usize) -> (Vec<u64>, &[u8]) {
    let (report, rest) = file.split_at(8 * words);
    let word = |bytes: &[u8]| u64::from_le_bytes(bytes.try_into().expect("eight bytes"));
    (report.chunks(8).map(word).collect(), rest)
}

/// Words as digits of a checksum: the low half, then the high one.
fn halves(words: &[u64]) -> Vec<u64> {
    let of = |&word: &u64| [word & u64::from(u32::MAX), word >> 32];
    words.iter().flat_map(of).collect()
}

/// The rows of small files in any order.
fn rows() -> Vec<Recorded> {
    let mut all = Vec::new();
    let shapes: Vec<&str> = generate::recorded().collect();
    let step = shapes.len() / MIXED;
    for (index, shape) in shapes.into_iter().step_by(step).enumerate() {
        let (seed, file) = chosen(shape).swap_remove(0);
        if file.len() > 1_500 {
            continue;
        }
        let mut rows: Vec<&[u8]> = file.chunks(crate::reader::RECORD).collect();
        Rng::named("rows", seed).shuffle(&mut rows);
        let file = rows.concat();
        let rooms = [ROW_ROOMS[index % 2], ROW_ROOMS[2]];
        let calls = rooms.map(|room| answered(&file, (Call::Write, room)));
        all.push(Recorded {
            shape: "rows",
            seed,
            calls: calls.to_vec(),
            file,
        });
    }
    all
}

/// Settings files: none set, one set, each refusal, several, the last of a setting twice, and the sizes around the largest.
fn settings_files() -> Vec<Vec<u8>> {
    let record = |&[version, setting, low, high, last]: &[u8; 5]| {
        let mut record = [0; RECORD];
        record[..4].copy_from_slice(&[version, setting, low, high]);
        record[RECORD - 1] = last;
        record
    };
    let of = |records: &[[u8; 5]]| records.iter().flat_map(record).collect::<Vec<u8>>();
    let mut files = vec![
        of(&[]),
        of(&[[1, 1, 0, 0, 0]]),
        of(&[[1, 2, 0, 0, 0]]),
        of(&[[2, 3, 2, 0, 0]]),
        of(&[[2, 1, 0, 0, 0]]),
        of(&[[1, 3, 1, 0, 0]]),
        of(&[[2, 3, 0, 0, 0]]),
        of(&[[0, 1, 0, 0, 0]]),
        of(&[[3, 9, 9, 9, 9]]),
        of(&[[1, 0, 0, 0, 0]]),
        of(&[[1, 1, 2, 0, 0]]),
        of(&[[1, 1, 0, 1, 0]]),
        of(&[[1, 2, 1, 0, 1]]),
        of(&[[1, 1, 0, 0, 0], [1, 1, 1, 0, 0]]),
        of(&[[1, 1, 0, 0, 0], [255, 4, 0, 0, 0]]),
        of(&[
            [1, 1, 0, 0, 0],
            [2, 3, 2, 0, 0],
            [1, 2, 0, 0, 0],
            [2, 3, 1, 0, 0],
        ]),
        of(&[[1, 2, 0, 0, 0], [1, 2, 1, 0, 0], [1, 4, 0, 0, 0]]),
        vec![1; RECORD - 1],
        vec![1; RECORD + 1],
    ];
    for more in [0, 1, 2] {
        let records = LARGEST_SETTINGS / RECORD - 1 + more;
        files.push(of(&vec![[1, 2, 0, 0, 0]; records]));
    }
    files
}

/// Every settings file is read by both versions, some by one that does not exist, and changed three times.
fn settings_calls(file: &[u8], index: usize) -> Vec<[u64; 12]> {
    let other = [0, 3, u64::MAX][index % 3];
    let readers = [1, 2, other];
    let reads = readers[..2 + usize::from(index % 2 == 0)].iter();
    let reads = reads.map(|&version| (Call::Held(version), Room::Of(0)));
    let changes = (0..3).map(|i| {
        let (version, setting, content, room) = CHANGES[(3 * index + i) % CHANGES.len()];
        (Call::Change(version, setting, content), room)
    });
    reads
        .chain(changes)
        .map(|trial| answered(file, trial))
        .collect()
}

fn answered(file: &[u8], (call, room): (Call, Room)) -> [u64; 12] {
    let size = match room {
        Room::Of(size) => size,
        Room::Exact => needed(file, call),
        Room::OneShort => needed(file, call).saturating_sub(1),
        Room::Half => needed(file, call) / 2,
        Room::Behind(more) => file.len() + more,
    };
    let (number, option, answer, sum) = match call {
        Call::Check => (0, 0, check(file), sum(&[])),
        Call::Explain(option) => in_room(1, option, size, |room| explain(file, option, room)),
        Call::Plain => in_room(2, 0, size, |room| explain_plain(file, room)),
        Call::Graph(option) => in_room(3, option, size, |room| graphviz(file, option, room)),
        Call::Nodes => {
            let mut list = vec![blank(); size];
            let answer = nodes(file, &mut list);
            (4, 0, answer, sum(&fields(&list)))
        }
        Call::Edges => {
            let mut list = vec![PAIR; size];
            let answer = edges(file, &mut list);
            let numbers: Vec<u64> = list.into_iter().map(u64::from).collect();
            (5, 0, answer, sum(&numbers))
        }
        Call::Second(option) => in_room(6, option, size, |room| {
            explain_edition(file, 2, option, room)
        }),
        Call::Air(option) => in_room(7, option, size, |room| explain_air(file, option, room)),
        Call::Mend => in_room(8, 0, size, |room| mended(file, room, &mut [PAIR; NUMBERS])),
        Call::Replaced => {
            let mut list = vec![PAIR; size];
            let answer = mended(file, &mut [FILL; MOST], &mut list);
            let numbers: Vec<u64> = list.into_iter().map(u64::from).collect();
            (9, 0, answer, sum(&numbers))
        }
        Call::Write => in_room(12, 0, size, |room| write(file, room)),
        Call::Asked(question) => {
            let mut list = vec![blank(); size];
            let Question { solvable, reason } = question;
            let answer = what_if(file, solvable, reason, &mut list);
            (13, 0, answer, sum(&fields(&list)))
        }
        Call::AskedText(question, option) => in_room(14, option, size, |room| {
            what_if_explain(file, question.solvable, question.reason, option, room)
        }),
        Call::Wall => in_room(15, 0, size, |room| tgf(file, room)),
        Call::WallNodes => {
            let mut list = vec![WIDE; size];
            let answer = read_back(file, &mut list, &mut [WIDE; EDGE_NUMBERS]);
            let numbers: Vec<u64> = list.into_iter().map(u64::from).collect();
            (16, 0, answer, sum(&numbers))
        }
        Call::WallEdges => {
            let mut list = vec![WIDE; size];
            let answer = read_back(file, &mut [WIDE; NODE_NUMBERS], &mut list);
            let numbers: Vec<u64> = list.into_iter().map(u64::from).collect();
            (17, 0, answer, sum(&numbers))
        }
        Call::Season {
            edition,
            option,
            words,
        } => {
            let (mut report, file) = lent(file, words);
            let mut room = vec![FILL; size];
            let answer = season::season(&mut report, file, edition, option, &mut room);
            let room = room.into_iter().map(u64::from);
            let digits: Vec<u64> = room.chain(halves(&report)).collect();
            (18, option, answer, sum(&digits))
        }
        Call::Join(one, two) => {
            let (mut report, rest) = lent(file, one);
            let (second, _) = lent(rest, two);
            let answer = season::join(&mut report, &second);
            (19, 0, answer, sum(&halves(&report)))
        }
        Call::Held(version) => (10, version, held(file, version), sum(&[])),
        Call::Change(version, setting, content) => in_room(11, version, size, |room| {
            room[..file.len()].copy_from_slice(file);
            settings::settings_set(room, file.len() as u64, version, setting, content)
        }),
    };
    let [first, second] = match call {
        Call::Change(_, setting, content) => [setting, content],
        Call::Asked(question) | Call::AskedText(question, _) => {
            [question.solvable, question.reason]
        }
        Call::Season { edition, words, .. } => [edition, words as u64],
        Call::Join(one, two) => [one as u64, two as u64],
        _ => [0, 0],
    };
    let Answer {
        number: refusal,
        place,
        bytes,
        units,
        depth,
    } = answer;
    [
        CALL,
        number,
        option,
        size as u64,
        refusal,
        place,
        bytes,
        units,
        depth,
        sum,
        first,
        second,
    ]
}

fn in_room(
    number: u64,
    option: u64,
    size: usize,
    call: impl FnOnce(&mut [u8]) -> Answer,
) -> (u64, u64, Answer, u64) {
    let mut room = vec![FILL; size];
    let answer = call(&mut room);
    let bytes: Vec<u64> = room.into_iter().map(u64::from).collect();
    (number, option, answer, sum(&bytes))
}

fn mended(file: &[u8], room: &mut [u8], list: &mut [u16]) -> Answer {
    let salvaged = salvage(file, room, list);
    Answer {
        number: salvaged.number,
        place: salvaged.place,
        bytes: salvaged.bytes,
        units: salvaged.replaced,
        depth: salvaged.dropped,
    }
}

fn held(file: &[u8], version: u64) -> Answer {
    let found = settings::settings_read(file, version);
    Answer {
        number: found.number,
        place: found.place,
        bytes: found.indent,
        units: found.simplify,
        depth: found.edition,
    }
}

fn read_back(text: &[u8], nodes: &mut [u32], edges: &mut [u32]) -> Answer {
    let read = tgf_read(text, nodes, edges);
    Answer {
        number: read.number,
        place: read.place,
        bytes: 0,
        units: read.nodes,
        depth: read.edges,
    }
}

/// The bytes that a call writes into the largest room, the entries of a node list, or the numbers of another list.
fn needed(file: &[u8], call: Call) -> usize {
    let mut room = vec![0; MOST];
    let answer = match call {
        Call::Check | Call::Held(_) | Call::Join(..) => return 0,
        Call::Season {
            edition,
            option,
            words,
        } => season::told(lent(file, words).1, edition, option, &mut room).answer,
        Call::Change(..) => return file.len() + RECORD,
        Call::Write => write(file, &mut room),
        Call::Explain(option) => explain(file, option, &mut room),
        Call::Plain => explain_plain(file, &mut room),
        Call::Graph(option) => graphviz(file, option, &mut room),
        Call::Second(option) => explain_edition(file, 2, option, &mut room),
        Call::Air(option) => explain_air(file, option, &mut room),
        Call::Mend => mended(file, &mut room, &mut [0; NUMBERS]),
        Call::Replaced => return mended(file, &mut room, &mut [0; NUMBERS]).units as usize,
        Call::AskedText(question, option) => {
            let Question { solvable, reason } = question;
            what_if_explain(file, solvable, reason, option, &mut room)
        }
        Call::Asked(Question { solvable, reason }) => {
            // The list is whole where it is long enough.
            let mut list = vec![blank(); NODES];
            what_if(file, solvable, reason, &mut list);
            return list.iter().take_while(|node| **node != blank()).count();
        }
        Call::Wall => tgf(file, &mut room),
        Call::WallNodes => return wall::read(file).map_or(0, |found| 2 * found.nodes.len()),
        Call::WallEdges => return wall::read(file).map_or(0, |found| 4 * found.edges.len()),
        Call::Nodes => {
            let problem = Problem::read(file).ok();
            return problem.map_or(0, |p| p.model().map_or(0, |m| m.nodes().len()));
        }
        Call::Edges => {
            let problem = Problem::read(file).ok();
            return problem.map_or(0, |p| p.edges().map_or(0, |edges| 5 * edges.len()));
        }
    };
    answer.bytes as usize
}

/// An entry before the call. The program that replays this holds an entry in one word, where a kind and a group have eight bits.
fn blank() -> Node {
    Node {
        kind: u16::from(FILL),
        number: PAIR,
        group: u16::from(FILL),
        installable: FILL,
        missing: FILL,
        clause: PAIR,
    }
}

fn fields(list: &[Node]) -> Vec<u64> {
    let of = |n: &Node| {
        [
            n.kind,
            n.number,
            n.group,
            n.installable.into(),
            n.missing.into(),
            n.clause,
        ]
    };
    list.iter().flat_map(of).map(u64::from).collect()
}

/// A polynomial in 1,021 modulo the largest prime below 2^54. A byte, a field of an entry (the clause last), a number of
/// another list or half a word of a report is one digit.
fn sum(digits: &[u64]) -> u64 {
    let next = |sum: u64, digit: &u64| (1021 * sum + digit + 1) % 18_014_398_509_481_951;
    digits.iter().fold(0, next)
}

fn file_head(one: &Recorded) -> [u64; 12] {
    let mut head = [
        FILE,
        one.file.len() as u64,
        one.seed,
        one.calls.len() as u64,
        one.shape.len() as u64,
        0,
        0,
        0,
        0,
        0,
        0,
        0,
    ];
    for (i, byte) in one.shape.bytes().enumerate() {
        head[5 + i / 8] |= u64::from(byte) << (8 * (i % 8));
    }
    head
}

fn put(out: &mut Vec<u8>, head: &[u64; 12]) {
    head.iter()
        .for_each(|n| out.extend_from_slice(&n.to_le_bytes()));
}
