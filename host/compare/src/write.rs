//! The writer on both sides: rows as they come, mixed, damaged and too many; and what becomes of a file that was written.

use crate::calls::{filled, AMPLE};
use crate::{hand_made, report, Tally};
use oracle::draft::{record, Draft, DraftClause};
use oracle::generate::{self, damage, limits};
use oracle::reader::{self, kind, RECORD};
use oracle::rng::Rng;

/// The room that is lent for rows, and the bytes that stand there before.
#[derive(Clone, Copy, Debug)]
pub struct Lent {
    room: usize,
    fill: u64,
}

impl Lent {
    /// The answer's number, or what differs.
    pub fn run(&self, rows: &[u8]) -> Result<u64, String> {
        let mut theirs = filled(self.room, self.fill);
        let before = theirs.clone();
        let mut ours = theirs.clone();
        let a = oracle::write(rows, &mut theirs);
        let b = urzulempa::write(rows, &mut ours);
        let a = (a.number, a.place, a.bytes, a.units, a.depth);
        let b = (b.number, b.place, b.bytes, b.units, b.depth);
        if a.0 != 0 && theirs != before {
            return Err("the model writes where it refuses".into());
        }
        if a == b && theirs == ours {
            return Ok(a.0);
        }
        let byte = theirs.iter().zip(&ours).position(|(x, y)| x != y);
        Err(format!("number, place, bytes, units, depth: model {a:?}, port {b:?}; first byte that differs: {byte:?}"))
    }
}

/// Rooms of no length, as long as is needed, one short, longer, and of any length.
fn lents(rows: &[u8], rng: &mut Rng) -> Vec<Lent> {
    let exact = rows.len().min(1 << 16);
    [exact, exact.saturating_sub(1), exact + rng.between(1, 70), 0, rng.below(exact + 40)].map(|room| Lent { room, fill: rng.next() }).to_vec()
}

/// The table of a row: kinds 1 to 8, and all others as one.
fn table(row: &[u8]) -> usize {
    match row[0] {
        k @ 1..=8 => usize::from(k) - 1,
        _ => 8,
    }
}

/// Rows of a file with its tables mixed, each in its own order, all clauses being one.
pub fn mixed(file: &[u8], rng: &mut Rng) -> Vec<u8> {
    let mut queues: [Vec<&[u8]>; 9] = Default::default();
    // From the end, so that the first is taken by `pop`.
    file.chunks_exact(RECORD).rev().for_each(|row| queues[table(row)].push(row));
    let mut rows = Vec::with_capacity(file.len());
    while queues.iter().any(|queue| !queue.is_empty()) {
        let queue = &mut queues[rng.below(9)];
        for _ in 0..rng.between(1, 4) {
            queue.pop().into_iter().for_each(|row| rows.extend_from_slice(row));
        }
    }
    rows
}

/// Rows with any number in field a where it is not looked at.
fn unnumbered(mut rows: Vec<u8>, rng: &mut Rng) -> Vec<u8> {
    for row in rows.chunks_exact_mut(RECORD).filter(|row| matches!(row[0], 1..=4 | 6 | 7)) {
        row[2..4].copy_from_slice(&(rng.next() as u16).to_le_bytes());
    }
    rows
}

/// What order 1 says of an accepted file, as it stands and mixed: `answers` counts what was compared.
pub fn outcome(file: &[u8], seed: u64, answers: &mut u64) -> Result<(), String> {
    let Ok(tables) = reader::read(file) else { return Ok(()) };
    // Table 8 is a map by variable there, so that its order does not count.
    let tables = format!("{tables:?}");
    let mut rng = Rng::new(seed);
    let rows = mixed(file, &mut rng);
    let unnumbered = unnumbered(rows.clone(), &mut rng);
    let ours = |rows: &[u8]| urzulempa::written(rows).map_err(|refusal| format!("an accepted file gets {refusal:?} as rows"));
    let file_again = ours(file)?;
    for (rows, said) in [(&rows, "mixed"), (&unnumbered, "mixed and without own numbers"), (&file_again, "written")] {
        if ours(rows)? != file_again {
            return Err(format!("{said}, the rows give another file"));
        }
    }
    match reader::read(&file_again) {
        Ok(again) if format!("{again:?}") == tables => {}
        Ok(_) => return Err("what was written has other tables".into()),
        Err(refusal) => return Err(format!("what was written gets {refusal:?}")),
    }
    let group = |row: &[u8]| if row[0] == 8 { (9, reader_a(row)) } else { (row[0].min(8), 0) };
    let groups: Vec<_> = file.chunks_exact(RECORD).map(group).collect();
    if groups.windows(2).all(|two| two[0] <= two[1]) && file_again != file {
        return Err("a file in order does not come back byte for byte".into());
    }
    if file_again != file {
        *answers += same_on_both_sides(file, &file_again)?;
    }
    Ok(())
}

fn reader_a(row: &[u8]) -> u16 {
    u16::from_le_bytes([row[2], row[3]])
}

/// Explanation, graph text and nodes of a file, each on one side, have to be those of the file that was written from it.
fn same_on_both_sides(file: &[u8], again: &[u8]) -> Result<u64, String> {
    let differs = |what: &str, side: &str| Err(format!("what was written has {what} on the side of {side}"));
    let (mut a, mut b) = (vec![0; AMPLE], vec![0; AMPLE]);
    for option in [0, 1] {
        if oracle::explain(file, option, &mut a) != oracle::explain(again, option, &mut b) || a != b {
            return differs("another explanation", "conflict.rs");
        }
        if oracle::graphviz(file, option, &mut a) != oracle::graphviz(again, option, &mut b) || a != b {
            return differs("another graph text", "conflict.rs");
        }
        if urzulempa::explain(file, option, &mut a) != urzulempa::explain(again, option, &mut b) || a != b {
            return differs("another explanation", "the port");
        }
        if urzulempa::graphviz(file, option, &mut a) != urzulempa::graphviz(again, option, &mut b) || a != b {
            return differs("another graph text", "the port");
        }
    }
    let (mut a, mut b) = ([oracle::Node::default(); 128], [oracle::Node::default(); 128]);
    if oracle::nodes(file, &mut a) != oracle::nodes(again, &mut b) || a != b {
        return differs("other nodes", "conflict.rs");
    }
    let (mut a, mut b) = ([urzulempa::Node::default(); 128], [urzulempa::Node::default(); 128]);
    if urzulempa::nodes(file, &mut a) != urzulempa::nodes(again, &mut b) || a != b {
        return differs("other nodes", "the port");
    }
    Ok(10)
}

/// Rows that most likely are refused: of a file as power leaves it, with rows of other kinds, twice the same, in any order.
fn damaged(rows: &[u8], rng: &mut Rng) -> Vec<u8> {
    let mut rows = rows.to_vec();
    for _ in 0..rng.between(1, 3) {
        let (count, any) = (rows.len() / RECORD, rng.next() as u8);
        match rng.below(8) {
            0 => damage::damage(&mut rows, rng),
            1 => rows.truncate(rng.below(rows.len() + 1)),
            2 => rows.extend((0..rng.between(1, 40)).map(|_| rng.next() as u8)),
            _ if count == 0 => {}
            // A kind of any number, most of which do not exist.
            3 => rows[rng.below(count) * RECORD] = *rng.pick(&[0, 9, 15, 26, 255, any]),
            4 => {
                let row = rows[rng.below(count) * RECORD..][..RECORD].to_vec();
                let at = rng.below(count + 1) * RECORD;
                rows.splice(at..at, row);
            }
            5 => {
                let (one, other) = (rng.below(count) * RECORD, rng.below(count) * RECORD);
                (0..RECORD).for_each(|k| rows.swap(one + k, other + k));
            }
            6 => {
                let row = rng.below(count) * RECORD;
                rows[row + rng.below(RECORD)] = *rng.pick(&[0, 1, 2, 31, 127, any]);
            }
            _ => {
                let row = rng.below(count) * RECORD;
                rows.drain(row..row + RECORD);
            }
        }
    }
    rows
}

/// Every table full: more records than a file's bytes hold, and none of them bad.
fn full() -> Draft {
    let texts = |count: usize| (0..count).map(|i| i.to_string());
    let named: Vec<(u16, String)> = texts(256).map(|text| (0, text)).collect();
    Draft {
        names: texts(128).collect(),
        solvables: named.clone(),
        version_sets: named,
        requirements: texts(256).collect(),
        candidates: (0..1_024).map(|i| (i % 256, 255 - i % 256)).collect(),
        reasons: texts(64).collect(),
        variables: vec![(5, 0); 1_024],
        clauses: vec![DraftClause { kind: kind::INSTALL_ROOT, core: false, fields: [0; 3] }; 1_024],
        assigned: (0..1_024).map(|i| (1_023 - i, i)).collect(),
    }
}

/// Rows that are made in full: lengths around whole rows, every table one under, at and one over its limit, files of 65,536 bytes
/// and a record more, all tables full, every kind that does not exist, up to 200,000 rows.
fn exhaustive(rng: &mut Rng) -> Vec<(String, Vec<u8>)> {
    let mut all: Vec<(String, Vec<u8>)> = Vec::new();
    let install = record(kind::INSTALL_ROOT, 0, [0; 3], "");
    for length in (0..70).chain([65_535, 65_537, 65_567]) {
        all.push((format!("{length} bytes"), install.iter().copied().cycle().take(length).collect()));
    }
    use limits::Table::{Candidates, Clauses, Names, Reasons, Requirements, Solvables, Variables, VersionSets};
    for table in [Names, Solvables, VersionSets, Requirements, Candidates, Reasons, Variables, Clauses] {
        for count in table.limit() - 1..=table.limit() + 1 {
            let file = limits::holding(table, count);
            all.push((format!("{count} of a table, mixed"), mixed(&file, rng)));
            all.push((format!("{count} of a table"), file));
        }
    }
    for count in [1_023, 1_024] {
        let mut file = limits::assigned_by(count);
        all.push((format!("{count} records 8"), mixed(&file, rng)));
        file.extend(record(kind::ASSIGNED_BY, 0, [count as u16 - 1, 0, 0], ""));
        all.push((format!("{count} records 8, and a second one of the last variable"), mixed(&file, rng)));
    }
    // Of two records 8 of one variable the first that is lent comes first: which of them is bad tells.
    let (variable, bad) = (record(kind::VARIABLE, 0, [0, 5, 0], ""), record(kind::ASSIGNED_BY, 0, [0, 9, 0], ""));
    for (first, second) in [(record(kind::ASSIGNED_BY, 0, [0; 3], ""), bad), (bad, record(kind::ASSIGNED_BY, 0, [0; 3], "")), (bad, bad)] {
        all.push(("two records 8 of one variable".into(), [first, install, second, variable].concat()));
    }
    for length in [65_504, 65_536, 65_568, 65_600] {
        let file = limits::bytes(rng, length);
        all.push((format!("{length} bytes of sound records, mixed"), mixed(&file, rng)));
    }
    let full = full().file();
    all.push(("every table full".into(), mixed(&full, rng)));
    for row in
        [record(kind::NAME, 0, [0; 3], "one more"), record(kind::ASSIGNED_BY, 0, [9, 9, 0], ""), record(99, 0, [0; 3], ""), record(kind::LOCK, 1, [0; 3], "")]
    {
        all.push((format!("every table full and a row of kind {}", row[0]), [&row[..], &full].concat()));
    }
    for unknown in (0..=255).filter(|k| !(1..=8).contains(k) && !(16..=25).contains(k)) {
        let file = oracle::samples::replay();
        let row = record(unknown, 0, [0; 3], "");
        let at = rng.below(file.len() / RECORD + 1) * RECORD;
        all.push((format!("a row of kind {unknown}"), [&file[..at], &row, &file[at..]].concat()));
    }
    let names = [record(kind::NAME, 0, [0; 3], "deck"), record(kind::VARIABLE, 0, [0; 3], "")].concat();
    for count in [2_048, 2_049, 5_057, 65_535, 65_536, 65_537, 131_072, 200_000] {
        for row in [
            install,
            record(kind::NAME, 0, [0; 3], "x"),
            record(kind::CANDIDATE, 0, [0; 3], ""),
            record(kind::ASSIGNED_BY, 0, [0; 3], ""),
            record(200, 0, [0; 3], ""),
            [0; RECORD],
        ] {
            all.push((format!("{count} rows of kind {} and two others", row[0]), [&row.repeat(count - 2), &names[..]].concat()));
        }
        let noise = (0..count * RECORD).map(|at| if at % RECORD == 0 { *rng.pick(&[1, 2, 3, 4, 5, 6, 7, 8, 16, 19, 25]) } else { 0 }).collect();
        all.push((format!("{count} rows of all kinds"), noise));
    }
    all
}

impl Tally {
    /// Rows in at most so many of the lent rooms; a difference is reported.
    fn rows_differ(&mut self, whence: &str, rows: &[u8], rng: &mut Rng, most: usize) -> bool {
        let mut lents = lents(rows, rng);
        while lents.len() > most {
            lents.swap_remove(rng.below(lents.len()));
        }
        lents.into_iter().any(|lent| match lent.run(rows) {
            Ok(number) => {
                self.count(number);
                false
            }
            Err(_) => {
                report(whence, rows, &lent, |rows| lent.run(rows).err());
                true
            }
        })
    }

    /// A file as rows, as it stands, mixed and damaged, and what becomes of it; in at most so many rooms each.
    pub fn writes_differ(&mut self, whence: &str, file: &[u8], rng: &mut Rng, most: usize) -> bool {
        let rows = mixed(file, rng);
        let bad = damaged(&rows, rng);
        let seed = rng.next();
        for (rows, said) in [(file, ""), (&rows, ", mixed"), (&bad, ", mixed and damaged")] {
            if self.rows_differ(&format!("write: {whence}{said}"), rows, rng, most) {
                return true;
            }
        }
        match outcome(file, seed, &mut self.answers) {
            Ok(()) => false,
            Err(_) => {
                report(&format!("write: {whence}"), file, &"what was written", |f| outcome(f, seed, &mut 0).err());
                true
            }
        }
    }
}

/// The writer alone; true if a difference was found.
pub fn writes(n: u64, seed: u64) -> bool {
    let mut tally = Tally::default();
    let mut rng = Rng::new(seed);
    let made = exhaustive(&mut rng);
    let count = made.len();
    for (whence, rows) in made {
        if tally.rows_differ(&whence, &rows, &mut rng, usize::MAX) {
            return true;
        }
    }
    let generated = (0..n).filter_map(|index| {
        let (shape, shape_seed) = generate::pick(index, seed);
        Some((format!("shape {shape} seed {shape_seed}"), generate::file(shape, shape_seed)?))
    });
    let made_by_hand = hand_made().into_iter().chain([("every kind".to_string(), crate::calls::every_kind())]);
    for (whence, file) in made_by_hand.chain(generated) {
        if tally.writes_differ(&whence, &file, &mut rng, usize::MAX) {
            return true;
        }
    }
    println!("compare: {count} lists of rows made in full, {n} generated files as they stand, mixed and damaged, {} answers compared, 0 differences; answers by number: {}", tally.answers, tally.seen());
    false
}
