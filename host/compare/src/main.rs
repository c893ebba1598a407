//! The port against the oracle: every call, on generated files, with rooms of every kind. Answers, whole rooms and whole lists of
//! nodes, edges, replaced records, labels and counts have to be equal, untouched bytes among them.

mod adapter;
mod calls;
mod salvage;
mod season;
mod settings;
mod shrink;
mod wall;
mod what_if;
mod write;

use calls::{Call, Trial};
use oracle::asking;
use oracle::generate;
use oracle::rng::Rng;
use std::fmt::Debug;
use std::process::ExitCode;

const USAGE: &str = "usage: compare files N SEED   the hand-made files, then N generated ones over all shapes; all calls, all rooms
       compare check N SEED   the same with the call `check` alone
       compare nodes N SEED   the same with the node list alone
       compare edges N SEED   the same with the edge list alone
       compare editions N SEED the same with the explanation by edition alone, in rooms around the ends of more lines
       compare salvage N SEED the repair alone: a small file with every kind of record damaged in full, files around 1,024 clauses,
                              then N generated files, damaged; what is repaired is explained on both sides
       compare write N SEED   the writer alone: every table around its limit, up to 200,000 rows, then N generated files as they
                              stand, mixed and damaged; what is written is explained on both sides
       compare air N SEED     the same with the air profile alone, half of the files near it, in rooms around the ends of more lines
       compare settings N SEED the settings file alone: every one of up to two records over a small alphabet, read and changed in
                              every way, then N random ones
       compare what-if N SEED what if one more package were excluded, alone: N generated files, half of them of shapes most of which
                              have no cycle, each asked about every solvable and reason where it is small; each answer by itself
                              and against conflict.rs on the file with one more clause
       compare wall N SEED    the wall display's text and its reader alone: texts around each limit and a small one damaged at every
                              byte, then N generated files, in rooms around the ends of lines; their texts are read, also damaged
       compare season N SEED  a season's report alone: every count around its width, lists of every length, then N seasons of up to
                              eight generated files by both editions, in rooms of every kind; each added file by file and as a
                              whole, cut and joined, and joined with reports that hold anything
       compare adapter N SEED the files of host/adapter: of N generated graphs that conflict.rs draws, what the port says of the
                              adapter's file against what conflict.rs says of the first, nodes and edges by number
       compare bytes          a small file with every kind of record, each byte set to each value
Status: 0 no difference, 1 a difference, 64 wrong usage, 77 without conflict.rs.";

fn main() -> ExitCode {
    let words: Vec<String> = std::env::args().skip(1).collect();
    let words: Vec<&str> = words.iter().map(String::as_str).collect();
    let job = match words[..] {
        ["files" | "check" | "nodes" | "edges" | "editions" | "air" | "salvage" | "settings" | "write" | "what-if" | "wall" | "season" | "adapter", n, seed] => {
            match (n.parse(), seed.parse()) {
                (Ok(n), Ok(seed)) => Some((n, seed)),
                _ => None,
            }
        }
        ["bytes"] => Some((0, 0)),
        _ => None,
    };
    let Some((n, seed)) = job else {
        eprintln!("{USAGE}");
        return ExitCode::from(64);
    };
    // The settings are no matter of conflict.rs.
    if !oracle::AVAILABLE && words[0] != "settings" {
        println!("compare: skipped: conflict.rs was not there when this was built");
        return ExitCode::from(77);
    }
    let found = match words[0] {
        "bytes" => bytes(),
        "salvage" => salvages(n, seed),
        "settings" => settings::differ(n, seed, true),
        "write" => write::writes(n, seed),
        "what-if" => questions(n, seed),
        "wall" => wall::walls(n, seed),
        "season" => season::differ(n, seed),
        "adapter" => adapter::adapts(n, seed),
        only => files(n, seed, only),
    };
    if found {
        ExitCode::from(1)
    } else {
        ExitCode::SUCCESS
    }
}

/// So many calls a question gets from `compare what-if`, chosen at random.
const CALLS: usize = 12;

/// Around the ends of so many lines of a text rooms are lent by `compare editions` and `compare air`.
const LINE_ENDS: usize = 8;

const CHECK: Trial = Trial { call: Call::Check, option: 0, room: 0, fill: 0 };

/// Files made by hand: the samples, a group whose members differ in their labels, packages whose fingerprints collide, groups of 5 to
/// 120 packages, texts with quotes and backslashes.
fn hand_made() -> Vec<(String, Vec<u8>)> {
    let others = [("unequal labels", oracle::samples::unequal_labels()), ("equal fingerprints", oracle::samples::equal_fingerprints())];
    let named = oracle::samples::all().into_iter().chain(others).map(|(name, file)| (name.to_string(), file));
    let quotes = oracle::samples::QUOTES.map(|text| (format!("{text} everywhere"), oracle::samples::everywhere(text)));
    named.chain(oracle::samples::groups()).chain(quotes).collect()
}

/// True if a difference was found.
fn files(n: u64, seed: u64, only: &str) -> bool {
    let mut tally = Tally::default();
    for (name, file) in hand_made() {
        if tally.differs(only, &name, &file, &mut Rng::new(seed)) {
            return true;
        }
    }
    if only == "files" && (settings::differ(n / 4, seed, false) || season::differ(n / 8, seed)) {
        return true;
    }
    for index in 0..n {
        let near = only == "air" && index % 2 == 0;
        let (shape, shape_seed) = if near { generate::pick_air(index / 2, seed) } else { generate::pick(index, seed) };
        let Some(file) = generate::file(shape, shape_seed) else { continue };
        let mut rng = Rng::new(shape_seed ^ index.rotate_left(32));
        if tally.differs(only, &format!("shape {shape} seed {shape_seed}"), &file, &mut rng) {
            return true;
        }
    }
    println!(
        "compare: {n} generated files and {} made by hand, {} answers compared, 0 differences; answers by number: {}",
        hand_made().len(),
        tally.answers,
        tally.seen()
    );
    false
}

/// The repair alone; true if a difference was found.
fn salvages(n: u64, seed: u64) -> bool {
    let mut tally = Tally::default();
    let mut rng = Rng::new(seed);
    let made = hand_made().into_iter().chain(salvage::exhaustive(&calls::every_kind(), &mut rng));
    let generated = (0..n).filter_map(|index| {
        let (shape, shape_seed) = generate::pick(index, seed);
        let mut rng = Rng::new(shape_seed ^ index.rotate_left(24));
        let file = salvage::damaged(generate::file(shape, shape_seed)?, &mut rng);
        Some((format!("shape {shape} seed {shape_seed}, damaged"), file))
    });
    for (whence, file) in made.chain(generated) {
        if tally.repairs_differ(&whence, &file, &mut rng, usize::MAX) {
            return true;
        }
    }
    let Tally { answers, tried, repaired, mended, .. } = tally;
    println!("compare: {tried} damaged files, {answers} answers compared, 0 differences; {repaired} were repaired, {mended} of them with replaced records; answers by number: {}", tally.seen());
    false
}

/// Questions alone; true if a difference was found.
fn questions(n: u64, seed: u64) -> bool {
    let mut tally = Tally::default();
    let made = hand_made().into_iter().map(|(name, file)| (name, what_if_made(file)));
    for (index, (whence, file)) in made.chain((0..n).filter_map(|index| asking::file(index, seed))).enumerate() {
        let mut rng = Rng::new(seed ^ (index as u64).rotate_left(16));
        if tally.questions_differ(&whence, &file, &mut rng, asking::ALL, CALLS) {
            return true;
        }
    }
    println!("compare: {n} generated files and {} made by hand, {} answers compared, 0 differences; {}", hand_made().len(), tally.answers, tally.asked);
    println!("compare: answers by number: {}", tally.seen());
    false
}

/// The file with a reason more.
fn what_if_made(file: Vec<u8>) -> Vec<u8> {
    let own = file.chunks_exact(32).filter(|r| r[0] == 6).count() as u16;
    let more = oracle::draft::record(6, 0, [own, 0, 0], "asked");
    [file, more.to_vec()].concat()
}

#[derive(Default)]
struct Tally {
    answers: u64,
    numbers: [u64; 19],
    /// Files that were to be repaired, those that were, and those among them with a replaced record.
    tried: u64,
    repaired: u64,
    mended: u64,
    asked: asking::Tally,
    /// Texts of the wall display that were to be read, and those that were.
    texts: u64,
    read: u64,
}

impl Tally {
    /// How many answers had each number.
    fn seen(&self) -> String {
        let seen = self.numbers.iter().enumerate().filter(|(_, count)| **count > 0);
        seen.map(|(number, count)| format!("{number}: {count}")).collect::<Vec<_>>().join(", ")
    }

    fn count(&mut self, number: u64) {
        self.answers += 1;
        // 18 and above are counted together
        self.numbers[usize::try_from(number).unwrap_or(18).min(18)] += 1;
    }

    /// The repair of a file into at most so many of the lent places, and what becomes of it; a difference is reported.
    fn repairs_differ(&mut self, whence: &str, file: &[u8], rng: &mut Rng, most: usize) -> bool {
        let mut lents = salvage::lents(file, rng);
        while lents.len() > most {
            lents.swap_remove(rng.below(lents.len()));
        }
        for lent in lents {
            match lent.run(file) {
                Ok(number) => self.count(number),
                Err(_) => {
                    report(whence, file, &lent, |f| lent.run(f).err());
                    return true;
                }
            }
        }
        self.tried += 1;
        match salvage::outcome(file) {
            Ok(outcome) => {
                self.answers += outcome.answers;
                self.repaired += u64::from(outcome.repaired.is_some());
                self.mended += u64::from(outcome.repaired.is_some_and(|r| !r.replaced.is_empty()));
                false
            }
            Err(_) => {
                report(whence, file, &"the repaired file", |f| salvage::outcome(f).err());
                true
            }
        }
    }

    /// Questions about a file, every one where those are at most so many, each with at most so many calls; a difference is reported.
    fn questions_differ(&mut self, whence: &str, file: &[u8], rng: &mut Rng, most: usize, calls: usize) -> bool {
        for question in generate::what_if::questions(file, rng, most) {
            match what_if::outcome(file, question) {
                Ok((number, agreed)) => self.asked.count(number, agreed),
                Err(_) => {
                    report(whence, file, &question, |f| what_if::outcome(f, question).err());
                    return true;
                }
            }
            let mut trials = what_if::trials(file, question, rng, LINE_ENDS);
            while trials.len() > calls {
                trials.swap_remove(rng.below(trials.len()));
            }
            for trial in trials {
                match trial.run(file) {
                    Ok(number) => self.count(number),
                    Err(_) => {
                        report(whence, file, &trial, |f| trial.run(f).err());
                        return true;
                    }
                }
            }
        }
        false
    }

    /// All trials of a file, or those of one call; a difference is reported.
    fn differs(&mut self, only: &str, whence: &str, file: &[u8], rng: &mut Rng) -> bool {
        let mut trials = match only {
            "editions" => calls::editions(file, rng, LINE_ENDS),
            "air" => calls::air(file, rng, LINE_ENDS),
            _ => calls::trials(file, rng),
        };
        match only {
            "check" => trials.retain(|t| t.call == Call::Check),
            "nodes" => trials.retain(|t| t.call == Call::Nodes),
            "edges" => trials.retain(|t| t.call == Call::Edges),
            _ => {}
        }
        for trial in trials {
            match trial.run(file) {
                Ok(number) => self.count(number),
                Err(_) => {
                    report(whence, file, &trial, |f| trial.run(f).err());
                    return true;
                }
            }
        }
        // Up to six questions about the file with a few more reasons, and some that it does not know, in three calls each; `compare what-if`
        // takes all.
        if only == "files" {
            let asked = generate::what_if::with_reasons(file.to_vec(), rng);
            if self.questions_differ(&format!("{whence}, with more reasons"), &asked, rng, 6, 3) {
                return true;
            }
        }
        // Three of the lent places for the file and three for a damaged one, two for each of the rows; `compare salvage` and
        // `compare write` take all, and `compare wall` more rooms.
        only == "files" && {
            if wall::differs(self, whence, file, rng, wall::IN_SHORT) {
                return true;
            }
            let damaged = salvage::damaged(file.to_vec(), rng);
            self.repairs_differ(whence, file, rng, 3)
                || self.repairs_differ(&format!("{whence}, damaged"), &damaged, rng, 3)
                || self.writes_differ(whence, file, rng, 2)
        }
    }
}

/// Every byte of a small file that has all kinds, set to each of the 256 values.
fn bytes() -> bool {
    let file = calls::every_kind();
    let mut tried = 0u64;
    let mut damaged = file.clone();
    for at in 0..file.len() {
        for value in 0..=255 {
            damaged[at] = value;
            tried += 1;
            if CHECK.run(&damaged).is_err() {
                report(&format!("byte {at} set to {value}"), &damaged, &CHECK, |f| CHECK.run(f).err());
                return true;
            }
        }
        damaged[at] = file[at];
    }
    println!("compare: {} records of all kinds, {tried} files with one byte set, 0 differences", file.len() / 32);
    false
}

/// Prints the smallest file found that shows a difference, and what it is.
fn report(whence: &str, file: &[u8], tried: &dyn Debug, differs: impl Fn(&[u8]) -> Option<String>) {
    let smallest = shrink::smallest(file, |f| differs(f).is_some());
    println!("compare: 1 difference: {whence}, {tried:?}");
    println!("the smallest file found has {} bytes:", smallest.len());
    for record in smallest.chunks(32) {
        println!("  {}", record.iter().map(|b| format!("{b:02x}")).collect::<Vec<_>>().join(" "));
    }
    if let Some(said) = differs(&smallest) {
        println!("{said}");
    }
}
