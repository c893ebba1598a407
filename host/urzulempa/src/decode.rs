//! What a record says, for a person, and what is wrong with it: used where a refusal points at one.
//!
//! Every function takes any bytes; where they don't hold what is asked for, the answer is none. Words may change with a release.
//!
//! ```
//! use urzulempa::{check, decode};
//!
//! // A candidate of a solvable that the file does not have.
//! let mut file = include_bytes!("../../../samples/replay.rec").to_vec();
//! file[32 * 5 + 4] = 9;
//! let refusal = check(&file).refusal().expect("refused");
//! let record = refusal.record().expect("4 points at a record");
//! assert_eq!(decode::describe(&file, record).as_deref(), Some("candidate: requirement 0, solvable 9"));
//! let fault = decode::fault(&file, refusal.number(), record);
//! assert_eq!(fault.as_deref(), Some("solvable 9 is not defined yet; 2 solvables are"));
//! assert_eq!(decode::solvable(&file, 1).as_deref(), Some("replay 1"));
//! ```

const ORIGINS: [&str; 6] = ["the root", "a solvable", "a forbid-multiple", "a requires gate", "a constrains auxiliary", "other"];

/// The fields of a record.
struct Record<'a> {
    bytes: &'a [u8],
}

impl<'a> Record<'a> {
    fn at(file: &'a [u8], number: u64) -> Option<Self> {
        let at = usize::try_from(number).ok()?.checked_mul(32)?;
        Some(Record { bytes: file.get(at..at.checked_add(32)?)? })
    }

    fn kind(&self) -> u8 {
        self.bytes[0]
    }

    fn first(&self) -> u8 {
        self.bytes[1]
    }

    /// Fields a, b and c.
    fn fields(&self) -> [u16; 3] {
        [2, 4, 6].map(|k| u16::from_le_bytes([self.bytes[k], self.bytes[k + 1]]))
    }

    fn text(&self) -> String {
        let length = usize::from(self.first()).min(24);
        self.bytes[8..8 + length].iter().map(|&x| if (32..=126).contains(&x) { char::from(x) } else { '?' }).collect()
    }
}

/// The records of a kind, in file order.
fn of_kind(file: &[u8], kind: u8) -> impl Iterator<Item = Record<'_>> {
    file.chunks_exact(32).map(|bytes| Record { bytes }).filter(move |r| r.kind() == kind)
}

/// The text of the record of a kind with this own number.
fn named(file: &[u8], kind: u8, own: u16) -> Option<Record<'_>> {
    of_kind(file, kind).nth(usize::from(own))
}

/// A solvable as the texts show it: name, space, version.
#[must_use]
pub fn solvable(file: &[u8], number: u16) -> Option<String> {
    let solvable = named(file, 2, number)?;
    let name = named(file, 1, solvable.fields()[1])?;
    Some(format!("{} {}", name.text(), solvable.text()))
}

/// The text of a reason.
#[must_use]
pub fn reason(file: &[u8], number: u16) -> Option<String> {
    named(file, 6, number).map(|r| r.text())
}

/// The name of a solvable's package.
#[must_use]
pub fn package(file: &[u8], number: u16) -> Option<String> {
    named(file, 1, named(file, 2, number)?.fields()[1]).map(|r| r.text())
}

/// How many solvables there are.
#[must_use]
pub fn solvables(file: &[u8]) -> u16 {
    u16::try_from(of_kind(file, 2).count()).unwrap_or(u16::MAX)
}

/// The text of a requirement.
#[must_use]
pub fn requirement(file: &[u8], number: u16) -> Option<String> {
    named(file, 4, number).map(|r| r.text())
}

/// A version set as the texts show it: name, space, text.
#[must_use]
pub fn version_set(file: &[u8], number: u16) -> Option<String> {
    let set = named(file, 3, number)?;
    let name = named(file, 1, set.fields()[1])?;
    Some(format!("{} {}", name.text(), set.text()))
}

/// What a variable stands for.
fn origin(file: &[u8], variable: u16) -> Option<String> {
    let [_, origin, names] = named(file, 7, variable)?.fields();
    let what = *ORIGINS.get(usize::from(origin))?;
    Some(match origin {
        1 => solvable(file, names).map_or_else(|| what.into(), |s| format!("{what}, {s}")),
        _ => what.into(),
    })
}

/// A record in words.
#[must_use]
pub fn describe(file: &[u8], record: u64) -> Option<String> {
    let r = Record::at(file, record)?;
    let [a, b, c] = r.fields();
    let text = || format!("\"{}\"", r.text());
    let core = match r.first() {
        0 => "outside the core",
        1 => "in the core",
        _ => "with a bad core flag",
    };
    Some(match r.kind() {
        1 => format!("name {a}: {}", text()),
        2 => format!("solvable {a}: name {b}, version {}", text()),
        3 => format!("version set {a}: name {b}, {}", text()),
        4 => format!("requirement {a}: {}", text()),
        5 => format!("candidate: requirement {a}, solvable {b}"),
        6 => format!("reason {a}: {}", text()),
        7 => match ORIGINS.get(usize::from(b)) {
            Some(o) => format!("variable {a}: origin {b} ({o}), names {c}"),
            None => format!("variable {a}: origin {b}, which does not exist"),
        },
        8 => format!("assigned-by: variable {a}, clause {b}"),
        16 => format!("InstallRoot, {core}"),
        17 => format!("Excluded(variable {a}, reason {b}), {core}"),
        18 => format!("Learnt, {core}"),
        19 => format!("Requires(variable {a}, requirement {b}), {core}"),
        20 => format!("Lock(variable {a}, variable {b}), {core}"),
        21 => format!("ForbidMultipleInstances(variable {a}, variable {b}), {core}"),
        22 => format!("Constrains(variable {a}, variable {b}, version set {c}), {core}"),
        23 => format!("ConstrainsParent(variable {a}, auxiliary {b}, version set {c}), {core}"),
        24 => format!("ConstrainsExcluded(variable {a}, auxiliary {b}, version set {c}), {core}"),
        25 => format!("AnyOf(variable {a}, variable {b}), {core}"),
        k => format!("kind {k}"),
    })
}

/// Clauses by kind, from 16 on: the name, and what fields a, b and c are.
const CLAUSES: [(&str, [&str; 3]); 10] = [
    ("InstallRoot", [""; 3]),
    ("Excluded", ["excluded", "reason", ""]),
    ("Learnt", [""; 3]),
    ("Requires", ["requirer", "requirement", ""]),
    ("Lock", ["locked", "forbidden", ""]),
    ("ForbidMultipleInstances", ["solvable", "forbid-multiple", ""]),
    ("Constrains", ["constraining", "forbidden", "version set"]),
    ("ConstrainsParent", ["constraining", "auxiliary", "version set"]),
    ("ConstrainsExcluded", ["forbidden", "auxiliary", "version set"]),
    ("AnyOf", ["gate", "requirer", ""]),
];

/// A clause of an accepted file, to be read out: its record with the byte place, and each field with what it names.
#[must_use]
pub fn clause(file: &[u8], clause: u64) -> Option<String> {
    let record = clause_record(file, clause)?;
    let r = Record::at(file, record)?;
    let (name, roles) = CLAUSES.get(usize::from(r.kind()).checked_sub(16)?)?;
    let mut said = Vec::new();
    for ((field, x), role) in meaning(&r).into_iter().zip(r.fields()).zip(roles) {
        said.push(match field {
            Field::Variable(_) => format!("{role} variable {x} ({})", stands_for(file, x)?),
            Field::Of(2) => format!("{role} {x} ({})", version_set(file, x)?),
            Field::Of(3) => format!("{role} {x} ({})", requirement(file, x)?),
            Field::Of(5) => format!("{role} {x} ({})", reason(file, x)?),
            _ => continue,
        });
    }
    let fields = if said.is_empty() { String::new() } else { format!(": {}", said.join(", ")) };
    Some(format!("record {record} (byte {}): {name}{fields}", record * 32))
}

/// What a variable stands for, with the text of what it names.
fn stands_for(file: &[u8], variable: u16) -> Option<String> {
    let [_, origin, names] = named(file, 7, variable)?.fields();
    match origin {
        1 => solvable(file, names),
        2 => named(file, 1, names).map(|r| format!("forbid-multiple of {}", r.text())),
        _ => ORIGINS.get(usize::from(origin)).map(|&what| what.into()),
    }
}

/// What a Lock names: the locked solvable and the one that it forbids.
#[must_use]
pub fn lock(file: &[u8], clause: u64) -> Option<(String, String)> {
    let [locked, forbidden, _] = Record::at(file, clause_record(file, clause)?)?.fields();
    Some((stands_for(file, locked)?, stands_for(file, forbidden)?))
}

/// The tables by kind, clauses last: what a reference names, one and many.
const TABLES: [(&str, &str); 9] = [
    ("name", "names"),
    ("solvable", "solvables"),
    ("version set", "version sets"),
    ("requirement", "requirements"),
    ("candidate", "candidates"),
    ("reason", "reasons"),
    ("variable", "variables"),
    ("assigned-by", "assigned-by"),
    ("clause", "clauses"),
];

/// How many records of each table stand before a record.
fn counts(file: &[u8], record: u64) -> [usize; 9] {
    let mut counts = [0; 9];
    for bytes in file.chunks_exact(32).take(usize::try_from(record).unwrap_or(usize::MAX)) {
        match bytes[0] {
            k @ 1..=8 => counts[usize::from(k) - 1] += 1,
            16..=25 => counts[8] += 1,
            _ => {}
        }
    }
    counts
}

/// What a reference could name at a record.
#[must_use]
pub fn defined(file: &[u8], record: u64) -> String {
    let said: Vec<String> =
        counts(file, record).iter().zip(TABLES).filter(|(n, _)| **n > 0).map(|(n, (one, many))| format!("{n} {}", if *n == 1 { one } else { many })).collect();
    if said.is_empty() {
        "nothing is defined before it".into()
    } else {
        format!("defined before it: {}", said.join(", "))
    }
}

/// What a field of a kind is: its own number, a number of a table, a variable of some origins, or something that is not counted.
enum Field {
    Own,
    Of(usize),
    Variable(&'static [u16]),
    Free,
    Unused,
}

/// Fields a, b and c of a kind; a variable's c goes by its origin.
fn meaning(r: &Record<'_>) -> [Field; 3] {
    use Field::{Free, Of, Own, Unused, Variable};
    const SOLVABLE: &[u16] = &[1];
    const PARENT: &[u16] = &[0, 1];
    match r.kind() {
        1 | 4 | 6 => [Own, Unused, Unused],
        2 | 3 => [Own, Of(0), Unused],
        5 => [Of(3), Of(1), Unused],
        7 => [Own, Free, [Unused, Of(1), Of(0)].into_iter().nth(usize::from(r.fields()[1])).unwrap_or(Unused)],
        8 => [Of(6), Of(8), Unused],
        17 => [Variable(SOLVABLE), Of(5), Unused],
        19 => [Variable(&[0, 1, 3]), Of(3), Unused],
        20 => [Variable(SOLVABLE), Variable(SOLVABLE), Unused],
        21 => [Variable(SOLVABLE), Variable(&[2]), Unused],
        22 => [Variable(PARENT), Variable(SOLVABLE), Of(2)],
        23 => [Variable(PARENT), Variable(&[4]), Of(2)],
        24 => [Variable(SOLVABLE), Variable(&[4]), Of(2)],
        25 => [Variable(&[0, 1, 2, 3, 4, 5]), Variable(&[0, 1, 2, 3, 4, 5]), Unused],
        _ => [Unused, Unused, Unused],
    }
}

/// The byte or field that refusals 3, 4 and 5 mean, as far as it can be told from the record and those before it.
#[must_use]
pub fn fault(file: &[u8], number: u64, record: u64) -> Option<String> {
    let r = Record::at(file, record)?;
    match number {
        3 => shape_fault(&r),
        4 => number_fault(file, record, &r),
        5 => origin_fault(file, &r),
        _ => None,
    }
}

fn shape_fault(r: &Record<'_>) -> Option<String> {
    let texted = matches!(r.kind(), 1 | 2 | 3 | 4 | 6);
    let clause = r.kind() >= 16;
    let first = usize::from(r.first());
    if texted && !(1..=24).contains(&first) {
        return Some(format!("byte 1, the text's length, is {first} and not 1 to 24"));
    }
    if clause && first > 1 {
        return Some(format!("byte 1, the core flag, is {first} and not 0 or 1"));
    }
    if !texted && !clause && first != 0 {
        return Some(format!("byte 1 is {first} and must be 0"));
    }
    let length = if texted { first } else { 0 };
    for (k, &byte) in r.bytes.iter().enumerate().skip(8) {
        if k < 8 + length && !(32..=126).contains(&byte) {
            return Some(format!("byte {k}, of the text, is {byte} and not 32 to 126"));
        }
        if k >= 8 + length && byte != 0 {
            return Some(format!("byte {k}, beyond the text, is {byte} and must be 0"));
        }
    }
    if r.kind() == 7 && r.fields()[1] > 5 {
        return Some(format!("field b, the origin, is {} and not 0 to 5", r.fields()[1]));
    }
    let unused = meaning(r).into_iter().zip(r.fields()).zip(["a", "b", "c"]).find(|((m, x), _)| matches!(m, Field::Unused) && *x != 0);
    unused.map(|((_, x), name)| format!("field {name} is {x} and must be 0"))
}

fn number_fault(file: &[u8], record: u64, r: &Record<'_>) -> Option<String> {
    let counts = counts(file, record);
    for (field, x) in meaning(r).into_iter().zip(r.fields()) {
        match field {
            Field::Own => {
                let next = counts[usize::from(r.kind()) - 1];
                if usize::from(x) != next {
                    return Some(format!("its own number is {x} and should be {next}, the next"));
                }
            }
            Field::Of(_) | Field::Variable(_) => {
                let table = if let Field::Of(table) = field { table } else { 6 };
                let (n, (one, many)) = (counts[table], TABLES[table]);
                if usize::from(x) >= n {
                    return Some(format!("{one} {x} is not defined yet; {n} {} {}", if n == 1 { one } else { many }, if n == 1 { "is" } else { "are" }));
                }
            }
            Field::Free | Field::Unused => {}
        }
    }
    (r.kind() == 8).then(|| format!("variable {} has a record 8 already", r.fields()[0]))
}

fn origin_fault(file: &[u8], r: &Record<'_>) -> Option<String> {
    for ((field, x), name) in meaning(r).into_iter().zip(r.fields()).zip(["a", "b", "c"]) {
        let Field::Variable(allowed) = field else { continue };
        let origin_number = named(file, 7, x).map(|v| v.fields()[1])?;
        if !allowed.contains(&origin_number) {
            let wanted: Vec<&str> = allowed.iter().map(|&o| ORIGINS[usize::from(o)]).collect();
            return Some(format!("field {name}: variable {x} is {}, and {} is wanted there", origin(file, x)?, wanted.join(" or ")));
        }
    }
    None
}

/// Whether a kind is a clause's.
#[must_use]
pub fn is_clause(kind: u8) -> bool {
    (16..=25).contains(&kind)
}

/// How many clauses stand before a record: its own number, if it is one.
#[must_use]
pub fn clauses_before(file: &[u8], record: u64) -> usize {
    counts(file, record)[8]
}

/// The number of the record that holds a clause, counted among all clauses.
#[must_use]
pub fn clause_record(file: &[u8], clause: u64) -> Option<u64> {
    let n = usize::try_from(clause).ok()?;
    let place = file.chunks_exact(32).enumerate().filter(|(_, r)| (16..=25).contains(&r[0])).map(|(i, _)| i).nth(n)?;
    u64::try_from(place).ok()
}

/// The number of the record that defines a solvable.
#[must_use]
pub fn solvable_record(file: &[u8], solvable: u64) -> Option<u64> {
    let n = usize::try_from(solvable).ok()?;
    let place = file.chunks_exact(32).enumerate().filter(|(_, r)| r[0] == 2).map(|(i, _)| i).nth(n)?;
    u64::try_from(place).ok()
}
