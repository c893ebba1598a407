//! The record file of document 01: refusals 1 to 6, and the tables of an accepted file.
//!
//! Written from document 01 alone ("The record file", "Refusal numbers").

use crate::Refusal;

pub const RECORD: usize = 32;
pub const LARGEST_FILE: usize = 65_536;

pub const NAMES: usize = 128;
pub const SOLVABLES: usize = 256;
pub const VERSION_SETS: usize = 256;
pub const REQUIREMENTS: usize = 256;
pub const CANDIDATES: usize = 1_024;
pub const REASONS: usize = 64;
pub const VARIABLES: usize = 1_024;
pub const ASSIGNED_BY: usize = 1_024;
pub const CLAUSES: usize = 1_024;

/// Record kinds: 1 to 8 are tables, 16 to 25 clauses.
pub mod kind {
    pub const NAME: u8 = 1;
    pub const SOLVABLE: u8 = 2;
    pub const VERSION_SET: u8 = 3;
    pub const REQUIREMENT: u8 = 4;
    pub const CANDIDATE: u8 = 5;
    pub const REASON: u8 = 6;
    pub const VARIABLE: u8 = 7;
    pub const ASSIGNED_BY: u8 = 8;
    pub const INSTALL_ROOT: u8 = 16;
    pub const EXCLUDED: u8 = 17;
    pub const LEARNT: u8 = 18;
    pub const REQUIRES: u8 = 19;
    pub const LOCK: u8 = 20;
    pub const FORBID_MULTIPLE: u8 = 21;
    pub const CONSTRAINS: u8 = 22;
    pub const CONSTRAINS_PARENT: u8 = 23;
    pub const CONSTRAINS_EXCLUDED: u8 = 24;
    pub const ANY_OF: u8 = 25;
}

/// Origins of a variable, the field b of record 7.
pub mod origin {
    pub const ROOT: u16 = 0;
    pub const SOLVABLE: u16 = 1;
    pub const FORBID_MULTIPLE: u16 = 2;
    pub const GATE: u16 = 3;
    pub const AUXILIARY: u16 = 4;
    pub const OTHER: u16 = 5;
}

/// A record of kind 2 or 3: both name a name and hold a text.
#[derive(Clone, Copy, Debug)]
pub struct Named<'a> {
    pub name: u16,
    pub text: &'a str,
}

#[derive(Clone, Copy, Debug)]
pub struct Candidate {
    pub requirement: u16,
    pub solvable: u16,
}

#[derive(Clone, Copy, Debug)]
pub struct Variable {
    pub origin: u16,
    pub names: u16,
    pub assigned_by: Option<u16>,
}

#[derive(Clone, Copy, Debug)]
pub struct ClauseRecord {
    pub kind: u8,
    pub core: bool,
    pub a: u16,
    pub b: u16,
    pub c: u16,
}

/// What an accepted file says. Every number in it names an entry of its table.
#[derive(Debug, Default)]
pub struct Tables<'a> {
    pub names: Vec<&'a str>,
    pub solvables: Vec<Named<'a>>,
    pub version_sets: Vec<Named<'a>>,
    pub requirements: Vec<&'a str>,
    pub candidates: Vec<Candidate>,
    pub reasons: Vec<&'a str>,
    pub variables: Vec<Variable>,
    pub clauses: Vec<ClauseRecord>,
    assigned: usize,
}

/// Reads a whole file, or gives the first refusal of 1 to 6.
pub fn read(file: &[u8]) -> Result<Tables<'_>, Refusal> {
    if file.len() % RECORD != 0 || file.len() > LARGEST_FILE {
        return Err(Refusal {
            number: 1,
            place: 0,
        });
    }
    let mut tables = Tables::default();
    for (place, bytes) in file.chunks_exact(RECORD).enumerate() {
        tables.take(bytes).map_err(|number| Refusal {
            number,
            place: place as u64,
        })?;
    }
    Ok(tables)
}

/// What byte 1 of a kind means.
#[derive(Clone, Copy, PartialEq)]
enum Second {
    Length,
    Flag,
    Unused,
}

/// What a kind uses of byte 1, and how many of the fields a, b, c.
#[derive(Clone, Copy)]
struct Form {
    second: Second,
    fields: usize,
}

impl Form {
    fn of(kind: u8) -> Option<Form> {
        let (second, fields) = match kind {
            kind::NAME | kind::REQUIREMENT | kind::REASON => (Second::Length, 1),
            kind::SOLVABLE | kind::VERSION_SET => (Second::Length, 2),
            kind::CANDIDATE | kind::ASSIGNED_BY => (Second::Unused, 2),
            kind::VARIABLE => (Second::Unused, 3),
            kind::INSTALL_ROOT | kind::LEARNT => (Second::Flag, 0),
            kind::EXCLUDED | kind::REQUIRES | kind::LOCK => (Second::Flag, 2),
            kind::FORBID_MULTIPLE | kind::ANY_OF => (Second::Flag, 2),
            kind::CONSTRAINS | kind::CONSTRAINS_PARENT | kind::CONSTRAINS_EXCLUDED => {
                (Second::Flag, 3)
            }
            _ => return None,
        };
        Some(Form { second, fields })
    }
}

struct Record<'a> {
    kind: u8,
    second: u8,
    fields: [u16; 3],
    tail: &'a [u8],
}

impl<'a> Record<'a> {
    fn cut(bytes: &'a [u8]) -> Self {
        let field = |at: usize| u16::from_le_bytes([bytes[at], bytes[at + 1]]);
        Record {
            kind: bytes[0],
            second: bytes[1],
            fields: [field(2), field(4), field(6)],
            tail: &bytes[8..],
        }
    }

    /// The record's text, empty where its kind has none; nothing where the record is a 3.
    fn text(&self, form: Form) -> Option<&'a str> {
        let length = match form.second {
            Second::Length => usize::from(self.second),
            Second::Flag | Second::Unused => 0,
        };
        let second_is_good = match form.second {
            Second::Length => (1..=24).contains(&length),
            Second::Flag => self.second <= 1,
            Second::Unused => self.second == 0,
        };
        if !second_is_good {
            return None;
        }
        let (text, rest) = self.tail.split_at(length);
        let bytes_are_good = text.iter().all(|byte| (32..=126).contains(byte))
            && rest.iter().all(|&byte| byte == 0)
            && self.fields[form.fields..].iter().all(|&field| field == 0);
        if !bytes_are_good || !self.origin_is_good() {
            return None;
        }
        std::str::from_utf8(text).ok()
    }

    fn origin_is_good(&self) -> bool {
        let [_, b, c] = self.fields;
        match (self.kind, b) {
            (kind::VARIABLE, origin::SOLVABLE | origin::FORBID_MULTIPLE) => true,
            (kind::VARIABLE, _) => b <= origin::OTHER && c == 0,
            _ => true,
        }
    }
}

impl<'a> Tables<'a> {
    /// Adds one record, or gives the first of 2, 3, 6, 4 and 5 that it gets behind these tables,
    /// which then stay.
    pub fn take(&mut self, bytes: &'a [u8]) -> Result<(), u64> {
        let record = Record::cut(bytes);
        let form = Form::of(record.kind).ok_or(2u64)?;
        let text = record.text(form).ok_or(3u64)?;
        if self.is_full(record.kind) {
            return Err(6);
        }
        if !self.numbers_fit(&record) {
            return Err(4);
        }
        if !self.origins_fit(&record) {
            return Err(5);
        }
        self.add(&record, text);
        Ok(())
    }

    fn is_full(&self, kind: u8) -> bool {
        let (held, limit) = match kind {
            kind::NAME => (self.names.len(), NAMES),
            kind::SOLVABLE => (self.solvables.len(), SOLVABLES),
            kind::VERSION_SET => (self.version_sets.len(), VERSION_SETS),
            kind::REQUIREMENT => (self.requirements.len(), REQUIREMENTS),
            kind::CANDIDATE => (self.candidates.len(), CANDIDATES),
            kind::REASON => (self.reasons.len(), REASONS),
            kind::VARIABLE => (self.variables.len(), VARIABLES),
            kind::ASSIGNED_BY => (self.assigned, ASSIGNED_BY),
            _ => (self.clauses.len(), CLAUSES),
        };
        held >= limit
    }

    /// Whether the own number is the next, every reference is defined, and no variable gets a
    /// second record 8.
    fn numbers_fit(&self, record: &Record<'_>) -> bool {
        let [a, b, c] = record.fields.map(usize::from);
        let variables = self.variables.len();
        match record.kind {
            kind::NAME => a == self.names.len(),
            kind::SOLVABLE => a == self.solvables.len() && b < self.names.len(),
            kind::VERSION_SET => a == self.version_sets.len() && b < self.names.len(),
            kind::REQUIREMENT => a == self.requirements.len(),
            kind::CANDIDATE => a < self.requirements.len() && b < self.solvables.len(),
            kind::REASON => a == self.reasons.len(),
            kind::VARIABLE => {
                a == variables
                    && match record.fields[1] {
                        origin::SOLVABLE => c < self.solvables.len(),
                        origin::FORBID_MULTIPLE => c < self.names.len(),
                        _ => true,
                    }
            }
            kind::ASSIGNED_BY => {
                a < variables && b < self.clauses.len() && self.variables[a].assigned_by.is_none()
            }
            kind::EXCLUDED => a < variables && b < self.reasons.len(),
            kind::REQUIRES => a < variables && b < self.requirements.len(),
            kind::LOCK | kind::FORBID_MULTIPLE | kind::ANY_OF => a < variables && b < variables,
            kind::CONSTRAINS | kind::CONSTRAINS_PARENT | kind::CONSTRAINS_EXCLUDED => {
                a < variables && b < variables && c < self.version_sets.len()
            }
            _ => true,
        }
    }

    fn origins_fit(&self, record: &Record<'_>) -> bool {
        let [a, b, _] = record.fields;
        let is = |variable: u16, allowed: &[u16]| {
            allowed.contains(&self.variables[usize::from(variable)].origin)
        };
        use origin::{AUXILIARY, FORBID_MULTIPLE, GATE, ROOT, SOLVABLE};
        match record.kind {
            kind::EXCLUDED => is(a, &[SOLVABLE]),
            kind::REQUIRES => is(a, &[SOLVABLE, ROOT, GATE]),
            kind::LOCK => is(a, &[SOLVABLE]) && is(b, &[SOLVABLE]),
            kind::FORBID_MULTIPLE => is(a, &[SOLVABLE]) && is(b, &[FORBID_MULTIPLE]),
            kind::CONSTRAINS => is(a, &[SOLVABLE, ROOT]) && is(b, &[SOLVABLE]),
            kind::CONSTRAINS_PARENT => is(a, &[SOLVABLE, ROOT]) && is(b, &[AUXILIARY]),
            kind::CONSTRAINS_EXCLUDED => is(a, &[SOLVABLE]) && is(b, &[AUXILIARY]),
            _ => true,
        }
    }

    fn add(&mut self, record: &Record<'_>, text: &'a str) {
        let [a, b, c] = record.fields;
        match record.kind {
            kind::NAME => self.names.push(text),
            kind::SOLVABLE => self.solvables.push(Named { name: b, text }),
            kind::VERSION_SET => self.version_sets.push(Named { name: b, text }),
            kind::REQUIREMENT => self.requirements.push(text),
            kind::CANDIDATE => self.candidates.push(Candidate {
                requirement: a,
                solvable: b,
            }),
            kind::REASON => self.reasons.push(text),
            kind::VARIABLE => self.variables.push(Variable {
                origin: b,
                names: c,
                assigned_by: None,
            }),
            kind::ASSIGNED_BY => {
                self.variables[usize::from(a)].assigned_by = Some(b);
                self.assigned += 1;
            }
            kind => self.clauses.push(ClauseRecord {
                kind,
                core: record.second == 1,
                a,
                b,
                c,
            }),
        }
    }
}
