//! A record file in the making: tables that grow in any order, written out as records.
//!
//! Nothing here refuses: a draft past a limit becomes a file past it.

use crate::reader::{kind, origin, RECORD};
use crate::rng::Rng;

/// One record. `second` is byte 1 where there is no text.
pub fn record(kind: u8, second: u8, fields: [u16; 3], text: &str) -> [u8; RECORD] {
    let mut bytes = [0; RECORD];
    bytes[0] = kind;
    bytes[1] = if text.is_empty() {
        second
    } else {
        text.len() as u8
    };
    for (i, field) in fields.iter().enumerate() {
        bytes[2 + 2 * i..4 + 2 * i].copy_from_slice(&field.to_le_bytes());
    }
    bytes[8..8 + text.len()].copy_from_slice(text.as_bytes());
    bytes
}

#[derive(Clone, Copy, Debug)]
pub struct DraftClause {
    pub kind: u8,
    pub core: bool,
    pub fields: [u16; 3],
}

#[derive(Clone, Debug, Default)]
pub struct Draft {
    pub names: Vec<String>,
    pub solvables: Vec<(u16, String)>,
    pub version_sets: Vec<(u16, String)>,
    pub requirements: Vec<String>,
    pub candidates: Vec<(u16, u16)>,
    pub reasons: Vec<String>,
    pub variables: Vec<(u16, u16)>,
    pub clauses: Vec<DraftClause>,
    pub assigned: Vec<(u16, u16)>,
}

/// Appends, and hands back the number of what was appended.
fn push<T>(table: &mut Vec<T>, entry: T) -> u16 {
    table.push(entry);
    (table.len() - 1) as u16
}

impl Draft {
    pub fn new() -> Draft {
        Draft::default()
    }

    pub fn name(&mut self, text: &str) -> u16 {
        push(&mut self.names, text.to_string())
    }

    pub fn solvable(&mut self, name: u16, version: &str) -> u16 {
        push(&mut self.solvables, (name, version.to_string()))
    }

    pub fn version_set(&mut self, name: u16, text: &str) -> u16 {
        push(&mut self.version_sets, (name, text.to_string()))
    }

    /// A requirement with its candidates.
    pub fn requirement(&mut self, text: &str, candidates: &[u16]) -> u16 {
        let requirement = push(&mut self.requirements, text.to_string());
        for &solvable in candidates {
            self.candidates.push((requirement, solvable));
        }
        requirement
    }

    pub fn reason(&mut self, text: &str) -> u16 {
        push(&mut self.reasons, text.to_string())
    }

    pub fn variable(&mut self, origin: u16, names: u16) -> u16 {
        push(&mut self.variables, (origin, names))
    }

    /// The first variable of an origin, made where there is none yet.
    fn first_variable(&mut self, origin: u16, names: u16) -> u16 {
        match self.variables.iter().position(|&v| v == (origin, names)) {
            Some(at) => at as u16,
            None => self.variable(origin, names),
        }
    }

    pub fn root(&mut self) -> u16 {
        self.first_variable(origin::ROOT, 0)
    }

    pub fn of(&mut self, solvable: u16) -> u16 {
        self.first_variable(origin::SOLVABLE, solvable)
    }

    pub fn forbids(&mut self, name: u16) -> u16 {
        self.first_variable(origin::FORBID_MULTIPLE, name)
    }

    pub fn gate(&mut self) -> u16 {
        self.variable(origin::GATE, 0)
    }

    pub fn auxiliary(&mut self) -> u16 {
        self.variable(origin::AUXILIARY, 0)
    }

    pub fn other(&mut self) -> u16 {
        self.variable(origin::OTHER, 0)
    }

    pub fn assign(&mut self, variable: u16, clause: u16) {
        self.assigned.push((variable, clause));
    }

    pub fn clause(&mut self, kind: u8, core: bool, fields: [u16; 3]) -> u16 {
        push(&mut self.clauses, DraftClause { kind, core, fields })
    }

    pub fn core(&mut self, kind: u8, fields: [u16; 3]) -> u16 {
        self.clause(kind, true, fields)
    }

    pub fn requires(&mut self, variable: u16, requirement: u16) -> u16 {
        self.core(kind::REQUIRES, [variable, requirement, 0])
    }

    /// A solvable needs a new requirement with these candidates.
    pub fn needs(&mut self, solvable: u16, text: &str, candidates: &[u16]) -> u16 {
        let variable = self.of(solvable);
        let requirement = self.requirement(text, candidates);
        self.requires(variable, requirement);
        requirement
    }

    pub fn root_needs(&mut self, text: &str, candidates: &[u16]) -> u16 {
        let root = self.root();
        let requirement = self.requirement(text, candidates);
        self.requires(root, requirement);
        requirement
    }

    /// A solvable of a name of its own.
    pub fn package(&mut self, name: &str, version: &str) -> u16 {
        let name = self.name(name);
        self.solvable(name, version)
    }

    pub fn excludes(&mut self, solvable: u16, reason: u16) -> u16 {
        let variable = self.of(solvable);
        self.core(kind::EXCLUDED, [variable, reason, 0])
    }

    pub fn locks(&mut self, locked: u16, forbidden: u16) -> u16 {
        let fields = [self.of(locked), self.of(forbidden), 0];
        self.core(kind::LOCK, fields)
    }

    pub fn forbid(&mut self, solvable: u16, name: u16) -> u16 {
        let fields = [self.of(solvable), self.forbids(name), 0];
        self.core(kind::FORBID_MULTIPLE, fields)
    }

    pub fn constrains(&mut self, solvable: u16, other: u16, set: u16) -> u16 {
        let fields = [self.of(solvable), self.of(other), set];
        self.core(kind::CONSTRAINS, fields)
    }

    pub fn parent(&mut self, variable: u16, auxiliary: u16, set: u16) -> u16 {
        self.core(kind::CONSTRAINS_PARENT, [variable, auxiliary, set])
    }

    pub fn excluded(&mut self, variable: u16, auxiliary: u16, set: u16) -> u16 {
        self.core(kind::CONSTRAINS_EXCLUDED, [variable, auxiliary, set])
    }

    pub fn any_of(&mut self, selected: u16, partner: u16) -> u16 {
        self.core(kind::ANY_OF, [selected, partner, 0])
    }

    /// Puts the clauses into another order; records 8 keep naming the same ones.
    pub fn shuffle_clauses(&mut self, rng: &mut Rng) {
        let mut order: Vec<usize> = (0..self.clauses.len()).collect();
        rng.shuffle(&mut order);
        self.clauses = order.iter().map(|&old| self.clauses[old]).collect();
        for (_, clause) in &mut self.assigned {
            let new = order.iter().position(|&old| old == usize::from(*clause));
            *clause = new.map_or(*clause, |new| new as u16);
        }
    }

    /// Takes one clause out of the core, or into it.
    pub fn flip_core(&mut self, rng: &mut Rng) {
        if !self.clauses.is_empty() {
            let at = rng.below(self.clauses.len());
            self.clauses[at].core ^= true;
        }
    }

    /// The file, at times with its clauses shuffled, at times with its records mixed.
    pub fn stirred(mut self, rng: &mut Rng) -> Vec<u8> {
        if rng.chance(40) {
            self.shuffle_clauses(rng);
        }
        if rng.chance(50) {
            self.woven(rng)
        } else {
            self.file()
        }
    }

    /// The records, table by table.
    pub fn file(&self) -> Vec<u8> {
        let mut weaver = Weaver::of(self);
        for table in 0..TABLES {
            weaver.emit(table, usize::MAX);
        }
        weaver.file
    }

    /// The records of the tables mixed, in stretches, each after what it names.
    pub fn woven(&self, rng: &mut Rng) -> Vec<u8> {
        let mut weaver = Weaver::of(self);
        while !weaver.is_done() {
            let table = rng.below(TABLES);
            let stretch = rng.between(1, 6);
            weaver.emit(table, stretch);
        }
        weaver.file
    }
}

const TABLES: usize = 9;

/// Writes records of nine queues, each record only once all that it names is written.
struct Weaver<'d> {
    draft: &'d Draft,
    written: [usize; TABLES],
    file: Vec<u8>,
}

// Places of the tables in `written`.
const NAME: usize = 0;
const SOLVABLE: usize = 1;
const VERSION_SET: usize = 2;
const REQUIREMENT: usize = 3;
const CANDIDATE: usize = 4;
const REASON: usize = 5;
const VARIABLE: usize = 6;
const CLAUSE: usize = 7;

impl<'d> Weaver<'d> {
    fn of(draft: &'d Draft) -> Self {
        Weaver {
            draft,
            written: [0; TABLES],
            file: Vec::new(),
        }
    }

    fn lengths(&self) -> [usize; TABLES] {
        let d = self.draft;
        [
            d.names.len(),
            d.solvables.len(),
            d.version_sets.len(),
            d.requirements.len(),
            d.candidates.len(),
            d.reasons.len(),
            d.variables.len(),
            d.clauses.len(),
            d.assigned.len(),
        ]
    }

    fn is_done(&self) -> bool {
        self.written == self.lengths()
    }

    /// Writes up to `most` records of a table, and stops at one that is not ready.
    fn emit(&mut self, table: usize, most: usize) {
        for _ in 0..most.min(self.lengths()[table] - self.written[table]) {
            let Some(bytes) = self.next(table) else {
                return;
            };
            self.file.extend_from_slice(&bytes);
            self.written[table] += 1;
        }
    }

    fn has(&self, table: usize, number: u16) -> bool {
        usize::from(number) < self.written[table]
    }

    fn next(&self, table: usize) -> Option<[u8; RECORD]> {
        let (d, at) = (self.draft, self.written[table]);
        let own = at as u16;
        let (ready, bytes) = match table {
            NAME => (true, record(kind::NAME, 0, [own, 0, 0], &d.names[at])),
            SOLVABLE => {
                let (name, version) = &d.solvables[at];
                let bytes = record(kind::SOLVABLE, 0, [own, *name, 0], version);
                (self.has(NAME, *name), bytes)
            }
            VERSION_SET => {
                let (name, text) = &d.version_sets[at];
                let bytes = record(kind::VERSION_SET, 0, [own, *name, 0], text);
                (self.has(NAME, *name), bytes)
            }
            REQUIREMENT => {
                let bytes = record(kind::REQUIREMENT, 0, [own, 0, 0], &d.requirements[at]);
                (true, bytes)
            }
            CANDIDATE => {
                let (requirement, solvable) = d.candidates[at];
                let ready = self.has(REQUIREMENT, requirement) && self.has(SOLVABLE, solvable);
                (
                    ready,
                    record(kind::CANDIDATE, 0, [requirement, solvable, 0], ""),
                )
            }
            REASON => (true, record(kind::REASON, 0, [own, 0, 0], &d.reasons[at])),
            VARIABLE => {
                let (origin, names) = d.variables[at];
                let ready = match origin {
                    origin::SOLVABLE => self.has(SOLVABLE, names),
                    origin::FORBID_MULTIPLE => self.has(NAME, names),
                    _ => true,
                };
                (ready, record(kind::VARIABLE, 0, [own, origin, names], ""))
            }
            CLAUSE => {
                let clause = &d.clauses[at];
                let bytes = record(clause.kind, clause.core.into(), clause.fields, "");
                (self.clause_is_ready(clause), bytes)
            }
            _ => {
                let (variable, clause) = d.assigned[at];
                let ready = self.has(VARIABLE, variable) && self.has(CLAUSE, clause);
                (
                    ready,
                    record(kind::ASSIGNED_BY, 0, [variable, clause, 0], ""),
                )
            }
        };
        // A reference that no table will ever hold is the file's own fault: it is written as it is.
        let nothing_can_come = self.written[..table] == self.lengths()[..table];
        (ready || nothing_can_come).then_some(bytes)
    }

    fn clause_is_ready(&self, clause: &DraftClause) -> bool {
        let [a, b, c] = clause.fields;
        let variable = |number| self.has(VARIABLE, number);
        match clause.kind {
            kind::INSTALL_ROOT | kind::LEARNT => true,
            kind::EXCLUDED => variable(a) && self.has(REASON, b),
            kind::REQUIRES => variable(a) && self.has(REQUIREMENT, b),
            kind::LOCK | kind::FORBID_MULTIPLE | kind::ANY_OF => variable(a) && variable(b),
            _ => variable(a) && variable(b) && self.has(VERSION_SET, c),
        }
    }
}
