//! Files at the limits, and one short of them and past them.

use super::{texts, trees};
use crate::draft::{record, Draft};
use crate::reader::{self, kind, RECORD};
use crate::rng::Rng;

#[derive(Clone, Copy, Debug)]
pub enum Table {
    Names,
    Solvables,
    VersionSets,
    Requirements,
    Candidates,
    Reasons,
    Variables,
    Clauses,
}

impl Table {
    /// Every table but that of record 8, which no file can fill.
    pub const ALL: [Table; 8] = [
        Table::Names,
        Table::Solvables,
        Table::VersionSets,
        Table::Requirements,
        Table::Candidates,
        Table::Reasons,
        Table::Variables,
        Table::Clauses,
    ];

    pub fn limit(self) -> usize {
        match self {
            Table::Names => reader::NAMES,
            Table::Solvables => reader::SOLVABLES,
            Table::VersionSets => reader::VERSION_SETS,
            Table::Requirements => reader::REQUIREMENTS,
            Table::Candidates => reader::CANDIDATES,
            Table::Reasons => reader::REASONS,
            Table::Variables => reader::VARIABLES,
            Table::Clauses => reader::CLAUSES,
        }
    }
}

pub fn near(rng: &mut Rng, table: Table) -> Vec<u8> {
    let limit = table.limit();
    holding(table, rng.between(limit - 1, limit + 1))
}

/// A file whose table holds `count` records, with what they name before them.
pub fn holding(table: Table, count: usize) -> Vec<u8> {
    let mut d = Draft::new();
    let mut fill = |put: &mut dyn FnMut(&mut Draft, usize)| {
        for i in 0..count {
            put(&mut d, i);
        }
    };
    let text = |i: usize| i.to_string();
    match table {
        Table::Names => fill(&mut |d, i| {
            d.name(&text(i));
        }),
        Table::Solvables => fill(&mut |d, i| {
            if i == 0 {
                d.name("x");
            }
            d.solvable(0, &text(i));
        }),
        Table::VersionSets => fill(&mut |d, i| {
            if i == 0 {
                d.name("x");
            }
            d.version_set(0, &text(i));
        }),
        Table::Requirements => fill(&mut |d, i| {
            d.requirement(&text(i), &[]);
        }),
        Table::Candidates => fill(&mut |d, i| {
            if i == 0 {
                d.package("x", "1");
                d.root_needs("x *", &[]);
            }
            d.candidates.push((0, 0));
        }),
        Table::Reasons => fill(&mut |d, i| {
            d.reason(&text(i));
        }),
        Table::Variables => fill(&mut |d, i| {
            d.variable((i % 6) as u16, 0);
            if i == 0 {
                d.package("x", "1");
            }
        }),
        Table::Clauses => fill(&mut |d, i| {
            d.clause(kind::INSTALL_ROOT, i % 2 == 0, [0; 3]);
        }),
    }
    d.file()
}

/// The root requires so many solvables that, with root and unresolved, `count` nodes are added.
pub fn nodes(count: usize) -> Vec<u8> {
    let mut d = Draft::new();
    let name = d.name("wide");
    let all: Vec<u16> = (2..count)
        .map(|i| d.solvable(name, &i.to_string()))
        .collect();
    d.root_needs("wide *", &all);
    d.file()
}

/// Thirty-two clauses of thirty-two edges each, less or more by the last clause's candidates.
pub fn edges(count: usize) -> Vec<u8> {
    let mut d = Draft::new();
    let name = d.name("thick");
    let all: Vec<u16> = (0..32).map(|i| d.solvable(name, &i.to_string())).collect();
    let root = d.root();
    let whole = d.requirement("thick *", &all);
    for _ in 0..count / 32 {
        d.requires(root, whole);
    }
    if count % 32 > 0 {
        d.root_needs("thick 1", &all[..count % 32]);
    }
    d.file()
}

/// 128 nodes and about 1,024 edges, most of them between packages.
pub fn nodes_and_edges(rng: &mut Rng) -> Vec<u8> {
    let mut d = Draft::new();
    let names: Vec<u16> = (0..rng.between(5, 60))
        .map(|_| {
            let text = texts::name(rng);
            d.name(&text)
        })
        .collect();
    let all: Vec<u16> = (0..rng.between(125, 127))
        .map(|i| d.solvable(*rng.pick(&names), &i.to_string()))
        .collect();
    d.root_needs("all *", &all);
    let mut edges = all.len();
    let aim = rng.between(1_000, 1_026);
    while edges < aim {
        let parent = rng.below(all.len() - 1);
        let count = rng.between(1, 8).min(aim - edges);
        let later = &all[parent + 1..];
        let candidates: Vec<u16> = (0..count).map(|_| *rng.pick(later)).collect();
        let text = texts::wish(rng);
        if d.requirements.len() < reader::REQUIREMENTS {
            d.needs(all[parent], &text, &candidates);
            edges += count;
        } else {
            let requirement = rng.below(reader::REQUIREMENTS) as u16;
            let variable = d.root();
            d.requires(variable, requirement);
            edges += d.candidates.iter().filter(|c| c.0 == requirement).count();
        }
    }
    d.file()
}

/// `count` variables, each assigned by the one clause.
pub fn assigned_by(count: usize) -> Vec<u8> {
    let mut d = Draft::new();
    let clause = d.core(kind::INSTALL_ROOT, [0; 3]);
    for i in 0..count {
        let variable = d.variable(3 + (i % 3) as u16, 0);
        d.assign(variable, clause);
    }
    d.file()
}

/// A file of exactly so many bytes, good but for its length where that is too large.
pub fn bytes(rng: &mut Rng, length: usize) -> Vec<u8> {
    let mut file = trees::dag_exploding(rng);
    let held = |file: &[u8], wanted: u8| {
        let kinds = file.chunks_exact(RECORD).map(|r| r[0]);
        kinds.filter(|&kind| kind == wanted).count()
    };
    let mut variables = held(&file, kind::VARIABLE);
    let mut requirements = held(&file, kind::REQUIREMENT);
    while file.len() < length {
        let bytes = if variables < reader::VARIABLES {
            variables += 1;
            record(kind::VARIABLE, 0, [variables as u16 - 1, 5, 0], "")
        } else if requirements < reader::REQUIREMENTS {
            requirements += 1;
            record(kind::REQUIREMENT, 0, [requirements as u16 - 1, 0, 0], "pad")
        } else {
            record(kind::INSTALL_ROOT, 1, [0; 3], "")
        };
        file.extend_from_slice(&bytes);
    }
    file
}
