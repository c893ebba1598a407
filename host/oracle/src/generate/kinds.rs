//! Files of one clause kind: a name's versions that the root requires, and clauses of that kind
//! among them.

use super::texts;
use crate::draft::Draft;
use crate::reader::kind;
use crate::rng::Rng;

#[derive(Clone, Copy)]
pub enum Size {
    Small,
    Middle,
    Limit,
}

impl Size {
    fn packages(self, rng: &mut Rng) -> usize {
        match self {
            Size::Small => rng.between(1, 3),
            Size::Middle => rng.between(8, 30),
            Size::Limit => rng.between(60, 125),
        }
    }

    fn clauses(self, rng: &mut Rng) -> usize {
        match self {
            Size::Small => rng.between(1, 5),
            Size::Middle => rng.between(10, 80),
            Size::Limit => rng.between(300, 1_000),
        }
    }
}

pub fn file(rng: &mut Rng, kind: u8, size: Size) -> Vec<u8> {
    let mut d = Draft::new();
    let names: Vec<u16> = (0..rng.between(1, 3))
        .map(|_| {
            let text = texts::name(rng);
            d.name(&text)
        })
        .collect();
    let packages: Vec<u16> = (0..size.packages(rng))
        .map(|_| {
            let version = texts::version(rng);
            d.solvable(*rng.pick(&names), &version)
        })
        .collect();
    d.root_needs("all *", &packages);
    let stage = Stage {
        packages: packages.iter().map(|&package| d.of(package)).collect(),
        wishes: (0..rng.between(1, 4))
            .map(|_| wish(rng, &mut d, &packages))
            .collect(),
        forbids: names.iter().map(|&name| d.forbids(name)).collect(),
        sets: names
            .iter()
            .map(|&name| d.version_set(name, "<2"))
            .collect(),
        reasons: vec![d.reason("too old"), d.reason("recalled")],
        gates: vec![d.gate(), d.gate()],
        auxiliaries: vec![d.auxiliary(), d.auxiliary()],
        root: d.root(),
    };
    for _ in 0..size.clauses(rng) {
        stage.clause(rng, &mut d, kind);
    }
    stage.company(rng, &mut d, kind);
    d.stirred(rng)
}

fn wish(rng: &mut Rng, d: &mut Draft, packages: &[u16]) -> u16 {
    let text = texts::wish(rng);
    let candidates: Vec<u16> = (0..rng.below(3)).map(|_| *rng.pick(packages)).collect();
    d.requirement(&text, &candidates)
}

/// Variables and numbers that a clause may name.
struct Stage {
    packages: Vec<u16>,
    wishes: Vec<u16>,
    forbids: Vec<u16>,
    sets: Vec<u16>,
    reasons: Vec<u16>,
    gates: Vec<u16>,
    auxiliaries: Vec<u16>,
    root: u16,
}

impl Stage {
    fn parent(&self, rng: &mut Rng) -> u16 {
        if rng.chance(10) {
            self.root
        } else {
            *rng.pick(&self.packages)
        }
    }

    fn clause(&self, rng: &mut Rng, d: &mut Draft, kind: u8) {
        let fields = match kind {
            kind::EXCLUDED => [*rng.pick(&self.packages), *rng.pick(&self.reasons), 0],
            kind::REQUIRES => [self.parent(rng), *rng.pick(&self.wishes), 0],
            kind::LOCK => [*rng.pick(&self.packages), *rng.pick(&self.packages), 0],
            kind::FORBID_MULTIPLE => [*rng.pick(&self.packages), *rng.pick(&self.forbids), 0],
            kind::CONSTRAINS => {
                let set = *rng.pick(&self.sets);
                [self.parent(rng), *rng.pick(&self.packages), set]
            }
            kind::CONSTRAINS_PARENT => {
                let auxiliary = *rng.pick(&self.auxiliaries);
                [self.parent(rng), auxiliary, *rng.pick(&self.sets)]
            }
            kind::CONSTRAINS_EXCLUDED => {
                let auxiliary = *rng.pick(&self.auxiliaries);
                [*rng.pick(&self.packages), auxiliary, *rng.pick(&self.sets)]
            }
            kind::ANY_OF => {
                let partner = if rng.chance(10) {
                    *rng.pick(&self.auxiliaries)
                } else {
                    self.parent(rng)
                };
                [*rng.pick(&self.gates), partner, 0]
            }
            _ => [0; 3],
        };
        // Learnt in the core is a refusal at once: once in a while will do.
        let core = match kind {
            kind::LEARNT => rng.below(400) == 0,
            _ => rng.chance(95),
        };
        d.clause(kind, core, fields);
    }

    /// What a kind needs beside it to show in the graph.
    fn company(&self, rng: &mut Rng, d: &mut Draft, kind: u8) {
        match kind {
            kind::ANY_OF => {
                for &gate in &self.gates {
                    d.requires(gate, *rng.pick(&self.wishes));
                }
            }
            kind::CONSTRAINS_PARENT => {
                let candidate = *rng.pick(&self.packages);
                d.excluded(candidate, self.auxiliaries[0], self.sets[0]);
            }
            kind::CONSTRAINS_EXCLUDED => {
                let parent = *rng.pick(&self.packages);
                d.parent(parent, self.auxiliaries[0], self.sets[0]);
            }
            _ => {}
        }
    }
}
