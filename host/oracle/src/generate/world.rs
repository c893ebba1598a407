//! Random package worlds, most of them reached from the root as a solver would leave them.

use super::{auxiliaries, gates, texts};
use crate::draft::Draft;
use crate::reader::{kind, origin};
use crate::rng::Rng;

/// Ranges have both ends included; chances are in a hundred.
struct Knobs {
    names: (usize, usize),
    versions: (usize, usize),
    root_needs: (usize, usize),
    needs: (usize, usize),
    conflicts: (usize, usize),
    /// Chance that a requirement may lead back to what needs it.
    cycles: usize,
    /// Chance that a requirement has no candidates.
    empty: usize,
    /// Chance that candidates are a mixed bag and not all versions of a name.
    mixed: usize,
    /// Chance that a version lacks a need that its name has.
    uneven: usize,
    /// Chance that a requirement goes through a gate.
    gated: usize,
    /// Chance that the clauses are shuffled.
    shuffled: usize,
}

const SMALL: Knobs = Knobs {
    names: (1, 4),
    versions: (1, 3),
    root_needs: (1, 3),
    needs: (0, 2),
    conflicts: (0, 3),
    cycles: 10,
    empty: 25,
    mixed: 25,
    uneven: 15,
    gated: 15,
    shuffled: 40,
};

pub fn small(rng: &mut Rng) -> Vec<u8> {
    file(rng, &SMALL)
}

pub fn middle(rng: &mut Rng) -> Vec<u8> {
    let knobs = Knobs {
        names: (4, 12),
        versions: (1, 5),
        root_needs: (1, 5),
        needs: (0, 3),
        conflicts: (0, 12),
        cycles: 3,
        ..SMALL
    };
    file(rng, &knobs)
}

pub fn limit(rng: &mut Rng) -> Vec<u8> {
    let knobs = Knobs {
        names: (15, 40),
        versions: (2, 4),
        root_needs: (3, 8),
        needs: (1, 3),
        conflicts: (20, 200),
        cycles: 1,
        empty: 8,
        ..SMALL
    };
    file(rng, &knobs)
}

pub fn gates(rng: &mut Rng) -> Vec<u8> {
    file(rng, &Knobs { gated: 80, ..SMALL })
}

pub fn conflicts(rng: &mut Rng) -> Vec<u8> {
    let knobs = Knobs {
        conflicts: (2, 10),
        ..SMALL
    };
    file(rng, &knobs)
}

pub fn cycles(rng: &mut Rng) -> Vec<u8> {
    let knobs = Knobs {
        cycles: 70,
        needs: (1, 2),
        ..SMALL
    };
    file(rng, &knobs)
}

fn file(rng: &mut Rng, knobs: &Knobs) -> Vec<u8> {
    let mut world = World::packages(rng, knobs);
    world.link(rng, knobs);
    for _ in 0..rng.between(knobs.conflicts.0, knobs.conflicts.1) {
        world.conflict(rng);
    }
    world.noise(rng);
    let mut draft = world.draft;
    if rng.chance(knobs.shuffled) {
        draft.shuffle_clauses(rng);
    }
    if rng.chance(5) {
        draft.flip_core(rng);
    }
    if rng.chance(50) {
        draft.woven(rng)
    } else {
        draft.file()
    }
}

/// A world, with the solvables that the root's needs lead to.
struct World {
    draft: Draft,
    versions: Vec<Vec<u16>>,
    reached: Vec<u16>,
}

impl World {
    fn packages(rng: &mut Rng, knobs: &Knobs) -> World {
        let mut draft = Draft::new();
        let mut versions = Vec::new();
        for _ in 0..rng.between(knobs.names.0, knobs.names.1) {
            let text = texts::name(rng);
            let name = draft.name(&text);
            let count = rng.between(knobs.versions.0, knobs.versions.1);
            let solvables = (0..count).map(|_| {
                let version = texts::version(rng);
                draft.solvable(name, &version)
            });
            versions.push(solvables.collect());
        }
        for _ in 0..rng.between(1, 3) {
            let name = rng.below(versions.len()) as u16;
            let range = texts::range(rng);
            draft.version_set(name, &range);
        }
        for _ in 0..rng.between(1, 2) {
            let reason = texts::reason(rng);
            draft.reason(&reason);
        }
        World {
            draft,
            versions,
            reached: Vec::new(),
        }
    }

    /// Makes the requirements of the root and of each name, and the clauses of what is reached.
    fn link(&mut self, rng: &mut Rng, knobs: &Knobs) {
        let count = rng.between(knobs.root_needs.0, knobs.root_needs.1);
        let of_root: Vec<u16> = (0..count).map(|_| self.wish(rng, knobs, 0)).collect();
        let of_names: Vec<Vec<u16>> = (0..self.versions.len())
            .map(|name| {
                let count = rng.between(knobs.needs.0, knobs.needs.1);
                (0..count)
                    .map(|_| self.wish(rng, knobs, name + 1))
                    .collect()
            })
            .collect();
        let root = self.draft.root();
        for &requirement in &of_root {
            self.need(rng, knobs, root, requirement);
        }
        let mut at = 0;
        while at < self.reached.len() {
            let solvable = self.reached[at];
            let name = usize::from(self.draft.solvables[usize::from(solvable)].0);
            for &requirement in &of_names[name] {
                if !rng.chance(knobs.uneven) {
                    let variable = self.draft.of(solvable);
                    self.need(rng, knobs, variable, requirement);
                }
            }
            at += 1;
        }
    }

    /// A requirement whose candidates come, but for cycles, from names not below `from`.
    fn wish(&mut self, rng: &mut Rng, knobs: &Knobs, from: usize) -> u16 {
        let from = if rng.chance(knobs.cycles) { 0 } else { from };
        let mut candidates = Vec::new();
        if from < self.versions.len() && !rng.chance(knobs.empty) {
            let name = rng.between(from, self.versions.len() - 1);
            candidates = self.versions[name].clone();
            if rng.chance(30) {
                rng.shuffle(&mut candidates);
            }
            if rng.chance(knobs.mixed) {
                let bag: Vec<u16> = self.versions[from..].concat();
                candidates = (0..rng.between(1, 5)).map(|_| *rng.pick(&bag)).collect();
            }
        }
        let text = texts::wish(rng);
        self.draft.requirement(&text, &candidates)
    }

    fn need(&mut self, rng: &mut Rng, knobs: &Knobs, variable: u16, requirement: u16) {
        if rng.chance(knobs.gated) {
            gates::requires(rng, &mut self.draft, &[variable], requirement);
        } else {
            self.draft.requires(variable, requirement);
        }
        for &(of, solvable) in &self.draft.candidates {
            if of == requirement && !self.reached.contains(&solvable) {
                self.reached.push(solvable);
            }
        }
    }

    /// One conflict, from a package that is reached.
    fn conflict(&mut self, rng: &mut Rng) {
        if self.reached.is_empty() {
            return;
        }
        let here = *rng.pick(&self.reached);
        let there = rng.below(self.draft.solvables.len()) as u16;
        let set = rng.below(self.draft.version_sets.len()) as u16;
        match rng.below(5) {
            0 => {
                let reason = rng.below(self.draft.reasons.len()) as u16;
                self.draft.excludes(here, reason);
            }
            1 => {
                self.draft.locks(there, here);
            }
            2 => {
                let name = self.draft.solvables[usize::from(here)].0;
                for _ in 0..rng.between(1, 3) {
                    let one = *rng.pick(&self.reached);
                    self.draft.forbid(one, name);
                }
            }
            3 => {
                self.draft.constrains(here, there, set);
            }
            _ => auxiliaries::constrain(rng, &mut self.draft, here, there, set),
        }
    }

    /// Clauses and records that change little or nothing.
    fn noise(&mut self, rng: &mut Rng) {
        let d = &mut self.draft;
        if rng.chance(50) {
            d.clause(kind::INSTALL_ROOT, rng.chance(80), [0; 3]);
        }
        if rng.chance(10) {
            d.clause(kind::LEARNT, rng.chance(10), [0; 3]);
        }
        if rng.chance(20) {
            let fields = [rng.below(d.variables.len()) as u16, d.root(), 0];
            d.clause(kind::ANY_OF, rng.chance(50), fields);
        }
        if rng.chance(20) && !d.clauses.is_empty() {
            let variable = rng.below(d.variables.len()) as u16;
            let clause = rng.below(d.clauses.len()) as u16;
            if d.assigned.iter().all(|&(taken, _)| taken != variable) {
                d.assign(variable, clause);
            }
        }
    }
}

/// Few packages, many clauses of every kind in any order: all that the origins allow.
pub fn soup(rng: &mut Rng) -> Vec<u8> {
    let mut d = Draft::new();
    for _ in 0..rng.between(1, 2) {
        let text = texts::name(rng);
        d.name(&text);
    }
    let packages = rng.between(1, 4);
    for _ in 0..packages {
        let version = texts::version(rng);
        d.solvable(rng.below(d.names.len()) as u16, &version);
    }
    d.version_set(0, "<2");
    d.version_set(0, "<2");
    d.reason("too old");
    d.reason("too old");
    for _ in 0..rng.between(1, 3) {
        let candidates: Vec<u16> = (0..rng.below(4))
            .map(|_| rng.below(packages) as u16)
            .collect();
        let text = texts::wish(rng);
        d.requirement(&text, &candidates);
    }
    d.root();
    for _ in 0..rng.between(6, 12) {
        let origin = *rng.pick(&[0, 1, 1, 1, 1, 2, 3, 3, 4, 5]);
        let below = match origin {
            origin::SOLVABLE => packages,
            origin::FORBID_MULTIPLE => d.names.len(),
            _ => 1,
        };
        d.variable(origin, rng.below(below) as u16);
    }
    for _ in 0..rng.between(1, 12) {
        random_clause(rng, &mut d);
    }
    for variable in 0..d.variables.len() as u16 {
        if rng.chance(40) {
            d.assign(variable, rng.below(d.clauses.len()) as u16);
        }
    }
    d.woven(rng)
}

/// A clause of any kind whose slots hold variables of the origins allowed there, if there are any.
fn random_clause(rng: &mut Rng, d: &mut Draft) {
    let mut variable = |rng: &mut Rng, origins: &[u16]| {
        let fitting: Vec<u16> = (0u16..)
            .zip(&d.variables)
            .filter(|(_, (origin, _))| origins.contains(origin))
            .map(|(number, _)| number)
            .collect();
        if fitting.is_empty() {
            d.variable(origins[0], 0)
        } else {
            *rng.pick(&fitting)
        }
    };
    let kind = *rng.pick(&[
        16, 17, 18, 19, 19, 19, 19, 20, 21, 21, 22, 23, 23, 24, 24, 25, 25, 25,
    ]);
    let set = rng.below(2) as u16;
    let fields = match kind {
        kind::INSTALL_ROOT | kind::LEARNT => [0; 3],
        kind::EXCLUDED => [variable(rng, &[1]), rng.below(2) as u16, 0],
        kind::REQUIRES => {
            let parent = if rng.chance(40) {
                0
            } else {
                variable(rng, &[0, 1, 3])
            };
            [parent, rng.below(d.requirements.len()) as u16, 0]
        }
        kind::LOCK => [variable(rng, &[1]), variable(rng, &[1]), 0],
        kind::FORBID_MULTIPLE => [variable(rng, &[1]), variable(rng, &[2]), 0],
        kind::CONSTRAINS => [variable(rng, &[0, 1]), variable(rng, &[1]), set],
        kind::CONSTRAINS_PARENT => [variable(rng, &[0, 1]), variable(rng, &[4]), set],
        kind::CONSTRAINS_EXCLUDED => [variable(rng, &[1]), variable(rng, &[4]), set],
        _ => {
            let selected = if rng.chance(70) {
                variable(rng, &[3])
            } else {
                0
            };
            [selected, variable(rng, &[0, 1, 1, 2, 3, 4, 5]), 0]
        }
    };
    let core = if kind == kind::LEARNT {
        rng.chance(4)
    } else {
        rng.chance(85)
    };
    d.clause(kind, core, fields);
}
