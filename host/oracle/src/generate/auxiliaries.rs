//! The shared constrains encoding: clauses 23 and 24 linked by an auxiliary.

use crate::draft::Draft;
use crate::reader::kind;
use crate::rng::Rng;

/// One pair over a new auxiliary; at times one side is outside the core and comes from what the
/// auxiliary is assigned by.
pub fn constrain(rng: &mut Rng, d: &mut Draft, parent: u16, candidate: u16, set: u16) {
    let (parent, candidate) = (d.of(parent), d.of(candidate));
    let auxiliary = d.auxiliary();
    match rng.below(4) {
        0 => {
            let clause = d.clause(kind::CONSTRAINS_PARENT, false, [parent, auxiliary, set]);
            d.assign(auxiliary, clause);
            d.excluded(candidate, auxiliary, set);
        }
        1 => {
            let fields = [candidate, auxiliary, set];
            let clause = d.clause(kind::CONSTRAINS_EXCLUDED, false, fields);
            d.assign(auxiliary, clause);
            d.parent(parent, auxiliary, set);
        }
        _ => {
            d.parent(parent, auxiliary, set);
            d.excluded(candidate, auxiliary, set);
        }
    }
}

/// Decks that the root requires, as parents, and codecs of which some are required too.
struct Stage {
    d: Draft,
    parents: Vec<u16>,
    candidates: Vec<u16>,
    sets: Vec<u16>,
}

impl Stage {
    fn assign_outside(&mut self, auxiliary: u16, kind: u8, fields: [u16; 3]) {
        let clause = self.d.clause(kind, false, fields);
        self.d.assign(auxiliary, clause);
    }
}

fn stage(rng: &mut Rng, most: usize) -> Stage {
    let mut d = Draft::new();
    let deck = d.name("deck");
    let codec = d.name("codec");
    let parents: Vec<u16> = (0..rng.between(1, most))
        .map(|i| d.solvable(deck, &i.to_string()))
        .collect();
    let candidates: Vec<u16> = (0..rng.between(1, most))
        .map(|i| d.solvable(codec, &i.to_string()))
        .collect();
    d.root_needs("deck *", &parents);
    if rng.chance(60) {
        d.root_needs("codec *", &candidates);
    }
    let sets = vec![d.version_set(codec, "<2"), d.version_set(codec, "<3")];
    let mut parents: Vec<u16> = parents.iter().map(|&p| d.of(p)).collect();
    if rng.chance(40) {
        parents.push(d.root());
    }
    let candidates = candidates.iter().map(|&c| d.of(c)).collect();
    Stage {
        d,
        parents,
        candidates,
        sets,
    }
}

/// Both sides in the core, over one or two auxiliaries; what assigned them is then not looked at.
pub fn pairs(rng: &mut Rng) -> Vec<u8> {
    let mut s = stage(rng, 3);
    for _ in 0..rng.between(1, 2) {
        let auxiliary = s.d.auxiliary();
        for _ in 0..rng.between(1, 3) {
            let set = *rng.pick(&s.sets);
            s.d.parent(*rng.pick(&s.parents), auxiliary, set);
        }
        for _ in 0..rng.between(1, 3) {
            let set = *rng.pick(&s.sets);
            s.d.excluded(*rng.pick(&s.candidates), auxiliary, set);
        }
        let fields = [*rng.pick(&s.candidates), auxiliary, s.sets[0]];
        match rng.below(3) {
            0 => s.assign_outside(auxiliary, kind::CONSTRAINS_PARENT, fields),
            1 => s.assign_outside(auxiliary, kind::CONSTRAINS_EXCLUDED, fields),
            _ => {}
        }
    }
    s.d.stirred(rng)
}

/// One side is absent from the core: it comes from a clause of the other kind, or not at all.
pub fn recovered(rng: &mut Rng) -> Vec<u8> {
    let mut s = stage(rng, 3);
    for _ in 0..rng.between(1, 2) {
        let auxiliary = s.d.auxiliary();
        let parent_fields = [*rng.pick(&s.parents), auxiliary, s.sets[0]];
        let candidate_fields = [*rng.pick(&s.candidates), auxiliary, s.sets[1]];
        let outside = match rng.below(4) {
            0 => s.d.clause(kind::CONSTRAINS_PARENT, false, parent_fields),
            1 => {
                s.d.clause(kind::CONSTRAINS_EXCLUDED, false, candidate_fields)
            }
            2 => s.d.clause(kind::INSTALL_ROOT, true, [0; 3]),
            _ => s.d.clause(kind::CONSTRAINS, false, {
                [s.parents[0], s.candidates[0], s.sets[0]]
            }),
        };
        s.d.assign(auxiliary, outside);
        for _ in 0..rng.between(1, 3) {
            let set = *rng.pick(&s.sets);
            if rng.chance(50) {
                s.d.parent(*rng.pick(&s.parents), auxiliary, set);
            } else {
                s.d.excluded(*rng.pick(&s.candidates), auxiliary, set);
            }
            if rng.chance(60) {
                break;
            }
        }
    }
    s.d.stirred(rng)
}

/// The assigning clause has another auxiliary of its own: "whatever its own auxiliary".
pub fn of_another(rng: &mut Rng) -> Vec<u8> {
    let mut s = stage(rng, 3);
    let (here, there) = (s.d.auxiliary(), s.d.auxiliary());
    let core = rng.chance(50);
    let set = *rng.pick(&s.sets);
    if rng.chance(50) {
        let fields = [*rng.pick(&s.parents), there, set];
        let clause = s.d.clause(kind::CONSTRAINS_PARENT, core, fields);
        s.d.assign(here, clause);
        s.d.excluded(*rng.pick(&s.candidates), here, s.sets[0]);
    } else {
        let fields = [*rng.pick(&s.candidates), there, set];
        let clause = s.d.clause(kind::CONSTRAINS_EXCLUDED, core, fields);
        s.d.assign(here, clause);
        s.d.parent(*rng.pick(&s.parents), here, s.sets[0]);
    }
    s.d.stirred(rng)
}

/// One triple met again: over two auxiliaries, over two variables of one solvable, and beside a
/// direct Constrains, which is not part of the rule.
pub fn triples(rng: &mut Rng) -> Vec<u8> {
    let mut s = stage(rng, 2);
    let (parent, candidate) = (s.parents[0], s.candidates[0]);
    let (_, names) = s.d.variables[usize::from(candidate)];
    let twin = s.d.variable(crate::reader::origin::SOLVABLE, names);
    let auxiliaries = [s.d.auxiliary(), s.d.auxiliary()];
    for auxiliary in auxiliaries {
        for _ in 0..rng.between(1, 2) {
            s.d.parent(parent, auxiliary, *rng.pick(&s.sets));
            s.d.excluded(*rng.pick(&[candidate, twin]), auxiliary, *rng.pick(&s.sets));
        }
        if rng.chance(50) {
            s.d.core(kind::CONSTRAINS, [parent, candidate, s.sets[0]]);
        }
    }
    s.d.stirred(rng)
}

/// Hundreds of 23 and 24 on one auxiliary, most of them triples met before.
pub fn hundreds(rng: &mut Rng) -> Vec<u8> {
    let mut s = stage(rng, 20);
    let auxiliary = s.d.auxiliary();
    let (fathers, sons) = (rng.between(1, 400), rng.between(1, 400));
    for _ in 0..fathers {
        let set = if rng.chance(90) { s.sets[0] } else { s.sets[1] };
        s.d.parent(*rng.pick(&s.parents), auxiliary, set);
    }
    for _ in 0..sons {
        let set = if rng.chance(90) { s.sets[0] } else { s.sets[1] };
        s.d.excluded(*rng.pick(&s.candidates), auxiliary, set);
    }
    s.d.stirred(rng)
}
