//! The shared requires encoding: a gate, its requirers, and where they are recovered from.

use super::texts;
use crate::draft::Draft;
use crate::reader::{kind, origin};
use crate::rng::Rng;

/// A `Requires` of a new gate, with one core AnyOf a requirer; or, for one requirer, with the
/// AnyOf outside the core and the gate assigned by it.
pub fn requires(rng: &mut Rng, d: &mut Draft, requirers: &[u16], requirement: u16) {
    let gate = d.gate();
    if requirers.len() == 1 && rng.chance(30) {
        let any_of = d.clause(kind::ANY_OF, false, [gate, requirers[0], 0]);
        d.assign(gate, any_of);
    } else {
        for &requirer in requirers {
            d.any_of(gate, requirer);
        }
    }
    d.requires(gate, requirement);
}

/// Some packages that the root requires directly, a wish of theirs, and variables of the origins
/// that are no requirers.
struct Stage {
    d: Draft,
    requirers: Vec<u16>,
    others: Vec<u16>,
    wish: u16,
}

fn stage(rng: &mut Rng) -> Stage {
    let mut d = Draft::new();
    let deck = d.name("deck");
    let count = rng.between(1, 4);
    let decks: Vec<u16> = (0..count)
        .map(|i| d.solvable(deck, &i.to_string()))
        .collect();
    let codec = d.name("codec");
    let codecs: Vec<u16> = (0..rng.below(3))
        .map(|i| d.solvable(codec, &i.to_string()))
        .collect();
    d.root_needs("deck *", &decks);
    let text = texts::wish(rng);
    let wish = d.requirement(&text, &codecs);
    let mut requirers: Vec<u16> = decks.iter().map(|&deck| d.of(deck)).collect();
    requirers.push(d.root());
    let others = vec![d.forbids(deck), d.gate(), d.auxiliary(), d.other()];
    Stage {
        d,
        requirers,
        others,
        wish,
    }
}

/// Several requirers of one gate, some twice, and the gate in several `Requires`.
pub fn partners(rng: &mut Rng) -> Vec<u8> {
    let Stage {
        mut d,
        requirers,
        wish,
        ..
    } = stage(rng);
    let gate = d.gate();
    for _ in 0..rng.between(1, 6) {
        d.any_of(gate, *rng.pick(&requirers));
    }
    for _ in 0..rng.between(1, 3) {
        d.requires(gate, wish);
    }
    d.stirred(rng)
}

/// Partners that are neither root nor solvable, with and without one that stays.
pub fn skipped(rng: &mut Rng) -> Vec<u8> {
    let Stage {
        mut d,
        requirers,
        others,
        wish,
    } = stage(rng);
    let gate = d.gate();
    for _ in 0..rng.between(1, 4) {
        d.any_of(gate, *rng.pick(&others));
    }
    if rng.chance(50) {
        d.any_of(gate, *rng.pick(&requirers));
    }
    if rng.chance(60) {
        let core = rng.chance(20);
        let any_of = d.clause(kind::ANY_OF, core, [gate, *rng.pick(&requirers), 0]);
        d.assign(gate, any_of);
    }
    d.requires(gate, wish);
    d.stirred(rng)
}

/// The gate requires a wish and was assigned by an AnyOf of `selected` and one of the partners, in the core at times.
fn through(
    d: &mut Draft,
    rng: &mut Rng,
    [gate, selected, wish]: [u16; 3],
    core: usize,
    partners: &[u16],
) {
    let any_of = d.clause(
        kind::ANY_OF,
        rng.chance(core),
        [selected, *rng.pick(partners), 0],
    );
    d.assign(gate, any_of);
    d.requires(gate, wish);
}

/// The requirer comes from the clause that assigned the gate, in the core or outside it.
pub fn recovered(rng: &mut Rng) -> Vec<u8> {
    let Stage {
        mut d,
        requirers,
        wish,
        ..
    } = stage(rng);
    for _ in 0..rng.between(1, 3) {
        let gate = d.gate();
        through(&mut d, rng, [gate, gate, wish], 10, &requirers);
    }
    d.stirred(rng)
}

/// The gate was assigned by an AnyOf of another variable: "whatever its a".
pub fn of_another(rng: &mut Rng) -> Vec<u8> {
    let Stage {
        mut d,
        requirers,
        others,
        wish,
    } = stage(rng);
    let gate = d.gate();
    let selected = if rng.chance(50) {
        d.gate()
    } else {
        *rng.pick(&others)
    };
    through(&mut d, rng, [gate, selected, wish], 50, &requirers);
    d.stirred(rng)
}

/// The gate was assigned by a clause of another kind, or by none: the `Requires` adds nothing.
pub fn wrong_kind(rng: &mut Rng) -> Vec<u8> {
    let Stage {
        mut d,
        requirers,
        wish,
        ..
    } = stage(rng);
    let gate = d.gate();
    let clause = match rng.below(4) {
        0 => d.clause(kind::INSTALL_ROOT, rng.chance(50), [0; 3]),
        1 => d.clause(kind::LEARNT, false, [0; 3]),
        2 => d.clause(
            kind::REQUIRES,
            rng.chance(50),
            [*rng.pick(&requirers), wish, 0],
        ),
        _ => d.clause(kind::REQUIRES, rng.chance(50), [gate, wish, 0]),
    };
    if rng.chance(80) {
        d.assign(gate, clause);
    }
    d.requires(gate, wish);
    d.stirred(rng)
}

/// The recovered partner is neither root nor solvable.
pub fn recovered_skipped(rng: &mut Rng) -> Vec<u8> {
    let Stage {
        mut d,
        others,
        wish,
        ..
    } = stage(rng);
    let gate = d.variable(origin::GATE, 0);
    through(&mut d, rng, [gate, gate, wish], 30, &others);
    d.stirred(rng)
}
