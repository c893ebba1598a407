//! Graphs that show one rule of the text each: runs, groups, marks, cycles, depth.

use crate::draft::Draft;
use crate::reader::{kind, origin};
use crate::rng::Rng;

/// So many versions of a new name.
fn versions(d: &mut Draft, name: &str, count: usize) -> Vec<u16> {
    let name = d.name(name);
    (0..count)
        .map(|i| d.solvable(name, &(i + 1).to_string()))
        .collect()
}

/// Chains under several names, own and foreign, the same solvable twice in a row among them.
pub fn forbid_chains(rng: &mut Rng) -> Vec<u8> {
    let mut d = Draft::new();
    let decks = versions(&mut d, "deck", rng.between(1, 4));
    let panels = versions(&mut d, "panel", rng.between(1, 2));
    let same_text = d.name("deck");
    let all = [decks, panels].concat();
    d.root_needs("all *", &all);
    let forbids = [
        d.forbids(0),
        d.forbids(1),
        d.forbids(same_text),
        d.variable(origin::FORBID_MULTIPLE, 0),
    ];
    for _ in 0..rng.between(1, 8) {
        let solvable = d.of(*rng.pick(&all));
        d.core(kind::FORBID_MULTIPLE, [solvable, *rng.pick(&forbids), 0]);
    }
    d.stirred(rng)
}

pub fn locks(rng: &mut Rng) -> Vec<u8> {
    let mut d = Draft::new();
    let decks = versions(&mut d, "deck", rng.between(1, 4));
    if rng.chance(70) {
        d.root_needs("deck *", &decks);
    }
    for _ in 0..rng.between(1, 4) {
        d.locks(*rng.pick(&decks), *rng.pick(&decks));
        if rng.chance(40) {
            d.root_needs("deck 1", &[decks[0]]);
        }
    }
    d.stirred(rng)
}

/// Two reasons for one package, one reason for two, and two reasons of one text.
pub fn double_exclusions(rng: &mut Rng) -> Vec<u8> {
    let mut d = Draft::new();
    let decks = versions(&mut d, "deck", rng.between(1, 3));
    d.root_needs("deck *", &decks);
    let reasons = [
        d.reason("too old"),
        d.reason("recalled"),
        d.reason("too old"),
    ];
    for _ in 0..rng.between(2, 6) {
        d.excludes(*rng.pick(&decks), *rng.pick(&reasons));
    }
    if rng.chance(50) {
        d.needs(*rng.pick(&decks), "codec 9", &[]);
    }
    d.stirred(rng)
}

/// Requirements without candidates, with one twice, and in any order.
pub fn candidates(rng: &mut Rng) -> Vec<u8> {
    let mut d = Draft::new();
    let decks = versions(&mut d, "deck", rng.between(1, 3));
    let codecs = versions(&mut d, "codec", rng.between(1, 3));
    let bag = |rng: &mut Rng, from: &[u16]| -> Vec<u16> {
        (0..rng.below(5)).map(|_| *rng.pick(from)).collect()
    };
    let mut first = bag(rng, &decks);
    first.push(decks[0]);
    d.root_needs("deck *", &first);
    for &deck in &decks {
        if first.contains(&deck) && rng.chance(70) {
            let second = bag(rng, &codecs);
            d.needs(deck, "codec *", &second);
        }
    }
    d.stirred(rng)
}

/// A requirement whose edges come in stretches, split by others; at the root conflict edges lie
/// between too, and are dropped before the runs are cut.
pub fn runs(rng: &mut Rng) -> Vec<u8> {
    let mut d = Draft::new();
    let decks = versions(&mut d, "deck", rng.between(1, 3));
    let codecs = versions(&mut d, "codec", rng.between(1, 3));
    let wishes = [
        d.requirement("deck *", &decks),
        d.requirement("deck 1", &decks[..1]),
    ];
    let inner = [
        d.requirement("codec *", &codecs),
        d.requirement("codec 9", &[]),
        d.requirement("codec 1", &codecs[..1]),
    ];
    let root = d.root();
    d.requires(root, wishes[0]);
    for _ in 0..rng.between(1, 5) {
        d.requires(root, *rng.pick(&wishes));
        if rng.chance(40) {
            d.locks(decks[0], *rng.pick(&decks));
        }
    }
    for &deck in &decks {
        let deck = d.of(deck);
        for _ in 0..rng.below(5) {
            d.requires(deck, *rng.pick(&inner));
        }
    }
    d.file()
}

/// Two parallel edges to unresolved in one run: "no viable options" with no children.
pub fn unresolved_twice(rng: &mut Rng) -> Vec<u8> {
    let mut d = Draft::new();
    let decks = versions(&mut d, "deck", rng.between(1, 2));
    d.root_needs("deck *", &decks);
    let none = d.requirement("codec 9", &[]);
    let mut parents: Vec<u16> = decks.iter().map(|&deck| d.of(deck)).collect();
    parents.push(d.root());
    for _ in 0..rng.between(1, 3) {
        let parent = *rng.pick(&parents);
        for _ in 0..rng.between(1, 3) {
            d.requires(parent, none);
        }
        if rng.chance(40) {
            d.requires(parent, 0);
        }
    }
    d.file()
}

/// Several variables of one solvable and of the root.
pub fn twin_variables(rng: &mut Rng) -> Vec<u8> {
    let mut d = Draft::new();
    let decks = versions(&mut d, "deck", 2);
    let roots = [d.root(), d.variable(origin::ROOT, 0)];
    let twins: Vec<[u16; 2]> = decks
        .iter()
        .map(|&deck| [d.of(deck), d.variable(origin::SOLVABLE, deck)])
        .collect();
    let wish = d.requirement("deck *", &decks);
    let none = d.requirement("codec 9", &[]);
    let set = d.version_set(0, "<2");
    d.requires(*rng.pick(&roots), wish);
    for _ in 0..rng.between(1, 6) {
        let (one, other) = (*rng.pick(&twins), *rng.pick(&twins));
        let (one, other) = (*rng.pick(&one), *rng.pick(&other));
        match rng.below(4) {
            0 => d.requires(one, none),
            1 => d.core(kind::LOCK, [one, other, 0]),
            2 => d.core(kind::CONSTRAINS, [one, other, set]),
            _ => d.requires(*rng.pick(&roots), none),
        };
    }
    d.stirred(rng)
}

/// A merged package is reported under one requirement and skipped under another, where it held
/// the last mark.
pub fn last_mark_skipped(rng: &mut Rng) -> Vec<u8> {
    let mut d = Draft::new();
    let pair = versions(&mut d, "pair", rng.between(2, 3));
    let lone = d.package("lone", "1");
    let mut under: Vec<u16> = pair.clone();
    under.insert(rng.below(under.len() + 1), lone);
    let root = d.root();
    let mut wishes = vec![
        d.requirement("pair *", &pair),
        d.requirement("both *", &under),
    ];
    rng.shuffle(&mut wishes);
    for wish in wishes {
        d.requires(root, wish);
    }
    if rng.chance(50) {
        let none = d.requirement("codec 9", &[]);
        for &one in &pair {
            let one = d.of(one);
            d.requires(one, none);
        }
    }
    d.file()
}

/// A ring of lone packages, with ways in and side ways.
pub fn cycle_unmerged(rng: &mut Rng) -> Vec<u8> {
    let mut d = Draft::new();
    let ring: Vec<u16> = (0..rng.between(1, 5))
        .map(|i| d.package(&format!("ring{i}"), "1"))
        .collect();
    let leaf = d.package("leaf", "1");
    d.root_needs("ring *", &[*rng.pick(&ring)]);
    for (i, &one) in ring.iter().enumerate() {
        let next = ring[(i + 1) % ring.len()];
        let mut candidates = vec![next];
        if rng.chance(30) {
            candidates.push(leaf);
        }
        d.needs(one, "next *", &candidates);
        if rng.chance(20) {
            d.needs(one, "codec 9", &[]);
        }
    }
    if rng.chance(30) {
        let reason = d.reason("too old");
        d.excludes(*rng.pick(&ring), reason);
    }
    d.stirred(rng)
}

/// A ring in which some places are merged pairs, so that it ends.
pub fn cycle_merged(rng: &mut Rng) -> Vec<u8> {
    let mut d = Draft::new();
    let places: Vec<Vec<u16>> = (0..rng.between(1, 4))
        .map(|i| versions(&mut d, &format!("ring{i}"), rng.between(1, 2)))
        .collect();
    d.root_needs("ring *", &places[0]);
    for (i, place) in places.iter().enumerate() {
        let next = &places[(i + 1) % places.len()];
        let wish = d.requirement("next *", next);
        for &member in place {
            let member = d.of(member);
            d.requires(member, wish);
            // A need of one member only takes the pair apart.
            if rng.chance(8) {
                d.needs(place[0], "codec 9", &[]);
            }
        }
    }
    d.stirred(rng)
}

/// A chain of `lone` packages whose last needs any of the pairs, each of which needs the first:
/// between two pairs the whole chain is opened again, so that the bound is met.
fn chain_and_pairs(pairs: usize, lone: usize) -> Vec<u8> {
    let mut d = Draft::new();
    let chain: Vec<u16> = (0..lone)
        .map(|i| d.package(&format!("c{i}"), "1"))
        .collect();
    let mut members = Vec::new();
    for i in 0..pairs {
        members.extend(versions(&mut d, &format!("g{i}"), 2));
    }
    let first = d.root_needs("first", &chain[..1]);
    for two in chain.windows(2) {
        d.needs(two[0], "next", &two[1..]);
    }
    d.needs(chain[lone - 1], "any", &members);
    for member in members {
        let member = d.of(member);
        d.requires(member, first);
    }
    d.file()
}

pub fn depth_bound(rng: &mut Rng) -> Vec<u8> {
    chain_and_pairs(rng.between(1, 4), rng.between(1, 5))
}

/// 31 pairs and 64 lone packages: depth 2,079.
pub fn depth_largest(_: &mut Rng) -> Vec<u8> {
    chain_and_pairs(31, 64)
}

pub fn dag_deep(rng: &mut Rng) -> Vec<u8> {
    let mut d = Draft::new();
    let chain: Vec<u16> = (0..rng.between(2, 40))
        .map(|i| d.package(&format!("c{i}"), "1"))
        .collect();
    d.root_needs("first", &chain[..1]);
    for two in chain.windows(2) {
        d.needs(two[0], "next", &two[1..]);
    }
    if rng.chance(60) {
        d.needs(chain[chain.len() - 1], "codec 9", &[]);
    }
    d.stirred(rng)
}

/// Each level needs every package of the next, and no two merge: the text doubles by level.
fn explode(rng: &mut Rng, levels: usize, width: usize) -> Vec<u8> {
    let mut d = Draft::new();
    let levels: Vec<Vec<u16>> = (0..levels)
        .map(|level| {
            (0..width)
                .map(|i| d.package(&format!("l{level}w{i}"), "1"))
                .collect()
        })
        .collect();
    d.root_needs("level 0", &levels[0]);
    for (i, two) in levels.windows(2).enumerate() {
        let wish = d.requirement(&format!("level {}", i + 1), &two[1]);
        for &one in &two[0] {
            let one = d.of(one);
            d.requires(one, wish);
        }
    }
    if rng.chance(60) {
        let bottom = &levels[levels.len() - 1];
        d.needs(*rng.pick(bottom), "codec 9", &[]);
    }
    d.file()
}

pub fn dag_exploding(rng: &mut Rng) -> Vec<u8> {
    let (levels, width) = (rng.between(2, 5), rng.between(2, 3));
    explode(rng, levels, width)
}

pub fn dag_exploding_limit(rng: &mut Rng) -> Vec<u8> {
    let (levels, width) = *rng.pick(&[(63, 2), (42, 3), (31, 4), (8, 15)]);
    explode(rng, levels, width)
}

/// Packages that no edge path leads to; unresolved goes, or stays for their sake alone.
pub fn unreached(rng: &mut Rng) -> Vec<u8> {
    let mut d = Draft::new();
    let decks = versions(&mut d, "deck", rng.between(1, 3));
    let lost = versions(&mut d, "lost", rng.between(1, 3));
    let reason = d.reason("too old");
    d.root_needs("deck *", &decks);
    for _ in 0..rng.between(1, 3) {
        let one = *rng.pick(&lost);
        match rng.below(4) {
            0 => d.needs(one, "codec 9", &[]),
            1 => d.needs(one, "deck *", &decks),
            2 => d.forbid(one, 1),
            _ => d.excludes(one, reason),
        };
    }
    if rng.chance(20) {
        d.needs(decks[0], "lost *", &lost[..1]);
    }
    d.stirred(rng)
}
