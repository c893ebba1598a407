//! Packages that merge, and packages that only nearly do.

use super::texts;
use crate::draft::Draft;
use crate::reader::kind;
use crate::rng::Rng;
use crate::samples::Line;

/// Names of equal text, so that solvables of two name records merge; versions may be equal too.
pub fn by_text(rng: &mut Rng) -> Vec<u8> {
    let mut d = Draft::new();
    let names = [d.name("deck"), d.name("deck"), d.name("panel")];
    let decks: Vec<u16> = (0..rng.between(2, 6))
        .map(|_| {
            let version = texts::version(rng);
            d.solvable(*rng.pick(&names), &version)
        })
        .collect();
    d.root_needs("deck *", &decks);
    let wishes = [d.requirement("codec 9", &[]), d.requirement("codec 9", &[])];
    let set = d.version_set(0, "<2");
    let reason = d.reason("too old");
    let style = rng.below(4);
    let forbid = d.forbids(0);
    for &deck in &decks {
        let variable = d.of(deck);
        match style {
            0 => continue,
            1 => d.requires(variable, wishes[usize::from(rng.chance(20))]),
            // Causes are not told apart when merging.
            2 if rng.chance(50) => d.constrains(deck, decks[0], set),
            2 => d.core(kind::FORBID_MULTIPLE, [variable, forbid, 0]),
            _ => d.excludes(deck, reason),
        };
    }
    d.stirred(rng)
}

/// Two to four packages that would merge, but for what each may have of its own: another name,
/// a way in or out by another requirement, an edge twice, edges in another order, another cause.
pub fn near(rng: &mut Rng) -> Vec<u8> {
    let mut d = Draft::new();
    let names = [d.name("deck"), d.name("deck"), d.name("panel")];
    let members: Vec<u16> = (0..rng.between(2, 4))
        .map(|i| {
            let name = if rng.chance(85) {
                names[i % 2]
            } else {
                names[2]
            };
            d.solvable(name, &(i + 1).to_string())
        })
        .collect();
    let x = d.package("x", "1");
    let parents = [d.root(), d.of(x)];
    d.root_needs("x *", &[x]);
    ways_in(rng, &mut d, &parents, &members);
    let wishes = [
        d.requirement("codec 9", &[]),
        d.requirement("codec 9", &[]),
        d.requirement("x *", &[x]),
    ];
    let conflicts = rng.chance(50);
    let set = d.version_set(3, "<1");
    let forbid = d.forbids(0);
    let order = [rng.below(3), rng.below(3)];
    for &member in &members {
        let variable = d.of(member);
        let mut out = order;
        if rng.chance(30) {
            out.reverse();
        }
        if rng.chance(15) {
            out[0] = rng.below(3);
        }
        for wish in out {
            d.requires(variable, wishes[wish]);
        }
        if conflicts && rng.chance(70) {
            d.constrains(member, x, set);
        } else if conflicts {
            // Linked to x by the next clause: another cause with the same other end.
            d.core(kind::FORBID_MULTIPLE, [variable, forbid, 0]);
            d.core(kind::FORBID_MULTIPLE, [parents[1], forbid, 0]);
        }
    }
    d.file()
}

/// Each parent requires all members, or some of them by another requirement, or one of them twice.
fn ways_in(rng: &mut Rng, d: &mut Draft, parents: &[u16], members: &[u16]) {
    for &parent in parents {
        let mut candidates = members.to_vec();
        if rng.chance(20) {
            candidates.push(*rng.pick(members));
        }
        let text = texts::wish(rng);
        if rng.chance(35) {
            let (some, others) = candidates.split_at(rng.below(candidates.len()));
            for part in [some, others] {
                let wish = d.requirement(&text, part);
                if !part.is_empty() {
                    d.requires(parent, wish);
                }
            }
        } else {
            let wish = d.requirement(&text, &candidates);
            d.requires(parent, wish);
        }
        if rng.chance(40) {
            return;
        }
    }
}

/// A group around the six that are all shown.
pub fn around_six(rng: &mut Rng) -> Vec<u8> {
    let members = rng.between(5, 8);
    alike(rng, members)
}

/// A group that is shown short.
pub fn long(rng: &mut Rng) -> Vec<u8> {
    let members = *rng.pick(&[7, 8, 9, 13, 40]);
    alike(rng, members)
}

/// A group near the largest that a graph holds.
pub fn longest(rng: &mut Rng) -> Vec<u8> {
    let members = rng.between(100, 122);
    alike(rng, members)
}

/// So many packages that merge, by way of the root or of x or of both, at times with one more among them that does not.
fn alike(rng: &mut Rng, members: usize) -> Vec<u8> {
    let mut d = Draft::new();
    let x = d.package("x", "1");
    let names = [d.name("codec"), d.name("codec")];
    let builds: Vec<u16> = (0..members)
        .map(|_| {
            let version = build(rng);
            d.solvable(*rng.pick(&names), &version)
        })
        .collect();
    let mut candidates = builds.clone();
    if rng.chance(30) {
        let stray = d.solvable(names[0], "stray");
        candidates.insert(rng.below(members + 1), stray);
        d.needs(stray, "x *", &[x]);
    }
    let parents = [d.root(), d.of(x)];
    d.root_needs("x *", &[x]);
    for &parent in match rng.below(3) {
        0 => &parents[..1],
        1 => &parents[1..],
        _ => &parents[..],
    } {
        let text = texts::wish(rng);
        let wish = d.requirement(&text, &candidates);
        d.requires(parent, wish);
    }
    if rng.chance(50) {
        d.root_needs("panel 5", &[]);
    }
    let line = *rng.pick(&Line::ALL);
    line.give(&mut d, x, &builds);
    // In another order the forbidden ones would be linked to each other.
    match line {
        Line::Forbidden if rng.chance(50) => d.woven(rng),
        Line::Forbidden => d.file(),
        _ => d.stirred(rng),
    }
}

/// A version, at times one that looks like what stands for the left-out ones, or as long as one can be.
fn build(rng: &mut Rng) -> String {
    match rng.below(12) {
        0 => "...".to_string(),
        1 => " | ... | ".to_string(),
        2 => format!("9.{:022}", rng.below(100)),
        3 => texts::odd(rng),
        _ => format!("9.{}", rng.below(200)),
    }
}
