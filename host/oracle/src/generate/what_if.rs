//! Loads to ask "what if this one were excluded too" of (document 02, order 10), and the questions.

use super::{auxiliaries, gates};
use crate::asked::Question;
use crate::draft::{record, Draft};
use crate::reader::{self, kind};
use crate::rng::Rng;

/// Families of packages of one name, each family's wishes offered by later families, so that there is no cycle. Members of a family
/// mostly want the same, and merge; an exclusion parts them, or brings one back to those that have it already.
pub fn families(rng: &mut Rng) -> Vec<u8> {
    let mut d = Draft::new();
    let reasons: Vec<u16> = (0..rng.between(1, 3))
        .map(|i| d.reason(&format!("reason {i}")))
        .collect();
    let families: Vec<Vec<u16>> = (0..rng.between(1, 5))
        .map(|i| {
            let name = d.name(&format!("f{i}"));
            let members = 0..rng.between(1, 4);
            members.map(|v| d.solvable(name, &v.to_string())).collect()
        })
        .collect();
    for (i, family) in families.iter().enumerate() {
        let wanted = some(rng, family);
        if i == 0 || rng.chance(30) {
            d.root_needs(&format!("f{i} *"), &wanted);
        }
    }
    let set = d.version_set(0, "<2");
    for (i, family) in families.iter().enumerate() {
        wishes(rng, &mut d, family, &families[i + 1..]);
        troubles(rng, &mut d, family, &families[i + 1..], &reasons, set);
    }
    // What no way leads to is asked for as well, in most loads.
    if rng.chance(90) {
        let all: Vec<u16> = families.concat();
        d.root_needs("all *", &all);
    }
    d.stirred(rng)
}

/// Up to two wishes of a family, offered by a later one or by nobody.
fn wishes(rng: &mut Rng, d: &mut Draft, family: &[u16], later: &[Vec<u16>]) {
    for _ in 0..rng.between(0, 2) {
        let offered = if later.is_empty() || rng.chance(15) {
            Vec::new()
        } else {
            let offering = rng.pick(later);
            some(rng, offering)
        };
        let wish = d.requirement("wish *", &offered);
        want(rng, d, family, wish);
    }
}

/// Members that are excluded, or constrain one of the next family; a family of which only one can be installed.
fn troubles(
    rng: &mut Rng,
    d: &mut Draft,
    family: &[u16],
    later: &[Vec<u16>],
    reasons: &[u16],
    set: u16,
) {
    for &member in family {
        match (rng.below(12), later.first()) {
            (0 | 1, _) => {
                d.excludes(member, *rng.pick(reasons));
            }
            (2, Some(next)) => {
                let other = *rng.pick(next);
                auxiliaries::constrain(rng, d, member, other, set);
            }
            (3, Some(next)) => {
                d.constrains(member, next[0], set);
            }
            _ => {}
        }
    }
    if family.len() > 1 && rng.chance(20) {
        let name = d.solvables[usize::from(family[0])].0;
        family.iter().for_each(|&member| {
            d.forbid(member, name);
        });
    }
}

/// All of a family in most cases, in some order, else a part of it.
fn some(rng: &mut Rng, family: &[u16]) -> Vec<u16> {
    let mut chosen = family.to_vec();
    if rng.chance(30) {
        rng.shuffle(&mut chosen);
    }
    if rng.chance(25) {
        chosen.truncate(rng.between(1, family.len()));
    }
    chosen
}

/// A wish of a family, by one gate or by a clause each; one member may be without it.
fn want(rng: &mut Rng, d: &mut Draft, family: &[u16], wish: u16) {
    let mut requirers: Vec<u16> = family.iter().map(|&member| d.of(member)).collect();
    if rng.chance(20) {
        requirers.truncate(family.len() - 1);
    }
    if rng.chance(30) && !requirers.is_empty() {
        gates::requires(rng, d, &requirers, wish);
    } else {
        requirers.into_iter().for_each(|requirer| {
            d.requires(requirer, wish);
        });
    }
}

/// 125 to 128 nodes while it is built, unresolved counted, or 1,022 to 1,024 edges, or both; at times with a ring; with reasons that
/// have a node and one that has none.
pub fn limits(rng: &mut Rng) -> Vec<u8> {
    let mut d = Draft::new();
    let reasons = ["too old", "recalled", "too old"].map(|text| d.reason(text));
    let excluded = rng.below(3);
    let (full, thick) = *rng.pick(&[(true, false), (false, true), (true, true)]);
    let nodes = if full { rng.between(125, 128) } else { 40 };
    let edges = if thick { rng.between(1_022, 1_024) } else { 0 };
    let name = d.name("wide");
    let all: Vec<u16> = (0..nodes - 2 - excluded)
        .map(|i| d.solvable(name, &i.to_string()))
        .collect();
    let whole = d.root_needs("wide *", &all);
    let mut made = all.len();
    for &reason in &reasons[..excluded] {
        let one = *rng.pick(&all);
        d.excludes(one, reason);
        made += 1;
    }
    if rng.chance(50) {
        d.needs(*rng.pick(&all), "codec 9", &[]);
        made += 1;
    }
    if rng.chance(25) {
        let ring = rng.below(all.len());
        d.needs(all[ring], "ring *", &all[ring..=ring]);
        made += 1;
    }
    let root = d.root();
    while made + all.len() <= edges {
        d.requires(root, whole);
        made += all.len();
    }
    if made < edges {
        d.root_needs("wide 1", &all[..edges - made]);
    }
    d.file()
}

/// As many clauses, variables or bytes as a file can have, or one fewer; a package has a variable or has none.
pub fn records(rng: &mut Rng) -> Vec<u8> {
    let mut d = Draft::new();
    let reasons = [d.reason("too old"), d.reason("recalled")];
    let name = d.name("deck");
    let decks: Vec<u16> = (0..4).map(|i| d.solvable(name, &i.to_string())).collect();
    d.root_needs("deck *", &decks);
    if rng.chance(50) {
        d.excludes(decks[0], reasons[0]);
    }
    if rng.chance(50) {
        d.needs(decks[1], "codec 9", &[]);
    }
    let short = usize::from(rng.chance(40));
    let table = rng.below(3);
    if table != 1 {
        while d.clauses.len() < reader::CLAUSES - short {
            d.clause(kind::INSTALL_ROOT, rng.chance(50), [0; 3]);
        }
    }
    if table != 0 {
        while d.variables.len() < reader::VARIABLES - short {
            d.other();
        }
    }
    let mut file = d.file();
    file.truncate(reader::LARGEST_FILE);
    file
}

/// The file with up to two more reasons, where the table and the file have room: most generated files have none.
pub fn with_reasons(mut file: Vec<u8>, rng: &mut Rng) -> Vec<u8> {
    let reasons = file.chunks_exact(32).filter(|r| r[0] == kind::REASON);
    let held = reasons.count();
    for own in held..held + rng.below(3) {
        let whole = file.len() % reader::RECORD == 0;
        if whole && own < reader::REASONS && file.len() < reader::LARGEST_FILE {
            let text = format!("asked {own}");
            file.extend(record(kind::REASON, 0, [own as u16, 0, 0], &text));
        }
    }
    file
}

/// Every pair of a solvable and a reason of a file where those are at most so many, else some of them; then numbers that the file does
/// not have, by one, and by what 16 and 32 bits would cut off.
pub fn questions(file: &[u8], rng: &mut Rng, most: usize) -> Vec<Question> {
    let (solvables, reasons) = match reader::read(file) {
        Ok(tables) => (tables.solvables.len() as u64, tables.reasons.len() as u64),
        Err(_) => (3, 2),
    };
    let known = solvables * reasons;
    let mut all: Vec<Question> = match known as usize {
        0 => Vec::new(),
        n if n <= most => (0..known).map(|k| asks(k / reasons, k % reasons)).collect(),
        _ => (0..most)
            .map(|_| asks(rng.next() % solvables, rng.next() % reasons))
            .collect(),
    };
    let (one, other) = (rng.next() % (solvables + 1), rng.next() % (reasons + 1));
    all.push(asks(far(rng, one), other));
    all.push(asks(one, far(rng, other)));
    let next = [
        asks(solvables, other),
        asks(one, reasons),
        asks(solvables, reasons),
    ];
    all.push(*rng.pick(&next));
    all
}

fn asks(solvable: u64, reason: u64) -> Question {
    Question { solvable, reason }
}

/// A number that no file has, at times one that is `near` in its lower bits.
fn far(rng: &mut Rng, near: u64) -> u64 {
    let some = rng.next() | 1 << 16;
    let all = [65_535, 65_536, 1 << 32, u64::MAX, some];
    match rng.below(7) {
        0 => 1 << 16 | near,
        1 => 1 << 32 | near,
        _ => *rng.pick(&all),
    }
}
