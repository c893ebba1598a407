//! Loads near the air profile (document 02, order 9): rings of every length through edges of every kind, locks in and outside the
//! core, 63 to 66 nodes, and loads that the profile takes.

use super::{auxiliaries, gates};
use crate::draft::Draft;
use crate::reader::kind;
use crate::rng::Rng;

/// As many packages as fit beside the root and unresolved.
const MOST: usize = 62;

/// A load in the making, whose packages have a version each and share few names.
struct Load {
    d: Draft,
    all: Vec<u16>,
    set: u16,
    reason: u16,
}

impl Load {
    fn of(rng: &mut Rng, packages: usize) -> Load {
        let mut d = Draft::new();
        let names: Vec<u16> = (0..rng.between(1, 4))
            .map(|i| d.name(&format!("p{i}")))
            .collect();
        let all = (0..packages)
            .map(|i| d.solvable(*rng.pick(&names), &i.to_string()))
            .collect();
        let set = d.version_set(0, "<2");
        let reason = d.reason("too old");
        Load {
            d,
            all,
            set,
            reason,
        }
    }

    /// An edge from one package to another by some clause.
    fn edge(&mut self, rng: &mut Rng, from: usize, to: usize) {
        if rng.chance(50) {
            self.conflict(rng, from, to);
        } else {
            self.need(rng, from, to);
        }
    }

    fn need(&mut self, rng: &mut Rng, from: usize, to: usize) {
        let requirement = self.d.requirement("next *", &[self.all[to]]);
        let requirer = self.d.of(self.all[from]);
        if rng.chance(20) {
            gates::requires(rng, &mut self.d, &[requirer], requirement);
        } else {
            self.d.requires(requirer, requirement);
        }
    }

    /// The same by a conflict. A name of its own keeps a forbid-multiple apart from the others.
    fn conflict(&mut self, rng: &mut Rng, from: usize, to: usize) {
        let (here, there) = (self.all[from], self.all[to]);
        match rng.below(3) {
            0 => {
                let name = self.d.name("apart");
                self.d.forbid(here, name);
                self.d.forbid(there, name);
            }
            1 => {
                self.d.constrains(here, there, self.set);
            }
            _ => auxiliaries::constrain(rng, &mut self.d, here, there, self.set),
        }
    }

    /// The root requires some of the packages.
    fn root_needs(&mut self, places: &[usize]) {
        let wanted: Vec<u16> = places.iter().map(|&at| self.all[at]).collect();
        self.d.root_needs("any *", &wanted);
    }

    /// A Lock of two packages, in the core or not.
    fn lock(&mut self, rng: &mut Rng, core: bool) {
        let locked = self.d.of(*rng.pick(&self.all));
        let forbidden = self.d.of(*rng.pick(&self.all));
        self.d.clause(kind::LOCK, core, [locked, forbidden, 0]);
    }

    /// What need not change which nodes are on a cycle: a package that lacks something, one that is excluded.
    fn spice(&mut self, rng: &mut Rng) {
        if rng.chance(40) {
            self.d.needs(*rng.pick(&self.all), "codec 9", &[]);
        }
        if rng.chance(20) {
            self.d.excludes(*rng.pick(&self.all), self.reason);
        }
    }
}

/// A row of packages in some order, each leading to the next; with `closed` the last leads back into the row, so that those before
/// that place only lead to the ring and those behind it are on it. Lengths of rings are from 1, an edge to itself, to the longest
/// that fits.
fn row(
    rng: &mut Rng,
    most: usize,
    closed: bool,
    link: fn(&mut Load, &mut Rng, usize, usize),
) -> Load {
    let packages = rng.between(1, most);
    let mut load = Load::of(rng, packages);
    let mut order: Vec<usize> = (0..packages).collect();
    if rng.chance(60) {
        rng.shuffle(&mut order);
    }
    if rng.chance(50) {
        load.root_needs(&order[..1]);
    } else {
        // The order of nodes is that of the candidates.
        let all: Vec<usize> = (0..packages).collect();
        load.root_needs(&all);
    }
    for two in order.windows(2) {
        link(&mut load, rng, two[0], two[1]);
    }
    let last = order[packages - 1];
    if closed {
        let back = if rng.chance(40) {
            0
        } else {
            rng.below(packages)
        };
        link(&mut load, rng, last, order[back]);
    }
    // Ways that go on along the row make no ring.
    for _ in 0..rng.below(4) {
        let (a, b) = (rng.below(packages), rng.below(packages));
        if a < b {
            link(&mut load, rng, order[a], order[b]);
        }
    }
    load
}

pub fn ring(rng: &mut Rng) -> Vec<u8> {
    let most = *rng.pick(&[3, 6, 12]);
    let closed = rng.chance(80);
    let mut load = row(rng, most, closed, Load::edge);
    load.spice(rng);
    load.d.stirred(rng)
}

pub fn ring_of_conflicts(rng: &mut Rng) -> Vec<u8> {
    let most = *rng.pick(&[2, 5, 9]);
    let closed = rng.chance(80);
    let mut load = row(rng, most, closed, Load::conflict);
    load.spice(rng);
    load.d.stirred(rng)
}

/// Up to 62 packages on one ring, by few kinds of clauses so that the file holds them.
pub fn ring_long(rng: &mut Rng) -> Vec<u8> {
    let links: [fn(&mut Load, &mut Rng, usize, usize); 3] =
        [Load::edge, Load::need, |load, _, from, to| {
            load.d.constrains(load.all[from], load.all[to], load.set);
        }];
    let link = *rng.pick(&links);
    let closed = rng.chance(80);
    let mut load = row(rng, MOST, closed, link);
    load.spice(rng);
    load.d.stirred(rng)
}

/// An edge to itself, by each kind of clause that can make one, on a node that a row leads to; or none at all.
pub fn self_edges(rng: &mut Rng) -> Vec<u8> {
    let mut load = row(rng, 5, false, Load::edge);
    for _ in 0..rng.below(3) {
        let at = rng.below(load.all.len());
        let it = load.all[at];
        match rng.below(4) {
            0 => load.need(rng, at, at),
            1 => {
                load.d.constrains(it, it, load.set);
            }
            2 => auxiliaries::constrain(rng, &mut load.d, it, it, load.set),
            _ => {
                // The same solvable twice in a row, at times with another in between.
                let name = load.d.name("apart");
                load.d.forbid(it, name);
                if rng.chance(30) {
                    let other = *rng.pick(&load.all);
                    load.d.forbid(other, name);
                }
                load.d.forbid(it, name);
            }
        }
    }
    load.d.stirred(rng)
}

/// Locks in the core, outside it or both, on loads with a ring and without.
pub fn locks(rng: &mut Rng) -> Vec<u8> {
    let closed = rng.chance(40);
    let mut load = row(rng, 5, closed, Load::edge);
    for _ in 0..rng.between(1, 3) {
        let core = rng.chance(40);
        load.lock(rng, core);
    }
    load.spice(rng);
    load.d.stirred(rng)
}

/// 63 to 66 nodes, unresolved counted only where it stays; at times with a lock or a ring as well.
pub fn nodes(rng: &mut Rng) -> Vec<u8> {
    let nodes = rng.between(63, 66);
    let (stays, excluded) = (rng.chance(50), rng.chance(20));
    let packages = nodes - 1 - usize::from(stays) - usize::from(excluded);
    let mut load = Load::of(rng, packages);
    let all: Vec<usize> = (0..packages).collect();
    load.root_needs(&all);
    if stays {
        load.d.needs(*rng.pick(&load.all), "codec 9", &[]);
    }
    if excluded {
        load.d.excludes(*rng.pick(&load.all), load.reason);
    }
    let rings = rng.chance(30);
    for _ in 0..rng.below(20) {
        let (a, b) = (rng.below(packages), rng.below(packages));
        if a < b || rings {
            load.edge(rng, a, b);
        }
    }
    if rng.chance(40) {
        let core = rng.chance(40);
        load.lock(rng, core);
    }
    load.d.stirred(rng)
}

/// A load that the profile takes: edges of every kind, all of them onward.
pub fn inside(rng: &mut Rng) -> Vec<u8> {
    let most = *rng.pick(&[4, 10, 20]);
    let packages = rng.between(1, most);
    let mut load = Load::of(rng, packages);
    let all: Vec<usize> = (0..packages).collect();
    load.root_needs(&all);
    for _ in 0..rng.between(1, 2 * packages) {
        let (a, b) = (rng.below(packages), rng.below(packages));
        if a < b {
            if rng.chance(20) {
                load.conflict(rng, a, b);
            } else {
                load.need(rng, a, b);
            }
        }
    }
    if rng.chance(30) {
        load.lock(rng, false);
    }
    load.spice(rng);
    load.d.woven(rng)
}

/// 64 nodes and as many edges as 31 packages that each require any of 31 others make, without a cycle.
pub fn largest(_: &mut Rng) -> Vec<u8> {
    let mut d = Draft::new();
    let half = MOST / 2;
    let row = |d: &mut Draft, name: &str| -> Vec<u16> {
        (0..half)
            .map(|i| d.package(&format!("{name}{i}"), "1"))
            .collect()
    };
    let (upper, lower) = (row(&mut d, "deck"), row(&mut d, "codec"));
    d.root_needs("deck *", &upper);
    let wish = d.requirement("codec *", &lower);
    for &deck in &upper {
        let requirer = d.of(deck);
        d.requires(requirer, wish);
    }
    d.needs(lower[half - 1], "driver 9", &[]);
    d.file()
}
