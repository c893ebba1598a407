//! Record files from a shape's name and a seed.
//!
//! Most shapes are small, since a comparison runs many; those marked heavy make files near the
//! limits, and [`pick`] takes one of them every sixteenth time.

mod air;
mod auxiliaries;
pub mod damage;
mod faults;
mod gates;
mod kinds;
pub mod limits;
mod merges;
mod quotes;
mod texts;
mod trees;
pub mod what_if;
mod world;

use crate::reader::kind;
use crate::rng::Rng;
use kinds::Size;

struct Shape {
    name: &'static str,
    heavy: bool,
    make: fn(&mut Rng) -> Vec<u8>,
}

const fn light(name: &'static str, make: fn(&mut Rng) -> Vec<u8>) -> Shape {
    Shape {
        name,
        heavy: false,
        make,
    }
}

const fn heavy(name: &'static str, make: fn(&mut Rng) -> Vec<u8>) -> Shape {
    Shape {
        name,
        heavy: true,
        make,
    }
}

/// Names of one clause kind at three sizes.
macro_rules! sizes {
    ($name:literal, $kind:expr) => {
        [
            light(concat!($name, "-small"), |rng| {
                kinds::file(rng, $kind, Size::Small)
            }),
            light(concat!($name, "-middle"), |rng| {
                kinds::file(rng, $kind, Size::Middle)
            }),
            heavy(concat!($name, "-limit"), |rng| {
                kinds::file(rng, $kind, Size::Limit)
            }),
        ]
    };
}

/// One clause kind at a time.
const KINDS: [[Shape; 3]; 10] = [
    sizes!("install-root", kind::INSTALL_ROOT),
    sizes!("excluded", kind::EXCLUDED),
    sizes!("learnt", kind::LEARNT),
    sizes!("requires", kind::REQUIRES),
    sizes!("lock", kind::LOCK),
    sizes!("forbid", kind::FORBID_MULTIPLE),
    sizes!("constrains", kind::CONSTRAINS),
    sizes!("constrains-parent", kind::CONSTRAINS_PARENT),
    sizes!("constrains-excluded", kind::CONSTRAINS_EXCLUDED),
    sizes!("any-of", kind::ANY_OF),
];

const SHAPES: &[Shape] = &[
    light("world-small", world::small),
    light("world-middle", world::middle),
    heavy("world-limit", world::limit),
    light("world-gates", world::gates),
    light("world-conflicts", world::conflicts),
    light("world-cycles", world::cycles),
    light("soup", world::soup),
    light("gate-partners", gates::partners),
    light("gate-skipped", gates::skipped),
    light("gate-recovered", gates::recovered),
    light("gate-of-another", gates::of_another),
    light("gate-wrong-kind", gates::wrong_kind),
    light("gate-recovered-skipped", gates::recovered_skipped),
    light("auxiliary-pairs", auxiliaries::pairs),
    light("auxiliary-recovered", auxiliaries::recovered),
    light("auxiliary-of-another", auxiliaries::of_another),
    light("auxiliary-triples", auxiliaries::triples),
    heavy("auxiliary-hundreds", auxiliaries::hundreds),
    light("forbid-chains", trees::forbid_chains),
    light("locks", trees::locks),
    light("exclusions-double", trees::double_exclusions),
    light("candidates", trees::candidates),
    light("runs", trees::runs),
    light("unresolved-twice", trees::unresolved_twice),
    light("merge-by-text", merges::by_text),
    light("merge-near", merges::near),
    light("merge-around-six", merges::around_six),
    light("merge-long", merges::long),
    heavy("merge-longest", merges::longest),
    light("quotes", quotes::everywhere),
    heavy("quotes-alone", quotes::alone),
    light("twin-variables", trees::twin_variables),
    light("last-mark-skipped", trees::last_mark_skipped),
    light("cycle-unmerged", trees::cycle_unmerged),
    light("cycle-merged", trees::cycle_merged),
    light("depth-bound", trees::depth_bound),
    heavy("depth-largest", trees::depth_largest),
    light("dag-deep", trees::dag_deep),
    light("dag-exploding", trees::dag_exploding),
    heavy("dag-exploding-limit", trees::dag_exploding_limit),
    light("unreached", trees::unreached),
    heavy("nodes-at-limit", |rng| limits::nodes(rng.between(127, 129))),
    heavy("edges-at-limit", |rng| {
        limits::edges(rng.between(1_023, 1_025))
    }),
    heavy("nodes-and-edges", limits::nodes_and_edges),
    heavy("table-names", |rng| limits::near(rng, limits::Table::Names)),
    heavy("table-solvables", |rng| {
        limits::near(rng, limits::Table::Solvables)
    }),
    heavy("table-version-sets", |rng| {
        limits::near(rng, limits::Table::VersionSets)
    }),
    heavy("table-requirements", |rng| {
        limits::near(rng, limits::Table::Requirements)
    }),
    heavy("table-candidates", |rng| {
        limits::near(rng, limits::Table::Candidates)
    }),
    light("table-reasons", |rng| {
        limits::near(rng, limits::Table::Reasons)
    }),
    heavy("table-variables", |rng| {
        limits::near(rng, limits::Table::Variables)
    }),
    heavy("table-clauses", |rng| {
        limits::near(rng, limits::Table::Clauses)
    }),
    heavy("assigned-by-1023", |_| limits::assigned_by(1_023)),
    heavy("bytes-65536", |rng| limits::bytes(rng, 65_536)),
    heavy("bytes-65568", |rng| limits::bytes(rng, 65_568)),
];

/// Files that the reader refuses, most of them.
const FAULTS: &[Shape] = &[
    light("double-faults", faults::double),
    light("wrong-origins", faults::wrong_origin),
    light("bits-flipped", faults::flipped),
    light("fields-changed", faults::fields_changed),
    light("cut", faults::cut),
    light("records-swapped", faults::swapped),
    light("unused-bytes", faults::unused_bytes),
    light("random-records", faults::random_records),
    light("random-bytes", faults::random_bytes),
];

/// Files near the air profile of document 02, order 9.
const AIR: &[Shape] = &[
    light("air-ring", air::ring),
    light("air-ring-of-conflicts", air::ring_of_conflicts),
    light("air-ring-long", air::ring_long),
    light("air-self-edges", air::self_edges),
    light("air-locks", air::locks),
    light("air-nodes", air::nodes),
    light("air-inside", air::inside),
    heavy("air-largest", air::largest),
];

/// Files that document 02, order 10, is asked of.
const WHAT_IF: &[Shape] = &[
    light("what-if-families", what_if::families),
    heavy("what-if-limits", what_if::limits),
    heavy("what-if-records", what_if::records),
];

/// All but those near the air profile and those of order 10.
fn plain() -> impl Iterator<Item = &'static Shape> {
    KINDS.iter().flatten().chain(SHAPES).chain(FAULTS)
}

fn all() -> impl Iterator<Item = &'static Shape> {
    plain().chain(AIR).chain(WHAT_IF)
}

pub fn shapes() -> impl Iterator<Item = &'static str> {
    all().map(|shape| shape.name)
}

/// The shapes whose files `record` takes: one added to [`AIR`] or [`WHAT_IF`], of which it names three, leaves the recorded
/// answers as they are.
pub fn recorded() -> impl Iterator<Item = &'static str> {
    plain().map(|shape| shape.name)
}

/// The file of a shape and a seed.
pub fn file(shape: &str, seed: u64) -> Option<Vec<u8>> {
    let shape = all().find(|one| one.name == shape)?;
    Some((shape.make)(&mut Rng::named(shape.name, seed)))
}

/// A file of some light shape that is no fault, to be damaged.
fn sound(rng: &mut Rng) -> Vec<u8> {
    let shapes = KINDS.iter().flatten().chain(SHAPES);
    let light: Vec<&Shape> = shapes.filter(|shape| !shape.heavy).collect();
    let shape = *rng.pick(&light);
    (shape.make)(rng)
}

/// The shape and seed of the `index`th file of a run, so that runs of any length take every shape
/// in turn, and heavy ones seldom.
pub fn pick(index: u64, seed: u64) -> (&'static str, u64) {
    picked(index, seed, all)
}

/// The same over the shapes near the air profile and those with a cycle or a lock.
pub fn pick_air(index: u64, seed: u64) -> (&'static str, u64) {
    let named = ["cycle", "lock", "forbid", "world", "soup"];
    let near = move |shape: &&Shape| named.iter().any(|name| shape.name.contains(name));
    picked(index, seed, || AIR.iter().chain(plain().filter(near)))
}

/// The same over the shapes of order 10 and those near them, most of whose files have no cycle.
pub fn pick_what_if(index: u64, seed: u64) -> (&'static str, u64) {
    let named = [
        "inside",
        "locks",
        "nodes",
        "dag",
        "merge",
        "exclusions",
        "runs",
        "gate-partners",
        "auxiliary-pairs",
        "candidates",
    ];
    let near = move |shape: &&Shape| named.iter().any(|name| shape.name.contains(name));
    picked(index, seed, || {
        WHAT_IF.iter().chain(plain().chain(AIR).filter(near))
    })
}

fn picked<I: Iterator<Item = &'static Shape>>(
    index: u64,
    seed: u64,
    from: impl Fn() -> I,
) -> (&'static str, u64) {
    let heavy = index % 16 == 15;
    let turn = if heavy {
        index / 16
    } else {
        index - index / 16
    };
    let count = from().filter(|shape| shape.heavy == heavy).count() as u64;
    let shape = from()
        .filter(|shape| shape.heavy == heavy)
        .nth((turn % count) as usize)
        .expect("there are shapes of both weights");
    (
        shape.name,
        seed.wrapping_mul(1 << 32).wrapping_add(turn / count),
    )
}
