//! Many questions of document 02, order 10, over generated files, each answered in both ways of [`asked`](crate::asked).

use std::collections::BTreeMap;

use crate::asked::{agree, Agreed};
use crate::generate::{self, what_if};
use crate::rng::Rng;

/// A small file is asked every question.
pub const ALL: usize = 12;

/// The `index`th file of a run of questions, half of them of shapes most of whose files have no cycle, and whence it is.
pub fn file(index: u64, seed: u64) -> Option<(String, Vec<u8>)> {
    let (shape, shape_seed) = if index % 2 == 0 {
        generate::pick_what_if(index / 2, seed)
    } else {
        generate::pick(index, seed)
    };
    let mut rng = Rng::new(shape_seed ^ index.rotate_left(40));
    let file = what_if::with_reasons(generate::file(shape, shape_seed)?, &mut rng);
    let whence = format!("shape {shape} seed {shape_seed} with reasons, index {index}");
    Some((whence, file))
}

/// How the questions of a run were answered.
#[derive(Debug, Default)]
pub struct Tally {
    /// Answers of every number: 0, or the refusal.
    pub numbers: BTreeMap<u64, u64>,
    /// Of those that are done: the nodes have other numbers in the longer file; the members of a group come in another order; there
    /// is a group at all; some label changed.
    pub renumbered: u64,
    pub reordered: u64,
    pub grouped: u64,
    pub relabelled: u64,
}

impl Tally {
    pub fn questions(&self) -> u64 {
        self.numbers.values().sum()
    }

    pub fn count(&mut self, number: u64, agreed: Agreed) {
        *self.numbers.entry(number).or_default() += 1;
        self.renumbered += u64::from(number == 0 && !agreed.numbers);
        self.reordered += u64::from(number == 0 && !agreed.members);
        self.grouped += u64::from(number == 0 && agreed.groups);
        self.relabelled += u64::from(agreed.changed > 0);
    }
}

impl std::fmt::Display for Tally {
    fn fmt(&self, f: &mut std::fmt::Formatter<'_>) -> std::fmt::Result {
        let numbers = self
            .numbers
            .iter()
            .map(|(n, count)| format!("{n}: {count}"));
        let Tally {
            renumbered,
            reordered,
            grouped,
            relabelled,
            ..
        } = self;
        write!(
            f,
            "{} questions, by answer: {}",
            self.questions(),
            numbers.collect::<Vec<_>>().join(", ")
        )?;
        write!(f, "; of those done {relabelled} change a label, {grouped} have a group, {renumbered} other node numbers in the longer file")?;
        write!(f, ", {reordered} another order of members")
    }
}

/// At least so many questions, or the first that the two ways answer differently.
pub fn questions(n: u64, seed: u64) -> Result<Tally, String> {
    let mut tally = Tally::default();
    for index in 0.. {
        if tally.questions() >= n {
            break;
        }
        let Some((whence, file)) = file(index, seed) else {
            continue;
        };
        let mut rng = Rng::new(index ^ seed.rotate_left(32));
        for question in what_if::questions(&file, &mut rng, ALL) {
            match agree(&file, question) {
                Ok(Ok(agreed)) => tally.count(0, agreed),
                Ok(Err(refusal)) => tally.count(refusal.number, Agreed::default()),
                Err(said) => return Err(format!("{whence}, {question:?}: {said}")),
            }
        }
    }
    Ok(tally)
}
