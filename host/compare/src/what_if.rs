//! One question about one file (document 02, order 10), on both sides: the port against the graph with the exclusion behind it, whole
//! lists and whole rooms, and against conflict.rs on the file with one more clause, by what a node stands for.

use crate::calls::{filled, line_ends, our_node, their_node, AMPLE};
use oracle::asked::{agree, standing, Agreed, Question};
use oracle::rng::Rng;

/// What is lent.
#[derive(Clone, Copy, Debug)]
pub enum Lent {
    List(usize),
    /// A room, with the option.
    Room(u64, usize),
}

/// A call with its question and the bytes that stand before in what is lent.
#[derive(Clone, Copy, Debug)]
pub struct Trial {
    pub question: Question,
    pub lent: Lent,
    pub fill: u64,
}

impl Trial {
    /// The answer's number, or what differs.
    pub fn run(&self, file: &[u8]) -> Result<u64, String> {
        match self.lent {
            Lent::List(length) => self.list(file, length),
            Lent::Room(option, size) => self.text(file, option, size),
        }
    }

    fn list(&self, file: &[u8], length: usize) -> Result<u64, String> {
        let Question { solvable, reason } = self.question;
        let bytes = filled(length * 10, self.fill);
        let mut theirs: Vec<oracle::Node> = bytes.chunks(10).map(their_node).collect();
        let mut ours: Vec<urzulempa::Node> = bytes.chunks(10).map(our_node).collect();
        let a = oracle::what_if(file, solvable, reason, &mut theirs);
        let b = urzulempa::what_if(file, solvable, reason, &mut ours);
        let ours: Vec<oracle::Node> = ours.iter().map(as_theirs).collect();
        same(a, b)?;
        match theirs.iter().zip(&ours).position(|(x, y)| x != y) {
            Some(at) => Err(format!("{a:?}, entry {at}: conflict.rs {:?}, port {:?}", theirs[at], ours[at])),
            None => Ok(a.number),
        }
    }

    fn text(&self, file: &[u8], option: u64, size: usize) -> Result<u64, String> {
        let Question { solvable, reason } = self.question;
        let mut theirs = filled(size, self.fill);
        let mut ours = theirs.clone();
        let a = oracle::what_if_explain(file, solvable, reason, option, &mut theirs);
        let b = urzulempa::what_if_explain(file, solvable, reason, option, &mut ours);
        same(a, b)?;
        if a.number == 11 {
            return Err("11 without a cycle".into());
        }
        match theirs.iter().zip(&ours).position(|(x, y)| x != y) {
            Some(at) => {
                let shown = |room: &[u8]| String::from_utf8_lossy(&room[..a.bytes as usize]).into_owned();
                Err(format!("{a:?}, byte {at}\nconflict.rs:\n{}\nport:\n{}", shown(&theirs), shown(&ours)))
            }
            None => Ok(a.number),
        }
    }
}

fn as_theirs(n: &urzulempa::Node) -> oracle::Node {
    oracle::Node { kind: n.kind, number: n.number, group: n.group, installable: n.installable, missing: n.missing, clause: n.clause }
}

fn same(theirs: oracle::Answer, ours: urzulempa::Answer) -> Result<(), String> {
    let a = (theirs.number, theirs.place, theirs.bytes, theirs.units, theirs.depth);
    let b = (ours.number, ours.place, ours.bytes, ours.units, ours.depth);
    if a == b {
        return Ok(());
    }
    Err(format!("number, place, bytes, units, depth: conflict.rs {a:?}, port {b:?}"))
}

/// A question by itself: what both ways of conflict.rs say of it, and the port's list and text against the longer file's. The answer's
/// number, and how the two ways compare.
pub fn outcome(file: &[u8], question: Question) -> Result<(u64, Agreed), String> {
    let agreed = match agree(file, question).map_err(|said| format!("the oracle by itself: {said}"))? {
        Ok(agreed) => agreed,
        Err(refusal) => return Ok((refusal.number, Agreed::default())),
    };
    let Question { solvable, reason } = question;
    let longer = oracle::Problem::read(file).map(|p| p.longer(solvable as u16, reason as u16));
    let longer = longer.map_err(|refusal| format!("{refusal:?}"))?;
    let rebuilt = longer.model().map_err(|refusal| format!("the longer file is refused: {refusal:?}"))?;
    let nodes = rebuilt.nodes();
    let mut list = vec![urzulempa::Node::default(); nodes.len()];
    let answer = urzulempa::what_if(file, solvable, reason, &mut list);
    let list: Vec<oracle::Node> = list.iter().map(as_theirs).collect();
    if answer.number != 0 || standing(&list) != standing(&nodes) || agreed.numbers && list != nodes {
        return Err(format!("{answer:?}: nodes of the longer file {nodes:?}, port {list:?}"));
    }
    if agreed.members {
        let (mut theirs, mut ours) = (vec![0; AMPLE], vec![0; AMPLE]);
        let a = rebuilt.explain(true, &mut theirs);
        let b = urzulempa::what_if_explain(file, solvable, reason, 1, &mut ours);
        same(a, b).map_err(|said| format!("the longer file's text: {said}"))?;
        if theirs != ours {
            return Err("the longer file's text differs".into());
        }
    }
    Ok((0, agreed))
}

/// The calls of a question: lists of the exact length, one less, one more, none, some and 128 entries; options 0 and 1, in rooms 0,
/// exact, one short, one more, some and ample, and around the ends of at most so many lines; a bad option.
pub fn trials(file: &[u8], question: Question, rng: &mut Rng, lines: usize) -> Vec<Trial> {
    let Question { solvable, reason } = question;
    let problem = oracle::Problem::read(file).ok();
    let asked = problem.as_ref().and_then(|p| p.model().ok()?.excluding(solvable, reason).ok());
    let needed = asked.map_or_else(|| rng.below(8), |model| model.nodes().len());
    let mut lents: Vec<Lent> = [128, needed, needed.saturating_sub(1), needed + 1, 0, rng.below(140)].map(Lent::List).to_vec();
    for option in [0, 1] {
        let mut room = vec![0; AMPLE];
        let exact = oracle::what_if_explain(file, solvable, reason, option, &mut room).bytes as usize;
        let some = rng.below(exact + 40);
        lents.extend([0, exact, exact.saturating_sub(1), exact + 1, some, AMPLE].map(|size| Lent::Room(option, size)));
        lents.extend(line_ends(&room[..exact], rng, lines).into_iter().map(|size| Lent::Room(option, size)));
    }
    let bad = *rng.pick(&[2, 3, 255, 256, 1 << 32, (1 << 32) | 1, u64::MAX]);
    lents.push(Lent::Room(bad, rng.below(300)));
    lents.into_iter().map(|lent| Trial { question, lent, fill: rng.next() }).collect()
}
