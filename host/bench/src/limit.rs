//! What no program that does the work can be faster than, measured in the same run as the calls: one read of the file's bytes, the
//! clearing of the arrays that the call owns, and one copy of the bytes that it writes.

use super::{clock, time, ROUND, ROUNDS};
use std::cell::RefCell;
use std::collections::HashMap;
use std::hint::black_box;
use std::time::Instant;

/// The arrays that `urzulempa_check` and `urzulempa_edges` clear: index, graph, triples, chains, the reader's marks and last candidates, reachability. Each is
/// cleared by itself here, in the nearest cache, which all of them together would not fit.
pub const GRAPH: &[usize] = &[20_864, 9_216, 10_240, 6_912, 2_048, 512, 512];
/// `urzulempa_nodes`: these, and those of labels, groups and names.
pub const NODES: &[usize] = &[20_864, 9_216, 10_240, 6_912, 2_048, 512, 512, 3_072];
/// `urzulempa_graphviz`, simplified: these, and those of groups, names and marks.
pub const DRAW: &[usize] = &[20_864, 9_216, 10_240, 6_912, 2_048, 512, 512, 2_176];
/// `urzulempa_explain` (docs/DECISIONS.md lists them): these, the triples' once more for the plan, frames, kids, and the small ones.
pub const EXPLAIN: &[usize] = &[20_864, 9_216, 10_240, 6_912, 2_048, 10_240, 8_320, 2_048, 5_512];
/// The words of the graph's nodes and edges, which whatever is said of a graph has to read.
pub const WORDS: usize = 9_216;

thread_local! {
    /// What was measured before, by what is done and to how many bytes: a limit is the same in every row.
    static KNOWN: RefCell<HashMap<(&'static str, usize), f64>> = RefCell::default();
}

/// The least time of a call that may take a few nanoseconds: the clock is asked once in many of them.
fn least(what: &'static str, bytes: usize, call: &mut dyn FnMut()) -> f64 {
    if let Some(known) = KNOWN.with_borrow(|known| known.get(&(what, bytes)).copied()) {
        return known;
    }
    let many = ((1 << 20) / bytes.max(64)).max(1);
    let round = |call: &mut dyn FnMut()| {
        let (start, before, mut n) = (Instant::now(), clock::of_thread(), 0u32);
        while n == 0 || start.elapsed() < ROUND / 2 {
            (0..many).for_each(|_| call());
            n += 1;
        }
        (clock::of_thread() - before) / (f64::from(n) * many as f64)
    };
    let found = (0..ROUNDS).map(|_| round(call)).fold(f64::MAX, f64::min);
    KNOWN.with_borrow_mut(|known| known.insert((what, bytes), found));
    found
}

/// The sum over the bytes, eight at a time.
pub fn reading(bytes: &[u8]) -> f64 {
    least("read", bytes.len(), &mut || {
        let words = black_box(bytes).chunks_exact(8).map(|word| u64::from_le_bytes(word.try_into().unwrap_or_default()));
        black_box(words.fold(0, u64::wrapping_add));
    })
}

/// The arrays one behind the other.
pub fn clearing(arrays: &[usize]) -> f64 {
    let one = |&bytes: &usize| {
        let mut array = vec![1u8; bytes];
        least("clear", bytes, &mut || black_box(&mut array[..]).fill(0))
    };
    arrays.iter().map(one).sum()
}

pub fn copying(bytes: usize) -> f64 {
    let (text, mut room) = (vec![1u8; bytes], vec![0u8; bytes]);
    least("copy", bytes, &mut || black_box(&mut room[..]).copy_from_slice(black_box(&text)))
}

/// All three for one call: the file that it takes, what it clears, how many it writes.
pub fn of(file: &[u8], cleared: &[usize], written: u64) -> f64 {
    let written = written as usize;
    reading(file) + clearing(cleared) + if written == 0 { 0.0 } else { copying(written) }
}

/// A limit and how far a time is from it, as two columns.
pub fn columns(limit: f64, taken: f64) -> String {
    format!("{} | {:.1}", time(limit), taken / limit)
}

/// The three by themselves.
pub fn table(files: &[(&str, &[u8])], written: &[(&str, u64)]) {
    println!();
    println!("| limits | bytes | time | GB/s |");
    println!("|---|---|---|---|");
    let show = |what: &str, bytes: usize, taken: f64| println!("| {what} | {bytes} | {} | {:.1} |", time(taken), bytes as f64 / taken / 1e9);
    for (name, file) in files {
        show(&format!("sum over the file's bytes, {name}"), file.len(), reading(file));
    }
    for (name, arrays) in [("check and edges", GRAPH), ("nodes", NODES), ("graphviz", DRAW), ("explain, 10240 bytes of them twice", EXPLAIN)] {
        show(&format!("clearing of the working memory, array by array, {name}"), arrays.iter().sum(), clearing(arrays));
    }
    for (name, bytes) in written {
        show(&format!("memcpy of the text's bytes, {name}"), *bytes as usize, copying(*bytes as usize));
    }
}
