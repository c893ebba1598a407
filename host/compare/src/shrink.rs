//! The smallest file that still shows a difference: whole stretches of records are left out while it does, references
//! renumbered so that the rest stays accepted where it was.

/// Greedy: stretches of records, halving, then single records, until nothing more can go.
pub fn smallest(file: &[u8], shows: impl Fn(&[u8]) -> bool) -> Vec<u8> {
    let mut best = file.to_vec();
    loop {
        let before = best.len();
        let mut stretch = (best.len() / 32).max(1);
        while stretch > 0 {
            let mut at = 0;
            while at * 32 < best.len() {
                let end = ((at + stretch) * 32).min(best.len());
                let cut: Vec<u8> = [&best[..at * 32], &best[end..]].concat();
                let renumbered = without(&best, at, stretch);
                if let Some(next) = [renumbered, cut].into_iter().find(|f| f.len() < best.len() && shows(f)) {
                    best = next;
                } else {
                    at += stretch;
                }
            }
            stretch /= 2;
        }
        if best.len() == before {
            return best;
        }
    }
}

/// The table of a kind, and which table fields a, b and c name (9: none, 10: own number).
const TABLES: [(u8, usize, [usize; 3]); 18] = [
    (1, 0, [10, 9, 9]),
    (2, 1, [10, 0, 9]),
    (3, 2, [10, 0, 9]),
    (4, 3, [10, 9, 9]),
    (5, 4, [3, 1, 9]),
    (6, 5, [10, 9, 9]),
    (7, 6, [10, 9, 11]),
    (8, 7, [6, 8, 9]),
    (16, 8, [9, 9, 9]),
    (17, 8, [6, 5, 9]),
    (18, 8, [9, 9, 9]),
    (19, 8, [6, 3, 9]),
    (20, 8, [6, 6, 9]),
    (21, 8, [6, 6, 9]),
    (22, 8, [6, 6, 2]),
    (23, 8, [6, 6, 2]),
    (24, 8, [6, 6, 2]),
    (25, 8, [6, 6, 9]),
];

/// The file without some records, and without those that name one of them; numbers close up.
fn without(file: &[u8], from: usize, count: usize) -> Vec<u8> {
    let mut numbers: Vec<Vec<Option<u16>>> = vec![Vec::new(); 9];
    let mut kept = [0u16; 9];
    let mut out = Vec::new();
    for (i, bytes) in file.chunks(32).enumerate() {
        let row = TABLES.iter().find(|(k, ..)| *k == bytes[0]);
        let (Some((kind, table, slots)), 32) = (row, bytes.len()) else {
            if i < from || i >= from + count {
                out.extend(bytes);
            }
            continue;
        };
        let mut record = bytes.to_vec();
        let mut stays = i < from || i >= from + count;
        for (k, slot) in slots.iter().enumerate() {
            let at = 2 + 2 * k;
            let value = u16::from_le_bytes([bytes[at], bytes[at + 1]]);
            let named = match (*slot, *kind) {
                (11, _) => match u16::from_le_bytes([bytes[4], bytes[5]]) {
                    1 => Some(1),
                    2 => Some(0),
                    _ => None,
                },
                (10, _) => None,
                (t, _) if t < 9 => Some(t),
                _ => None,
            };
            let new = match named {
                Some(t) => match numbers[t].get(usize::from(value)) {
                    Some(Some(n)) => *n,
                    Some(None) => {
                        stays = false;
                        value
                    }
                    None => value,
                },
                None if *slot == 10 && usize::from(value) == numbers[*table].len() => kept[*table],
                None => value,
            };
            record[at..at + 2].copy_from_slice(&new.to_le_bytes());
        }
        numbers[*table].push(stays.then_some(kept[*table]));
        if stays {
            kept[*table] += 1;
            out.extend(record);
        }
    }
    out
}
