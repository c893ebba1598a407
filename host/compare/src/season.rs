//! A season's report on both sides: seasons of files of every kind, whole and cut, reports near the width of a count, lists of other
//! lengths. Whole reports and whole rooms are compared.

use crate::calls::{filled, AMPLE};
use oracle::generate;
use oracle::rng::Rng;
use oracle::season::{self, Report, Told, NUMBERS};
use oracle::Answer;

type Numbers = [u64; NUMBERS];

const EMPTY: Numbers = [0; NUMBERS];

/// Every count around its width and every length of a list, then `n` seasons. True if a difference was found.
pub fn differ(n: u64, seed: u64) -> bool {
    let mut tally = Tally::default();
    let mut rng = Rng::named("season", seed);
    let found = tally.edges(&mut rng).err().map(|said| format!("counts and lengths: {said}"));
    let found = found.or_else(|| (0..n).find_map(|index| tally.season(index, seed)));
    if let Some(said) = found {
        println!("compare: 1 difference: {said}");
        return true;
    }
    println!("compare: {tally}, 0 differences");
    false
}

#[derive(Default)]
struct Tally {
    seasons: u64,
    files: u64,
    cuts: u64,
    joinings: u64,
    /// Triples of reports of which none of the four joinings got 14.
    triples: u64,
    numbers: [u64; 19],
}

impl std::fmt::Display for Tally {
    fn fmt(&self, f: &mut std::fmt::Formatter<'_>) -> std::fmt::Result {
        let Tally { seasons, files, cuts, joinings, triples, numbers } = self;
        let seen = numbers.iter().enumerate().filter(|(_, count)| **count > 0);
        let seen: Vec<String> = seen.map(|(number, count)| format!("{number}: {count}")).collect();
        let seen = seen.join(", ");
        write!(f, "{seasons} seasons of {files} files, {cuts} cuts, {joinings} joinings, {triples} triples joined both ways; answers by number: {seen}")
    }
}

/// A file of a season, how it is explained, and what stands in the room before.
#[derive(Clone)]
struct Entry {
    whence: String,
    file: Vec<u8>,
    edition: u64,
    option: u64,
    room: usize,
    fill: u64,
}

impl Entry {
    /// What the model says of it, and the room then.
    fn told(&self) -> (Told, Vec<u8>) {
        let mut room = filled(self.room, self.fill);
        let told = season::told(&self.file, self.edition, self.option, &mut room);
        (told, room)
    }

    /// Adds it on the port's side; the answer and the room then.
    fn port(&self, report: &mut [u64]) -> (Answer, Vec<u8>) {
        let mut room = filled(self.room, self.fill);
        let answer = urzulempa::season_numbers(report, &self.file, self.edition, self.option, &mut room);
        (theirs(answer), room)
    }

    fn shown(&self) -> String {
        let Entry { whence, file, edition, option, room, .. } = self;
        format!("{whence}, {} bytes, edition {edition}, option {option}, room {room}", file.len())
    }
}

fn theirs(a: urzulempa::Answer) -> Answer {
    Answer { number: a.number, place: a.place, bytes: a.bytes, units: a.units, depth: a.depth }
}

/// What differs between the two sides, each an answer and the report then.
fn same(model: (Answer, &[u64]), port: (Answer, &[u64])) -> Result<(), String> {
    if model == port {
        return Ok(());
    }
    let at = model.1.iter().zip(port.1).position(|(a, b)| a != b);
    Err(format!("model {:?}, port {:?}; first number that differs: {at:?}\nmodel: {:?}\nport:  {:?}", model.0, port.0, model.1, port.1))
}

impl Tally {
    fn count(&mut self, number: u64) {
        self.numbers[usize::try_from(number).unwrap_or(18).min(18)] += 1;
    }

    /// Joins on both sides; the port's answer.
    fn join(&mut self, report: &mut [u64], second: &[u64]) -> Result<Answer, String> {
        let (before, mut model) = (report.to_vec(), report.to_vec());
        let answer = season::join(&mut model, second);
        let port = theirs(urzulempa::join_numbers(report, second));
        self.joinings += 1;
        self.count(answer.number);
        same((answer, &model), (port, report)).map_err(|said| format!("joined {before:?}\nand {second:?}: {said}"))?;
        if port.number != 0 && report != before {
            return Err(format!("refused with {}, and the report is changed: {before:?}", port.number));
        }
        Ok(port)
    }

    /// Adds a file on both sides, of which the model says this.
    fn add(&mut self, report: &mut [u64], entry: &Entry, told: &Told, room: &[u8]) -> Result<Answer, String> {
        let (before, mut model) = (report.to_vec(), report.to_vec());
        let answer = season::add(&mut model, told);
        let (port, ours) = entry.port(report);
        self.files += 1;
        self.count(answer.number);
        let said = |said: String| format!("{} added to {before:?}: {said}", entry.shown());
        same((answer, &model), (port, report)).map_err(said)?;
        if ours != room {
            let at = ours.iter().zip(room).position(|(a, b)| a != b);
            return Err(said(format!("first byte of the room that differs: {at:?}")));
        }
        Ok(port)
    }

    /// A season; what differs, with the fewest of its files that show it.
    fn season(&mut self, index: u64, seed: u64) -> Option<String> {
        let mut rng = Rng::new(seed ^ index.rotate_left(20));
        let mut entries = entries(index, seed, &mut rng);
        self.seasons += 1;
        let shape = rng.next();
        let mut said = self.tried(&entries, shape).err()?;
        let mut at = 0;
        while at < entries.len() {
            let mut fewer = entries.clone();
            fewer.remove(at);
            match self.tried(&fewer, shape) {
                Err(still) => (entries, said) = (fewer, still),
                Ok(()) => at += 1,
            }
        }
        let hex = |file: &[u8]| {
            file.chunks(32).map(|record| format!("\n  {}", record.iter().map(|b| format!("{b:02x}")).collect::<Vec<_>>().join(" "))).collect::<String>()
        };
        let files: Vec<String> = entries.iter().map(|entry| format!("{}{}", entry.shown(), hex(&entry.file))).collect();
        Some(format!("season {index}: {said}\n{} files:\n{}", files.len(), files.join("\n")))
    }

    /// A season from nothing, and from a report that holds anything; cut and joined; and reports beside it.
    fn tried(&mut self, entries: &[Entry], shape: u64) -> Result<(), String> {
        let mut rng = Rng::new(shape);
        let told: Vec<(Told, Vec<u8>)> = entries.iter().map(Entry::told).collect();
        let files: Vec<Told> = told.iter().map(|(told, _)| *told).collect();
        let mut whole = EMPTY;
        for (entry, (file, room)) in entries.iter().zip(&told) {
            self.add(&mut whole, entry, file, room)?;
        }
        // As a whole, from the files' own answers and graphs.
        if Report::of(&files).numbers() != Some(whole) {
            return Err(format!("the season as a whole: model {:?}, port {whole:?}", Report::of(&files).numbers()));
        }
        if whole[..19].iter().sum::<u64>() != entries.len() as u64 {
            return Err("done and all refusals do not add up to the files".into());
        }
        let parts = self.cut(entries, &told, &whole, &mut rng)?;
        let mut report = lent(&mut rng);
        for (entry, (file, room)) in entries.iter().zip(&told) {
            self.add(&mut report, entry, file, room)?;
        }
        self.triple([lent(&mut rng), lent(&mut rng), lent(&mut rng)])?;
        self.triple([parts[0], report, whole])?;
        if let Some(entry) = entries.first() {
            self.of_other_length(entry, &mut rng)?;
        }
        Ok(())
    }

    /// Cuts a season into two or more stretches, whose reports, joined one after the other and in some other way, give that of the whole.
    /// The stretches' reports.
    fn cut(&mut self, entries: &[Entry], told: &[(Told, Vec<u8>)], whole: &Numbers, rng: &mut Rng) -> Result<Vec<Numbers>, String> {
        let mut cuts: Vec<usize> = (0..rng.between(1, 3)).map(|_| rng.below(entries.len() + 1)).collect();
        cuts.extend([0, entries.len()]);
        cuts.sort();
        self.cuts += cuts.len() as u64 - 2;
        let mut parts = Vec::new();
        for two in cuts.windows(2) {
            let mut part = EMPTY;
            for at in two[0]..two[1] {
                self.add(&mut part, &entries[at], &told[at].0, &told[at].1)?;
            }
            parts.push(part);
        }
        // From the left, and any two neighbours at a time.
        let mut joined = EMPTY;
        for part in &parts {
            self.join(&mut joined, part)?;
        }
        let mut heap = parts.clone();
        while heap.len() > 1 {
            let at = rng.below(heap.len() - 1);
            let second = heap.remove(at + 1);
            self.join(&mut heap[at], &second)?;
        }
        if joined != *whole || heap[0] != *whole {
            return Err(format!("cut at {cuts:?}: joined {joined:?}\nthe whole {whole:?}"));
        }
        Ok(parts)
    }

    /// "joining is associative where none of the four joinings gets 14, the empty report its unit"
    fn triple(&mut self, [r, s, t]: [Numbers; 3]) -> Result<(), String> {
        let (mut rs, mut st) = (r, s);
        let first = self.join(&mut rs, &s)?.number;
        let second = self.join(&mut st, &t)?.number;
        let (mut left, mut right) = (rs, r);
        let third = self.join(&mut left, &t)?.number;
        let fourth = self.join(&mut right, &st)?.number;
        if [first, second, third, fourth] == [0; 4] {
            self.triples += 1;
            if left != right {
                return Err(format!("not associative: {r:?}\n{s:?}\n{t:?}"));
            }
        }
        // The unit on both sides gives the report as it reads.
        let (mut before, mut behind) = (EMPTY, r);
        let (one, other) = (self.join(&mut before, &r)?.number, self.join(&mut behind, &EMPTY)?.number);
        let mut reads = r;
        reads[24..].copy_from_slice(&if r[26] == 0 { [0; 3] } else { [r[24], r[25], 1] });
        if one != other || one == 0 && (before != reads || behind != reads) {
            return Err(format!("the empty report is no unit of {r:?}: {before:?}, {behind:?}"));
        }
        Ok(())
    }

    /// Reports of other lengths, with good and bad editions and options.
    fn of_other_length(&mut self, entry: &Entry, rng: &mut Rng) -> Result<(), String> {
        let length = [0, 26, 28, rng.below(60)][rng.below(4)];
        let length = if length == NUMBERS { 1 } else { length };
        let long: Vec<u64> = (0..length).map(|_| rng.next()).collect();
        let mut report = long.clone();
        let (answer, room) = entry.port(&mut report);
        let wanted = Answer { number: 10, ..Answer::default() };
        if answer != wanted || report != long || room != filled(entry.room, entry.fill) {
            return Err(format!("a report of {length} numbers: {answer:?}"));
        }
        let good = lent(rng);
        for (first, second) in [(&long[..], &good[..]), (&good, &long), (&long, &long)] {
            let mut report = first.to_vec();
            if self.join(&mut report, second)? != wanted {
                return Err(format!("{} numbers joined with {}", first.len(), second.len()));
            }
        }
        Ok(())
    }

    /// Every number of either report around its width, joined and added to; every length of a list.
    fn edges(&mut self, rng: &mut Rng) -> Result<(), String> {
        let near = [0, 1, 2, 1 << 32, (1 << 63) - 1, 1 << 63, u64::MAX - 2, u64::MAX - 1, u64::MAX];
        for at in 0..NUMBERS {
            for (one, other) in near.iter().flat_map(|&a| near.iter().map(move |&b| (a, b))) {
                for named in [[0, 0], [0, 1], [1, 0], [1, 1]] {
                    let (mut r, mut s) = (EMPTY, EMPTY);
                    (r[26], s[26]) = (named[0], named[1]);
                    (r[at], s[at]) = (one, other);
                    self.join(&mut r.clone(), &s)?;
                    // Two numbers at once: the number of files, and that of the file.
                    (r[rng.below(19)], s[24]) = (*rng.pick(&near), 1);
                    s[25] = *rng.pick(&near);
                    self.join(&mut r, &s)?;
                }
            }
        }
        let entries = [
            small("replay", oracle::samples::replay(), 1, 1, AMPLE),
            small("replay, short", oracle::samples::replay(), 1, 0, 100),
            small("deck and panel", oracle::samples::deck_and_panel(), 1, 1, AMPLE),
            small("empty", Vec::new(), 2, 0, 0),
            small("33 bytes", vec![7; 33], 2, 1, 9),
            small("edition 3", oracle::samples::replay(), 3, 1, 99),
        ];
        for entry in &entries {
            let (told, room) = entry.told();
            for at in 0..NUMBERS {
                for below in 0..8 {
                    let mut report = EMPTY;
                    report[26] = below % 2;
                    report[at] = u64::MAX - below;
                    self.add(&mut report.clone(), entry, &told, &room)?;
                    report[rng.below(19)] = u64::MAX - rng.below(4) as u64;
                    self.add(&mut report, entry, &told, &room)?;
                }
            }
            for _ in 0..64 {
                self.of_other_length(entry, rng)?;
            }
        }
        for length in 0..=64 {
            for second in 0..=64 {
                let (mut report, second): (Vec<u64>, Vec<u64>) = ((0..length).collect(), (0..second).collect());
                self.join(&mut report, &second)?;
            }
        }
        Ok(())
    }
}

fn small(whence: &str, file: Vec<u8>, edition: u64, option: u64, room: usize) -> Entry {
    Entry { whence: whence.into(), file, edition, option, room, fill: 7 }
}

/// Up to eight files: good and damaged ones of all shapes, seldom one near the limits; both editions and options, seldom bad ones; rooms
/// that suffice and that do not.
fn entries(index: u64, seed: u64, rng: &mut Rng) -> Vec<Entry> {
    let bad = |rng: &mut Rng| [3, 4, 255, 257, 1 << 32, (1 << 32) | 1, u64::MAX, rng.next() | 4][rng.below(8)];
    let count = rng.below(9) as u64;
    (0..count)
        .filter_map(|turn| {
            let (shape, shape_seed) = generate::pick(index * 5 + turn, seed);
            let mut file = generate::file(shape, shape_seed)?;
            let damaged = rng.chance(10);
            if damaged {
                generate::damage::damage(&mut file, rng);
            }
            let edition = if rng.chance(6) { bad(rng) } else { 1 + rng.below(2) as u64 };
            let option = if rng.chance(4) { bad(rng) } else { rng.below(2) as u64 };
            let room = [0, rng.below(60), rng.below(300), rng.below(2_000), rng.below(2_000), 4_096, 4_096, 4_096, 4_096, AMPLE][rng.below(10)];
            let whence = format!("shape {shape} seed {shape_seed}{}", if damaged { ", damaged" } else { "" });
            Some(Entry { whence, file, edition, option, room, fill: rng.next() })
        })
        .collect()
}

/// A report that holds anything: small counts, some near their width, any last three numbers.
fn lent(rng: &mut Rng) -> Numbers {
    let mut report = EMPTY;
    let large = if rng.chance(30) { rng.between(1, 3) } else { 0 };
    for number in &mut report[..24] {
        *number = if rng.chance(70) { rng.below(9) as u64 } else { rng.next() >> rng.between(8, 63) };
    }
    for _ in 0..large {
        report[rng.below(25)] = u64::MAX - [0, 1, 2, 3, 20, 400, 1 << 20][rng.below(7)];
    }
    report[24] = [0, 0, 1, 1, 2, 3, 9, u64::MAX][rng.below(8)];
    report[25] = [0, 1, 2, rng.below(99) as u64, rng.next() >> 8, u64::MAX - rng.below(99) as u64, u64::MAX][rng.below(7)];
    report[26] = [0, 0, 0, 1, 1, 1, 1, 7, 1 << 32, u64::MAX][rng.below(10)];
    report
}
