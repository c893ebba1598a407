//! A season's report, written from document 02, order 8: "Over many files, in the order given: how many were done, how many got each
//! refusal, and totals of nodes, edges, groups, missing nodes and lines, with the greatest depth and the first file that had it."
//!
//! Counts are kept wider than the 64 bits that a report has, so that none is lost before it is tested.

use std::path::PathBuf;
use std::{fs, io, thread};

use crate::{Answer, Edition, Problem, Refusal};

/// A report is so many numbers.
pub const NUMBERS: usize = 27;

/// Done, 18 refusals, nodes, edges, groups, missing nodes, lines.
const COUNTS: usize = 24;
/// "Done and all refusals add up to the files": these counts.
const FILES: usize = 19;

/// What one file comes to: its own answer, and its graph where it has one.
#[derive(Clone, Copy, Debug, PartialEq, Eq)]
pub struct Told {
    pub answer: Answer,
    pub graph: Option<Graph>,
}

/// What a graph counts.
#[derive(Clone, Copy, Debug, PartialEq, Eq)]
pub struct Graph {
    pub nodes: u64,
    pub edges: u64,
    pub groups: u64,
    pub missing: u64,
}

/// Explains a file as `explain_edition` does, over conflict.rs's own graph, groups and labels.
pub fn told(file: &[u8], edition: u64, option: u64, room: &mut [u8]) -> Told {
    explained(file, edition, option, room).unwrap_or_else(|refusal| Told {
        answer: refusal.into(),
        graph: None,
    })
}

fn explained(file: &[u8], edition: u64, option: u64, room: &mut [u8]) -> Result<Told, Refusal> {
    let edition = Edition::of(edition)?;
    let indent = match option {
        0 => false,
        1 => true,
        _ => {
            return Err(Refusal {
                number: 12,
                place: 0,
            })
        }
    };
    let problem = Problem::read(file)?;
    let model = problem.model()?;
    let nodes = model.nodes();
    let graph = Graph {
        nodes: nodes.len() as u64,
        edges: model.edge_count() as u64,
        groups: model.group_count() as u64,
        missing: nodes.iter().filter(|node| node.missing == 1).count() as u64,
    };
    Ok(Told {
        answer: model.explain_edition(edition, indent, room),
        graph: Some(graph),
    })
}

impl Told {
    /// "A file refused with 1 to 9 or 12 adds nothing but its refusal; one refused with 10 or 11 adds its graph counts, the lines it
    /// wrote and its depth."
    fn counts(&self) -> [u64; 5] {
        match (self.answer.number, self.graph) {
            (0 | 10 | 11, Some(graph)) => {
                let Graph {
                    nodes,
                    edges,
                    groups,
                    missing,
                } = graph;
                [nodes, edges, groups, missing, self.answer.units]
            }
            _ => [0; 5],
        }
    }

    fn depth(&self) -> Option<u64> {
        [0, 10, 11]
            .contains(&self.answer.number)
            .then_some(self.answer.depth)
    }
}

/// A season's report.
#[derive(Clone, Debug, Default, PartialEq, Eq)]
pub struct Report {
    counts: [u128; COUNTS],
    /// The greatest depth and the first file that had it: "With no file that has a depth, the greatest is 0 and no first file is
    /// named."
    deepest: Option<(u64, u128)>,
}

impl Report {
    /// The report of a season as a whole, from its files' own answers and graphs.
    pub fn of(files: &[Told]) -> Report {
        let mut report = Report::default();
        for (number, count) in report.counts[..FILES].iter_mut().enumerate() {
            let got = |file: &&Told| file.answer.number == number as u64;
            *count = files.iter().filter(got).count() as u128;
        }
        for (total, count) in report.counts[FILES..].iter_mut().enumerate() {
            *count = files.iter().map(|f| u128::from(f.counts()[total])).sum();
        }
        let greatest = files.iter().filter_map(Told::depth).max();
        let first = files.iter().position(|file| file.depth() == greatest);
        report.deepest = greatest.zip(first.map(|first| first as u128));
        report
    }

    /// A lent report, which may hold anything: "26 not 0 means named, and where it is 0 words 24 and 25 read as 0". None if it has
    /// another length.
    pub fn lent(numbers: &[u64]) -> Option<Report> {
        let numbers: &[u64; NUMBERS] = numbers.try_into().ok()?;
        let mut counts = [0; COUNTS];
        for (count, &number) in counts.iter_mut().zip(numbers) {
            *count = number.into();
        }
        let deepest = (numbers[26] != 0).then_some((numbers[24], numbers[25].into()));
        Some(Report { counts, deepest })
    }

    pub fn files(&self) -> u128 {
        self.counts[..FILES].iter().sum()
    }

    /// "On joining, the second report's file numbers follow the first's."
    pub fn joined(&self, second: &Report) -> Report {
        let mut both = self.clone();
        for (count, more) in both.counts.iter_mut().zip(second.counts) {
            *count += more;
        }
        let behind = second
            .deepest
            .map(|(depth, file)| (depth, self.files() + file));
        both.deepest = match (self.deepest, behind) {
            (Some(one), Some(other)) => Some(if other.0 > one.0 { other } else { one }),
            (one, other) => one.or(other),
        };
        both
    }

    /// The 27 numbers, "a report that is written holds 0 or 1" in the last; none "if a count would pass its width": a sum, the number
    /// of files, or the file number that ends up here.
    pub fn numbers(&self) -> Option<[u64; NUMBERS]> {
        u64::try_from(self.files()).ok()?;
        let mut numbers = [0; NUMBERS];
        for (number, &count) in numbers.iter_mut().zip(&self.counts) {
            *number = u64::try_from(count).ok()?;
        }
        if let Some((depth, file)) = self.deepest {
            numbers[COUNTS..].copy_from_slice(&[depth, u64::try_from(file).ok()?, 1]);
        }
        Some(numbers)
    }
}

/// A refusal with all else 0.
fn refused(number: u64) -> Answer {
    Answer {
        number,
        ..Answer::default()
    }
}

/// Adds what a file comes to: "14 if a count would pass its width, tested per file and per joining, report unchanged".
pub fn add(report: &mut [u64], file: &Told) -> Answer {
    let answer = put(report, &Report::of(&[*file]));
    if answer.number == 0 {
        file.answer
    } else {
        answer
    }
}

/// Joins a second report behind the first. A report of another length than 27 is 10, with nothing changed.
pub fn join(report: &mut [u64], second: &[u64]) -> Answer {
    match Report::lent(second) {
        Some(second) => put(report, &second),
        None => refused(10),
    }
}

fn put(report: &mut [u64], second: &Report) -> Answer {
    let Some(first) = Report::lent(report) else {
        return refused(10);
    };
    let Some(numbers) = first.joined(second).numbers() else {
        return refused(14);
    };
    report.copy_from_slice(&numbers);
    Answer::default()
}

/// Explains a file into the room and adds it. A report of another length than 27 is 10, "nothing changed, nothing explained".
pub fn season(
    report: &mut [u64],
    file: &[u8],
    edition: u64,
    option: u64,
    room: &mut [u8],
) -> Answer {
    if report.len() != NUMBERS {
        return refused(10);
    }
    add(report, &told(file, edition, option, room))
}

/// The report of a folder's files, by name, cut into as many stretches as there are jobs and joined; with the names of the numbers, as
/// the command saves it. Each text has 64 MiB of room, as in the command.
pub fn folder(dir: &str, jobs: usize) -> Result<String, String> {
    let listed = fs::read_dir(dir).and_then(|entries| entries.map(|e| Ok(e?.path())).collect());
    let mut paths: Vec<PathBuf> = listed.map_err(|e: io::Error| format!("{dir}: {e}"))?;
    paths.sort();
    let stretches: Vec<&[PathBuf]> = paths
        .chunks(paths.len().div_ceil(jobs.max(1)).max(1))
        .collect();
    let reports: Vec<Result<[u64; NUMBERS], String>> = thread::scope(|scope| {
        let jobs: Vec<_> = stretches
            .iter()
            .map(|stretch| scope.spawn(|| over(stretch)))
            .collect();
        jobs.into_iter()
            .map(|job| job.join().expect("a job ends"))
            .collect()
    });
    let mut whole = [0; NUMBERS];
    for report in reports {
        let answer = join(&mut whole, &report?);
        assert_eq!(answer.number, 0, "counts of a folder are small");
    }
    let refused = (1..=18).map(|number| format!("refused-{number}"));
    let totals = "nodes edges groups missing lines depth first-file named";
    let names = ["done".to_string()].into_iter().chain(refused);
    let names = names.chain(totals.split(' ').map(str::to_string));
    let lines = names.zip(whole).map(|(name, n)| format!("{name} {n}\n"));
    Ok(format!("urzulempa season 1\n{}", lines.collect::<String>()))
}

fn over(paths: &[PathBuf]) -> Result<[u64; NUMBERS], String> {
    let (mut report, mut room) = ([0; NUMBERS], vec![0; 64 << 20]);
    for path in paths {
        let file = fs::read(path).map_err(|e| format!("{}: {e}", path.display()))?;
        season(&mut report, &file, 1, 1, &mut room);
    }
    Ok(report)
}
