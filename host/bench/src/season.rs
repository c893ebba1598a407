//! A season's report (document 02, order 8) over middle loads that lie in memory: files a second, by one job and by two that take half of
//! the files each and join their reports. conflict.rs has no report; the oracle counts its graphs and texts.

use super::{both_by, clock, keep, limit, made};
use std::hint::black_box;
use std::thread;
use urzulempa::{join, season, Report};

/// So many files, all unlike.
const FILES: u64 = 2_000;
const ROOM: usize = 1 << 20;

pub fn table() {
    println!();
    println!("| a season of {FILES} middle loads | conflict.rs, files a second | port, files a second | ratio | reports | limit, files a second and job | limit / port |");
    println!("|---|---|---|---|---|---|---|");
    let files: Vec<Vec<u8>> = (0..FILES).map(|seed| made("world-middle", seed)).collect();
    let mut room = vec![0; ROOM];
    let written: u64 = files.iter().map(|file| urzulempa::explain(file, 1, &mut room).bytes).sum();
    let all = files.concat();
    let at_most = FILES as f64 / (limit::reading(&all) + FILES as f64 * limit::clearing(limit::EXPLAIN) + limit::copying(written as usize));
    for jobs in [1, 2] {
        let stretches: Vec<&[Vec<u8>]> = files.chunks(files.len().div_ceil(jobs)).collect();
        let (rust, port) = both_by(clock::on_the_wall, || keep(black_box(theirs(&stretches))), || keep(black_box(ours(&stretches))));
        let same = if theirs(&stretches) == ours(&stretches) { "equal" } else { "DIFFER" };
        let a_second = |time: f64| FILES as f64 / time;
        let (several, ours) = (if jobs == 1 { "" } else { "s" }, a_second(port));
        let far = at_most * jobs as f64 / ours;
        println!("| {jobs} job{several} | {:.0} | {ours:.0} | {:.2} | {same} | {at_most:.0} | {far:.1} |", a_second(rust), rust / port);
    }
}

fn theirs(stretches: &[&[Vec<u8>]]) -> [u64; 27] {
    let over = |files: &[Vec<u8>]| {
        let (mut report, mut room) = ([0; 27], vec![0; ROOM]);
        files.iter().for_each(|file| keep(oracle::season::season(&mut report, file, 1, 1, &mut room)));
        report
    };
    at_once(stretches, over, |first, second| keep(oracle::season::join(first, &second)))
}

fn ours(stretches: &[&[Vec<u8>]]) -> [u64; 27] {
    let over = |files: &[Vec<u8>]| {
        let (mut report, mut room) = (Report::default(), vec![0; ROOM]);
        files.iter().for_each(|file| keep(season(&mut report, file, 1, 1, &mut room)));
        report
    };
    at_once(stretches, over, |first, second| keep(join(first, &second))).numbers()
}

fn at_once<R: Send + Default>(stretches: &[&[Vec<u8>]], over: impl Fn(&[Vec<u8>]) -> R + Sync, join: impl Fn(&mut R, R)) -> R {
    let over = &over;
    let reports: Vec<R> = thread::scope(|scope| {
        let jobs: Vec<_> = stretches.iter().map(|files| scope.spawn(move || over(files))).collect();
        jobs.into_iter().filter_map(|job| job.join().ok()).collect()
    });
    let mut whole = R::default();
    reports.into_iter().for_each(|report| join(&mut whole, report));
    whole
}
