//! The files of a season, each read and added to a report; stretches of them at once, whose reports are joined in their order.

use super::names::Names;
use super::MOST_TOLD;
use std::collections::BTreeMap;
use std::fs::File;
use std::io::{self, Read};
use std::ops::Range;
use std::sync::atomic::{AtomicUsize, Ordering::Relaxed};
use std::sync::mpsc::{channel, RecvTimeoutError};
use std::thread::{self, Builder};
use std::time::Duration;
use urzulempa::{join, season, Edition, Refusal, Report, MOST_BYTES, PLAIN_OPTION};

/// What is to be explained, and how.
pub struct Season {
    pub names: Names,
    pub edition: Edition,
    /// The most bytes of one text.
    pub room: usize,
}

/// So many files make a stretch.
const STRETCH: usize = 64;

/// A room begins with so many bytes.
const FIRST_ROOM: usize = 1 << 16;

/// What a stretch of the files comes to.
#[derive(Default)]
pub struct Stretch {
    pub report: Report,
    /// The most lines of one file, and the first that had them, by its place among the names.
    pub longest: Option<(u64, usize)>,
    /// The files that could not be read, by their places.
    pub unread: Vec<usize>,
    /// Why, of the first of them.
    pub troubles: Vec<(usize, String)>,
}

impl Stretch {
    fn join(&mut self, behind: Stretch) -> Result<(), Refusal> {
        if let Some(refusal) = join(&mut self.report, &behind.report).refusal() {
            return Err(refusal);
        }
        if behind.longest.map(|(lines, _)| lines) > self.longest.map(|(lines, _)| lines) {
            self.longest = behind.longest;
        }
        self.unread.extend(behind.unread);
        let more = MOST_TOLD - self.troubles.len();
        self.troubles.extend(behind.troubles.into_iter().take(more));
        Ok(())
    }

    /// Where a file of the report stands among the names: those that could not be read have no number.
    pub fn place(&self, file: u64) -> usize {
        let mut at = usize::try_from(file).unwrap_or(usize::MAX);
        for &unread in &self.unread {
            if unread > at {
                break;
            }
            at += 1;
        }
        at
    }
}

/// What one job lends and reads into, over and over.
struct Job<'s> {
    season: &'s Season,
    room: Vec<u8>,
    bytes: Vec<u8>,
}

impl Job<'_> {
    fn of(season: &Season) -> Job<'_> {
        Job { season, room: vec![0; season.room.min(FIRST_ROOM)], bytes: Vec::with_capacity(MOST_BYTES + 64) }
    }

    fn stretch(&mut self, files: Range<usize>, done: &AtomicUsize) -> Result<Stretch, Refusal> {
        let mut stretch = Stretch::default();
        for at in files {
            match self.read(at) {
                Ok(()) => self.add(&mut stretch, at)?,
                Err(why) => {
                    stretch.unread.push(at);
                    if stretch.troubles.len() < MOST_TOLD {
                        stretch.troubles.push((at, why));
                    }
                }
            }
            done.fetch_add(1, Relaxed);
        }
        Ok(stretch)
    }

    fn read(&mut self, at: usize) -> Result<(), String> {
        let path = self.season.names.get(at)?;
        self.bytes.clear();
        // A byte more than a file may have: what is longer is refused by its length all the same.
        let most = MOST_BYTES as u64 + 1;
        let read = match path.to_str() {
            Some("-") => io::stdin().lock().take(most).read_to_end(&mut self.bytes),
            _ => File::open(path).and_then(|file| file.take(most).read_to_end(&mut self.bytes)),
        };
        read.map(drop).map_err(|e| e.to_string())
    }

    /// Adds the file that was read, in a room that grows until its text fits or has the most bytes.
    fn add(&mut self, stretch: &mut Stretch, at: usize) -> Result<(), Refusal> {
        let before = stretch.report;
        loop {
            let answer = season(&mut stretch.report, &self.bytes, self.season.edition.number(), PLAIN_OPTION, &mut self.room);
            match answer.refusal() {
                Some(Refusal::Room(_)) if self.room.len() < self.season.room && self.grow() => stretch.report = before,
                Some(refusal @ Refusal::Count) => return Err(refusal),
                _ => {
                    if answer.units > stretch.longest.map_or(0, |(lines, _)| lines) {
                        stretch.longest = Some((answer.units, at));
                    }
                    return Ok(());
                }
            }
        }
    }

    /// Four times the room, up to the most bytes; it stays as it is where there is no memory for that.
    fn grow(&mut self) -> bool {
        let size = self.season.room.min(self.room.len().saturating_mul(4));
        let given = self.room.try_reserve_exact(size - self.room.len()).is_ok();
        if given {
            self.room.resize(size, 0);
        }
        given
    }
}

/// How often what is going on is shown.
const TURN: Duration = Duration::from_millis(100);

/// The report of all files, by so many jobs at once; how many files are done is told from time to time. The outer trouble is that no job
/// could be started.
pub fn over(season: &Season, jobs: usize, mut told: impl FnMut(usize)) -> Result<Result<Stretch, Refusal>, String> {
    let count = season.names.len();
    let stretches = count.div_ceil(STRETCH);
    let (next, done) = (AtomicUsize::new(0), AtomicUsize::new(0));
    let work = |send: &dyn Fn(usize, Result<Stretch, Refusal>)| {
        let mut job = Job::of(season);
        loop {
            let turn = next.fetch_add(1, Relaxed);
            if turn >= stretches {
                return;
            }
            let begin = turn * STRETCH;
            send(turn, job.stretch(begin..count.min(begin + STRETCH), &done));
        }
    };
    thread::scope(|scope| {
        let (sender, receiver) = channel();
        for job in 0..jobs.min(stretches) {
            let (sender, work) = (sender.clone(), &work);
            // Nobody takes what comes behind a refusal.
            let started = Builder::new().spawn_scoped(scope, move || work(&|turn, stretch| drop(sender.send((turn, stretch)))));
            match started {
                Err(e) if job == 0 => return Err(format!("no job could be started: {e}")),
                Err(_) => break,
                Ok(_) => {}
            }
        }
        drop(sender);
        let (mut whole, mut ready, mut turn) = (Stretch::default(), BTreeMap::new(), 0);
        loop {
            match receiver.recv_timeout(TURN) {
                Ok((at, stretch)) => drop(ready.insert(at, stretch)),
                Err(RecvTimeoutError::Timeout) => {}
                Err(RecvTimeoutError::Disconnected) => return Ok(Ok(whole)),
            }
            while let Some(stretch) = ready.remove(&turn) {
                if let Err(refusal) = stretch.and_then(|stretch| whole.join(stretch)) {
                    // The jobs have no turn left.
                    next.store(stretches, Relaxed);
                    return Ok(Err(refusal));
                }
                turn += 1;
            }
            told(done.load(Relaxed));
        }
    })
}
