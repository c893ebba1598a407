//! The commands `season` and `join`: the report of many files, and that of several saved reports.

mod names;
mod progress;
mod saved;
mod table;
mod work;

use crate::json::Json;
use crate::say::{about, print, say, DONE, REFUSED, TROUBLE};
use crate::words::Given;
use crate::{calls, keep, refused};
use names::Names;
use progress::Progress;
use std::ffi::OsStr;
use std::fs;
use std::num::NonZeroUsize;
use std::os::unix::ffi::OsStrExt;
use std::path::{Path, PathBuf};
use std::thread::available_parallelism;
use urzulempa::{Deepest, Edition, Refusal, Report};
use work::Season;

/// A season of files that can't be read has many: no more than these are told.
const MOST_TOLD: usize = 20;

/// Prints the report of the files, and saves it where that is asked for. Files that can't be read are told, and are no files of the season.
pub fn season(given: &Given) -> Result<u8, String> {
    let jobs = given.number("--jobs").map_or_else(|| available_parallelism().map_or(1, NonZeroUsize::get), NonZeroUsize::get);
    let edition = given.number("--edition").and_then(Edition::of).unwrap_or_default();
    // The texts are not printed: a terminal makes no difference.
    let room = given.number("--room").unwrap_or(calls::OTHER_ROOM);
    let season = Season { names: Names::of(given.names(0)), edition, room };
    let names = &season.names;
    let save = Save::of(given)?;
    if let Some(save) = save.iter().find(|save| save.replaces_one(names)) {
        return Err(format!("{} is a file of the season, which would be gone: save the report under another name", save.shown()));
    }
    let mut progress = Progress::of(names.len());
    let whole = work::over(&season, jobs, |done| progress.show(done));
    progress.clear();
    let whole = match whole? {
        Ok(whole) => whole,
        Err(refusal) => return count_refused(given, None, "the season", refusal),
    };
    whole.troubles.iter().take(MOST_TOLD).for_each(|(at, why)| about(&names.shown(*at), || say(why)));
    let unread = whole.unread.len();
    if unread > MOST_TOLD {
        say(&format!("and {} more could not be read", unread - MOST_TOLD));
    }
    if given.has("--json") {
        let deepest = whole.report.deepest.map(|Deepest { depth, file }| {
            let name = names.told(whole.place(file));
            Json::Object(vec![("depth", depth.into()), ("number", file.into()), ("file", name.into())])
        });
        let longest = whole.longest.map(|(lines, at)| Json::Object(vec![("lines", lines.into()), ("file", names.told(at).into())]));
        let told = vec![("deepest", deepest.into()), ("longest", longest.into()), ("unread", unread.into())];
        finish_json(&whole.report, told, save)?;
    } else {
        let first = |file: u64| names.shown(whole.place(file));
        let mut said = table::rows(&whole.report, |file| format!("{}, file {}", first(file), table::grouped(file)));
        said.push(table::longest(whole.longest.map(|(lines, at)| (lines, names.shown(at)))));
        if unread > 0 {
            said.push(table::unread(unread as u64));
        }
        finish(&table::lines(&said), &whole.report, save)?;
    }
    Ok(if unread > 0 { TROUBLE } else { DONE })
}

/// Prints the report of saved reports, one season behind the other, and saves it where that is asked for.
pub fn join(given: &Given) -> Result<u8, String> {
    let names = given.names(0);
    let save = Save::of(given)?;
    let mut whole = Report::default();
    // The number of the first file of each.
    let mut begins = Vec::new();
    for name in names {
        let (text, source) = keep::read(name, saved::MOST_BYTES)?;
        if let Some(save) = save.as_ref().filter(|save| save.place.is(&source)) {
            return Err(format!("{} is {} itself, which would be gone: save the report under another name", save.shown(), keep::shown(name)));
        }
        let report = match saved::read(&text) {
            Ok(report) => report,
            Err(fault) => return damaged(given, name, &fault),
        };
        begins.push(whole.files().unwrap_or(u64::MAX));
        if let Some(refusal) = urzulempa::join(&mut whole, &report).refusal() {
            return count_refused(given, Some(name), &names::shown(name.as_bytes()), refusal);
        }
    }
    // In which of the reports a file is, and its number there.
    let own = |file: u64| {
        let at = begins.partition_point(|&begin| begin <= file).saturating_sub(1);
        (&names[at], file - begins[at])
    };
    if given.has("--json") {
        let deepest = whole.deepest.map(|Deepest { depth, file }| {
            let (name, own) = own(file);
            Json::Object(vec![("depth", depth.into()), ("number", file.into()), ("report", keep::shown(name).into()), ("own", own.into())])
        });
        finish_json(&whole, vec![("deepest", deepest.into())], save)?;
    } else {
        let first = |file: u64| {
            let (name, own) = own(file);
            format!("{}, file {}, of all file {}", names::shown(name.as_bytes()), table::grouped(own), table::grouped(file))
        };
        finish(&table::lines(&table::rows(&whole, first)), &whole, save)?;
    }
    Ok(DONE)
}

/// Where a report is to be saved.
struct Save<'g> {
    name: &'g OsStr,
    place: keep::Place,
}

impl<'g> Save<'g> {
    /// None where that is not asked for. That a folder is missing is told before a long season, and not behind it.
    fn of(given: &'g Given) -> Result<Option<Self>, String> {
        let Some(name) = given.value("--save") else { return Ok(None) };
        let place = keep::Place::of(name)?;
        let folder = Path::new(name).parent().filter(|folder| *folder != Path::new(""));
        match folder {
            Some(folder) if !folder.is_dir() => Err(format!("{}: {} is no folder", name.to_string_lossy(), folder.display())),
            _ => Ok(Some(Save { name, place })),
        }
    }

    fn shown(&self) -> String {
        self.name.to_string_lossy().into_owned()
    }

    /// Whether a file of the season would be gone.
    fn replaces_one(&self, names: &Names) -> bool {
        let is = |path: PathBuf| fs::metadata(path).is_ok_and(|found| self.place.is(&found));
        fs::metadata(self.name).is_ok() && names.paths().any(is)
    }

    fn put(&self, report: &Report) -> Result<(), String> {
        self.place.put(saved::text(report).as_bytes())
    }
}

/// Prints a table and puts the report in its place.
fn finish(table: &str, report: &Report, save: Option<Save>) -> Result<(), String> {
    print(table.as_bytes())?;
    save.map_or(Ok(()), |save| save.put(report).and_then(|()| print(format!("{} is written\n", save.shown()).as_bytes())))
}

/// Puts the report in its place and prints it for a program, whether it could be saved or not.
fn finish_json(report: &Report, told: Vec<(&'static str, Json)>, save: Option<Save>) -> Result<(), String> {
    let put = save.as_ref().map_or(Ok(()), |save| save.put(report));
    let saved = save.filter(|_| put.is_ok()).map(|save| save.shown());
    let report = Json::Object([table::json(report), told].into_iter().flatten().collect());
    print(&object(None, vec![("report", report), ("saved", saved.into())], None).line())?;
    put
}

/// An answer for a program, as those of other commands are: the file is the one that the refusal is about.
fn object(file: Option<&OsStr>, told: Vec<(&'static str, Json)>, refusal: Option<Json>) -> Json {
    let head = vec![("file", file.map(keep::shown).into()), ("done", refusal.is_none().into())];
    Json::Object([head, told, vec![("refusal", refusal.into())]].into_iter().flatten().collect())
}

/// A count would pass 64 bits.
fn count_refused(given: &Given, file: Option<&OsStr>, name: &str, refusal: Refusal) -> Result<u8, String> {
    if given.has("--json") {
        print(&object(file, Vec::new(), Some(refused::json(&[], refusal, &[]))).line())?;
    } else {
        about(name, || say(&format!("refused {}: {refusal}", refusal.number())));
    }
    Ok(REFUSED)
}

/// A saved report that is none, with its first bad line.
fn damaged(given: &Given, name: &OsStr, fault: &saved::Fault) -> Result<u8, String> {
    let hint = "a report is what `urzulempa season --save FILE` writes: save it again";
    if given.has("--json") {
        print(&object(Some(name), Vec::new(), Some(fault.json(hint))).line())?;
    } else {
        about(&names::shown(name.as_bytes()), || {
            say(&fault.to_string());
            say(hint);
        });
    }
    Ok(REFUSED)
}
