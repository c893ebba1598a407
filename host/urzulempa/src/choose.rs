//! The settings of a truck: shown, changed, and taken as defaults.

use crate::keep;
use crate::say::{print, say, usage, DONE, REFUSED};
use crate::words::Given;
use std::ffi::OsStr;
use std::fs::{File, OpenOptions};
use std::io::{self, ErrorKind, Read, Write};
use std::os::fd::AsRawFd;
use std::path::{Path, PathBuf};
use urzulempa::{appended, choices, Choices, SettingsRefusal, MOST_SETTINGS, SETTINGS_RECORD, SETTINGS_VERSION};

/// The settings by their names, with the numbers that records have for them.
const NAMES: [(&str, u64); 3] = [("indent", 1), ("simplify", 2), ("edition", 3)];

/// `settings SET` and `settings SET NAME CONTENT`.
pub fn run(given: &Given) -> Result<u8, String> {
    let name = given.name(0).unwrap_or_default();
    match (given.text(1), given.text(2)) {
        (None, _) => show(name),
        (Some(_), None) => Ok(usage("settings wants SET, or SET, NAME and CONTENT")),
        (Some(_), Some(_)) if name == "-" => Ok(usage("standard input can't be changed: name a file")),
        (Some(setting), Some(content)) => {
            let Some(&(known, number)) = NAMES.iter().find(|(known, _)| *known == setting) else {
                return Ok(usage(&format!("{setting} is no setting: there are indent, simplify and edition")));
            };
            match content.parse() {
                Ok(content) => change(name, known, number, content),
                Err(_) => Ok(usage(&format!("{content} is no number: indent and simplify are 0 or 1, edition is 1 or 2"))),
            }
        }
    }
}

/// What holds for loads where no flag says otherwise: the settings of a file, if one is named. Where it is refused, that is said and
/// the exit status comes back.
pub fn defaults(given: &Given) -> Result<Result<Choices, u8>, String> {
    let Some(name) = given.value("--settings") else { return Ok(Ok(Choices::default())) };
    if name == "-" && given.names(0).iter().any(|load| load == "-") {
        return Ok(Err(usage("FILE and the settings can't both be standard input")));
    }
    let file = read(name)?;
    Ok(choices(&file).map_err(|refusal| refused(name, &file, refusal)))
}

fn show(name: &OsStr) -> Result<u8, String> {
    let make = |said| format!("{said}; `urzulempa settings {} indent 1` makes it", name.to_string_lossy());
    let file = read(name).map_err(|said| if Path::new(name).exists() { said } else { make(said) })?;
    match choices(&file) {
        Ok(found) => {
            let contents = [u64::from(found.indent), u64::from(found.simplify), found.edition.number()];
            let lines = NAMES.iter().zip(contents).map(|(&(known, number), content)| line(known, content, last_of(&file, number)));
            print(lines.collect::<String>().as_bytes()).map(|()| DONE)
        }
        Err(refusal) => Ok(refused(name, &file, refusal)),
    }
}

/// A setting, and the record that counts for it.
fn line(setting: &str, content: u64, record: Option<usize>) -> String {
    let whence = record.map_or_else(|| "default".into(), |r| format!("record {r} (byte {})", r * SETTINGS_RECORD));
    format!("{setting} {content}  {whence}\n")
}

fn last_of(file: &[u8], setting: u64) -> Option<usize> {
    file.chunks(SETTINGS_RECORD).rposition(|record| record.get(1).is_some_and(|&s| u64::from(s) == setting))
}

/// Appends the record that changes a setting, in one write, and flushes it. Two changes at once are made one behind the other.
fn change(path: &OsStr, setting: &str, number: u64, content: u64) -> Result<u8, String> {
    let name = keep::shown(path);
    // A file is not made for a change that is refused.
    if let Err(refusal) = appended(&[], number, content) {
        if !Path::new(path).exists() {
            return Ok(not_asked(setting, content, refusal));
        }
    }
    let trouble = |e: io::Error| format!("{name}: {e}; nothing is changed");
    let mut to = open(path).map_err(trouble)?;
    if !to.metadata().map_err(trouble)?.is_file() {
        return Err(format!("{name}: it is no file that settings could be appended to"));
    }
    lock(&to).map_err(trouble)?;
    let file = limited(&to).map_err(trouble)?;
    if let Err(refusal) = choices(&file) {
        let code = refused(path, &file, refusal);
        say(&format!("{name} is not changed"));
        return Ok(code);
    }
    let record = match appended(&file, number, content) {
        Ok(record) => record,
        Err(refusal) => return Ok(not_asked(setting, content, refusal)),
    };
    let written = to.write(&record).and_then(|n| if n == record.len() { Ok(()) } else { Err(io::Error::from(ErrorKind::WriteZero)) });
    if let Err(e) = written {
        // What stands of it would spoil the file. One that was made stays, empty: another command may have opened it.
        let left = if to.set_len(file.len() as u64).is_ok() { "nothing is changed" } else { "the part that is written could not be taken back" };
        return Err(format!("{name}: {e}; {left}"));
    }
    // The name of a file in which nothing stood may be as new as the record.
    let flushed = to.sync_all().and_then(|()| if file.is_empty() { folder_of(path).and_then(|folder| folder.sync_all()) } else { Ok(()) });
    flushed.map_err(|e| format!("{name}: it is changed, but could not be flushed ({e}): if power goes now, the change may be lost"))?;
    print(line(setting, content, Some(file.len() / SETTINGS_RECORD)).as_bytes()).map(|()| DONE)
}

/// A file to append to, made where there is none.
fn open(name: &OsStr) -> io::Result<File> {
    let mut options = OpenOptions::new();
    options.read(true).append(true);
    match options.open(name) {
        // A name that is a link to nothing is there, and no file is made for it.
        Err(e) if e.kind() == ErrorKind::NotFound => match options.create_new(true).open(name) {
            Err(e) if e.kind() == ErrorKind::AlreadyExists => options.create_new(false).open(name),
            made => made,
        },
        opened => opened,
    }
}

extern "C" {
    fn flock(fd: i32, operation: i32) -> i32;
}

/// Waits until nobody else changes the file; given up when the file is closed.
fn lock(file: &File) -> io::Result<()> {
    const EXCLUSIVE: i32 = 2;
    loop {
        // SAFETY: the call takes two numbers, of which the first is an open file's.
        if unsafe { flock(file.as_raw_fd(), EXCLUSIVE) } == 0 {
            return Ok(());
        }
        let e = io::Error::last_os_error();
        if e.kind() != ErrorKind::Interrupted {
            return Err(e);
        }
    }
}

fn folder_of(name: &OsStr) -> io::Result<File> {
    let path = PathBuf::from(name);
    File::open(path.parent().filter(|folder| *folder != Path::new("")).unwrap_or(Path::new(".")))
}

fn read(name: &OsStr) -> Result<Vec<u8>, String> {
    keep::read(name, MOST_SETTINGS).map(|(bytes, _)| bytes)
}

/// The bytes of a file, or one more than it may have.
fn limited(mut file: &File) -> io::Result<Vec<u8>> {
    let mut bytes = Vec::new();
    Read::by_ref(&mut file).take(MOST_SETTINGS as u64 + 1).read_to_end(&mut bytes)?;
    Ok(bytes)
}

/// Says why a file is refused, with what is wrong in the record.
fn refused(name: &OsStr, file: &[u8], refusal: SettingsRefusal) -> u8 {
    let at = |record: u64| format!("record {record}, byte {}", record * SETTINGS_RECORD as u64);
    let (place, more) = match refusal {
        SettingsRefusal::Shape(r) | SettingsRefusal::Version(r) => (at(r), usize::try_from(r).ok().and_then(|r| fault(file, r))),
        _ => ("the whole file".into(), length(file)),
    };
    say(&format!("{}: refused {} at {place}: {refusal}", keep::shown(name), refusal.number()));
    more.iter().for_each(|said| say(said));
    REFUSED
}

/// Says why a change is refused that was asked for on a good file.
fn not_asked(setting: &str, content: u64, refusal: SettingsRefusal) -> u8 {
    let why = match refusal {
        SettingsRefusal::Shape(_) => format!("{setting} {content}: {setting} is {}", contents(setting)),
        other => other.to_string(),
    };
    say(&format!("refused {}: {why}; nothing is changed", refusal.number()));
    REFUSED
}

fn contents(setting: &str) -> &'static str {
    if setting == "edition" {
        "1 or 2"
    } else {
        "0 or 1"
    }
}

fn length(file: &[u8]) -> Option<String> {
    let over = file.len() % SETTINGS_RECORD;
    match file.len() {
        n if n > MOST_SETTINGS => Some(format!("it has more than {MOST_SETTINGS} bytes")),
        n if over > 0 => Some(format!("it has {n} bytes; without the last {over} it would have whole records")),
        _ => None,
    }
}

/// What is wrong with a record.
fn fault(file: &[u8], record: usize) -> Option<String> {
    let bytes = file.chunks(SETTINGS_RECORD).nth(record)?;
    let (version, setting) = (bytes[0], u64::from(*bytes.get(1)?));
    if version == 0 || u64::from(version) > SETTINGS_VERSION {
        return Some(format!("it is of version {version}, and this release knows 1 to {SETTINGS_VERSION}"));
    }
    let content = u16::from_le_bytes([*bytes.get(2)?, *bytes.get(3)?]);
    let Some((known, _)) = NAMES.iter().find(|(_, number)| *number == setting) else {
        return Some(format!("setting {setting} does not exist"));
    };
    if *known == "edition" && version == 1 {
        return Some("it sets the edition, which version 1 does not know".into());
    }
    if !(if *known == "edition" { 1..=2 } else { 0..=1 }).contains(&content) {
        return Some(format!("{known} is {content} and not {}", contents(known)));
    }
    let (at, byte) = bytes.iter().enumerate().skip(4).find(|(_, byte)| **byte != 0)?;
    Some(format!("byte {} is {byte} and must be 0", record * SETTINGS_RECORD + at))
}
