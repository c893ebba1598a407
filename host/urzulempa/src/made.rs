//! The commands `dump` and `make`: the text form of a file, and the file of a text form.

use crate::say::{print, say, DONE, REFUSED, TROUBLE};
use crate::words::Given;
use crate::{keep, refused};
use std::ffi::OsStr;
use urzulempa::list::{self, Fault};
use urzulempa::{check, MOST_BYTES};

/// A list that is no list has many faults: no more than these are told.
const MOST_TOLD: usize = 20;

pub fn dump(given: &Given) -> Result<u8, String> {
    let (bytes, _) = keep::read(given.name(0).unwrap_or_default(), MOST_BYTES)?;
    match list::dump(&bytes) {
        Ok(text) => {
            print(text.as_bytes())?;
            if text.is_empty() {
                say("nothing to list: the file is empty");
            }
            Ok(DONE)
        }
        Err(_) => Ok(refused::told(&bytes, &check(&bytes))),
    }
}

/// Puts the file of a list in its place; a list with a fault leaves that as it was.
pub fn make(given: &Given) -> Result<u8, String> {
    let (name, out) = (given.name(0).unwrap_or_default(), given.value("-o").unwrap_or_default());
    let (text, source) = keep::read(name, keep::MOST_LIST)?;
    let place = keep::Place::of(out)?;
    place.free(name, &source, given.has("--force"))?;
    let out = out.to_string_lossy();
    if text.len() > keep::MOST_LIST {
        return Err(format!("{}: it has more than {} bytes, the most of a list; {out} is not written", keep::shown(name), keep::MOST_LIST));
    }
    match list::make(&text) {
        Ok(file) => {
            place.put(&file)?;
            let records = file.len() / 32;
            let mut said = format!("{out} is written: {records} record{}\n", if records == 1 { "" } else { "s" });
            if let Some(refusal) = check(&file).refusal() {
                said += &format!("it gets {}: {refusal}\n", refusal.number());
            }
            print(said.as_bytes()).map(|()| DONE)
        }
        Err(faults) => Ok(faulty(name, &out, &faults)),
    }
}

/// Says what is wrong with a list, by lines. What the writer refused has the status of a refusal.
fn faulty(name: &OsStr, out: &str, faults: &[Fault]) -> u8 {
    let name = keep::shown(name);
    faults.iter().take(MOST_TOLD).for_each(|fault| say(&format!("{name}: {fault}")));
    if faults.len() > MOST_TOLD {
        say(&format!("{name}: and {} lines more", faults.len() - MOST_TOLD));
    }
    say(&format!("{out} is not written"));
    if faults.iter().any(|fault| fault.refusal.is_some()) {
        REFUSED
    } else {
        TROUBLE
    }
}
