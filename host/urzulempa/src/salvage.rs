//! `salvage FILE -o OUT`: a repaired file, put in its place.

use crate::json::Json;
use crate::say::{print, say, DONE, REFUSED};
use crate::words::Given;
use crate::{keep, mended, refused};
use urzulempa::{repaired, MOST_BYTES};

/// Repairs a file and puts the outcome in its place; a file that can't be repaired leaves that as it was.
pub fn run(given: &Given) -> Result<u8, String> {
    let (name, out) = (given.name(0).unwrap_or_default(), given.value("-o").unwrap_or_default());
    let (bytes, source) = keep::read(name, MOST_BYTES)?;
    let place = keep::Place::of(out)?;
    place.free(name, &source, given.has("--force"))?;
    let out = out.to_string_lossy();
    let head = || vec![("file", Json::from(keep::shown(name))), ("out", Json::from(&*out))];
    match repaired(&bytes) {
        Ok(mended) => {
            place.put(&mended.file)?;
            let told = if given.has("--json") {
                let fields = [head(), vec![("done", true.into())], mended::json(&bytes, &mended), vec![("refusal", Json::Null)]];
                Json::Object(fields.into_iter().flatten().collect()).line()
            } else {
                mended::told(&bytes, &mended, &out).into_bytes()
            };
            print(&told).map(|()| DONE)
        }
        Err(refusal) => {
            let mut lines = refused::lines(&bytes, refusal);
            lines.push(format!("{out} is not written: {}", mended::why_not(refusal)));
            if given.has("--json") {
                let fields = [head(), vec![("done", false.into()), ("refusal", refused::json(&bytes, refusal, &lines))]];
                print(&Json::Object(fields.into_iter().flatten().collect()).line())?;
            } else {
                lines.iter().for_each(|line| say(line));
            }
            Ok(REFUSED)
        }
    }
}
