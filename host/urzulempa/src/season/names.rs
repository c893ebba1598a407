//! The files of a season in their order: those of the line, and for a folder all that lie in it, by name.

use crate::keep;
use std::ffi::{OsStr, OsString};
use std::fs;
use std::io;
use std::os::unix::ffi::{OsStrExt, OsStringExt};
use std::path::{Path, PathBuf};

/// Names one behind the other in one place, so that a season of many files takes little memory.
#[derive(Default)]
struct Row {
    bytes: Vec<u8>,
    ends: Vec<usize>,
}

impl Row {
    fn push(&mut self, name: &[u8]) {
        self.bytes.extend(name);
        self.ends.push(self.bytes.len());
    }

    fn get(&self, at: usize) -> &[u8] {
        let begin = if at == 0 { 0 } else { self.ends[at - 1] };
        &self.bytes[begin..self.ends[at]]
    }
}

/// The files, and what stands in the way of some.
#[derive(Default)]
pub struct Names {
    row: Row,
    /// What stands before the names from this place on: a folder and its slash, kept once for all that lies in it.
    folders: Vec<(usize, Vec<u8>)>,
    /// What can't be read, by its place, and why; in their order.
    bad: Vec<(usize, String)>,
}

impl Names {
    pub fn of(paths: &[OsString]) -> Names {
        let mut names = Names::default();
        for path in paths {
            if path != "-" && Path::new(path).is_dir() {
                names.folder(path.as_bytes());
            } else {
                names.push(b"", path.as_bytes());
            }
        }
        names
    }

    pub fn len(&self) -> usize {
        self.row.ends.len()
    }

    fn bytes(&self, at: usize) -> Vec<u8> {
        let folder = self.folders.partition_point(|(begin, _)| *begin <= at) - 1;
        [&self.folders[folder].1, self.row.get(at)].concat()
    }

    /// A file, or why it can't be read where that is known already.
    pub fn get(&self, at: usize) -> Result<PathBuf, String> {
        match self.bad.binary_search_by_key(&at, |(place, _)| *place) {
            Ok(bad) => Err(self.bad[bad].1.clone()),
            Err(_) => Ok(PathBuf::from(OsString::from_vec(self.bytes(at)))),
        }
    }

    /// Those that can be read, as far as is known.
    pub fn paths(&self) -> impl Iterator<Item = PathBuf> + '_ {
        (0..self.len()).filter_map(|at| self.get(at).ok())
    }

    /// A name as a person sees it.
    pub fn shown(&self, at: usize) -> String {
        shown(&self.bytes(at))
    }

    /// A name as a program gets it.
    pub fn told(&self, at: usize) -> String {
        keep::shown(OsStr::from_bytes(&self.bytes(at)))
    }

    fn push(&mut self, folder: &[u8], name: &[u8]) {
        if self.folders.last().map_or(true, |(_, last)| last != folder) {
            self.folders.push((self.len(), folder.to_vec()));
        }
        self.row.push(name);
    }

    fn bad(&mut self, folder: &[u8], name: &[u8], why: &str) {
        self.bad.push((self.len(), why.to_owned()));
        self.push(folder, name);
    }

    /// The files of a folder by name, those of a folder in it where its own name stands.
    fn folder(&mut self, path: &[u8]) {
        let (found, kinds) = match list(path) {
            Ok(listed) => listed,
            Err(e) => return self.bad(b"", path, &e.to_string()),
        };
        let mut order: Vec<u32> = (0..).take(kinds.len()).collect();
        order.sort_unstable_by(|&a, &b| found.get(a as usize).cmp(found.get(b as usize)));
        let slash: &[u8] = if path.ends_with(b"/") { b"" } else { b"/" };
        let folder = [path, slash].concat();
        for at in order {
            let name = found.get(at as usize);
            match kinds[at as usize] {
                Kind::File => self.push(&folder, name),
                Kind::Folder => self.folder(&[&folder, name].concat()),
                Kind::Link => self.bad(&folder, name, "it is a link to a folder, which is not followed"),
                Kind::Other => self.bad(&folder, name, "it is neither a file nor a folder"),
            }
        }
    }
}

/// A name as it is printed: on one line.
pub fn shown(name: &[u8]) -> String {
    keep::shown(OsStr::from_bytes(name)).chars().map(|c| if c.is_control() { '?' } else { c }).collect()
}

#[derive(Clone, Copy)]
enum Kind {
    File,
    Folder,
    /// A link to a folder, which may lead round.
    Link,
    /// A pipe, say, which would wait for a writer.
    Other,
}

fn list(path: &[u8]) -> io::Result<(Row, Vec<Kind>)> {
    let (mut row, mut kinds) = (Row::default(), Vec::new());
    for entry in fs::read_dir(OsStr::from_bytes(path))? {
        let entry = entry?;
        let own = entry.file_type()?;
        let kind = if own.is_symlink() { fs::metadata(entry.path()).map(|leads_to| leads_to.file_type()).ok() } else { Some(own) };
        kinds.push(match kind {
            Some(kind) if kind.is_dir() && own.is_symlink() => Kind::Link,
            Some(kind) if kind.is_dir() => Kind::Folder,
            // A link that leads nowhere is opened, and the trouble told.
            None => Kind::File,
            Some(kind) if kind.is_file() => Kind::File,
            Some(_) => Kind::Other,
        });
        row.push(entry.file_name().as_bytes());
    }
    Ok((row, kinds))
}
