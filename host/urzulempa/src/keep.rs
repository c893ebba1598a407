//! Files: one is read with what tells it apart, and one is put in its place whole, so that at any moment, whatever stops the program
//! or the machine, the old one is there or the new one.

use std::ffi::OsStr;
use std::fs::{self, File, Metadata, OpenOptions};
use std::io::{self, ErrorKind, Read, Write};
use std::os::fd::AsFd;
use std::os::unix::fs::{fchown, MetadataExt, OpenOptionsExt};
use std::path::{Path, PathBuf};
use std::process;

/// The most bytes of a list that `make` takes: five hundred for each record that a file can have.
pub const MOST_LIST: usize = 1 << 20;

/// The most bytes of a text that the wall display's reader takes: 128 nodes and 1,024 edges, numbers and labels as long as can be.
pub const MOST_TEXT: usize = 10 * (1 + 51) + 90 * (2 + 51) + 28 * (3 + 51) + 2 + 1_024 * (2 * (3 + 1) + 50);

/// The bytes of a file, or of standard input, and what tells it apart. Of one that has more than the most bytes, one more than those is
/// read: whoever takes it refuses that.
pub fn read(name: &OsStr, most: usize) -> Result<(Vec<u8>, Metadata), String> {
    let opened = if name == "-" { io::stdin().as_fd().try_clone_to_owned().map(File::from) } else { File::open(name) };
    let read = opened.and_then(|file| {
        let mut bytes = Vec::new();
        (&file).take(most as u64 + 1).read_to_end(&mut bytes)?;
        Ok((bytes, file.metadata()?))
    });
    read.map_err(|e| format!("{}: {e}", shown(name)))
}

/// A file's name for a person.
pub fn shown(name: &OsStr) -> String {
    if name == "-" {
        "standard input".into()
    } else {
        name.to_string_lossy().into_owned()
    }
}

/// Where a file is to be put.
pub struct Place {
    name: String,
    path: PathBuf,
    /// The file that is there.
    old: Option<Metadata>,
}

impl Place {
    /// A name that is a link means the file that it leads to.
    pub fn of(given: &OsStr) -> Result<Self, String> {
        let name = given.to_string_lossy().into_owned();
        let trouble = |e: io::Error| format!("{name}: {e}");
        let (path, old) = match fs::symlink_metadata(given) {
            Ok(_) => {
                let path = fs::canonicalize(given).map_err(trouble)?;
                let old = fs::metadata(&path).map_err(trouble)?;
                if !old.is_file() {
                    return Err(format!("{name}: it is no file that could be replaced"));
                }
                (path, Some(old))
            }
            Err(e) if e.kind() == ErrorKind::NotFound => (PathBuf::from(given), None),
            Err(e) => return Err(trouble(e)),
        };
        Ok(Place { name, path, old })
    }

    /// Trouble if the file that is there is the one that was read, by whatever name, and may not be written over.
    pub fn free(&self, read: &OsStr, source: &Metadata, force: bool) -> Result<(), String> {
        if force || !self.is(source) {
            return Ok(());
        }
        Err(format!("{} is {} itself, which would be gone: name another file behind -o, or say --force", self.name, shown(read)))
    }

    /// Whether the file that is there is this one.
    pub fn is(&self, other: &Metadata) -> bool {
        self.old.as_ref().is_some_and(|old| (old.dev(), old.ino()) == (other.dev(), other.ino()))
    }

    /// Puts a file there. Its bytes are on the disk before it gets its name, and the name is before this ends; where that can't be
    /// had, the old file stays.
    pub fn put(&self, bytes: &[u8]) -> Result<(), String> {
        let folder = match self.path.parent() {
            Some(folder) if folder != Path::new("") => folder,
            _ => Path::new("."),
        };
        let kept = |e: io::Error| {
            let left = if self.old.is_some() { "it is as it was" } else { "nothing is written" };
            format!("{}: {e}; {left}", self.name)
        };
        let (part, mut file) = self.create(folder).map_err(kept)?;
        let written = self.alike(&file).and_then(|()| file.write_all(bytes)).and_then(|()| file.sync_all()).and_then(|()| fs::rename(&part, &self.path));
        if let Err(e) = written {
            let _ = fs::remove_file(&part);
            return Err(kept(e));
        }
        let flushed = File::open(folder).and_then(|folder| folder.sync_all());
        flushed.map_err(|e| format!("{}: it is written, but its folder could not be flushed ({e}): if power goes now, the old one may come back", self.name))
    }

    /// A file of a name that nobody has, in the same folder: a file is not renamed from one disk to another.
    fn create(&self, folder: &Path) -> io::Result<(PathBuf, File)> {
        let mut options = OpenOptions::new();
        options.write(true).create_new(true);
        if self.old.is_some() {
            // It may be for its owner's eyes alone.
            options.mode(0o600);
        }
        let mut turn = 0u32;
        loop {
            let part = folder.join(format!(".urzulempa-{}-{turn}", process::id()));
            match options.open(&part) {
                Err(e) if e.kind() == ErrorKind::AlreadyExists => turn += 1,
                made => return made.map(|file| (part, file)),
            }
        }
    }

    /// Gives a file the owner, where that is allowed, and the permissions of the one that it is to replace.
    fn alike(&self, file: &File) -> io::Result<()> {
        let Some(old) = &self.old else { return Ok(()) };
        let made = file.metadata()?;
        if (made.uid(), made.gid()) != (old.uid(), old.gid()) {
            let _ = fchown(file, Some(old.uid()), Some(old.gid()));
        }
        file.set_permissions(old.permissions())
    }
}
