//! The command as a person runs it, for the tests of its calls.
#![allow(dead_code)] // not every test uses all of it

use std::ffi::OsStr;
use std::fs;
use std::io::Write;
use std::path::{Path, PathBuf};
use std::process::{Command, Output, Stdio};

/// The command with these words, and `input` on standard input.
pub fn run(words: &[&str], input: &[u8]) -> Output {
    let mut command = Command::new(env!("CARGO_BIN_EXE_urzulempa"));
    command.args(words);
    ended(command, input)
}

fn ended(mut command: Command, input: &[u8]) -> Output {
    let mut child = command.stdin(Stdio::piped()).stdout(Stdio::piped()).stderr(Stdio::piped()).spawn().expect("the command starts");
    // A command that wants no file does not read it.
    let _ = child.stdin.take().expect("a pipe").write_all(input);
    child.wait_with_output().expect("the command ends")
}

pub fn said(bytes: &[u8]) -> String {
    String::from_utf8_lossy(bytes).into_owned()
}

/// A folder of its own, empty, where commands run; it goes with the test.
pub struct Ground(pub PathBuf);

impl Ground {
    pub fn new(name: &str) -> Ground {
        let folder = Path::new(env!("CARGO_TARGET_TMPDIR")).join(format!("{}-{name}-{}", env!("CARGO_CRATE_NAME"), std::process::id()));
        let _ = fs::remove_dir_all(&folder);
        fs::create_dir_all(&folder).expect("a folder");
        Ground(folder)
    }

    pub fn command(&self, words: &[&str]) -> Command {
        let words: Vec<&OsStr> = words.iter().map(OsStr::new).collect();
        self.command_any(&words)
    }

    /// Words need not be UTF-8.
    fn command_any(&self, words: &[&OsStr]) -> Command {
        let mut command = Command::new(env!("CARGO_BIN_EXE_urzulempa"));
        command.args(words).current_dir(&self.0).stdin(Stdio::piped()).stdout(Stdio::piped()).stderr(Stdio::piped());
        command
    }

    pub fn run(&self, words: &[&str], input: &[u8]) -> Output {
        ended(self.command(words), input)
    }

    pub fn run_any(&self, words: &[&OsStr], input: &[u8]) -> Output {
        ended(self.command_any(words), input)
    }

    /// Status, and what was printed and said.
    pub fn ran(&self, words: &[&str], input: &[u8]) -> (Option<i32>, String, String) {
        let out = self.run(words, input);
        (out.status.code(), said(&out.stdout), said(&out.stderr))
    }

    pub fn lay(&self, name: impl AsRef<Path>, bytes: &[u8]) {
        let path = self.0.join(name);
        fs::create_dir_all(path.parent().expect("a folder")).expect("a folder");
        fs::write(path, bytes).expect("a file");
    }

    pub fn holds(&self, name: &str) -> Option<Vec<u8>> {
        fs::read(self.0.join(name)).ok()
    }

    pub fn holds_text(&self, name: &str) -> Option<String> {
        fs::read_to_string(self.0.join(name)).ok()
    }
}

impl Drop for Ground {
    fn drop(&mut self) {
        let _ = fs::remove_dir_all(&self.0);
    }
}
