//! `salvage` and `settings` as power, a full disk or a kill leaves them. The command is run as it is shipped, from one system call to
//! the next (ptrace), and killed at each stop, or each call is made to fail: the old OUT or the new one is found, whole, and a settings
//! file with its last record or without it.

use std::collections::BTreeSet;
use std::ffi::c_void;
use std::fs;
use std::io::{Error, Read};
use std::os::unix::process::CommandExt;
use std::path::{Path, PathBuf};
use std::process::{Child, Command, Stdio};

const REPLAY: &[u8] = include_bytes!("../../../samples/replay.rec");
const OLD: &[u8] = b"what was there before";

// Numbers of x86-64 Linux, the one machine that the library is for.
const TRACEME: i64 = 0;
const GETREGS: i64 = 12;
const SETREGS: i64 = 13;
const SYSCALL: i64 = 24;
const SETOPTIONS: i64 = 0x4200;
/// Marks a stop at a system call by bit 7 of its signal; what is traced dies with the tracer.
const OPTIONS: u64 = 0x0010_0001;
const AT_CALL: i32 = 5 | 0x80;
const TRAP: i32 = 5;
const EIO: i64 = 5;
const ENOSPC: i64 = 28;

const WRITE: u64 = 1;
const FLOCK: u64 = 73;
const FSYNC: u64 = 74;
const RENAME: u64 = 82;
const OPENAT: u64 = 257;

extern "C" {
    fn ptrace(request: i64, pid: i32, address: *mut c_void, data: *mut c_void) -> i64;
    fn waitpid(pid: i32, status: *mut i32, options: i32) -> i32;
}

/// `user_regs_struct`: the call's number is `ORIG_RAX`, its outcome `RAX`, the first argument `RDI`.
type Registers = [u64; 27];
const RAX: usize = 10;
const RDI: usize = 14;
const ORIG_RAX: usize = 15;

/// A stop of the command: it enters a system call or comes back from it.
#[derive(Clone, Copy, Debug)]
struct Stop {
    entry: bool,
    call: u64,
    first: u64,
    outcome: u64,
}

/// What is done at a stop.
enum Then {
    Go,
    Kill,
    /// The call is not made, and gives this error.
    Fail(i64),
}

/// How the command ended, and what it said on standard error.
#[derive(Debug, PartialEq)]
enum End {
    Exit(i32, String),
    Signal(i32),
}

fn request(what: i64, pid: i32, data: *mut c_void) {
    // SAFETY: the data is what the request wants: a number, or registers that outlive the call.
    let answer = unsafe { ptrace(what, pid, std::ptr::null_mut(), data) };
    assert_eq!(answer, 0, "ptrace {what}: {}: this test has to trace the command that it starts", Error::last_os_error());
}

fn wait(pid: i32) -> i32 {
    let mut status = 0;
    // SAFETY: the status outlives the call.
    let waited = unsafe { waitpid(pid, &mut status, 0) };
    assert_eq!(waited, pid, "waitpid: {}", Error::last_os_error());
    status
}

fn start(words: &[&str], folder: &Path) -> Child {
    let mut command = Command::new(env!("CARGO_BIN_EXE_urzulempa"));
    command.args(words).current_dir(folder).stdin(Stdio::null()).stdout(Stdio::null()).stderr(Stdio::piped());
    // SAFETY: one system call between fork and exec.
    unsafe {
        command.pre_exec(|| if ptrace(TRACEME, 0, std::ptr::null_mut(), std::ptr::null_mut()) == 0 { Ok(()) } else { Err(Error::last_os_error()) });
    }
    command.spawn().expect("the command starts, and may be traced")
}

/// Runs the command, asking at each stop what is to be done.
#[allow(unknown_lints, clippy::zombie_processes)] // `wait` waits for it, by its number
fn traced(words: &[&str], folder: &Path, mut at: impl FnMut(Stop) -> Then) -> End {
    let mut child = start(words, folder);
    let pid = i32::try_from(child.id()).expect("a process number");
    let status = wait(pid);
    assert_eq!(status >> 8 & 0xff, TRAP, "it stops when it begins");
    request(SETOPTIONS, pid, OPTIONS as usize as *mut c_void);
    let (mut entry, mut failing) = (false, None::<i64>);
    let mut pass = 0;
    loop {
        request(SYSCALL, pid, pass as usize as *mut c_void);
        let status = wait(pid);
        if status & 0x7f != 0x7f {
            let mut said = String::new();
            let _ = child.stderr.take().expect("a pipe").read_to_string(&mut said);
            return if status & 0x7f == 0 { End::Exit(status >> 8 & 0xff, said) } else { End::Signal(status & 0x7f) };
        }
        if status >> 8 & 0xff != AT_CALL {
            // A signal, which it is given.
            pass = status >> 8 & 0xff;
            continue;
        }
        (pass, entry) = (0, !entry);
        let mut registers: Registers = [0; 27];
        request(GETREGS, pid, registers.as_mut_ptr().cast());
        if let (false, Some(error)) = (entry, failing.take()) {
            registers[RAX] = (-error) as u64;
            request(SETREGS, pid, registers.as_mut_ptr().cast());
        }
        let stop = Stop { entry, call: registers[ORIG_RAX], first: registers[RDI], outcome: registers[RAX] };
        match at(stop) {
            Then::Go => {}
            Then::Kill => {
                child.kill().expect("it is killed");
                // Two events may follow: the end of the stop and the end of the process.
                let mut status = wait(pid);
                while status & 0x7f == 0x7f {
                    status = wait(pid);
                }
                return End::Signal(status & 0x7f);
            }
            Then::Fail(error) => {
                failing = Some(error);
                registers[ORIG_RAX] = u64::MAX;
                request(SETREGS, pid, registers.as_mut_ptr().cast());
            }
        }
    }
}

/// A folder of its own with in.rec, a damaged file, and out.rec if there is to be one.
struct Ground {
    folder: PathBuf,
    damaged: Vec<u8>,
    mended: Vec<u8>,
}

impl Ground {
    fn new(name: &str) -> Ground {
        let folder = Path::new(env!("CARGO_TARGET_TMPDIR")).join(format!("power-{name}-{}", std::process::id()));
        let mut damaged = REPLAY.to_vec();
        damaged[11 * 32 + 1] = 7;
        damaged.truncate(12 * 32 + 5);
        let mended = urzulempa::repaired(&damaged).expect("it can be repaired").file;
        Ground { folder, damaged, mended }
    }

    fn lay(&self, out: Option<&[u8]>) {
        let _ = fs::remove_dir_all(&self.folder);
        fs::create_dir_all(&self.folder).expect("a folder");
        fs::write(self.folder.join("in.rec"), &self.damaged).expect("a file");
        if let Some(bytes) = out {
            fs::write(self.folder.join("out.rec"), bytes).expect("a file");
        }
    }

    fn holds(&self, name: &str) -> Option<Vec<u8>> {
        fs::read(self.folder.join(name)).ok()
    }

    /// Names that were not laid and are not OUT.
    fn strays(&self) -> Vec<String> {
        let names = fs::read_dir(&self.folder).expect("the folder").map(|e| e.expect("an entry").file_name().to_string_lossy().into_owned());
        names.filter(|name| name != "in.rec" && name != "out.rec").collect()
    }
}

impl Drop for Ground {
    fn drop(&mut self) {
        let _ = fs::remove_dir_all(&self.folder);
    }
}

const PLAIN: [&str; 4] = ["salvage", "in.rec", "-o", "out.rec"];
const OVER: [&str; 5] = ["salvage", "in.rec", "-o", "in.rec", "--force"];

/// Kills a run at each of its stops in turn, until one comes to its end; what OUT held then goes from old to new once.
fn killed_at_each_stop(ground: &Ground, words: &[&str], out: &str, old: Option<&[u8]>) {
    let laid = if out == "out.rec" { old } else { None };
    let (mut before, mut after) = (0, 0);
    for last in 0.. {
        ground.lay(laid);
        let mut stops = 0;
        let end = traced(words, &ground.folder, |_| {
            stops += 1;
            if stops > last {
                Then::Kill
            } else {
                Then::Go
            }
        });
        let found = ground.holds(out);
        if found.as_ref() == Some(&ground.mended) {
            after += 1;
        } else {
            assert_eq!(found.as_deref(), old, "neither the old nor the new one after {last} stops");
            assert_eq!(after, 0, "the old one is back after {last} stops");
            before += 1;
        }
        if out != "in.rec" {
            assert_eq!(ground.holds("in.rec").as_ref(), Some(&ground.damaged));
        }
        if let End::Exit(code, said) = end {
            assert_eq!((code, said.as_str(), ground.strays()), (0, "", vec![]));
            break;
        }
        assert_eq!(end, End::Signal(9));
    }
    assert!(before > 10 && after > 2, "{before} runs left the old one, {after} the new one");
}

#[test]
fn killed_at_each_system_call_it_leaves_the_old_out_or_the_new_one() {
    let ground = Ground::new("killed");
    killed_at_each_stop(&ground, &PLAIN, "out.rec", Some(OLD));
    killed_at_each_stop(&ground, &PLAIN, "out.rec", None);
}

#[test]
fn killed_at_each_system_call_over_its_input_it_leaves_the_input_or_the_new_one() {
    let ground = Ground::new("over");
    let damaged = ground.damaged.clone();
    killed_at_each_stop(&ground, &OVER, "in.rec", Some(&damaged));
}

/// Makes each call in turn fail: an orderly end leaves nothing behind, says what is wrong where it is not done, and never a mixture.
#[test]
fn whatever_call_fails_out_is_whole_and_nothing_is_left_behind() {
    let ground = Ground::new("failing");
    let mut said_of = BTreeSet::new();
    for error in [EIO, ENOSPC] {
        for last in 0.. {
            ground.lay(Some(OLD));
            let (mut entries, mut failed) = (0, None);
            let end = traced(&PLAIN, &ground.folder, |stop| {
                entries += u32::from(stop.entry);
                if stop.entry && entries == last + 1 {
                    failed = Some(stop.call);
                    return Then::Fail(error);
                }
                Then::Go
            });
            let found = ground.holds("out.rec").expect("OUT is there");
            let new = found == ground.mended;
            assert!(new || found == OLD, "a mixture where call {last} fails");
            assert_eq!(ground.holds("in.rec").as_ref(), Some(&ground.damaged));
            let Some(call) = failed else {
                assert_eq!((end, new), (End::Exit(0, String::new()), true));
                break;
            };
            if let End::Exit(code, said) = end {
                assert_eq!(ground.strays(), [""; 0], "left behind where call {call} fails");
                assert!(code != 0 || new, "done without OUT where call {call} fails");
                if said.starts_with("urzulempa: out.rec: ") {
                    assert_eq!(code, 1);
                    assert_eq!(said.contains("it is written"), new, "{said}");
                    if said.contains("it is written") || said.contains("it is as it was") {
                        said_of.insert((call, new));
                    }
                }
            }
        }
    }
    // Of opening and flushing there are two: of the file and of its folder.
    for seen in [(OPENAT, false), (WRITE, false), (FSYNC, false), (RENAME, false), (OPENAT, true), (FSYNC, true)] {
        assert!(said_of.contains(&seen), "call and whether OUT is new: {seen:?} failed and nobody said so: {said_of:?}");
    }
}

/// That power going loses nothing can't be seen by killing: the bytes have to be on the disk before they get the name, and the name
/// before the command ends.
#[test]
fn it_flushes_the_file_before_it_renames_it_and_the_folder_behind_that() {
    let ground = Ground::new("flushed");
    for old in [Some(OLD), None] {
        ground.lay(old);
        let (mut calls, mut pending, mut part) = (Vec::new(), None, None);
        let end = traced(&PLAIN, &ground.folder, |stop| {
            if stop.entry {
                pending = Some(stop);
                return Then::Go;
            }
            let Some(entered) = pending.take() else { return Then::Go };
            if entered.call == OPENAT && part.is_none() && !ground.strays().is_empty() {
                part = Some(stop.outcome);
            }
            // Calls from when the part is there, each with whether it is about the part.
            if part.is_some() && [WRITE, FSYNC, RENAME].contains(&entered.call) {
                assert!((stop.outcome as i64) >= 0);
                calls.push((entered.call, Some(entered.first) == part));
            }
            Then::Go
        });
        assert_eq!(end, End::Exit(0, String::new()));
        let at = |wanted: (u64, bool)| calls.iter().position(|&call| call == wanted).unwrap_or_else(|| panic!("no {wanted:?} in {calls:?}"));
        let last_write = calls.iter().rposition(|&call| call == (WRITE, true)).expect("it writes");
        let (file, named) = (at((FSYNC, true)), at((RENAME, false)));
        assert!(last_write < file && file < named, "{calls:?}");
        // The folder's number may be the part's again, which is closed by then.
        assert!(calls[named..].iter().any(|call| call.0 == FSYNC), "{calls:?}");
    }
}

/// Two records, and the one that `settings truck.set indent 0` appends.
const KEPT: [u8; 32] = [1, 2, 0, 0, 0, 0, 0, 0, 0, 0, 0, 0, 0, 0, 0, 0, 2, 3, 2, 0, 0, 0, 0, 0, 0, 0, 0, 0, 0, 0, 0, 0];
const CHANGE: [u8; 16] = [1, 1, 0, 0, 0, 0, 0, 0, 0, 0, 0, 0, 0, 0, 0, 0];
const SET: [&str; 4] = ["settings", "truck.set", "indent", "0"];

/// A settings file before and behind the change, in a folder of its own.
struct Truck {
    folder: PathBuf,
    old: Option<&'static [u8]>,
}

impl Truck {
    fn new(name: &str, old: Option<&'static [u8]>) -> Truck {
        let folder = Path::new(env!("CARGO_TARGET_TMPDIR")).join(format!("power-settings-{name}-{}", std::process::id()));
        Truck { folder, old }
    }

    fn lay(&self) {
        let _ = fs::remove_dir_all(&self.folder);
        fs::create_dir_all(&self.folder).expect("a folder");
        self.old.iter().for_each(|bytes| fs::write(self.folder.join("truck.set"), bytes).expect("a file"));
    }

    /// Whether the file is changed; a part of a record is never there. One that was made for the change may be empty.
    fn changed(&self) -> bool {
        let found = fs::read(self.folder.join("truck.set")).ok();
        let new = [self.old.unwrap_or_default(), &CHANGE].concat();
        let old = found.as_deref() == self.old || (self.old.is_none() && found.as_deref() == Some(&[]));
        assert!(old || found.as_ref() == Some(&new), "neither the old nor the new one: {found:?}");
        !old
    }
}

impl Drop for Truck {
    fn drop(&mut self) {
        let _ = fs::remove_dir_all(&self.folder);
    }
}

#[test]
fn killed_at_each_system_call_a_setting_is_changed_or_not() {
    for (name, old) in [("killed", Some(&KEPT[..])), ("killed-new", None)] {
        let truck = Truck::new(name, old);
        let (mut before, mut after) = (0, 0);
        for last in 0.. {
            truck.lay();
            let mut stops = 0;
            let end = traced(&SET, &truck.folder, |_| {
                stops += 1;
                if stops > last {
                    Then::Kill
                } else {
                    Then::Go
                }
            });
            if truck.changed() {
                after += 1
            } else {
                before += 1
            }
            assert!(after == 0 || truck.changed(), "the old one is back after {last} stops");
            if let End::Exit(code, said) = end {
                assert_eq!((code, said.as_str(), truck.changed()), (0, "", true));
                break;
            }
            assert_eq!(end, End::Signal(9));
        }
        assert!(before > 10 && after > 2, "{before} runs left the old one, {after} the new one");
    }
}

#[test]
fn whatever_call_fails_a_setting_is_changed_or_not_and_it_says_which() {
    let mut said_of = BTreeSet::new();
    for (name, old) in [("failing", Some(&KEPT[..])), ("failing-new", None)] {
        let truck = Truck::new(name, old);
        for error in [EIO, ENOSPC] {
            for last in 0.. {
                truck.lay();
                let (mut entries, mut failed) = (0, None);
                let end = traced(&SET, &truck.folder, |stop| {
                    entries += u32::from(stop.entry);
                    if stop.entry && entries == last + 1 {
                        failed = Some(stop.call);
                        return Then::Fail(error);
                    }
                    Then::Go
                });
                let new = truck.changed();
                let Some(call) = failed else {
                    assert_eq!((end, new), (End::Exit(0, String::new()), true));
                    break;
                };
                if let End::Exit(code, said) = end {
                    assert!(code != 0 || new, "done without the change where call {call} fails");
                    if said.starts_with("urzulempa: truck.set: ") {
                        assert_eq!((code, said.contains("it is changed")), (1, new), "{said}");
                        said_of.insert((call, new));
                    }
                }
            }
        }
    }
    for seen in [(OPENAT, false), (WRITE, false), (FLOCK, false), (FSYNC, true), (OPENAT, true)] {
        assert!(said_of.contains(&seen), "call and whether it is changed: {seen:?} failed and nobody said so: {said_of:?}");
    }
}

/// The record goes out in one write, behind the lock, and is flushed before the command ends; so is the folder, with the first record.
#[test]
fn a_setting_is_one_write_behind_a_lock_and_is_flushed() {
    for (name, old) in [("flushed", Some(&KEPT[..])), ("flushed-new", None)] {
        let truck = Truck::new(name, old);
        truck.lay();
        let (mut calls, mut pending, mut locked) = (Vec::new(), None, None);
        let end = traced(&SET, &truck.folder, |stop| {
            if stop.entry {
                pending = Some(stop);
                return Then::Go;
            }
            let Some(entered) = pending.take() else { return Then::Go };
            if entered.call == FLOCK {
                locked = Some(entered.first);
            }
            if [FLOCK, WRITE, FSYNC].contains(&entered.call) && entered.first > 2 {
                calls.push((entered.call, Some(entered.first) == locked));
            }
            Then::Go
        });
        assert_eq!(end, End::Exit(0, String::new()));
        let file = [(FLOCK, true), (WRITE, true), (FSYNC, true)];
        let wanted = if old.is_some() { file.to_vec() } else { [&file[..], &[(FSYNC, false)]].concat() };
        assert_eq!(calls, wanted);
    }
}
