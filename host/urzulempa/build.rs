//! Links the library: that of dist/, or, with URZULEMPA_FROM_SOURCE=1, one made by `rt lib` in crates/urzulempa_c from the proved sources.
//!
//! `./test` holds the two to be the same bytes. A dist/ that was made from other sources than those in crates/ is not linked. An archive
//! made here is kept under host/target, named by a sum of the sources and the toolchain's version, since `rt ci` removes it from the crate's out/.

use std::env;
use std::fs;
use std::path::{Path, PathBuf};
use std::process::{exit, Command, Output};

const ARCHIVE: &str = "liburzulempa.a";
/// What of a crate is written; beside it lies out/, which is made.
const PARTS: [&str; 3] = ["src", "specs", "proofs"];

fn main() {
    let root = Path::new(env!("CARGO_MANIFEST_DIR")).join("../..");
    let root = fs::canonicalize(&root).unwrap_or(root);
    println!("cargo:rerun-if-env-changed=URZULEMPA_FROM_SOURCE");
    println!("cargo:rerun-if-changed=build.rs");
    on_its_machine();
    let asked = env::var("URZULEMPA_FROM_SOURCE").unwrap_or_default();
    let folder = if ["", "0"].contains(&asked.as_str()) { from_dist(&root) } else { from_source(&root) };
    println!("cargo:rustc-link-search=native={}", folder.display());
    println!("cargo:rustc-link-lib=static=urzulempa");
}

/// The library is machine code.
fn on_its_machine() {
    let said = |name: &str| env::var(name).unwrap_or_default();
    let (arch, os) = (said("CARGO_CFG_TARGET_ARCH"), said("CARGO_CFG_TARGET_OS"));
    if (arch.as_str(), os.as_str()) != ("x86_64", "linux") {
        stop(&format!("the proved library is for x86-64 Linux, and this build is for {arch} {os}: build for --target x86_64-unknown-linux-gnu"));
    }
}

/// dist/x86_64-linux, unless its library was made from other sources than those that lie here.
fn from_dist(root: &Path) -> PathBuf {
    let folder = root.join("dist/x86_64-linux");
    println!("cargo:rerun-if-changed={}", folder.display());
    let ways = "run tools/dist, which renews it, or set URZULEMPA_FROM_SOURCE=1; both need rt, the Rattle toolchain";
    watch(root, &["src"]);
    let sums = fs::read_to_string(folder.join("SHA256SUMS")).unwrap_or_default();
    if !folder.join(ARCHIVE).is_file() {
        stop(&format!("{} has no {ARCHIVE}: {ways}", folder.display()));
    }
    let made_from = sums.lines().find_map(|line| line.strip_prefix("# sources: ")).unwrap_or("unknown");
    let here = sum_of(root, &["rt"], "");
    println!("cargo:rustc-env=URZULEMPA_SOURCES={made_from}");
    if root.join("crates").is_dir() && made_from != here {
        stop(&format!("the library in dist/ was made from other sources than those in crates/ (their sum is {here}, in SHA256SUMS it is {made_from}): {ways}"));
    }
    folder
}

/// A folder with the library that the sources give, made unless one was kept.
fn from_source(root: &Path) -> PathBuf {
    println!("cargo:rerun-if-env-changed=PATH");
    watch(root, &PARTS);
    // another toolchain comes with another rt
    let path = env::var_os("PATH").unwrap_or_default();
    if let Some(rt) = env::split_paths(&path).find_map(|folder| fs::canonicalize(folder.join("rt")).ok()) {
        println!("cargo:rerun-if-changed={}", rt.display());
    }
    println!("cargo:rustc-env=URZULEMPA_SOURCES={}", sum_of(root, &["rt"], ""));
    let version = rt(root, &["version"]);
    let version = String::from_utf8_lossy(&version.stdout).into_owned();
    let crates = fs::read_to_string(root.join("crates.txt")).unwrap_or_default();
    let kept = root.join("host/target/library").join(sum_of(root, &["rt", "antt"], &(version + &crates)));
    if !kept.join(ARCHIVE).is_file() {
        let home = root.join("crates/urzulempa_c");
        rt(&home, &["lib"]);
        let made = home.join("out/liburzulempa_c.a");
        // a copy that was cut short has another name
        let part = kept.join(format!("{ARCHIVE}.part"));
        let copied = fs::create_dir_all(&kept).and_then(|()| fs::copy(&made, &part)).and_then(|_| fs::rename(&part, kept.join(ARCHIVE)));
        if let Err(e) = copied {
            stop(&format!("{} could not be copied to {}: {e}", made.display(), kept.display()));
        }
    }
    kept
}

/// Runs the toolchain; where it fails, all that it said is passed on.
fn rt(folder: &Path, words: &[&str]) -> Output {
    let said = words.join(" ");
    let ran = Command::new("rt").args(words).current_dir(folder).output().unwrap_or_else(|e| {
        let ways = "put rt, the Rattle toolchain, on PATH, or unset the variable to link dist/";
        stop(&format!("URZULEMPA_FROM_SOURCE is set, and `rt {said}` could not be run ({e}): {ways}"))
    });
    if !ran.status.success() {
        eprint!("{}{}", String::from_utf8_lossy(&ran.stderr), String::from_utf8_lossy(&ran.stdout));
        stop(&format!("`rt {said}` failed ({}); above is what it said", ran.status));
    }
    ran
}

/// Has cargo run this again where these parts of a crate change.
fn watch(root: &Path, parts: &[&str]) {
    let written = crates(root).into_iter().flat_map(|name| parts.iter().map(move |part| format!("{name}/{part}")));
    // cargo takes what is not there as changed
    for path in written.chain(["crates.txt".to_string()]).map(|name| root.join(name)).filter(|path| path.exists()) {
        println!("cargo:rerun-if-changed={}", path.display());
    }
}

/// The folders of the crates, by their names from the root.
fn crates(root: &Path) -> Vec<String> {
    let Ok(entries) = fs::read_dir(root.join("crates")) else { return Vec::new() };
    entries.flatten().filter(|entry| entry.path().is_dir()).map(|entry| format!("crates/{}", entry.file_name().to_string_lossy())).collect()
}

/// A sum of the names and bytes of the crates' files with these endings, and of a text: FNV-1a, as in tools/dist.
fn sum_of(root: &Path, endings: &[&str], text: &str) -> String {
    let mut names = Vec::new();
    for name in crates(root) {
        for part in PARTS {
            gather(root, &format!("{name}/{part}"), endings, &mut names);
        }
    }
    names.sort();
    let mut sum: u64 = 0xcbf2_9ce4_8422_2325;
    let mut add = |bytes: &[u8]| bytes.iter().for_each(|&byte| sum = (sum ^ u64::from(byte)).wrapping_mul(0x0000_0100_0000_01b3));
    for name in names {
        add(name.as_bytes());
        add(&[0]);
        add(&fs::read(root.join(&name)).unwrap_or_default());
    }
    add(text.as_bytes());
    format!("{sum:016x}")
}

/// The files below a folder, by their names from the root, with `/` between the parts.
fn gather(root: &Path, folder: &str, endings: &[&str], into: &mut Vec<String>) {
    let Ok(entries) = fs::read_dir(root.join(folder)) else { return };
    for entry in entries.flatten() {
        let path = entry.path();
        let name = format!("{folder}/{}", entry.file_name().to_string_lossy());
        if path.is_dir() {
            gather(root, &name, endings, into);
        } else if path.extension().is_some_and(|e| endings.iter().any(|ending| e == *ending)) {
            into.push(name);
        }
    }
}

fn stop(why: &str) -> ! {
    eprintln!("urzulempa: {why}");
    exit(1)
}
