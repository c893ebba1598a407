//! Fetches conflict.rs and makes the few replacements without which it does not build beside the
//! stand-ins, or could not be watched. Each must match exactly as often as it says.
//!
//! Without the file the build still succeeds, with `has_conflict_rs` off.

use std::path::{Path, PathBuf};
use std::{env, fs, process};

struct Replacement {
    name: &'static str,
    matches: usize,
    from: &'static str,
    to: &'static str,
}

const REPLACEMENTS: &[Replacement] = &[
    // Text that comes in by `include!` may not begin with inner doc comments.
    Replacement {
        name: "inner doc comments",
        matches: 2,
        from: "//! ",
        to: "// ",
    },
    Replacement {
        name: "ahash's alias of version 0.8",
        matches: 1,
        from: "use ahash::HashMap;",
        to: "use crate::standins::HashMap;",
    },
    // The stand-ins have modules of the same names, `tracing` and the runtime among them.
    Replacement {
        name: "imports of the solver's types",
        matches: 1,
        from: "use crate::{",
        to: "use crate::standins::{",
    },
    Replacement {
        name: "itertools 0.10's name of chunk_by",
        matches: 4,
        from: ".chunk_by(",
        to: ".group_by(",
    },
    // Left out by document 01; it alone needs the decision map and `positive`.
    Replacement {
        name: "decision map of the debug assertion",
        matches: 1,
        from: "let decision_map = solver.state.decision_tracker.map();",
        to: "",
    },
    Replacement {
        name: "debug assertion",
        matches: 1,
        from: "debug_assert_ne!(selected.positive().eval(decision_map), Some(false));",
        to: "",
    },
    // Refusals 7 and 8 name the core clause at hand; 7 stands before the `unreachable!`. Each node and each edge notes that
    // clause as it is added, so `add_node` is handed what keeps the notes: see `limits`.
    Replacement {
        name: "what keeps the clause at hand",
        matches: 1,
        from: "let state = &solver.state;",
        to: "let state = &solver.state;
        let progress = &state.progress;",
    },
    Replacement {
        name: "clause at hand",
        matches: 1,
        from: "let clause = &state.clauses.kinds[clause_id.to_index()];",
        to: "let clause = state.clauses.entered(*clause_id, progress);",
    },
    Replacement {
        name: "add_node's parameters",
        matches: 1,
        from: "fn add_node<S: SolverId>(",
        to: "fn add_node<S: SolverId>(
        progress: &crate::limits::Progress,",
    },
    Replacement {
        name: "calls of add_node",
        matches: 12,
        from: "Self::add_node(&mut graph,",
        to: "Self::add_node(progress, &mut graph,",
    },
    Replacement {
        name: "limit and clause of a node",
        matches: 3,
        from: "graph.add_node(",
        to: "graph.noting_node(progress).add_node(",
    },
    Replacement {
        name: "limit and clause of an edge",
        matches: 8,
        from: "graph.add_edge(",
        to: "graph.noting_edge(progress).add_edge(",
    },
    Replacement {
        name: "clauses of nodes when unresolved goes",
        matches: 1,
        from: "graph.remove_node(unresolved_node);",
        to: "progress.gone(unresolved_node);
            graph.remove_node(unresolved_node);",
    },
    // Refusal 9 names the lowest node that the assert only counts; the assert itself stays.
    Replacement {
        name: "nodes not reached",
        matches: 1,
        from: "assert_eq!(graph.node_count(), visited_nodes.len());",
        to: "crate::limits::all_reached(&graph, &visited_nodes);
        assert_eq!(graph.node_count(), visited_nodes.len());",
    },
    // Document 02, order 11: "In edition 2 every package, merged or not, is reported when first shown and skipped afterwards."
    // The members of a merged one are put among the reported where its text is made; an unmerged one is put there at the same
    // step, before it is known which line shows it. In edition 1 nothing is put there.
    Replacement {
        name: "unmerged packages among the reported, in edition 2",
        matches: 1,
        from: "} else if let Some(solvable_id) = solvable_id.solvable() {",
        to: "} else if let Some(solvable_id) = solvable_id.solvable() {
                        if self.interner.watch().reports_unmerged() {
                            reported.insert(SolvableIdOrRoot::from(solvable_id));
                        }",
    },
    // The branch of openings is kept beside the stack: see `watch`.
    Replacement {
        name: "popping an entry",
        matches: 1,
        from: "= stack.pop() {",
        to: "= self.interner.watch().pop(&mut stack) {",
    },
    Replacement {
        name: "opening a package",
        matches: 1,
        from: "writeln!(f, \"{indent}{version} would require\",)?;",
        to: "self.interner.watch().opening(candidate.index())?;
                        writeln!(f, \"{indent}{version} would require\",)?;",
    },
];

fn main() {
    println!("cargo:rerun-if-env-changed=CONFLICT_RS");
    println!("cargo:rerun-if-changed=build.rs");
    if compiler_checks_cfg() {
        println!("cargo:rustc-check-cfg=cfg(has_conflict_rs)");
    }
    let path = source();
    // A path that is not there yet is watched too: the build is redone when it comes.
    println!("cargo:rerun-if-changed={}", path.display());
    let Ok(text) = fs::read_to_string(&path) else {
        return;
    };
    let out = Path::new(&env::var_os("OUT_DIR").expect("cargo sets OUT_DIR")).join("conflict.rs");
    fs::write(out, replace_all(text)).expect("OUT_DIR can be written");
    println!("cargo:rustc-cfg=has_conflict_rs");
}

fn source() -> PathBuf {
    match env::var_os("CONFLICT_RS") {
        Some(path) => PathBuf::from(path),
        None => Path::new(&env::var_os("CARGO_MANIFEST_DIR").expect("cargo sets it"))
            .join("../../../shared/docs/src/src--src--conflict.rs.txt"),
    }
}

fn replace_all(mut text: String) -> String {
    for r in REPLACEMENTS {
        let found = text.matches(r.from).count();
        if found != r.matches {
            eprintln!(
                "conflict.rs: replacement \"{}\" matches {found} times and not {}",
                r.name, r.matches
            );
            process::exit(1);
        }
        text = text.replace(r.from, r.to);
    }
    text
}

/// Cargo knows `rustc-check-cfg` from 1.80 on; older ones warn about it.
fn compiler_checks_cfg() -> bool {
    let rustc = env::var_os("RUSTC").unwrap_or_else(|| "rustc".into());
    let Ok(output) = process::Command::new(rustc).arg("--version").output() else {
        return false;
    };
    let version = String::from_utf8_lossy(&output.stdout).into_owned();
    let minor = version
        .split_whitespace()
        .nth(1)
        .and_then(|v| v.split('.').nth(1))
        .and_then(|minor| minor.parse::<u32>().ok());
    minor.is_some_and(|minor| minor >= 80)
}
