//! What the header says to a C program: its version, pointers of no length, threads.

use std::ptr::{null, null_mut};
use std::thread;
use urzulempa::{counts, explain_plain, graphviz, node_list, Answer, Node, Salvaged, Settings, TgfCounts};

const HEADER: &str = include_str!("../../../include/urzulempa.h");
const REPLAY: &[u8] = include_bytes!("../../../samples/replay.rec");

/// What a macro of the header stands for.
fn defined(name: &str) -> Option<&'static str> {
    HEADER.lines().find_map(|line| line.strip_prefix("#define ")?.strip_prefix(name)?.strip_prefix(' '))
}

#[test]
fn the_header_has_the_version_of_the_crate() {
    assert_eq!(defined("URZULEMPA_VERSION"), Some(concat!("\"", env!("CARGO_PKG_VERSION"), "\"")));
    assert_eq!(defined("URZULEMPA_VERSION_MAJOR"), Some(env!("CARGO_PKG_VERSION_MAJOR")));
    assert_eq!(defined("URZULEMPA_VERSION_MINOR"), Some(env!("CARGO_PKG_VERSION_MINOR")));
    assert_eq!(defined("URZULEMPA_VERSION_PATCH"), Some(env!("CARGO_PKG_VERSION_PATCH")));
}

include!("../src/exported.rs");

/// Every call with NULL and 0 for all that it is lent, then with a file and NULL for what it would write.
#[test]
fn a_pointer_of_no_length_may_be_null() {
    let (file, length) = (REPLAY.as_ptr(), REPLAY.len());
    // SAFETY: each pointer holds for its length, which is 0 where it is NULL.
    unsafe {
        assert_eq!(urzulempa_explain(null(), 0, 1, null_mut(), 0).number, 0);
        assert_eq!(urzulempa_explain_plain(null(), 0, null_mut(), 0).number, 0);
        assert_eq!(urzulempa_explain_edition(null(), 0, 2, 0, null_mut(), 0).number, 0);
        assert_eq!(urzulempa_explain_air(null(), 0, 0, null_mut(), 0).number, 0);
        assert_eq!(urzulempa_graphviz(null(), 0, 0, null_mut(), 0).number, 10);
        assert_eq!(urzulempa_check(null(), 0).number, 0);
        assert_eq!(urzulempa_nodes(null(), 0, null_mut(), 0).number, 10);
        assert_eq!(urzulempa_edges(null(), 0, null_mut(), 0).number, 0);
        assert_eq!(urzulempa_what_if(null(), 0, 0, 0, null_mut(), 0).number, 4);
        assert_eq!(urzulempa_what_if_explain(null(), 0, 0, 0, 1, null_mut(), 0).number, 4);
        assert_eq!(urzulempa_salvage(null(), 0, null_mut(), 0, null_mut(), 0).number, 0);
        assert_eq!(urzulempa_settings_read(null(), 0, 2).number, 0);
        assert_eq!(urzulempa_settings_set(null_mut(), 0, 0, 2, 1, 0).number, 10);
        assert_eq!(urzulempa_write(null(), 0, null_mut(), 0).number, 0);
        assert_eq!(urzulempa_tgf(null(), 0, null_mut(), 0).number, 10);
        assert_eq!(urzulempa_tgf_read(null(), 0, null_mut(), 0, null_mut(), 0).number, 3);
        assert_eq!(urzulempa_season(null_mut(), 0, null(), 0, 1, 1, null_mut(), 0).number, 10);
        assert_eq!(urzulempa_join(null_mut(), 0, null(), 0).number, 10);

        assert_eq!(urzulempa_explain(file, length, 1, null_mut(), 0).number, 10);
        assert_eq!(urzulempa_explain_plain(file, length, null_mut(), 0).number, 10);
        assert_eq!(urzulempa_explain_edition(file, length, 2, 0, null_mut(), 0).number, 10);
        assert_eq!(urzulempa_explain_air(file, length, 0, null_mut(), 0).number, 10);
        assert_eq!(urzulempa_graphviz(file, length, 0, null_mut(), 0).number, 10);
        assert_eq!(urzulempa_nodes(file, length, null_mut(), 0).number, 10);
        assert_eq!(urzulempa_edges(file, length, null_mut(), 0).number, 10);
        assert_eq!(urzulempa_salvage(file, length, null_mut(), 0, null_mut(), 0).number, 10);
        assert_eq!(urzulempa_write(file, length, null_mut(), 0).number, 10);
        assert_eq!(urzulempa_tgf(file, length, null_mut(), 0).number, 10);
        let mut report = [0; 27];
        assert_eq!(urzulempa_season(report.as_mut_ptr(), 27, null(), 0, 1, 1, null_mut(), 0).number, 0);
        assert_eq!(urzulempa_season(report.as_mut_ptr(), 27, file, length, 1, 1, null_mut(), 0).number, 10);
        assert_eq!((report[0], report[10]), (1, 1));
        assert_eq!(urzulempa_join(report.as_mut_ptr(), 27, null(), 0).number, 10);
        let text = b"0 <root>\n#\n";
        assert_eq!(urzulempa_tgf_read(text.as_ptr(), text.len(), null_mut(), 0, null_mut(), 0).number, 10);
    }
    // None of the library's functions is left out above.
    let declared = HEADER.lines().filter(|line| line.starts_with("urzulempa_") && line.ends_with(");")).count();
    assert_eq!(declared, 18);
}

/// Eight threads at once on one file, each in rooms of its own: every answer and text is that of a call alone.
#[test]
fn calls_run_at_once() {
    let alone = || {
        let (mut text, mut graph) = (vec![0; 1 << 12], vec![0; 1 << 12]);
        (explain_plain(REPLAY, &mut text), text, graphviz(REPLAY, 0, &mut graph), graph, node_list(REPLAY), counts(REPLAY))
    };
    let wanted = alone();
    thread::scope(|scope| {
        for _ in 0..8 {
            scope.spawn(|| (0..500).for_each(|_| assert!(alone() == wanted)));
        }
    });
}
