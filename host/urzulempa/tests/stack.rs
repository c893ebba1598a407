//! Every call runs on a thread with 128 KiB of stack and a guard page behind it.

use std::thread::Builder;
use urzulempa::{
    check, edge_numbers, edges, explain, explain_air, explain_edition, explain_plain, graphviz, join, nodes, salvage, season, settings_read, settings_set,
    Node, Report, MOST_EDGES, MOST_NODES, MOST_REPLACED,
};

const SAMPLES: [&[u8]; 5] = [
    include_bytes!("../../../samples/replay.rec"),
    include_bytes!("../../../samples/deck-panel.rec"),
    include_bytes!("../../../samples/merged-pair.rec"),
    include_bytes!("../../../samples/lone.rec"),
    include_bytes!("../../../samples/rack.rec"),
];

fn on_small_stack(call: impl FnOnce() + Send + 'static) {
    let thread = Builder::new().stack_size(128 << 10).spawn(call).expect("a thread");
    thread.join().expect("the call returns");
}

#[test]
fn explain_fits() {
    let mut room = vec![0; 1 << 16];
    on_small_stack(move || {
        for file in SAMPLES {
            assert!([0, 11].contains(&explain(file, 1, &mut room).number));
            assert!([0, 11].contains(&explain_plain(file, &mut room).number));
            assert!([0, 11].contains(&explain_edition(file, 1, 0, &mut room).number));
            assert!(explain_edition(file, 2, 1, &mut room).is_done());
            assert!([0, 15, 17].contains(&explain_air(file, 1, &mut room).number));
        }
    });
}

#[test]
fn graphviz_fits() {
    let mut room = vec![0; 1 << 16];
    on_small_stack(move || {
        for file in SAMPLES {
            assert!(graphviz(file, 1, &mut room).is_done());
        }
    });
}

#[test]
fn check_nodes_and_edges_fit() {
    let mut list = vec![Node::default(); MOST_NODES];
    let mut numbers = vec![0; 5 * MOST_EDGES];
    on_small_stack(move || {
        for file in SAMPLES {
            assert!(check(file).is_done());
            assert!(nodes(file, &mut list).is_done());
            assert!(edge_numbers(file, &mut numbers).is_done());
        }
    });
}

#[test]
fn salvage_fits() {
    let (mut room, mut list) = (vec![0; 1 << 16], vec![0; MOST_REPLACED]);
    // As many damaged clauses as there can be.
    let damaged = [&[16, 9], &[0; 30][..]].concat().repeat(MOST_REPLACED);
    on_small_stack(move || {
        for file in SAMPLES {
            assert!(salvage(file, &mut room, &mut list).is_done());
        }
        assert_eq!(salvage(&damaged, &mut room, &mut list).replaced, 1_024);
        assert_eq!(salvage(&[7; 65_537], &mut room, &mut list).number, 1);
    });
}

#[test]
fn season_and_join_fit() {
    let mut room = vec![0; 1 << 16];
    on_small_stack(move || {
        let mut report = Report::default();
        for file in SAMPLES {
            assert!([0, 11].contains(&season(&mut report, file, 1, 1, &mut room).number));
            assert!(season(&mut report, file, 2, 0, &mut room).is_done());
        }
        let second = report;
        assert!(join(&mut report, &second).is_done());
        assert_eq!(report.files(), Some(20));
    });
}

#[test]
fn settings_fit() {
    let mut room = [&[1, 2], &[0; 14][..]].concat().repeat(256);
    on_small_stack(move || {
        assert!(settings_read(&room, 2).is_done());
        assert_eq!(settings_set(&mut room, 4_096, 2, 1, 0).number, 10);
        assert!(settings_set(&mut room, 4_080, 2, 3, 2).is_done());
    });
}

#[test]
fn p7_to_the_byte() {
    let want = "replay * cannot be installed because there are no viable options:\n\
                └─ replay 2 | 1 would require\n   └─ codec 9, for which no candidates were found.\n";
    let mut room = [0; 155];
    let answer = explain(SAMPLES[0], 0, &mut room);
    assert_eq!((answer.number, answer.bytes, answer.units, answer.depth), (0, 155, 3, 1));
    assert_eq!(&room[..], want.as_bytes());
    let mut room = [7; 154];
    let answer = explain(SAMPLES[0], 0, &mut room);
    assert_eq!((answer.number, answer.place, answer.bytes), (10, 2, 100));
    assert_eq!(room[100..], [7; 54]);
}

#[test]
fn a_plain_call_indents_p7() {
    let want = "└─ replay * cannot be installed because there are no viable options:\n   \
                └─ replay 2 | 1 would require\n      └─ codec 9, for which no candidates were found.\n";
    let mut room = [7; 170];
    let answer = explain_plain(SAMPLES[0], &mut room);
    assert_eq!((answer.number, answer.bytes, answer.units, answer.depth), (0, 168, 3, 1));
    assert_eq!(&room[..168], want.as_bytes());
    assert_eq!(room[168..], [7; 2]);
}

#[test]
fn edges_are_as_many_as_the_numbers_say() {
    for file in SAMPLES {
        let (answer, list) = edges(file);
        assert_eq!((answer.number, answer.place, answer.bytes, answer.units, answer.depth), (0, 0, 10 * list.len() as u64, 1, 0));
        let mut short = vec![7; (5 * list.len()).saturating_sub(1)];
        let answer = edge_numbers(file, &mut short);
        assert_eq!((answer.number, answer.place, answer.bytes, answer.units, answer.depth), (10, 0, 0, 0, 0));
        assert!(short.iter().all(|&n| n == 7));
    }
    let (answer, list) = edges(&[7; 33]);
    assert_eq!((answer.number, list.len()), (1, 0));
}
