//! Open points of the settings file, each on a smallest one. Each call goes to the model and to the port, which have to give the
//! same answer and leave the same bytes. The model needs no conflict.rs.

mod common;

use common::same;
use oracle::settings::{LARGEST_SETTINGS, RECORD};
use oracle::{Answer, Settings};

fn read(file: &[u8], version: u64) -> Settings {
    let ours = urzulempa::settings_read(file, version);
    let port = Settings {
        number: ours.number,
        place: ours.place,
        indent: ours.indent,
        simplify: ours.simplify,
        edition: ours.edition,
    };
    let model = oracle::settings::settings_read(file, version);
    assert_eq!(port, model, "the port's answer and the model's");
    model
}

fn set(room: &mut [u8], used: u64, version: u64, setting: u64, content: u64) -> Answer {
    let mut our_room = room.to_vec();
    let port = urzulempa::settings_set(&mut our_room, used, version, setting, content);
    let before = room.to_vec();
    let model = oracle::settings::settings_set(room, used, version, setting, content);
    let model = same(model, port);
    assert!(our_room == room, "the port leaves another room");
    if model.number != 0 {
        assert_eq!((model.bytes, model.units, model.depth), (0, 0, 0));
        assert!(before == room, "a refusal changes the room");
    }
    model
}

fn record(version: u8, setting: u8, content: u16) -> [u8; RECORD] {
    let mut record = [0; RECORD];
    let [low, high] = content.to_le_bytes();
    record[..4].copy_from_slice(&[version, setting, low, high]);
    record
}

/// Indent, simplify and edition of a file that a reader takes.
fn found(file: &[u8], version: u64) -> [u64; 3] {
    let s = read(file, version);
    assert_eq!((s.number, s.place), (0, 0));
    [s.indent, s.simplify, s.edition]
}

/// Number and place of a refusal, whose settings are 0.
fn refused(file: &[u8], version: u64) -> (u64, u64) {
    let s = read(file, version);
    assert_ne!(s.number, 0);
    assert_eq!([s.indent, s.simplify, s.edition], [0; 3]);
    (s.number, s.place)
}

fn asked(file: &[u8], version: u64, setting: u64, content: u64) -> (u64, u64) {
    let mut room = [file, &[7; 40]].concat();
    let answer = set(&mut room, file.len() as u64, version, setting, content);
    (answer.number, answer.place)
}

#[test]
fn where_nothing_is_set_the_defaults_hold() {
    for version in [1, 2] {
        assert_eq!(found(&[], version), [1, 1, 1]);
    }
    assert_eq!(found(&record(1, 1, 0), 2), [0, 1, 1]);
    assert_eq!(found(&record(1, 2, 0), 2), [1, 0, 1]);
    assert_eq!(found(&record(2, 3, 2), 2), [1, 1, 2]);
}

#[test]
fn the_last_record_for_a_setting_counts() {
    let file = [
        record(1, 1, 0),
        record(2, 3, 2),
        record(2, 1, 1),
        record(2, 3, 1),
        record(1, 1, 0),
    ];
    let wanted = [
        [1, 1, 1],
        [0, 1, 1],
        [0, 1, 2],
        [1, 1, 2],
        [1, 1, 1],
        [0, 1, 1],
    ];
    for (count, wanted) in wanted.into_iter().enumerate() {
        assert_eq!(found(&file[..count].concat(), 2), wanted);
    }
}

#[test]
fn a_version_1_reader_refuses_the_first_record_of_version_2_and_takes_all_others() {
    let first = [record(1, 1, 0), record(1, 2, 0), record(1, 1, 1)].concat();
    assert_eq!(found(&first, 1), [1, 0, 1]);
    assert_eq!(found(&first, 2), [1, 0, 1]);
    for later in [record(2, 3, 2), record(2, 1, 0), record(2, 3, 1)] {
        let file = [&first, &later[..], &later[..]].concat();
        assert_eq!(refused(&file, 1), (18, 3));
        assert_eq!(read(&file, 2).number, 0);
    }
}

#[test]
fn a_version_2_record_holds_any_setting_and_a_version_1_record_no_edition() {
    for (setting, contents) in [(1, [0, 1]), (2, [0, 1]), (3, [1, 2])] {
        for content in 0..=3 {
            let good = contents.contains(&content);
            assert_eq!(
                read(&record(2, setting, content), 2).number,
                if good { 0 } else { 3 }
            );
            let known = good && setting < 3;
            assert_eq!(
                read(&record(1, setting, content), 2).number,
                if known { 0 } else { 3 }
            );
        }
    }
    for setting in [0, 4, 5, 255] {
        assert_eq!(refused(&record(1, setting, 1), 1), (3, 0));
        assert_eq!(refused(&record(2, setting, 1), 2), (3, 0));
    }
}

#[test]
fn versions_0_and_above_the_readers_are_18_before_3() {
    for version in [0, 3, 4, 128, 255] {
        let good = record(1, 2, 0);
        for (setting, content) in [(1, 0), (9, 9)] {
            let file = [good, record(version, setting, content), good].concat();
            assert_eq!(refused(&file, 1), (18, 1));
            assert_eq!(refused(&file, 2), (18, 1));
        }
        // Record by record: what is wrong with the first is said.
        let file = [record(1, 1, 2), record(version, 1, 0)].concat();
        assert_eq!(refused(&file, 2), (3, 0));
    }
    // "18 in the order 18, 3": the shape of a later version is not this reader's to judge.
    assert_eq!(refused(&record(2, 3, 9), 1), (18, 0));
}

#[test]
fn the_content_has_two_bytes_and_all_behind_it_are_0() {
    for content in [2, 256, 257, 512, 65_535] {
        assert_eq!(refused(&record(1, 1, content), 1), (3, 0));
    }
    assert_eq!(refused(&record(2, 3, 258), 2), (3, 0));
    for at in 4..RECORD {
        for byte in [1, 128, 255] {
            let mut bad = record(1, 2, 0);
            bad[at] = byte;
            assert_eq!(refused(&[record(1, 1, 0), bad].concat(), 1), (3, 1));
        }
    }
}

#[test]
fn the_length_is_tested_before_the_records_and_the_version_before_the_length() {
    let whole = record(1, 1, 0).repeat(LARGEST_SETTINGS / RECORD);
    assert_eq!(found(&whole, 1), [0, 1, 1]);
    let longer = [&whole, &record(1, 1, 0)[..]].concat();
    assert_eq!(refused(&longer, 1), (1, 0));
    for length in (0..=64).chain(LARGEST_SETTINGS - 16..=LARGEST_SETTINGS + 16) {
        let answer = read(&longer[..length], 2);
        let good = length % RECORD == 0 && length <= LARGEST_SETTINGS;
        assert_eq!(
            (answer.number, answer.place),
            (u64::from(!good), 0),
            "{length}"
        );
        assert_eq!(
            read(&vec![9; length], 2).number,
            if length == 0 {
                0
            } else if good {
                18
            } else {
                1
            }
        );
    }
    for version in [0, 3, 255, 256, 257, (1 << 32) | 1, u64::MAX] {
        assert_eq!(refused(&[9; 17], version), (12, 0));
        assert_eq!(asked(&[9; 17], version, 9, 9), (12, 0));
    }
}

#[test]
fn a_change_appends_one_record_of_the_lowest_version_that_knows_it() {
    for version in [1, 2] {
        for (setting, content, wanted) in [
            (1, 0, record(1, 1, 0)),
            (2, 1, record(1, 2, 1)),
            (3, 2, record(2, 3, 2)),
        ] {
            if setting == 3 && version == 1 {
                continue;
            }
            for count in [0, 1, 5] {
                let file = record(1, 2, 0).repeat(count);
                let mut room = [&file, &[7; 100][..]].concat();
                let answer = set(&mut room, file.len() as u64, version, setting, content);
                assert_eq!(
                    answer,
                    Answer {
                        bytes: 16,
                        units: 1,
                        ..Answer::default()
                    }
                );
                assert_eq!(room, [&file, &wanted[..], &[7; 84]].concat());
            }
        }
    }
}

#[test]
fn what_was_set_is_read_back_and_all_else_is_as_it_was() {
    let records = [
        record(1, 1, 0),
        record(2, 1, 1),
        record(1, 2, 0),
        record(2, 3, 2),
        record(2, 3, 1),
    ];
    for (a, b) in records
        .iter()
        .flat_map(|a| records.iter().map(move |b| (a, b)))
    {
        let file = [*a, *b].concat();
        for (setting, content) in [(1, 0), (1, 1), (2, 0), (2, 1), (3, 1), (3, 2)] {
            let mut wanted = found(&file, 2);
            wanted[setting as usize - 1] = content;
            let mut room = [&file, &[7; 16][..]].concat();
            assert_eq!(set(&mut room, 32, 2, setting, content).number, 0);
            assert_eq!(found(&room, 2), wanted);
            // What was only given settings of version 1 stays one for a version 1 reader.
            let old = file.chunks(RECORD).all(|r| r[0] == 1) && setting < 3;
            assert_eq!(read(&room, 1).number, if old { 0 } else { 18 });
        }
    }
}

#[test]
fn a_change_is_refused_for_the_file_first_then_for_what_is_asked_then_for_room() {
    // 1, whatever else
    let mut room = [9; 40];
    for used in [
        41,
        48,
        17,
        33,
        4_112,
        1 << 32,
        (1 << 32) | 16,
        u64::MAX,
        u64::MAX - 15,
    ] {
        assert_eq!(
            set(&mut room, used, 2, 9, 9),
            Answer {
                number: 1,
                ..Answer::default()
            }
        );
    }
    let mut room = record(1, 1, 0).repeat(257);
    assert_eq!(set(&mut room, 4_112, 2, 9, 9).number, 1);
    // the file's own 18 and 3
    assert_eq!(
        asked(&[record(1, 1, 0), record(3, 1, 0)].concat(), 2, 9, 9),
        (18, 1)
    );
    assert_eq!(
        asked(&[record(1, 1, 0), record(1, 3, 1)].concat(), 2, 9, 9),
        (3, 1)
    );
    assert_eq!(asked(&record(2, 1, 0), 1, 1, 1), (18, 0));
    // what is asked, before room: none is left in this one
    let file = record(1, 1, 0).repeat(3);
    for (version, setting, content) in [
        (2, 0, 1),
        (2, 4, 1),
        (2, 1, 2),
        (2, 2, u64::MAX),
        (2, 3, 0),
        (2, 3, 3),
        (1, 3, 2),
        (2, 257, 1),
        (2, 1, 256),
        (2, 1, 65_536),
        (2, (1 << 32) | 1, 1),
        (1, 1, 1 << 32),
    ] {
        let mut room = file.clone();
        assert_eq!(
            set(&mut room, 48, version, setting, content),
            Answer {
                number: 3,
                ..Answer::default()
            }
        );
        assert_eq!(asked(&file, version, setting, content), (3, 0));
    }
    // 10
    for spare in 0..=17 {
        let mut room = [&file, &vec![7; spare][..]].concat();
        assert_eq!(
            set(&mut room, 48, 2, 1, 1).number,
            if spare < RECORD { 10 } else { 0 }
        );
    }
}

#[test]
fn a_full_file_takes_no_more_whatever_the_room() {
    let mut room = [&record(1, 2, 0).repeat(255), &[7; 100][..]].concat();
    assert_eq!(set(&mut room, 4_080, 2, 3, 2).number, 0);
    assert_eq!(found(&room[..4_096], 2), [1, 0, 2]);
    assert_eq!(
        set(&mut room, 4_096, 2, 1, 0),
        Answer {
            number: 10,
            ..Answer::default()
        }
    );
    assert_eq!(set(&mut room, 4_096, 2, 1, 5).number, 3);
    // What stands behind the used bytes does not count, not even where it looks like records.
    let mut room = [record(1, 1, 0), record(9, 9, 9), record(9, 9, 9)].concat();
    assert_eq!(set(&mut room, 16, 1, 2, 0).number, 0);
    assert_eq!(
        room,
        [record(1, 1, 0), record(1, 2, 0), record(9, 9, 9)].concat()
    );
}

#[test]
fn a_library_user_gets_the_same_by_type() {
    use urzulempa::{appended, choices, Choices, Edition, Setting, SettingsRefusal};
    assert_eq!(
        choices(&[]),
        Ok(Choices {
            indent: true,
            simplify: true,
            edition: Edition::One
        })
    );
    let mut file = Vec::new();
    for setting in [
        Setting::Simplify(false),
        Setting::Edition(Edition::Two),
        Setting::Indent(false),
    ] {
        file.extend(setting.record(&file).expect("it can be appended"));
    }
    assert_eq!(
        file,
        [record(1, 2, 0), record(2, 3, 2), record(1, 1, 0)].concat()
    );
    assert_eq!(
        choices(&file),
        Ok(Choices {
            indent: false,
            simplify: false,
            edition: Edition::Two
        })
    );
    for (file, wanted) in [
        (vec![0; 15], SettingsRefusal::Length),
        (
            [record(1, 1, 0), record(1, 3, 1)].concat(),
            SettingsRefusal::Shape(1),
        ),
        (record(3, 1, 0).to_vec(), SettingsRefusal::Version(0)),
    ] {
        assert_eq!(choices(&file), Err(wanted));
        assert_eq!(appended(&file, 1, 0), Err(wanted));
        assert_eq!(urzulempa::settings_read(&file, 2).number, wanted.number());
    }
    assert_eq!(
        appended(&record(1, 1, 0).repeat(256), 1, 0),
        Err(SettingsRefusal::Full)
    );
    assert_eq!(appended(&[], 1, 2), Err(SettingsRefusal::Shape(0)));
    assert_eq!(
        urzulempa::settings_read(&[], 3).refusal(),
        Some(SettingsRefusal::Release)
    );
    assert_eq!(
        urzulempa::settings_set(&mut record(3, 1, 0), 16, 2, 1, 0).refusal(),
        Some(urzulempa::Refusal::Version(0))
    );
}
