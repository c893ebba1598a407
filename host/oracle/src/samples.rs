//! The files of document 01's cases, and one realistic load.

use crate::draft::Draft;
use crate::reader::kind;

/// P7: "solvables replay 2, replay 1; the root requires "replay *" (both, in that order); each
/// requires "codec 9" (no candidate)".
pub fn replay() -> Vec<u8> {
    let mut d = Draft::new();
    let name = d.name("replay");
    let two = d.solvable(name, "2");
    let one = d.solvable(name, "1");
    d.root_needs("replay *", &[two, one]);
    let codec = d.needs(two, "codec 9", &[]);
    let one = d.of(one);
    d.requires(one, codec);
    d.file()
}

/// P9: "root needs deck, deck needs panel, panel needs deck, one solvable each".
pub fn deck_and_panel() -> Vec<u8> {
    let mut d = Draft::new();
    let deck = d.package("deck", "1");
    let panel = d.package("panel", "1");
    let deck_any = d.root_needs("deck *", &[deck]);
    d.needs(deck, "panel *", &[panel]);
    let panel = d.of(panel);
    d.requires(panel, deck_any);
    d.file()
}

/// P10: "root needs x, x needs a merged pair, each of the pair needs x".
pub fn merged_pair() -> Vec<u8> {
    let mut d = Draft::new();
    let x = d.package("x", "1");
    let pair = d.name("pair");
    let two = d.solvable(pair, "2");
    let one = d.solvable(pair, "1");
    let x_any = d.root_needs("x *", &[x]);
    d.needs(x, "pair *", &[two, one]);
    for member in [two, one] {
        let member = d.of(member);
        d.requires(member, x_any);
    }
    d.file()
}

/// P11: "root needs x, one solvable without edges of its own".
pub fn lone_package() -> Vec<u8> {
    let mut d = Draft::new();
    let x = d.package("x", "1");
    d.root_needs("x *", &[x]);
    d.file()
}

/// A load as an operator meets it: two decks and a panel are asked for; each deck needs one of
/// twenty codec builds; a driver is locked, some builds are excluded, some constrain the panel.
pub fn rack() -> Vec<u8> {
    let mut d = Draft::new();
    let [deck, codec, driver, panel] = ["deck", "codec", "driver", "panel"].map(|n| d.name(n));
    let decks = [d.solvable(deck, "3.1"), d.solvable(deck, "2.4")];
    let builds = |d: &mut Draft, version: &str| -> Vec<u16> {
        (1..=20)
            .map(|build| d.solvable(codec, &format!("{version}-b{build:02}")))
            .collect()
    };
    let (new, old) = (builds(&mut d, "9.0"), builds(&mut d, "7.2"));
    let drivers = [d.solvable(driver, "12"), d.solvable(driver, "11")];
    let panel_5 = d.solvable(panel, "5");

    d.core(kind::INSTALL_ROOT, [0; 3]);
    d.root_needs("panel 5", &[panel_5]);
    d.root_needs("deck *", &decks);
    d.needs(decks[0], "codec >=9", &new);
    d.needs(decks[1], "codec >=7,<9", &old);
    d.needs(panel_5, "driver 11", &drivers[1..]);
    // The new builds share one wish through a gate.
    let driver_12 = d.requirement("driver >=12", &drivers[..1]);
    let gate = d.gate();
    for &build in &new {
        let requirer = d.of(build);
        d.any_of(gate, requirer);
    }
    d.requires(gate, driver_12);
    d.forbid(drivers[0], driver);
    d.forbid(drivers[1], driver);
    d.locks(drivers[1], drivers[0]);
    // Half of the old builds are recalled, the others share a constraint through an auxiliary.
    let recalled = d.reason("it was recalled");
    let below_5 = d.version_set(panel, "<5");
    let auxiliary = d.auxiliary();
    for (i, &build) in old.iter().enumerate() {
        if i < 10 {
            d.excludes(build, recalled);
        } else {
            let parent = d.of(build);
            d.parent(parent, auxiliary, below_5);
        }
    }
    let forbidden = d.of(panel_5);
    d.excluded(forbidden, auxiliary, below_5);
    d.file()
}

/// Order 5 of document 02: "A version named 4" monitor broke the drawing for the whole load." A gallery needs a panel of up to seven
/// inches; one is excluded, the other needs a driver that nobody has.
pub fn monitor() -> Vec<u8> {
    let mut d = Draft::new();
    let gallery = d.package("gallery", "2");
    let panel = d.name("panel");
    let four = d.solvable(panel, "4\" monitor");
    let seven = d.solvable(panel, "7\" monitor");
    d.root_needs("gallery *", &[gallery]);
    d.needs(gallery, "panel <=7\"", &[four, seven]);
    let cracked = d.reason("its glass is cracked");
    d.excludes(four, cracked);
    d.needs(seven, "driver 12", &[]);
    d.file()
}

/// A cycle in which two members of a group differ in their labels: deck 1 and deck 2 require x, x requires either of them and a
/// codec that nobody has.
pub fn unequal_labels() -> Vec<u8> {
    let mut d = Draft::new();
    let name = d.name("deck");
    let (one, two) = (d.solvable(name, "1"), d.solvable(name, "2"));
    let x = d.package("x", "1");
    d.root_needs("deck *", &[one, two]);
    let wish = d.needs(one, "x *", &[x]);
    let second = d.of(two);
    d.requires(second, wish);
    d.needs(x, "deck 2", &[one, two]);
    d.needs(x, "codec 9", &[]);
    d.file()
}

/// Requirements by which two packages, each with one edge for each of them to the same package, get the same fingerprint: the
/// first two only because the sum wraps, the others as whole numbers. host/oracle/tests/fingerprints.rs searches for them.
pub const COLLIDING: [[&[u16]; 2]; 2] = [[&[0, 192], &[64, 128]], [&[0, 4, 5], &[1, 2, 6]]];

/// Two decks and two panels. Each of a pair requires x as often as the other, by other requirements, and the fingerprints of
/// their edges are equal.
pub fn equal_fingerprints() -> Vec<u8> {
    let mut d = Draft::new();
    let x = d.package("x", "1");
    for number in 0..=192 {
        d.requirement(&format!("x {number}"), &[x]);
    }
    for (text, pair) in ["deck", "panel"].into_iter().zip(COLLIDING) {
        let name = d.name(text);
        let members = [d.solvable(name, "1"), d.solvable(name, "2")];
        d.root_needs(&format!("{text} *"), &members);
        for (member, requirements) in members.into_iter().zip(pair) {
            let variable = d.of(member);
            for &requirement in requirements {
                d.requires(variable, requirement);
            }
        }
    }
    d.file()
}

/// What the line of a package says behind its text.
#[derive(Clone, Copy, Debug, PartialEq, Eq)]
pub enum Line {
    Excluded,
    Bare,
    Forbidden,
    Constraining,
    Requiring,
}

impl Line {
    pub const ALL: [Line; 5] = [
        Line::Excluded,
        Line::Bare,
        Line::Forbidden,
        Line::Constraining,
        Line::Requiring,
    ];

    /// Gives each of these packages the edges by which its line says this, the same for each, so that they still merge; `x` is a
    /// package of name 0 beside them.
    pub fn give(self, d: &mut Draft, x: u16, members: &[u16]) {
        match self {
            Line::Excluded => {
                let reason = d.reason("it was recalled");
                for &one in members {
                    d.excludes(one, reason);
                }
            }
            Line::Bare => {}
            Line::Forbidden => {
                // Each is linked to the next, so that x has to stand between any two, and at both ends.
                d.forbid(x, 0);
                for &one in members {
                    d.forbid(one, 0);
                    d.forbid(x, 0);
                }
            }
            Line::Constraining => {
                let set = d.version_set(0, "<1");
                for &one in members {
                    d.constrains(one, x, set);
                }
            }
            Line::Requiring => {
                let wish = d.requirement("driver 12", &[]);
                for &one in members {
                    let variable = d.of(one);
                    d.requires(variable, wish);
                }
            }
        }
    }
}

/// So many builds of one codec, which are alike and merge. x keeps unresolved, and so the builds stand in their order.
pub fn builds(members: usize, line: Line) -> Vec<u8> {
    let mut d = Draft::new();
    let x = d.package("x", "1");
    let codec = d.name("codec");
    let builds: Vec<u16> = (1..=members)
        .map(|build| d.solvable(codec, &format!("9.0-b{build:03}")))
        .collect();
    d.root_needs("x *", &[x]);
    d.needs(x, "panel 5", &[]);
    d.root_needs("codec *", &builds);
    line.give(&mut d, x, &builds);
    d.file()
}

/// Groups around the six that are all shown, and one as large as a graph holds with all else, behind each kind of line.
pub fn groups() -> Vec<(String, Vec<u8>)> {
    let sizes = [5, 6, 7, 8, 120];
    let each = |line| sizes.map(|size| (format!("{size} builds, {line:?}"), builds(size, line)));
    Line::ALL.into_iter().flat_map(each).collect()
}

/// A load in which every text is this one: a name, versions, requirements, a version set and a reason. The root requires four packages,
/// of which one is excluded, one constrains another, and one requires what nobody has.
pub fn everywhere(text: &str) -> Vec<u8> {
    let mut d = Draft::new();
    let name = d.name(text);
    let all = [0; 4].map(|_| d.solvable(name, text));
    d.root_needs(text, &all);
    let (reason, set) = (d.reason(text), d.version_set(name, text));
    d.excludes(all[0], reason);
    d.constrains(all[1], all[2], set);
    d.needs(all[2], text, &[]);
    d.file()
}

/// Texts with quotes and backslashes, alone and in runs of both.
pub const QUOTES: [&str; 9] = [
    r#"""#,
    r"\",
    r#"\""#,
    r#"\\""#,
    r#""\"#,
    r#"4" monitor"#,
    r#""];}""#,
    r#""""""""""""""""""""""""""#,
    r#"\\\\\\\\\\\\\\\\\\\\\\\""#,
];

/// The sample files by name.
pub fn all() -> Vec<(&'static str, Vec<u8>)> {
    vec![
        ("replay.rec", replay()),
        ("deck-panel.rec", deck_and_panel()),
        ("merged-pair.rec", merged_pair()),
        ("lone.rec", lone_package()),
        ("rack.rec", rack()),
        ("monitor.rec", monitor()),
    ]
}
