//! Texts that the graph text can't show as they stand (document 02, order 5).

use super::texts;
use crate::draft::Draft;
use crate::rng::Rng;

/// Quotes and backslashes in most texts that the graph text shows: names, versions, requirements, version sets, reasons; at times
/// in packages that merge.
pub fn everywhere(rng: &mut Rng) -> Vec<u8> {
    let mut d = Draft::new();
    let names: Vec<u16> = (0..rng.between(1, 3)).map(|_| d.name(&text(rng))).collect();
    let packages: Vec<u16> = (0..rng.between(1, 7))
        .map(|_| d.solvable(*rng.pick(&names), &text(rng)))
        .collect();
    d.root_needs(&text(rng), &packages);
    let sets: Vec<u16> = names
        .iter()
        .map(|&name| d.version_set(name, &text(rng)))
        .collect();
    let reasons = [d.reason(&text(rng)), d.reason(&text(rng))];
    let wish = d.requirement(&text(rng), &packages[..1]);
    for &package in &packages {
        let variable = d.of(package);
        match rng.below(6) {
            0 => d.excludes(package, *rng.pick(&reasons)),
            1 => d.constrains(package, *rng.pick(&packages), *rng.pick(&sets)),
            2 => d.requires(variable, wish),
            3 => d.needs(package, &text(rng), &[]),
            4 => d.locks(*rng.pick(&packages), package),
            _ => continue,
        };
    }
    d.stirred(rng)
}

/// Each text of a load is the longest and quotes alone, so that the graph text has twice as many bytes for it.
pub fn alone(rng: &mut Rng) -> Vec<u8> {
    let all = "\"".repeat(24);
    let mut d = Draft::new();
    let name = d.name(&all);
    let packages: Vec<u16> = (0..rng.between(2, 60))
        .map(|_| d.solvable(name, &all))
        .collect();
    for _ in 0..rng.between(1, 4) {
        d.root_needs(&all, &packages);
    }
    let (reason, set) = (d.reason(&all), d.version_set(name, &all));
    for &package in &packages {
        match rng.below(4) {
            0 => d.excludes(package, reason),
            1 => d.constrains(package, packages[0], set),
            _ => continue,
        };
    }
    d.file()
}

fn text(rng: &mut Rng) -> String {
    match rng.below(4) {
        0 => "4\" monitor".to_string(),
        1 => texts::name(rng),
        _ => texts::quotes(rng),
    }
}
