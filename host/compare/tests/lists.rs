//! The text form of generated files of all shapes: a list gives the tables of its file again, and the bytes where that was in order;
//! lists that were changed get an answer and no panic.

use oracle::draft::Draft;
use oracle::reader;
use oracle::rng::Rng;
use oracle::{generate, writing};
use urzulempa::list::{dump, make};

/// Whether a file has a list, which then is right.
fn round(whence: &str, file: &[u8]) -> bool {
    let list = match (reader::read(file), dump(file)) {
        (Ok(_), Ok(list)) => list,
        (Err(refusal), Err(ours)) => {
            assert_eq!((refusal.number, refusal.place), (ours.number(), ours.record().unwrap_or(0)), "{whence}");
            return false;
        }
        (theirs, ours) => panic!("{whence}: the reader {:?}, dump {ours:?}", theirs.map(drop)),
    };
    let records = file.len() / 32;
    let lines = list.lines().filter(|line| !line.is_empty());
    assert_eq!(lines.count(), records, "{whence}: one line a record\n{list}");
    assert!(list.bytes().all(|byte| byte == b'\n' || (32..=126).contains(&byte)), "{whence}: a person reads it");
    let made = make(list.as_bytes()).unwrap_or_else(|faults| panic!("{whence}: {}\n{list}", faults[0]));
    // The model's file has the bytes of one that was in order.
    assert!(writing::file(file).as_deref() == Ok(&made[..]), "{whence}: another file\n{list}");
    let tables = |file: &[u8]| format!("{:?}", reader::read(file).expect("accepted"));
    assert_eq!(tables(file), tables(&made), "{whence}");
    // Once in order, list and file give each other.
    let again = dump(&made).expect("accepted");
    assert_eq!(make(again.as_bytes()), Ok(made), "{whence}");
    true
}

#[test]
fn lists_of_all_shapes_give_the_same_tables() {
    let (mut accepted, mut refused) = (0, 0);
    for shape in generate::shapes() {
        for seed in 0..25 {
            let file = generate::file(shape, seed).expect("a shape");
            if round(&format!("shape {shape} seed {seed}"), &file) {
                accepted += 1
            } else {
                refused += 1
            }
        }
    }
    for (name, file) in oracle::samples::all() {
        assert!(round(name, &file));
    }
    assert!(accepted > 1_500 && refused > 100, "{accepted} were accepted, {refused} refused");
}

/// Texts that would be read as something else, or as each other.
const NASTY: [&str; 24] = [
    "deck",
    "deck 1",
    "1",
    "1 1",
    " ",
    "  ",
    " deck",
    "deck ",
    "root",
    "gate",
    "forbid",
    "forbid deck",
    "other",
    "\"",
    "\\",
    "\\\"",
    "\"deck\"",
    "#1",
    "# x",
    "@name0",
    "@x:",
    ",",
    "a, b",
    "core requires root, \"x\"",
];

/// A load of such texts, few of each, so that many are equal; all origins and kinds.
fn nasty(rng: &mut Rng) -> Vec<u8> {
    let mut d = Draft::new();
    let text = |rng: &mut Rng| -> String {
        if rng.chance(80) {
            (*rng.pick(&NASTY)).into()
        } else {
            (0..rng.between(1, 24)).map(|_| char::from(rng.between(32, 126) as u8)).collect()
        }
    };
    let (names, solvables, others) = (rng.between(1, 6), rng.between(1, 12), rng.between(1, 6));
    (0..names).for_each(|_| d.names.push(text(rng)));
    (0..solvables).for_each(|_| d.solvables.push((rng.below(names) as u16, text(rng))));
    for _ in 0..others {
        d.version_sets.push((rng.below(names) as u16, text(rng)));
        d.requirements.push(text(rng));
        d.reasons.push(text(rng));
    }
    (0..rng.below(12)).for_each(|_| d.candidates.push((rng.below(others) as u16, rng.below(solvables) as u16)));
    // Of each origin one at least, and half of the time two.
    let count = rng.between(6, 14);
    for variable in 0..count {
        let origin = if variable < 6 { variable } else { rng.below(6) };
        let names = [0, rng.below(solvables), rng.below(names), 0, 0, 0][origin];
        d.variables.push((origin as u16, names as u16));
    }
    let of = |d: &Draft, rng: &mut Rng, origins: &[u16]| -> u16 {
        let fitting: Vec<usize> = (0..d.variables.len()).filter(|&v| origins.contains(&d.variables[v].0)).collect();
        *rng.pick(&fitting) as u16
    };
    let clauses = rng.between(1, 20);
    for _ in 0..clauses {
        let kind = rng.between(16, 25) as u8;
        let some = rng.below(others) as u16;
        let fields = match kind {
            17 => [of(&d, rng, &[1]), some, 0],
            19 => [of(&d, rng, &[0, 1, 3]), some, 0],
            20 => [of(&d, rng, &[1]), of(&d, rng, &[1]), 0],
            21 => [of(&d, rng, &[1]), of(&d, rng, &[2]), 0],
            22 => [of(&d, rng, &[0, 1]), of(&d, rng, &[1]), some],
            23 => [of(&d, rng, &[0, 1]), of(&d, rng, &[4]), some],
            24 => [of(&d, rng, &[1]), of(&d, rng, &[4]), some],
            25 => [rng.below(count) as u16, rng.below(count) as u16, 0],
            _ => [0; 3],
        };
        d.clause(kind, rng.chance(70), fields);
    }
    let mut variables: Vec<u16> = (0..count as u16).collect();
    rng.shuffle(&mut variables);
    variables.truncate(rng.below(count + 1));
    d.assigned = variables.into_iter().map(|v| (v, rng.below(clauses) as u16)).collect();
    if rng.chance(50) {
        d.woven(rng)
    } else {
        d.file()
    }
}

#[test]
fn texts_that_look_like_something_else_or_like_each_other() {
    let mut rng = Rng::new(1);
    let mut labelled = 0;
    for index in 0..4_000 {
        let file = nasty(&mut rng);
        assert!(round(&format!("nasty load {index}"), &file));
        labelled += usize::from(dump(&file).is_ok_and(|list| list.contains("\n@")));
    }
    assert!(labelled > 1_000, "{labelled} had labels");
}

/// A list with bytes changed, words moved or lines lost: a file that is accepted, or faults that name lines of it.
#[test]
fn changed_lists_get_an_answer() {
    let mut rng = Rng::new(2);
    let (mut made, mut faulty, mut refused) = (0, 0, 0);
    for _ in 0..8_000 {
        let mut list = dump(&nasty(&mut rng)).expect("a list").into_bytes();
        for _ in 0..rng.between(1, 3) {
            let at = rng.below(list.len());
            match rng.below(6) {
                0 => list[at] = *rng.pick(b"\"\\#@,: \n\t0x\xff\xc3"),
                1 => list.truncate(at),
                2 => drop(list.remove(at)),
                3 => list.insert(at, *rng.pick(b"\"\\#@,: \nz")),
                _ => {
                    let mut lines: Vec<&[u8]> = list.split(|&byte| byte == b'\n').collect();
                    let (one, other) = (rng.below(lines.len()), rng.below(lines.len()));
                    if rng.chance(50) {
                        lines[one] = lines[other]
                    } else {
                        lines.swap(one, other)
                    }
                    list = lines.join(&b'\n');
                }
            }
            if list.is_empty() {
                list.push(b'\n');
            }
        }
        let count = list.split(|&byte| byte == b'\n').count();
        match make(&list) {
            Ok(file) => {
                assert!(reader::read(&file).is_ok());
                made += 1;
            }
            Err(faults) => {
                assert!(!faults.is_empty() && faults.iter().all(|fault| fault.line.is_some_and(|line| (1..=count).contains(&line))), "{faults:?}");
                assert!(faults.windows(2).all(|two| two[0].line < two[1].line));
                faulty += 1;
                refused += usize::from(faults[0].refusal.is_some());
            }
        }
    }
    assert!(made > 500 && faulty > 1_000 && refused > 20, "{made} made, {faulty} faulty, {refused} of them refused");
}
