//! A person's way to the oracle: see `USAGE`.

use std::io::Write as _;
use std::process::ExitCode;

const USAGE: &str = "\
usage: oracle cases                        P1 to P11 of document 01 on the real code
       oracle gen SHAPE SEED OUT           one generated file
       oracle shapes                       the names of the shapes
       oracle explain FILE [OPTION] [ROOM] the explanation
       oracle edition FILE N [OPTION] [ROOM] the explanation by the rules of edition N
       oracle air FILE [OPTION] [ROOM]     the explanation in the air profile
       oracle graph FILE [OPTION] [ROOM]   the graph text
       oracle nodes FILE                   the node list
       oracle edges FILE                   the edge list
       oracle check FILE                   refusals 1 to 9
       oracle survey N SEED                N generated files, the distribution of answers
       oracle what-if FILE SOLVABLE REASON [OPTION] [ROOM] the explanation with one more exclusion
       oracle asked N SEED                 N questions of that kind over generated files: the graph with the exclusion behind it
                                           against the file with one more clause
       oracle loads N DIR                  N middle loads, as a season has them
       oracle season DIR JOBS              the report of a folder's files on the real code, as `urzulempa season --save` writes it
       oracle samples DIR                  the sample files
       oracle record OUT                   the recorded answers that crates/replay replays
       oracle written OUT                  samples/replay.rec, as a solver would write it (src/writer.rs)
FILE may be -. OPTION is 1 for an explanation and 0 for the graph text where it is not given, as in a plain call. Status: 0 done, 2 a refusal, 1 trouble, 64 wrong usage, 77 without conflict.rs.";

/// The status by which test scripts know a step to skip.
const SKIPPED: u8 = 77;

fn main() -> ExitCode {
    let args: Vec<String> = std::env::args().skip(1).collect();
    let args: Vec<&str> = args.iter().map(String::as_str).collect();
    let result = match args[..] {
        ["gen", shape, seed, out] => write_shape(shape, seed, out),
        ["shapes"] => {
            oracle::generate::shapes().for_each(|name| println!("{name}"));
            Ok(0)
        }
        ["samples", dir] => write_samples(dir),
        ["loads", n, dir] => write_loads(n, dir),
        ["written", out] => match oracle::writer::replay() {
            Ok(file) => put(out, &file),
            Err(error) => Err(error.to_string()),
        },
        _ => run(&args),
    };
    match result {
        Ok(status) => ExitCode::from(status),
        Err(trouble) => {
            eprintln!("oracle: {trouble}");
            ExitCode::from(1)
        }
    }
}

fn write_shape(shape: &str, seed: &str, out: &str) -> Result<u8, String> {
    let seed = number(seed)?;
    let file = oracle::generate::file(shape, seed)
        .ok_or_else(|| format!("no shape {shape}; `oracle shapes` lists them"))?;
    put(out, &file)
}

fn write_samples(dir: &str) -> Result<u8, String> {
    std::fs::create_dir_all(dir).map_err(|e| format!("{dir}: {e}"))?;
    for (name, file) in oracle::samples::all() {
        put(&format!("{dir}/{name}"), &file)?;
    }
    Ok(0)
}

fn write_loads(n: &str, dir: &str) -> Result<u8, String> {
    std::fs::create_dir_all(dir).map_err(|e| format!("{dir}: {e}"))?;
    for seed in 0..number(n)? {
        write_shape(
            "world-middle",
            &seed.to_string(),
            &format!("{dir}/{seed:06}.rec"),
        )?;
    }
    Ok(0)
}

fn put(path: &str, bytes: &[u8]) -> Result<u8, String> {
    let done = match path {
        "-" => std::io::stdout().write_all(bytes),
        _ => std::fs::write(path, bytes),
    };
    done.map(|()| 0).map_err(|e| format!("{path}: {e}"))
}

fn number(text: &str) -> Result<u64, String> {
    text.parse().map_err(|_| format!("{text} is no number"))
}

fn usage() -> Result<u8, String> {
    eprintln!("{USAGE}");
    Ok(64)
}

/// What needs conflict.rs.
fn run(args: &[&str]) -> Result<u8, String> {
    match *args {
        ["cases" | "explain" | "edition" | "air" | "graph" | "nodes" | "edges" | "check"
        | "survey" | "what-if" | "asked" | "season" | "record", ..]
            if !oracle::AVAILABLE =>
        {
            let step = args[0];
            println!("skipped: oracle {step}: conflict.rs could not be had at build time");
            Ok(SKIPPED)
        }
        ["cases"] => with_conflict::cases(),
        ["explain", file, ref rest @ ..] => with_conflict::text(oracle::explain, 1, file, rest),
        ["edition", file, edition, ref rest @ ..] => {
            let edition = number(edition)?;
            let call = move |file: &[u8], option, room: &mut [u8]| {
                oracle::explain_edition(file, edition, option, room)
            };
            with_conflict::text(call, 1, file, rest)
        }
        ["air", file, ref rest @ ..] => with_conflict::text(oracle::explain_air, 1, file, rest),
        ["graph", file, ref rest @ ..] => with_conflict::text(oracle::graphviz, 0, file, rest),
        ["nodes", file] => with_conflict::nodes(file),
        ["edges", file] => with_conflict::edges(file),
        ["check", file] => with_conflict::check(file),
        ["what-if", file, solvable, reason, ref rest @ ..] => {
            let (solvable, reason) = (number(solvable)?, number(reason)?);
            let call = move |file: &[u8], option, room: &mut [u8]| {
                oracle::what_if_explain(file, solvable, reason, option, room)
            };
            with_conflict::text(call, 1, file, rest)
        }
        ["asked", n, seed] => {
            println!("{}", oracle::asking::questions(number(n)?, number(seed)?)?);
            Ok(0)
        }
        ["season", dir, jobs] => {
            let jobs = usize::try_from(number(jobs)?).map_err(|e| e.to_string())?;
            print!("{}", oracle::season::folder(dir, jobs)?);
            Ok(0)
        }
        ["survey", n, seed] => oracle::survey::run(number(n)?, number(seed)?),
        ["record", out] => put(out, &oracle::record::list()?),
        _ => usage(),
    }
}

mod with_conflict {
    use super::{number, usage};
    use oracle::cases::shown;
    use oracle::{Answer, Node};
    use std::io::{Read as _, Write as _};

    /// Large enough for what a person reads; a room is lent whole, so it is made at once.
    const ROOM: u64 = 1 << 20;

    pub fn cases() -> Result<u8, String> {
        let cases = oracle::cases::all();
        for case in &cases {
            println!("{}: {}", case.name, case.states);
            println!("{}", indented(&case.gives));
            if case.holds() {
                println!("    equal");
            } else {
                println!("    DIFFERENT, wanted\n{}", indented(&case.wanted));
            }
        }
        let failed = cases.iter().filter(|case| !case.holds()).count();
        println!("{} statements, {failed} different", cases.len());
        Ok(u8::from(failed > 0))
    }

    fn indented(text: &str) -> String {
        let lines = text.lines().map(|line| format!("    {line}"));
        lines.collect::<Vec<_>>().join("\n")
    }

    pub fn text(
        call: impl Fn(&[u8], u64, &mut [u8]) -> Answer,
        unnamed: u64,
        file: &str,
        rest: &[&str],
    ) -> Result<u8, String> {
        let (option, room) = match rest {
            [] => (unnamed, ROOM),
            [option] => (number(option)?, ROOM),
            [option, room] => (number(option)?, number(room)?),
            _ => return usage(),
        };
        let file = get(file)?;
        let mut room = vec![0; usize::try_from(room).map_err(|e| e.to_string())?];
        let answer = call(&file, option, &mut room);
        let text = &room[..answer.bytes as usize];
        let mut out = std::io::stdout();
        out.write_all(text)
            .and_then(|()| out.flush())
            .map_err(|e| e.to_string())?;
        Ok(status(answer))
    }

    pub fn nodes(file: &str) -> Result<u8, String> {
        let mut list = [Node::default(); 128];
        let file = get(file)?;
        let answer = oracle::nodes(&file, &mut list);
        let count = match oracle::Problem::read(&file) {
            Ok(problem) => problem.model().map_or(0, |model| model.nodes().len()),
            Err(_) => 0,
        };
        println!("node kind number group installable missing clause");
        for (i, n) in list[..count].iter().enumerate() {
            let Node {
                kind,
                number,
                group,
                installable,
                missing,
                clause,
            } = n;
            println!("{i} {kind} {number} {group} {installable} {missing} {clause}");
        }
        Ok(status(answer))
    }

    pub fn edges(file: &str) -> Result<u8, String> {
        let mut list = [0; 5 * 1_024];
        let answer = oracle::edges(&get(file)?, &mut list);
        println!("edge source target kind named clause");
        let edges = list.chunks(5).take(answer.bytes as usize / 10);
        for (i, edge) in edges.enumerate() {
            let [source, target, kind, named, clause] = edge else {
                unreachable!("chunks of five")
            };
            println!("{i} {source} {target} {kind} {named} {clause}");
        }
        Ok(status(answer))
    }

    pub fn check(file: &str) -> Result<u8, String> {
        Ok(status(oracle::check(&get(file)?)))
    }

    fn status(answer: Answer) -> u8 {
        eprintln!("{}", shown(answer));
        if answer.number == 0 {
            0
        } else {
            2
        }
    }

    fn get(path: &str) -> Result<Vec<u8>, String> {
        let mut bytes = Vec::new();
        let done = match path {
            "-" => std::io::stdin().read_to_end(&mut bytes).map(|_| ()),
            _ => std::fs::read(path).map(|read| bytes = read),
        };
        done.map(|()| bytes).map_err(|e| format!("{path}: {e}"))
    }
}
