//! `summary FILE...`: what to mend, one line a finding, from the graph of the conflict.

use crate::calls;
use crate::json::Json;
use crate::say::{print, say};
use crate::words::Given;
use crate::{cycle, lists};
use urzulempa::{decode, edge_list, node_list, Edge, EdgeKind, Node, Refusal, MOST_BYTES};

/// Names that share one thing.
type Shared<K> = Vec<(K, Vec<String>)>;

#[derive(Default)]
struct Summary {
    /// Requirements that nothing offers, with who has them.
    missing: Shared<String>,
    /// Reasons, with what is excluded for them.
    excluded: Shared<String>,
    /// Names of packages of which only one can be installed.
    rivals: Shared<String>,
    /// Locked packages, with what that keeps out.
    locked: Shared<String>,
    /// Version sets and what they keep out, with who constrains.
    constrained: Shared<(String, String)>,
    /// Packages that need each other in a circle.
    circle: Option<String>,
}

/// Adds a name to those that share a key, which keeps its first place.
fn add<K: PartialEq>(all: &mut Shared<K>, key: K, name: String) {
    match all.iter_mut().find(|(known, _)| *known == key) {
        Some((_, names)) if names.contains(&name) => {}
        Some((_, names)) => names.push(name),
        None => all.push((key, vec![name])),
    }
}

impl Summary {
    fn of(file: &[u8]) -> Result<Self, Refusal> {
        let (nodes, edges) = (node_list(file)?, edge_list(file)?);
        let mut found = Summary::default();
        edges.iter().for_each(|edge| found.take(file, &nodes, edge));
        found.circle = cycle::circle(file, &nodes, &edges);
        Ok(found)
    }

    fn take(&mut self, file: &[u8], nodes: &[Node], edge: &Edge) {
        let [Some(source), Some(target)] = [edge.source, edge.target].map(|n| nodes.get(usize::from(n))) else { return };
        let (from, to) = (name(file, source), name(file, target));
        match edge.kind {
            EdgeKind::Requires(r) if target.kind == 2 => add(&mut self.missing, decode::requirement(file, r).unwrap_or_default(), from),
            EdgeKind::Requires(_) | EdgeKind::Unknown(_) => {}
            EdgeKind::Locked(s) => add(&mut self.locked, decode::solvable(file, s).unwrap_or_default(), to),
            EdgeKind::Constrains(v) => add(&mut self.constrained, (decode::version_set(file, v).unwrap_or_default(), to), from),
            EdgeKind::ForbidMultiple => {
                let key = decode::package(file, source.number).unwrap_or_default();
                add(&mut self.rivals, key.clone(), from);
                add(&mut self.rivals, key, to);
            }
            EdgeKind::Excluded => add(&mut self.excluded, decode::reason(file, target.number).unwrap_or_default(), from),
        }
    }

    fn lines(&self) -> Vec<String> {
        let verb = |names: &[String], one: &'static str, many: &'static str| if names.len() == 1 { one } else { many };
        let several = lists::several;
        let missing = self.missing.iter().map(|(what, by)| format!("nothing offers {what}, which {} {}", several(by), verb(by, "requires", "require")));
        let excluded = self.excluded.iter().map(|(why, what)| format!("{} {} excluded because {why}", several(what), verb(what, "is", "are")));
        let rivals = self.rivals.iter().map(|(_, rivals)| format!("only one of {} can be installed", several(rivals)));
        let locked = self.locked.iter().map(|(locked, out)| format!("{locked} is locked, which keeps {} out", several(out)));
        let constrained =
            self.constrained.iter().map(|((set, out), by)| format!("{} {} {set}, which keeps {out} out", several(by), verb(by, "constrains", "constrain")));
        let circle = self.circle.iter().map(|way| format!("{way}: these need each other in a circle"));
        missing.chain(excluded).chain(rivals).chain(locked).chain(constrained).chain(circle).collect()
    }

    fn json(&self) -> Vec<(&'static str, Json)> {
        fn pairs<K>(all: &Shared<K>, key: impl Fn(&K) -> Vec<(&'static str, Json)>, names: &'static str) -> Json {
            let one = |(k, list): &(K, Vec<String>)| Json::Object([key(k), vec![(names, list.clone().into())]].into_iter().flatten().collect());
            Json::List(all.iter().map(one).collect())
        }
        let text = |name: &'static str| move |key: &String| vec![(name, Json::from(key.as_str()))];
        vec![
            ("missing", pairs(&self.missing, text("requirement"), "by")),
            ("excluded", pairs(&self.excluded, text("reason"), "packages")),
            ("rivals", pairs(&self.rivals, text("name"), "packages")),
            ("locked", pairs(&self.locked, text("package"), "out")),
            ("constrained", pairs(&self.constrained, |(set, out)| vec![("set", set.as_str().into()), ("out", out.as_str().into())], "by")),
            ("circle", self.circle.clone().into()),
        ]
    }
}

/// What asks for something: the load itself is the root.
fn name(file: &[u8], node: &Node) -> String {
    if node.kind == 0 {
        "the load".into()
    } else {
        lists::shown(file, node)
    }
}

pub fn run(given: &Given) -> Result<u8, String> {
    calls::each(given, MOST_BYTES, true, |load| {
        let found = Summary::of(&load.bytes);
        if let (Ok(summary), false) = (&found, given.has("--json")) {
            let lines = summary.lines();
            print(lines.iter().map(|line| format!("{line}\n")).collect::<String>().as_bytes())?;
            if lines.is_empty() {
                say("nothing to mend: the core shows nothing that is missing, excluded or in conflict");
            }
        }
        load.tell(given, found.as_ref().err().copied(), || found.as_ref().map(Summary::json).unwrap_or_default())
    })
}
