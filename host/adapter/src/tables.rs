//! The tables that the clauses name, and the file.

use crate::clauses::Clause;
use crate::record::{self, plain, texted, Table};
use crate::{Edge, Error, Graph, Interner, Node};
use std::collections::HashMap;
use std::hash::Hash;

/// Origins of variables.
const ROOT: u16 = 0;
const SOLVABLE: u16 = 1;
const FORBID_MULTIPLE: u16 = 2;

/// Numbers in the order of asking.
struct Numbers<K>(Vec<K>, HashMap<K, usize>);

impl<K: Copy + Eq + Hash> Numbers<K> {
    fn new() -> Self {
        Numbers(Vec::new(), HashMap::new())
    }

    fn of(&mut self, key: K) -> usize {
        let next = self.0.len();
        let number = *self.1.entry(key).or_insert(next);
        if number == next {
            self.0.push(key);
        }
        number
    }
}

/// What the clauses name, by numbers in the order of the nodes, then of the edges.
struct Tables<'i, I: Interner> {
    interner: &'i I,
    names: Numbers<I::NameId>,
    /// Names that no package has: see [`Tables::keys`].
    more_names: usize,
    solvables: Numbers<I::SolvableId>,
    version_sets: Numbers<I::VersionSetId>,
    requirements: Numbers<I::Requirement>,
    /// By requirement.
    candidates: Vec<Vec<usize>>,
    reasons: Numbers<I::StringId>,
    /// Each with its origin and what it names.
    variables: Numbers<(u16, usize)>,
    /// Kinds and fields.
    clauses: Vec<(u8, [usize; 3])>,
}

type Given<I> = Graph<<I as Interner>::SolvableId, <I as Interner>::VersionSetId, <I as Interner>::Requirement, <I as Interner>::StringId>;
type ClauseOf<I> = Clause<<I as Interner>::SolvableId, <I as Interner>::VersionSetId, <I as Interner>::Requirement>;

/// The file of a graph that these clauses draw.
pub fn file<I: Interner>(graph: &Given<I>, clauses: &[ClauseOf<I>], interner: &I) -> Result<Vec<u8>, Error> {
    let mut tables = Tables {
        interner,
        names: Numbers::new(),
        more_names: 0,
        solvables: Numbers::new(),
        version_sets: Numbers::new(),
        requirements: Numbers::new(),
        candidates: Vec::new(),
        reasons: Numbers::new(),
        variables: Numbers::new(),
        clauses: Vec::new(),
    };
    for node in &graph.nodes {
        match *node {
            Node::Solvable(solvable) => drop(tables.solvable(solvable)),
            Node::Excluded(reason) => drop(tables.reasons.of(reason)),
            Node::Root | Node::Unresolved => {}
        }
    }
    for (_, _, edge) in &graph.edges {
        match *edge {
            Edge::Locked(solvable) => drop(tables.solvable(solvable)),
            Edge::Constrains(set) => drop(tables.version_set(set)),
            _ => {}
        }
    }
    let keys = tables.keys(graph, clauses);
    for clause in clauses {
        tables.clause(&graph.nodes, clause, &keys);
    }
    tables.records()
}

impl<I: Interner> Tables<'_, I> {
    fn solvable(&mut self, solvable: I::SolvableId) -> usize {
        self.names.of(self.interner.solvable_name(solvable));
        self.solvables.of(solvable)
    }

    fn version_set(&mut self, set: I::VersionSetId) -> usize {
        self.names.of(self.interner.version_set_name(set));
        self.version_sets.of(set)
    }

    /// What a clause calls a node: the reason of an excluded one, else the variable.
    fn field(&mut self, node: Node<I::SolvableId, I::StringId>) -> usize {
        match node {
            Node::Solvable(solvable) => {
                let number = self.solvables.of(solvable);
                self.variables.of((SOLVABLE, number))
            }
            Node::Excluded(reason) => self.reasons.of(reason),
            Node::Root | Node::Unresolved => self.variables.of((ROOT, 0)),
        }
    }

    /// A name for each number of one. Under which name ForbidMultipleInstances clauses stand shows nowhere, but no two of these numbers
    /// may have the same: the own name of the first package under it if that is free, else one that is, else one made for it.
    fn keys(&mut self, graph: &Given<I>, clauses: &[ClauseOf<I>]) -> Vec<usize> {
        let mut wanted: Vec<usize> = Vec::new();
        for clause in clauses {
            if let Clause::Forbid(node, number) = *clause {
                if let (Node::Solvable(solvable), true) = (graph.nodes[node], number == wanted.len()) {
                    wanted.push(self.names.of(self.interner.solvable_name(solvable)));
                }
            }
        }
        let known = self.names.0.len();
        let mut taken = vec![false; known.max(wanted.len())];
        let own = |name: &usize| (!std::mem::replace(&mut taken[*name], true)).then_some(*name);
        let keys: Vec<Option<usize>> = wanted.iter().map(own).collect();
        let mut free = (0..taken.len()).filter(|&name| !taken[name]);
        let keys = keys.into_iter().map(|key| key.or_else(|| free.next()));
        // there are as many names as numbers, or more
        let keys: Vec<usize> = keys.map(|key| key.unwrap_or(0)).collect();
        self.more_names = keys.iter().map(|key| key + 1).max().unwrap_or(0).saturating_sub(known);
        keys
    }

    fn clause(&mut self, nodes: &[Node<I::SolvableId, I::StringId>], clause: &ClauseOf<I>, keys: &[usize]) {
        let (kind, fields) = match *clause {
            Clause::Excluded(package, reason) => (17, [self.field(nodes[package]), self.field(nodes[reason]), 0]),
            Clause::Requires(package, requirement, ref candidates) => {
                let package = self.field(nodes[package]);
                let requirement = self.requirements.of(requirement);
                if requirement == self.candidates.len() {
                    let solvable = |&node: &usize| match nodes[node] {
                        Node::Solvable(solvable) => Some(self.solvables.of(solvable)),
                        _ => None,
                    };
                    self.candidates.push(candidates.iter().filter_map(solvable).collect());
                }
                (19, [package, requirement, 0])
            }
            Clause::Lock(locked, forbidden) => {
                let locked = self.field(Node::Solvable(locked));
                (20, [locked, self.field(nodes[forbidden]), 0])
            }
            Clause::Forbid(package, number) => {
                let package = self.field(nodes[package]);
                (21, [package, self.variables.of((FORBID_MULTIPLE, keys[number])), 0])
            }
            Clause::Constrains(package, other, set) => {
                let (package, other) = (self.field(nodes[package]), self.field(nodes[other]));
                (22, [package, other, self.version_set(set)])
            }
        };
        self.clauses.push((kind, fields));
    }

    /// Every table that is too long is told before its records are made, so that numbers fit theirs.
    fn records(&mut self) -> Result<Vec<u8>, Error> {
        let candidates = self.candidates.iter().map(Vec::len).sum();
        for (table, rows) in [
            (Table::Names, self.names.0.len() + self.more_names),
            (Table::Solvables, self.solvables.0.len()),
            (Table::VersionSets, self.version_sets.0.len()),
            (Table::Requirements, self.requirements.0.len()),
            (Table::Candidates, candidates),
            (Table::Reasons, self.reasons.0.len()),
            (Table::Variables, self.variables.0.len()),
            (Table::Clauses, self.clauses.len()),
        ] {
            table.holds(rows)?;
        }
        let mut records = Vec::new();
        self.texted(&mut records)?;
        for (own, &(origin, names)) in (0u16..).zip(&self.variables.0) {
            records.push(plain(7, 0, [own, origin, names as u16]));
        }
        for &(kind, fields) in &self.clauses {
            records.push(plain(kind, 1, fields.map(|field| field as u16)));
        }
        record::file(&records)
    }

    /// Kinds 1 to 6.
    fn texted(&mut self, records: &mut Vec<[u8; record::RECORD]>) -> Result<(), Error> {
        let interner = self.interner;
        let shown = self.names.0.iter().map(|&name| interner.display_name(name).to_string());
        let made = (1..=self.more_names).map(|number| format!("~{number}"));
        for (own, text) in (0u16..).zip(shown.chain(made).collect::<Vec<_>>()) {
            records.push(texted(Table::Names, own, 0, &text)?);
        }
        for (own, &solvable) in (0u16..).zip(&self.solvables.0) {
            let name = self.names.of(interner.solvable_name(solvable)) as u16;
            let text = interner.display_version(solvable).to_string();
            records.push(texted(Table::Solvables, own, name, &text)?);
        }
        for (own, &set) in (0u16..).zip(&self.version_sets.0) {
            let name = self.names.of(interner.version_set_name(set)) as u16;
            let text = interner.display_version_set(set).to_string();
            records.push(texted(Table::VersionSets, own, name, &text)?);
        }
        for (own, &requirement) in (0u16..).zip(&self.requirements.0) {
            let text = interner.display_requirement(requirement).to_string();
            records.push(texted(Table::Requirements, own, 0, &text)?);
        }
        for (requirement, candidates) in (0u16..).zip(&self.candidates) {
            let candidate = |&solvable: &usize| plain(5, 0, [requirement, solvable as u16, 0]);
            records.extend(candidates.iter().map(candidate));
        }
        for (own, &reason) in (0u16..).zip(&self.reasons.0) {
            let text = interner.display_string(reason).to_string();
            records.push(texted(Table::Reasons, own, 0, &text)?);
        }
        Ok(())
    }
}
