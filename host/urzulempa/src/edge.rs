//! An edge of the conflict graph, taken apart.

/// One edge: what it stands for, and the clause that made it.
#[derive(Clone, Copy, Debug, PartialEq, Eq)]
pub struct Edge {
    /// The number of the node that it leaves.
    pub source: u16,
    /// The number of the node that it leads to.
    pub target: u16,
    pub kind: EdgeKind,
    /// The core clause that added it, numbered among all clauses; the first of them where several make one triple.
    pub clause: u16,
}

/// What an edge stands for, with the number that it names.
#[derive(Clone, Copy, Debug, PartialEq, Eq)]
pub enum EdgeKind {
    /// 0: the source requires this requirement, which the target offers; nothing does if the target is unresolved.
    Requires(u16),
    /// 1: this solvable is locked, so that the target is out.
    Locked(u16),
    /// 2: the source constrains the target by this version set.
    Constrains(u16),
    /// 3: only one of the two can be installed.
    ForbidMultiple,
    /// 4: the source is excluded, for the reason that the target is.
    Excluded,
    /// A number that no edge has.
    Unknown(u16),
}

impl From<[u16; 5]> for Edge {
    /// Source, target, kind, the number that it names, clause.
    fn from([source, target, kind, named, clause]: [u16; 5]) -> Self {
        let kind = match kind {
            0 => EdgeKind::Requires(named),
            1 => EdgeKind::Locked(named),
            2 => EdgeKind::Constrains(named),
            3 => EdgeKind::ForbidMultiple,
            4 => EdgeKind::Excluded,
            other => EdgeKind::Unknown(other),
        };
        Edge { source, target, kind, clause }
    }
}
