//! What every call answers.

/// "An answer holds number, place, bytes, units, depth."
#[repr(C)]
#[derive(Clone, Copy, Debug, Default, PartialEq, Eq)]
pub struct Answer {
    pub number: u64,
    pub place: u64,
    pub bytes: u64,
    pub units: u64,
    pub depth: u64,
}

/// A refusal of 1 to 9, 12 or 15 to 18: "the last three are 0" in its answer.
#[derive(Clone, Copy, Debug, PartialEq, Eq)]
pub struct Refusal {
    pub number: u64,
    pub place: u64,
}

impl From<Refusal> for Answer {
    fn from(refusal: Refusal) -> Answer {
        Answer {
            number: refusal.number,
            place: refusal.place,
            ..Answer::default()
        }
    }
}

/// One entry of the node list. Kinds in the order of `ConflictNode`: 0 root, 1 solvable,
/// 2 unresolved, 3 excluded; `group` is the node number of the group's first member; `clause` is the one that first added the
/// node, 65,535 for the root and unresolved.
#[repr(C)]
#[derive(Clone, Copy, Debug, Default, PartialEq, Eq)]
pub struct Node {
    pub kind: u16,
    pub number: u16,
    pub group: u16,
    pub installable: u8,
    pub missing: u8,
    pub clause: u16,
}

/// One edge, five numbers of the edge list in this order. Kinds: 0 requires, 1 locked, 2 constrains, 3 forbid-multiple,
/// 4 excluded; `named` is the requirement, the locked solvable or the version set, else 0.
#[derive(Clone, Copy, Debug, PartialEq, Eq)]
pub struct Edge {
    pub source: u16,
    pub target: u16,
    pub kind: u16,
    pub named: u16,
    pub clause: u16,
}

impl Edge {
    pub fn numbers(self) -> [u16; 5] {
        [self.source, self.target, self.kind, self.named, self.clause]
    }
}

/// The reading rules of the explanation (document 02, order 11): "Edition 1 stays for the archive and remains the Rust's."
#[derive(Clone, Copy, Debug, Default, PartialEq, Eq)]
pub enum Edition {
    #[default]
    One,
    Two,
}

impl Edition {
    /// "12 also for an edition that is not 1 or 2".
    pub fn of(number: u64) -> Result<Edition, Refusal> {
        match number {
            1 => Ok(Edition::One),
            2 => Ok(Edition::Two),
            _ => Err(Refusal {
                number: 12,
                place: 0,
            }),
        }
    }
}

/// What a repair answers (document 02, order 7): `bytes` of the repaired file, how many records were `replaced`, how many bytes
/// `dropped`. "On a refusal these are 0."
#[repr(C)]
#[derive(Clone, Copy, Debug, Default, PartialEq, Eq)]
pub struct Salvaged {
    pub number: u64,
    pub place: u64,
    pub bytes: u64,
    pub replaced: u64,
    pub dropped: u64,
}

impl From<Refusal> for Salvaged {
    fn from(refusal: Refusal) -> Salvaged {
        Salvaged {
            number: refusal.number,
            place: refusal.place,
            ..Salvaged::default()
        }
    }
}

/// How the rules of `fmt_graph` went without refusal 11.
#[derive(Clone, Copy, Debug, PartialEq, Eq)]
pub struct Rules {
    /// Whether the text came to its end within the budget.
    pub ended: bool,
    pub bytes: u64,
    pub lines: u64,
    /// "would require" lines in the whole text.
    pub openings: u64,
}
