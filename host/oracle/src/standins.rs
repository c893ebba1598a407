//! Small stand-ins for the types of the solver that conflict.rs leans on, in modules of the same
//! names. What each stands for follows from its use in conflict.rs and from document 01, "The
//! record file"; `provider` fills them.

use std::fmt::{Debug, Display};
use std::hash::Hash;

use crate::limits::Progress;
use crate::watch::Watch;

/// ahash 0.8's alias of this name, which 0.7 does not have yet.
pub type HashMap<K, V> = std::collections::HashMap<K, V, ahash::RandomState>;

pub trait SolverId: Copy + Eq + Ord + Hash + Debug {}

pub trait DenseIndex {
    fn to_index(self) -> usize;
}

macro_rules! numbers {
    ($($name:ident),*) => { $(
        #[derive(Clone, Copy, Debug, PartialEq, Eq, PartialOrd, Ord, Hash)]
        pub struct $name(pub u16);

        impl DenseIndex for $name {
            fn to_index(self) -> usize {
                usize::from(self.0)
            }
        }

        impl SolverId for $name {}
    )* };
}

numbers!(
    NameId,
    SolvableId,
    StringId,
    VariableId,
    VersionSetId,
    Requirement
);

/// Union and condition are not in the record file: a requirement is a number with a text.
impl Requirement {
    pub fn display<'i, I: Interner>(&self, interner: &'i I) -> impl Display + 'i {
        interner.display_requirement(*self)
    }
}

/// The part of lib.rs's trait that conflict.rs calls, with the text of a requirement, which a
/// record holds here, and the watch over `fmt_graph`.
pub trait Interner {
    type NameId: SolverId;
    type SolvableId: SolverId;

    fn display_solvable(&self, solvable: Self::SolvableId) -> impl Display + '_;
    fn display_merged_solvables(&self, solvables: &[Self::SolvableId]) -> impl Display + '_;
    fn display_name(&self, name: Self::NameId) -> impl Display + '_;
    fn display_version_set(&self, version_set: VersionSetId) -> impl Display + '_;
    fn display_string(&self, string_id: StringId) -> impl Display + '_;
    fn display_requirement(&self, requirement: Requirement) -> impl Display + '_;
    fn version_set_name(&self, version_set: VersionSetId) -> Self::NameId;
    fn solvable_name(&self, solvable: Self::SolvableId) -> Self::NameId;
    fn watch(&self) -> &Watch;
}

pub trait DependencyProvider: Sized + Interner {}

pub mod internal {
    pub mod id {
        #[derive(Clone, Copy, Debug, PartialEq, Eq)]
        pub struct ClauseId(pub u16);

        impl super::super::DenseIndex for ClauseId {
            fn to_index(self) -> usize {
                usize::from(self.0)
            }
        }
    }

    pub mod solver_id {
        use super::super::{Interner, SolverId};
        use std::fmt::Display;

        #[derive(Clone, Copy, Debug, PartialEq, Eq, PartialOrd, Ord, Hash)]
        pub enum SolvableIdOrRoot<S> {
            Root,
            Solvable(S),
        }

        impl<S> SolvableIdOrRoot<S> {
            pub fn root() -> Self {
                Self::Root
            }

            pub fn solvable(self) -> Option<S> {
                match self {
                    Self::Root => None,
                    Self::Solvable(solvable) => Some(solvable),
                }
            }
        }

        impl<S: SolverId> SolvableIdOrRoot<S> {
            pub fn display<I: Interner<SolvableId = S>>(self, interner: &I) -> impl Display + '_ {
                match self {
                    Self::Root => "<root>".to_string(),
                    Self::Solvable(solvable) => interner.display_solvable(solvable).to_string(),
                }
            }
        }

        impl<S> From<S> for SolvableIdOrRoot<S> {
            fn from(solvable: S) -> Self {
                Self::Solvable(solvable)
            }
        }
    }
}

#[cfg(has_conflict_rs)]
pub mod tracing {
    macro_rules! trace {
        ($($text:tt)*) => {};
    }
    pub(crate) use trace;
}

pub mod runtime {
    pub trait AsyncRuntime {
        /// Nothing here is async: what would be awaited is handed on.
        fn block_on<T>(&self, ready: T) -> T {
            ready
        }
    }

    pub struct AtOnce;

    impl AsyncRuntime for AtOnce {}
}

pub mod solver {
    use std::convert::Infallible;

    use super::internal::id::ClauseId;
    use super::internal::solver_id::SolvableIdOrRoot;
    use super::{DenseIndex, DependencyProvider, Interner, Progress, Requirement, VariableId};
    use clause::Clause;
    use variable_map::{VariableMap, VariableOrigin};

    pub struct Solver<D: DependencyProvider, RT> {
        pub provider: D,
        pub state: State<D>,
        pub cache: Cache<D>,
        pub async_runtime: RT,
    }

    impl<D: DependencyProvider, RT> Solver<D, RT> {
        pub fn provider(&self) -> &D {
            &self.provider
        }
    }

    pub struct State<D: Interner> {
        pub clauses: Clauses,
        pub variable_map: VariableMap<D>,
        pub decision_tracker: DecisionTracker,
        pub progress: Progress,
    }

    pub struct Clauses {
        pub kinds: Vec<Clause>,
    }

    impl Clauses {
        /// The clause that `Conflict::graph` comes to, noted as the one at hand; refusal 7 if it is learnt.
        pub fn entered(&self, id: ClauseId, progress: &Progress) -> &Clause {
            progress.enter(id.0);
            let clause = &self.kinds[id.to_index()];
            if let Clause::Learnt(..) = clause {
                progress.learnt();
            }
            clause
        }
    }

    /// Record 8, by variable.
    pub struct DecisionTracker {
        pub assigned_by: Vec<Option<ClauseId>>,
    }

    impl DecisionTracker {
        pub fn find_clause_for_assignment(&self, variable: VariableId) -> Option<ClauseId> {
            self.assigned_by[variable.to_index()]
        }
    }

    /// Record 5, by requirement, each list in table order.
    pub struct Cache<D: Interner> {
        pub candidates: Vec<Vec<D::SolvableId>>,
    }

    impl<D: Interner> Cache<D> {
        pub fn get_or_cache_sorted_candidates(
            &self,
            requirement: Requirement,
        ) -> Result<&[D::SolvableId], Infallible> {
            Ok(&self.candidates[requirement.to_index()])
        }
    }

    impl VariableId {
        pub fn as_solvable<D: Interner>(self, map: &VariableMap<D>) -> Option<D::SolvableId> {
            self.as_solvable_or_root(map)?.solvable()
        }

        pub fn as_solvable_or_root<D: Interner>(
            self,
            map: &VariableMap<D>,
        ) -> Option<SolvableIdOrRoot<D::SolvableId>> {
            match map.origin(self) {
                VariableOrigin::Root => Some(SolvableIdOrRoot::Root),
                VariableOrigin::Solvable(solvable) => Some(SolvableIdOrRoot::Solvable(solvable)),
                _ => None,
            }
        }
    }

    pub mod clause {
        use super::super::{Requirement, StringId, VariableId, VersionSetId};

        /// The sign of a literal plays no part in the graph.
        #[derive(Clone, Copy)]
        pub struct Literal(pub VariableId);

        impl Literal {
            pub fn variable(self) -> VariableId {
                self.0
            }
        }

        /// Kinds 16 to 25 in order. `()` stands for fields that conflict.rs does not look at.
        #[derive(Clone, Copy)]
        pub enum Clause {
            InstallRoot,
            Excluded(VariableId, StringId),
            Learnt(()),
            Requires(VariableId, (), Requirement),
            Lock(VariableId, VariableId),
            ForbidMultipleInstances(VariableId, Literal, ()),
            Constrains(VariableId, VariableId, VersionSetId),
            ConstrainsParent(VariableId, VariableId, VersionSetId),
            ConstrainsExcluded(VariableId, VariableId, VersionSetId),
            AnyOf(VariableId, VariableId),
        }
    }

    pub mod variable_map {
        use super::super::{DenseIndex, Interner, VariableId};

        pub enum VariableOrigin<S, N> {
            Root,
            Solvable(S),
            ForbidMultiple(N),
            RequiresGate(()),
            Constrains,
            Other,
        }

        impl<S: Copy, N: Copy> Clone for VariableOrigin<S, N> {
            fn clone(&self) -> Self {
                *self
            }
        }

        impl<S: Copy, N: Copy> Copy for VariableOrigin<S, N> {}

        pub type Origin<D> = VariableOrigin<<D as Interner>::SolvableId, <D as Interner>::NameId>;

        pub struct VariableMap<D: Interner> {
            pub origins: Vec<Origin<D>>,
        }

        impl<D: Interner> VariableMap<D> {
            pub fn origin(&self, variable: VariableId) -> Origin<D> {
                self.origins[variable.to_index()]
            }
        }
    }
}
