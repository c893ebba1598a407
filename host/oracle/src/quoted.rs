//! The texts of a file as the graph text shows them (document 02, order 5).

use std::fmt::Display;

use crate::provider::Provider;
use crate::standins::{Interner, NameId, Requirement, SolvableId, StringId, VersionSetId};
use crate::watch::Watch;

/// What `graphviz` is handed in the place of the texts as they stand, which the explanation keeps. The words that conflict.rs
/// writes by itself, the quotes around a text among them, do not come through here. No two texts are quoted alike, so names merge
/// as they do plain.
pub struct Quoted<'q, 'a>(pub &'q Provider<'a>);

/// "each double quote in a name, version, requirement, version set or reason is preceded by a backslash. A backslash itself is
/// written as it stands."
fn quoted(text: impl Display) -> String {
    text.to_string().replace('"', "\\\"")
}

impl Interner for Quoted<'_, '_> {
    type NameId = NameId;
    type SolvableId = SolvableId;

    fn display_solvable(&self, solvable: SolvableId) -> impl Display + '_ {
        quoted(self.0.display_solvable(solvable))
    }

    fn display_merged_solvables(&self, solvables: &[SolvableId]) -> impl Display + '_ {
        quoted(self.0.display_merged_solvables(solvables))
    }

    fn display_name(&self, name: NameId) -> impl Display + '_ {
        quoted(self.0.display_name(name))
    }

    fn display_version_set(&self, version_set: VersionSetId) -> impl Display + '_ {
        quoted(self.0.display_version_set(version_set))
    }

    fn display_string(&self, string_id: StringId) -> impl Display + '_ {
        quoted(self.0.display_string(string_id))
    }

    fn display_requirement(&self, requirement: Requirement) -> impl Display + '_ {
        quoted(self.0.display_requirement(requirement))
    }

    fn version_set_name(&self, version_set: VersionSetId) -> NameId {
        self.0.version_set_name(version_set)
    }

    fn solvable_name(&self, solvable: SolvableId) -> NameId {
        self.0.solvable_name(solvable)
    }

    fn watch(&self) -> &Watch {
        self.0.watch()
    }
}
