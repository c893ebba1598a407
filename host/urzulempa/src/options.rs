//! The options of the calls as types: with them refusal 12 can't come.

use crate::{explain_air, explain_edition, graphviz, what_if_explain, Answer, Edition};

/// Whether the top level of an explanation is indented.
#[derive(Clone, Copy, Debug, Default, PartialEq, Eq)]
pub enum Indent {
    /// 0: flat.
    Flat,
    /// 1: indented, which is what a plain call means.
    #[default]
    Top,
}

impl Indent {
    /// The option that [`explain`](crate::explain) takes.
    #[must_use]
    pub fn option(self) -> u64 {
        match self {
            Self::Flat => 0,
            Self::Top => 1,
        }
    }
}

impl From<bool> for Indent {
    /// Indented, or not.
    fn from(indented: bool) -> Self {
        if indented {
            Self::Top
        } else {
            Self::Flat
        }
    }
}

/// Whether the graph text draws a merge group once.
#[derive(Clone, Copy, Debug, Default, PartialEq, Eq)]
pub enum Groups {
    /// 0: each package of it.
    Each,
    /// 1: once, by its first member.
    #[default]
    Once,
}

impl Groups {
    /// The option that [`graphviz`] takes.
    #[must_use]
    pub fn option(self) -> u64 {
        match self {
            Self::Each => 0,
            Self::Once => 1,
        }
    }
}

impl From<bool> for Groups {
    /// Simplified, or not.
    fn from(simplified: bool) -> Self {
        if simplified {
            Self::Once
        } else {
            Self::Each
        }
    }
}

/// [`explain_edition`], its edition and option by their types.
///
/// ```
/// use urzulempa::{explain_as, explain_plain, Edition, Indent};
///
/// let file = include_bytes!("../../../samples/replay.rec");
/// let (mut typed, mut plain) = ([0; 256], [0; 256]);
/// assert_eq!(explain_as(file, Edition::default(), Indent::default(), &mut typed), explain_plain(file, &mut plain));
/// assert_eq!(typed, plain);
/// assert_eq!(explain_as(file, Edition::Two, Indent::Flat, &mut typed).bytes, 155);
/// ```
pub fn explain_as(file: &[u8], edition: Edition, indent: Indent, room: &mut [u8]) -> Answer {
    explain_edition(file, edition.number(), indent.option(), room)
}

/// [`explain_air`], its option by its type.
pub fn explain_air_as(file: &[u8], indent: Indent, room: &mut [u8]) -> Answer {
    explain_air(file, indent.option(), room)
}

/// [`graphviz`], its option by its type.
///
/// ```
/// use urzulempa::{graphviz_as, Groups};
///
/// // Both versions of replay are drawn, or the first for both.
/// let file = include_bytes!("../../../samples/replay.rec");
/// let mut room = [0; 512];
/// let (each, once) = (graphviz_as(file, Groups::Each, &mut room), graphviz_as(file, Groups::Once, &mut room));
/// assert_eq!((each.number, once.number), (0, 0));
/// assert!(once.units < each.units);
/// ```
pub fn graphviz_as(file: &[u8], groups: Groups, room: &mut [u8]) -> Answer {
    graphviz(file, groups.option(), room)
}

/// [`what_if_explain`], its option by its type.
pub fn what_if_explain_as(file: &[u8], solvable: u64, reason: u64, indent: Indent, room: &mut [u8]) -> Answer {
    what_if_explain(file, solvable, reason, indent.option(), room)
}
