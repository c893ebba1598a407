//! The reading rules of the explanation.

use crate::{explain_edition, Answer};

/// By which rules a text is made.
#[derive(Clone, Copy, Debug, Default, PartialEq, Eq)]
pub enum Edition {
    /// 1: conflict.rs's own. A merge group is shown once, any other package as often as it comes, so that a text may have no end
    /// (refusal 11).
    #[default]
    One,
    /// 2: every package is shown once. A text always ends.
    Two,
}

impl Edition {
    /// The edition of a number, if it is one.
    ///
    /// ```
    /// use urzulempa::Edition;
    ///
    /// assert_eq!(Edition::of(2), Some(Edition::Two));
    /// assert_eq!(Edition::of(3), None);
    /// ```
    #[must_use]
    pub fn of(number: u64) -> Option<Self> {
        match number {
            1 => Some(Self::One),
            2 => Some(Self::Two),
            _ => None,
        }
    }

    /// The number that [`explain_edition`] takes.
    #[must_use]
    pub fn number(self) -> u64 {
        match self {
            Self::One => 1,
            Self::Two => 2,
        }
    }

    /// Writes the explanation into the room by these rules; option 1 indents the top level, 0 does not, any other is refused.
    ///
    /// ```
    /// use urzulempa::{grown, Edition};
    ///
    /// let file = include_bytes!("../../../samples/deck-panel.rec");
    /// let (answer, text) = grown(1 << 20, |room| Edition::Two.explain(file, 0, room));
    /// assert!(answer.is_done());
    /// assert_eq!(text.iter().filter(|&&byte| byte == b'\n').count(), 5);
    /// ```
    pub fn explain(self, file: &[u8], option: u64, room: &mut [u8]) -> Answer {
        explain_edition(file, self.number(), option, room)
    }
}
