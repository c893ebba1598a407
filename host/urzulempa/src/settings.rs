//! The settings that a truck keeps in a file of 16-byte records.

use crate::{ffi, Answer, Edition, PLAIN_OPTION};
use std::fmt;

/// What a reader finds in a settings file, or a numbered refusal with its place; then the three settings are 0.
#[repr(C)]
#[derive(Clone, Copy, Debug, PartialEq, Eq)]
#[must_use = "it may be a refusal"]
pub struct Settings {
    /// 0 when the file is read, else the refusal's number.
    pub number: u64,
    /// The record that is refused, else 0.
    pub place: u64,
    /// 1 where the top level of an explanation is indented.
    pub indent: u64,
    /// 1 where the graph draws each merge group once.
    pub simplify: u64,
    /// 1 or 2.
    pub edition: u64,
}

impl Settings {
    /// The file is read.
    #[must_use]
    pub fn is_done(&self) -> bool {
        self.number == 0
    }

    /// The refusal, unless the file is read.
    #[must_use]
    pub fn refusal(&self) -> Option<SettingsRefusal> {
        SettingsRefusal::of(self.number, self.place)
    }
}

/// The most bytes of a settings file.
pub const MOST_SETTINGS: usize = 4_096;

/// The bytes of a record of a settings file.
pub const SETTINGS_RECORD: usize = 16;

/// The version of the settings that this release reads and writes; it takes records of all versions up to it.
pub const SETTINGS_VERSION: u64 = 2;

/// Reads a settings file as a release of a version does, 1 or 2; any other version is refused before all else.
///
/// ```
/// use urzulempa::{settings_read, SettingsRefusal};
///
/// // Nothing is set: indented, simplified, edition 1.
/// let found = settings_read(&[], 2);
/// assert_eq!((found.number, found.indent, found.simplify, found.edition), (0, 1, 1, 1));
///
/// // Indent 0 by a record of version 1, then edition 2, which came with version 2.
/// let file = [&[1, 1, 0, 0], &[0; 12][..], &[2, 3, 2, 0], &[0; 12][..]].concat();
/// let found = settings_read(&file, 2);
/// assert_eq!((found.number, found.indent, found.simplify, found.edition), (0, 0, 1, 2));
/// assert_eq!(settings_read(&file, 1).refusal(), Some(SettingsRefusal::Version(1)));
/// ```
pub fn settings_read(file: &[u8], version: u64) -> Settings {
    ffi::settings_read(file, version)
}

/// Changes a setting of the file that the first `used` bytes of the room are, as a release of a version does: appends one record of
/// the lowest version that knows the setting, 16 bytes, and touches no other byte of the room. Settings are 1 indent and 2 simplify,
/// each 0 or 1, and 3 the edition, 1 or 2.
///
/// ```
/// use urzulempa::{settings_read, settings_set, Refusal};
///
/// let mut room = [7; 40];
/// let answer = settings_set(&mut room, 0, 2, 1, 0);
/// assert_eq!((answer.number, answer.bytes, answer.units), (0, 16, 1));
/// assert_eq!(room[..16], [1, 1, 0, 0, 0, 0, 0, 0, 0, 0, 0, 0, 0, 0, 0, 0]);
/// assert_eq!(room[16..], [7; 24]);
/// assert_eq!(settings_read(&room[..16], 1).indent, 0);
///
/// // A version 1 writer knows no edition, and there is no setting 4. The second record fits, a third does not.
/// assert_eq!(settings_set(&mut room, 16, 1, 3, 2).refusal(), Some(Refusal::Shape(0)));
/// assert_eq!(settings_set(&mut room, 16, 2, 4, 1).refusal(), Some(Refusal::Shape(0)));
/// assert!(settings_set(&mut room, 16, 2, 3, 2).is_done());
/// assert_eq!(settings_set(&mut room, 32, 2, 1, 1).refusal(), Some(Refusal::Room(0)));
/// ```
pub fn settings_set(room: &mut [u8], used: u64, version: u64, setting: u64, content: u64) -> Answer {
    ffi::settings_set(room, used, version, setting, content)
}

/// The settings that count, as [`choices`] finds them. The default is what holds where nothing is set.
#[derive(Clone, Copy, Debug, PartialEq, Eq)]
pub struct Choices {
    /// The top level of an explanation is indented.
    pub indent: bool,
    /// The graph draws each merge group once.
    pub simplify: bool,
    /// By which rules an explanation is made.
    pub edition: Edition,
}

impl Default for Choices {
    fn default() -> Self {
        Self { indent: PLAIN_OPTION == 1, simplify: true, edition: Edition::One }
    }
}

/// The settings of a file, by this release; or the refusal.
///
/// ```
/// use urzulempa::{choices, Choices, SettingsRefusal};
///
/// assert_eq!(choices(&[]), Ok(Choices::default()));
/// assert_eq!(choices(&[0; 16]), Err(SettingsRefusal::Version(0)));
/// assert_eq!(choices(&[0; 15]), Err(SettingsRefusal::Length));
/// ```
pub fn choices(file: &[u8]) -> Result<Choices, SettingsRefusal> {
    let found = settings_read(file, SETTINGS_VERSION);
    match found.refusal() {
        Some(refusal) => Err(refusal),
        None => Ok(Choices { indent: found.indent == 1, simplify: found.simplify == 1, edition: Edition::of(found.edition).unwrap_or_default() }),
    }
}

/// One setting with its content.
#[derive(Clone, Copy, Debug, PartialEq, Eq)]
#[non_exhaustive]
pub enum Setting {
    Indent(bool),
    Simplify(bool),
    Edition(Edition),
}

impl Setting {
    /// Its number in a record, and its content there.
    #[must_use]
    pub fn numbers(self) -> (u64, u64) {
        match self {
            Self::Indent(on) => (1, on.into()),
            Self::Simplify(on) => (2, on.into()),
            Self::Edition(edition) => (3, edition.number()),
        }
    }

    /// The record that changes this setting of a file, to be appended to it; or why none can be.
    ///
    /// ```
    /// use urzulempa::{choices, Edition, Setting, SettingsRefusal};
    ///
    /// let mut file = Vec::new();
    /// for setting in [Setting::Indent(false), Setting::Edition(Edition::Two), Setting::Indent(true)] {
    ///     file.extend(setting.record(&file).expect("there is room"));
    /// }
    /// let found = choices(&file).expect("a good file");
    /// assert_eq!((found.indent, found.simplify, found.edition), (true, true, Edition::Two));
    /// assert_eq!(Setting::Indent(true).record(&file.repeat(86)[..4096]), Err(SettingsRefusal::Full));
    /// ```
    pub fn record(self, file: &[u8]) -> Result<[u8; SETTINGS_RECORD], SettingsRefusal> {
        let (setting, content) = self.numbers();
        appended(file, setting, content)
    }
}

/// The same for a setting and a content by their numbers, of which any may be asked for.
///
/// ```
/// use urzulempa::{appended, SettingsRefusal};
///
/// assert_eq!(appended(&[], 3, 2).map(|record| record[..4].to_vec()), Ok(vec![2, 3, 2, 0]));
/// assert_eq!(appended(&[], 3, 3), Err(SettingsRefusal::Shape(0)));
/// ```
pub fn appended(file: &[u8], setting: u64, content: u64) -> Result<[u8; SETTINGS_RECORD], SettingsRefusal> {
    let mut room = file.to_vec();
    room.extend([0; SETTINGS_RECORD]);
    let answer = settings_set(&mut room, file.len() as u64, SETTINGS_VERSION, setting, content);
    match SettingsRefusal::of(answer.number, answer.place) {
        Some(refusal) => Err(refusal),
        None => Ok(std::array::from_fn(|i| room[file.len() + i])),
    }
}

/// Why a settings file is not read or not changed (document 02, order 12), with its place.
#[derive(Clone, Copy, Debug, PartialEq, Eq)]
#[non_exhaustive]
pub enum SettingsRefusal {
    /// 1
    Length,
    /// 3, by record; also, with place 0, for a setting or content that was asked for
    Shape(u64),
    /// 10
    Full,
    /// 12
    Release,
    /// 18, by record
    Version(u64),
    /// A number that no call gives.
    Unknown(u64),
}

impl SettingsRefusal {
    fn of(number: u64, place: u64) -> Option<Self> {
        Some(match number {
            0 => return None,
            1 => Self::Length,
            3 => Self::Shape(place),
            10 => Self::Full,
            12 => Self::Release,
            18 => Self::Version(place),
            other => Self::Unknown(other),
        })
    }

    /// Its number.
    #[must_use]
    pub fn number(&self) -> u64 {
        match *self {
            Self::Length => 1,
            Self::Shape(_) => 3,
            Self::Full => 10,
            Self::Release => 12,
            Self::Version(_) => 18,
            Self::Unknown(number) => number,
        }
    }
}

impl std::error::Error for SettingsRefusal {}

impl fmt::Display for SettingsRefusal {
    fn fmt(&self, f: &mut fmt::Formatter<'_>) -> fmt::Result {
        match *self {
            Self::Length => write!(f, "the file's length is no multiple of 16 or above 4,096 bytes: it was cut, or is no settings file"),
            Self::Shape(r) => write!(
                f,
                "record {r} has a setting or a content that its version does not know, or a byte that must be 0 is not: it is damaged, or is no settings file"
            ),
            Self::Full => write!(f, "the file has 4,096 bytes, the most: put it aside and set anew what is not the default"),
            Self::Release => write!(f, "the reader's version is neither 1 nor 2: pass one of them"),
            Self::Version(r) => write!(f, "record {r} is of a version that this reader does not know: a newer release wrote it, or it is damaged"),
            Self::Unknown(n) => write!(f, "refusal {n}, which no call gives"),
        }
    }
}
