//! A season: what the answers of many files come to, in a report that is joined with others.

use crate::{ffi, Answer};

/// How many numbers a report has.
pub const REPORT_NUMBERS: usize = 27;

/// What the files of a season come to. Files are numbered from 0, in the order in which they were added.
///
/// [`numbers`](Self::numbers) are the 27 of the C interface, each in the place that its field names here.
#[derive(Clone, Copy, Debug, Default, PartialEq, Eq)]
pub struct Report {
    /// 0: how many files were done.
    pub done: u64,
    /// 1 to 18: how many got the refusal of that number; the first of these is refusal 1.
    pub refused: [u64; 18],
    /// 19: nodes of the graphs of files that were done, or refused with 10 or 11; so with the next four.
    pub nodes: u64,
    /// 20: edges.
    pub edges: u64,
    /// 21: merge groups.
    pub groups: u64,
    /// 22: nodes that are missing.
    pub missing: u64,
    /// 23: lines that were written.
    pub lines: u64,
    /// 24 to 26: the greatest depth; none, and three times 0, where no file had a depth. Depth 0 is one.
    pub deepest: Option<Deepest>,
}

/// The greatest depth of a season.
#[derive(Clone, Copy, Debug, PartialEq, Eq)]
pub struct Deepest {
    /// 24: how many packages are opened on the deepest branch.
    pub depth: u64,
    /// 25: the first file that had this depth. Number 26 says that there is one.
    pub file: u64,
}

impl Report {
    /// Done and all refusals together; none if they pass 64 bits, which no season does.
    ///
    /// ```
    /// use urzulempa::Report;
    ///
    /// assert_eq!(Report { done: 2, nodes: 9, ..Report::default() }.files(), Some(2));
    /// assert_eq!(Report { done: u64::MAX, refused: [1; 18], ..Report::default() }.files(), None);
    /// ```
    #[must_use]
    pub fn files(&self) -> Option<u64> {
        self.refused.iter().try_fold(self.done, |sum, &more| sum.checked_add(more))
    }

    /// The numbers of the C interface.
    #[must_use]
    pub fn numbers(&self) -> [u64; REPORT_NUMBERS] {
        let mut numbers = [0; REPORT_NUMBERS];
        numbers[0] = self.done;
        numbers[1..19].copy_from_slice(&self.refused);
        numbers[19..24].copy_from_slice(&[self.nodes, self.edges, self.groups, self.missing, self.lines]);
        if let Some(Deepest { depth, file }) = self.deepest {
            numbers[24..].copy_from_slice(&[depth, file, 1]);
        }
        numbers
    }
}

impl From<[u64; REPORT_NUMBERS]> for Report {
    /// As the library reads them: number 26 says whether 24 and 25 count.
    ///
    /// ```
    /// use urzulempa::{Deepest, Report};
    ///
    /// let mut numbers = [0; 27];
    /// (numbers[24], numbers[25]) = (3, 8);
    /// assert_eq!(Report::from(numbers), Report::default());
    /// numbers[26] = 7;
    /// assert_eq!(Report::from(numbers).deepest, Some(Deepest { depth: 3, file: 8 }));
    /// ```
    fn from(numbers: [u64; REPORT_NUMBERS]) -> Self {
        let mut refused = [0; 18];
        refused.copy_from_slice(&numbers[1..19]);
        Report {
            done: numbers[0],
            refused,
            nodes: numbers[19],
            edges: numbers[20],
            groups: numbers[21],
            missing: numbers[22],
            lines: numbers[23],
            deepest: (numbers[26] != 0).then_some(Deepest { depth: numbers[24], file: numbers[25] }),
        }
    }
}

/// Explains a file into the room, as [`explain_edition`](crate::explain_edition) does, and adds it to the report as its next file. The
/// answer is the file's own; or 14, if a count would pass 64 bits, with the report as it was.
///
/// A file that is refused with 1 to 9 or 12 adds nothing but its refusal, one that is refused with 10 or 11 also its graph, the lines
/// that it wrote and its depth.
///
/// ```
/// use urzulempa::{season, Deepest, Report};
///
/// let replay = include_bytes!("../../../samples/replay.rec");
/// let ring = include_bytes!("../../../samples/deck-panel.rec");
/// let (mut report, mut room) = (Report::default(), [0; 1024]);
/// assert_eq!(season(&mut report, replay, 1, 1, &mut room).number, 0);
/// assert_eq!(season(&mut report, ring, 1, 1, &mut room).number, 11);
/// assert_eq!(season(&mut report, &[7; 33], 1, 1, &mut room).number, 1);
/// assert_eq!((report.files(), report.done, report.refused[0], report.refused[10]), (Some(3), 1, 1, 1));
/// // Three lines of the one, five of the other, where deck opens panel: file 1 is the deepest.
/// assert_eq!((report.lines, report.deepest), (8, Some(Deepest { depth: 2, file: 1 })));
/// ```
pub fn season(report: &mut Report, file: &[u8], edition: u64, option: u64, room: &mut [u8]) -> Answer {
    let mut numbers = report.numbers();
    let answer = season_numbers(&mut numbers, file, edition, option, room);
    *report = numbers.into();
    answer
}

/// Joins a second report behind the first, which becomes that of both seasons, one after the other: the second's files are numbered
/// behind the first's. Done, with all else 0; or 14, if a count or the file's number would pass 64 bits, with the report as it was.
///
/// ```
/// use urzulempa::{join, season, Deepest, Report};
///
/// let (mut first, mut second, mut room) = (Report::default(), Report::default(), [0; 1024]);
/// assert!(season(&mut first, include_bytes!("../../../samples/lone.rec"), 1, 1, &mut room).is_done());
/// assert!(season(&mut second, include_bytes!("../../../samples/replay.rec"), 1, 1, &mut room).is_done());
/// assert!(join(&mut first, &second).is_done());
/// assert_eq!((first.done, first.deepest), (2, Some(Deepest { depth: 1, file: 1 })));
///
/// let full = Report { lines: u64::MAX, ..Report::default() };
/// let before = first;
/// assert_eq!(join(&mut first, &full).number, 14);
/// assert_eq!(first, before);
/// ```
pub fn join(report: &mut Report, second: &Report) -> Answer {
    let mut numbers = report.numbers();
    let answer = join_numbers(&mut numbers, &second.numbers());
    *report = numbers.into();
    answer
}

/// [`season`] by the numbers of the C interface; a report of another length than 27 is refused with 10, and nothing is explained.
///
/// ```
/// let file = include_bytes!("../../../samples/lone.rec");
/// let (mut report, mut room) = ([0; 28], [7; 64]);
/// assert_eq!(urzulempa::season_numbers(&mut report, file, 1, 1, &mut room).number, 10);
/// assert_eq!((report, room), ([0; 28], [7; 64]));
/// ```
pub fn season_numbers(report: &mut [u64], file: &[u8], edition: u64, option: u64, room: &mut [u8]) -> Answer {
    ffi::season(report, file, edition, option, room)
}

/// [`join`] by the numbers of the C interface; a report of another length than 27, the first or the second, is refused with 10.
///
/// ```
/// let mut report = [0; 27];
/// assert_eq!(urzulempa::join_numbers(&mut report, &[1; 26]).number, 10);
/// assert!(urzulempa::join_numbers(&mut report, &[1; 27]).is_done());
/// // 19 files, of which the first report has none.
/// assert_eq!(report, [1; 27]);
/// ```
pub fn join_numbers(report: &mut [u64], second: &[u64]) -> Answer {
    ffi::join(report, second)
}
