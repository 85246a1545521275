use crate::{library, Refusal};
use core::fmt;
use core::iter::FusedIterator;

/// A report: the points that a call settled, each with the rows that break the rule there.
///
/// ```
/// use yokemango::{Refusal, Report};
///
/// // 2 points, 1 free variable, 2 rows in all
/// let words = [2, 1, 2, 0, 100, 2, 1, 130, 0, 7, 9];
/// let report = Report::read(&words)?;
/// let printed: Vec<String> = report.points().map(|p| format!("{} at {}: {}", p.number(), p.time(), p.rows().len())).collect();
/// assert_eq!(printed, ["0 at 100: 2", "1 at 130: 0"]);
/// assert!(report.points().next().unwrap().rows().eq([[7], [9]]));
///
/// // column 0 ascends, and rows that tie on it descend by each later column
/// assert!(Report::read(&[1, 2, 3, 0, 100, 3, 7, 2, 7, 1, 9, 0])?.points().next().unwrap().rows().eq([[7, 2], [7, 1], [9, 0]]));
///
/// // rows in another order are no report
/// assert_eq!(Report::read(&[1, 1, 2, 0, 100, 2, 9, 7]).err(), Some(Refusal::Report));
/// assert_eq!(Report::read(&[1, 2, 3, 0, 100, 3, 7, 1, 7, 2, 9, 0]).err(), Some(Refusal::Report));
/// # Ok::<(), Refusal>(())
/// ```
#[derive(Clone, Copy)]
pub struct Report<'a> {
    words: &'a [u32],
}

impl<'a> Report<'a> {
    /// Reads words as a report, or refuses them by 17. Words past the report's end are ignored. The form is checked here, once,
    /// and reading points and rows takes it as checked.
    pub fn read(words: &'a [u32]) -> Result<Report<'a>, Refusal> {
        match library::check_report(words) {
            0 => Ok(Report { words }),
            _ => Err(Refusal::Report),
        }
    }

    /// What the library has written is in form.
    pub(crate) fn written(words: &'a [u32]) -> Report<'a> {
        Report { words }
    }

    /// How many points are reported.
    pub fn len(&self) -> usize {
        self.words[0] as usize
    }

    /// Whether no point is reported.
    pub fn is_empty(&self) -> bool {
        self.len() == 0
    }

    /// How many words a row has: one for each free variable of the pattern, lowest first.
    pub fn columns(&self) -> usize {
        self.words[1] as usize
    }

    /// The rows of all points together.
    pub fn total_rows(&self) -> usize {
        self.words[2] as usize
    }

    /// The points, in their order.
    pub fn points(&self) -> Points<'a> {
        let (triples, rows) = self.words[3..].split_at(3 * self.len());
        Points { triples, rows, columns: self.columns() }
    }
}

impl fmt::Debug for Report<'_> {
    fn fmt(&self, out: &mut fmt::Formatter) -> fmt::Result {
        out.debug_list().entries(self.points()).finish()
    }
}

impl<'a> IntoIterator for &Report<'a> {
    type Item = Point<'a>;
    type IntoIter = Points<'a>;

    fn into_iter(self) -> Points<'a> {
        self.points()
    }
}

impl<'a> IntoIterator for Report<'a> {
    type Item = Point<'a>;
    type IntoIter = Points<'a>;

    fn into_iter(self) -> Points<'a> {
        self.points()
    }
}

/// The points of a report, in their order.
#[derive(Clone)]
pub struct Points<'a> {
    // of the points to come: the point, time and row count of each, and the rows of all, end to end
    triples: &'a [u32],
    rows: &'a [u32],
    columns: usize,
}

impl<'a> Iterator for Points<'a> {
    type Item = Point<'a>;

    fn next(&mut self) -> Option<Point<'a>> {
        let (&[number, time, count], triples) = self.triples.split_first_chunk()?;
        let (words, rows) = self.rows.split_at(self.columns * count as usize);
        (self.triples, self.rows) = (triples, rows);
        Some(Point { number, time, rows: Rows { words, columns: self.columns, left: count as usize } })
    }

    fn size_hint(&self) -> (usize, Option<usize>) {
        let left = self.triples.len() / 3;
        (left, Some(left))
    }
}

impl ExactSizeIterator for Points<'_> {}
impl FusedIterator for Points<'_> {}

/// A reported point: one accepted event, and the rows that break the rule there.
#[derive(Clone)]
pub struct Point<'a> {
    number: u32,
    time: u32,
    rows: Rows<'a>,
}

impl<'a> Point<'a> {
    /// The point's number: accepted events are numbered from 0.
    pub fn number(&self) -> u32 {
        self.number
    }

    /// The event's time.
    pub fn time(&self) -> u32 {
        self.time
    }

    /// Its rows, each a value for every free variable of the pattern, lowest first. They ascend by the first value, and those that
    /// tie on it descend by each later one in turn.
    pub fn rows(&self) -> Rows<'a> {
        self.rows.clone()
    }
}

impl fmt::Debug for Point<'_> {
    fn fmt(&self, out: &mut fmt::Formatter) -> fmt::Result {
        write!(out, "point {} time {} rows ", self.number, self.time)?;
        out.debug_list().entries(self.rows()).finish()
    }
}

/// The rows of a reported point. A rule without free variables has rows of no words.
#[derive(Clone)]
pub struct Rows<'a> {
    words: &'a [u32],
    columns: usize,
    left: usize,
}

impl<'a> Iterator for Rows<'a> {
    type Item = &'a [u32];

    fn next(&mut self) -> Option<&'a [u32]> {
        self.left = self.left.checked_sub(1)?;
        let (row, rest) = self.words.split_at(self.columns);
        self.words = rest;
        Some(row)
    }

    fn size_hint(&self) -> (usize, Option<usize>) {
        (self.left, Some(self.left))
    }
}

impl DoubleEndedIterator for Rows<'_> {
    fn next_back(&mut self) -> Option<Self::Item> {
        self.left = self.left.checked_sub(1)?;
        let (rest, row) = self.words.split_at(self.words.len() - self.columns);
        self.words = rest;
        Some(row)
    }
}

impl ExactSizeIterator for Rows<'_> {}
impl FusedIterator for Rows<'_> {}

#[cfg(test)]
mod tests {
    use super::Report;
    use crate::Refusal;
    use std::vec::Vec;

    #[test]
    fn points_and_rows_are_those_of_the_words() {
        let words = [2, 2, 3, 4, 50, 1, 6, 50, 2, 1, 9, 0, 7, 3, 0, 99];
        let report = Report::read(&words).unwrap();
        assert_eq!((report.len(), report.columns(), report.total_rows()), (2, 2, 3));
        let all: Vec<_> = report.points().map(|p| (p.number(), p.time(), p.rows().collect::<Vec<_>>())).collect();
        assert_eq!(all, [(4, 50, [&[1, 9][..]].to_vec()), (6, 50, [&[0, 7][..], &[3, 0]].to_vec())]);
        let second = report.points().nth(1).unwrap();
        assert!(second.rows().rev().eq([[3, 0], [0, 7]]));
        let mut ends = second.rows();
        assert_eq!((ends.next_back(), ends.next(), ends.next(), ends.next_back()), (Some(&[3, 0][..]), Some(&[0, 7][..]), None, None));
        assert_eq!((report.points().len(), second.rows().len()), (2, 2));
    }

    #[test]
    fn a_row_of_no_words_is_a_row() {
        let report = Report::read(&[2, 0, 1, 0, 5, 1, 1, 6, 0]).unwrap();
        let counts: Vec<_> = report.points().map(|p| (p.rows().len(), p.rows().count(), p.rows().rev().count())).collect();
        assert_eq!(counts, [(1, 1, 1), (0, 0, 0)]);
    }

    #[test]
    fn words_out_of_form_are_refused() {
        for words in [&[][..], &[0], &[0, 0], &[0, 5, 0], &[0, 1, 1], &[1, 1, 0], &[34, 0, 0], &[2, 0, 0, 3, 1, 0, 3, 1, 0], &[1, 0, 2, 0, 5, 2]] {
            assert_eq!(Report::read(words).err(), Some(Refusal::Report), "{words:?}");
        }
        for words in [&[0, 4, 0][..], &[0, 0, 0, 7], &[1, 0, 0, 3, 1, 0]] {
            assert!(Report::read(words).is_ok(), "{words:?}");
        }
    }
}
