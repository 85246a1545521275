use crate::{Rule, MAX_COLUMNS, MAX_EVENT_WORDS, MAX_RELATIONS, MAX_ROWS};
use core::fmt;

/// An event of a rule, built row by row. Rows may be repeated, and count once.
///
/// ```
/// use yokemango::{Event, Rule, Unfit};
///
/// # fn main() -> Result<(), Box<dyn std::error::Error>> {
/// let rule = Rule::check(include_bytes!("../../examples/leak.rule"))?;
/// let event = Event::new(&rule, 100).with(0, &[7])?.with(1, &[9])?;
/// assert_eq!(event.words(), [100, 2, 0, 1, 7, 0, 0, 0, 9, 0, 0, 0]);
/// assert_eq!(Event::new(&rule, 100).with(2, &[7]).err(), Some(Unfit::NoRelation));
/// assert_eq!(Event::new(&rule, 100).with(0, &[7, 8]).err(), Some(Unfit::OtherColumns { expected: 1 }));
/// # Ok(())
/// # }
/// ```
#[derive(Clone, Copy, PartialEq, Eq)]
pub struct Event {
    words: [u32; MAX_EVENT_WORDS],
    columns: [Option<usize>; MAX_RELATIONS],
}

/// Why a row can't be put into an event.
#[derive(Clone, Copy, PartialEq, Eq, Debug)]
pub enum Unfit {
    /// The event has 32 rows already.
    TooManyRows,
    /// The rule has no such relation.
    NoRelation,
    /// The relation has another number of columns.
    OtherColumns {
        /// How many it has.
        expected: usize,
    },
}

impl Event {
    /// An event of this time, with no rows.
    pub fn new(rule: &Rule, time: u32) -> Event {
        let mut words = [0; MAX_EVENT_WORDS];
        words[0] = time;
        Event { words, columns: core::array::from_fn(|k| rule.columns(k)) }
    }

    /// Puts a row in; the event stays as it was where the row doesn't fit.
    pub fn push(&mut self, relation: usize, values: &[u32]) -> Result<(), Unfit> {
        let expected = self.columns.get(relation).copied().flatten().ok_or(Unfit::NoRelation)?;
        if values.len() != expected {
            return Err(Unfit::OtherColumns { expected });
        }
        let m = self.rows();
        if m == MAX_ROWS {
            return Err(Unfit::TooManyRows);
        }
        // the relations stand before the rows, so that these move up by a word
        let rows = 2 + m;
        self.words.copy_within(rows..rows + MAX_COLUMNS * m, rows + 1);
        self.words[rows] = relation as u32;
        let row = &mut self.words[rows + 1 + MAX_COLUMNS * m..][..MAX_COLUMNS];
        row.fill(0);
        row[..expected].copy_from_slice(values);
        self.words[1] += 1;
        Ok(())
    }

    /// The event with one row more.
    pub fn with(mut self, relation: usize, values: &[u32]) -> Result<Event, Unfit> {
        self.push(relation, values)?;
        Ok(self)
    }

    /// The event's time.
    pub fn time(&self) -> u32 {
        self.words[0]
    }

    /// How many rows it has.
    pub fn rows(&self) -> usize {
        self.words[1] as usize
    }

    /// Its words: time, row count, relations, rows.
    pub fn words(&self) -> &[u32] {
        &self.words[..2 + (1 + MAX_COLUMNS) * self.rows()]
    }
}

impl fmt::Debug for Event {
    fn fmt(&self, out: &mut fmt::Formatter) -> fmt::Result {
        let rows = (0..self.rows()).map(|k| (self.words[2 + k], &self.words[2 + self.rows() + MAX_COLUMNS * k..][..MAX_COLUMNS]));
        write!(out, "@{}", self.time())?;
        rows.into_iter().try_for_each(|(relation, values)| write!(out, " {relation}{values:?}"))
    }
}

impl fmt::Display for Unfit {
    fn fmt(&self, out: &mut fmt::Formatter) -> fmt::Result {
        match self {
            Unfit::TooManyRows => write!(out, "an event has at most {MAX_ROWS} rows"),
            Unfit::NoRelation => write!(out, "the rule has no such relation"),
            Unfit::OtherColumns { expected } => write!(out, "the relation has {expected} columns"),
        }
    }
}

impl core::error::Error for Unfit {}

#[cfg(test)]
mod tests {
    use super::{Event, Unfit};
    use crate::Rule;
    use std::vec::Vec;

    #[test]
    fn rows_stand_as_the_format_has_them() {
        let rule = Rule::check(include_bytes!("../../examples/leak.rule")).unwrap();
        let mut event = Event::new(&rule, 5);
        let mut relations = Vec::new();
        let mut rows = Vec::new();
        for k in 0..32 {
            assert_eq!(event.push(k % 2, &[100 + k as u32]), Ok(()));
            relations.push(k as u32 % 2);
            rows.extend([100 + k as u32, 0, 0, 0]);
            assert_eq!(event.words(), [&[5, 1 + k as u32], &relations[..], &rows[..]].concat());
        }
        let full = event;
        assert_eq!(event.push(0, &[1]), Err(Unfit::TooManyRows));
        assert_eq!(event.push(2, &[1]), Err(Unfit::NoRelation));
        assert_eq!(event.push(0, &[]), Err(Unfit::OtherColumns { expected: 1 }));
        assert!(event == full && event.words().len() == 162);
    }
}
