//! Readings in signed hundredths, and the words that store them.
use crate::library;

/// The reading that a word stores, in signed hundredths: 1250 is 12.50.
///
/// Events, constants of rules and reports have a reading as a word, with 2,147,483,648 added, so that words stand in the order
/// of the readings. Each word is one reading's, and [`word_of`] gives it back.
///
/// ```
/// use yokemango::{reading_of, word_of};
///
/// assert_eq!(word_of(-325), 2_147_483_323);
/// assert_eq!(reading_of(2_147_483_323), -325);
/// ```
pub fn reading_of(word: u32) -> i32 {
    library::reading_of(word)
}

/// The word that stores a reading in signed hundredths; [`reading_of`] gives the reading back.
pub fn word_of(hundredths: i32) -> u32 {
    library::word_of(hundredths)
}

#[cfg(test)]
mod tests {
    use super::{reading_of, word_of};

    #[test]
    fn words_and_readings_are_each_others() {
        for (reading, word) in [(i32::MIN, 0), (i32::MIN + 1, 1), (-1, 2_147_483_647), (0, 2_147_483_648), (250, 2_147_483_898), (i32::MAX, u32::MAX)] {
            assert_eq!((word_of(reading), reading_of(word)), (word, reading));
        }
    }
}
