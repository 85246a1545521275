use crate::{library, Refusal};
use core::fmt;

/// A rule file that was checked and accepted. It borrows the file's bytes, which may stand in read-only memory.
#[derive(Clone, Copy, PartialEq, Eq)]
pub struct Rule<'a> {
    file: &'a [u8],
    reach: u32,
    free: u32,
}

impl<'a> Rule<'a> {
    /// Checks a rule file; refusals are 1 to 7.
    ///
    /// ```
    /// use yokemango::{Refusal, Rule};
    ///
    /// let mut file = *include_bytes!("../../examples/leak.rule");
    /// assert!(Rule::check(&file).is_ok());
    /// file[12] = 16;
    /// assert_eq!(Rule::check(&file), Err(Refusal::Node { node: 0 }));
    /// assert_eq!(Rule::check(&file[..11]), Err(Refusal::Length));
    /// ```
    pub fn check(file: &'a [u8]) -> Result<Rule<'a>, Refusal> {
        let checked = library::check(file);
        match checked.number {
            0 => Ok(Rule { file, reach: checked.reach, free: checked.free }),
            number => Err(Refusal::of(number, checked.place)),
        }
    }

    /// The rule file.
    pub fn file(&self) -> &'a [u8] {
        self.file
    }

    /// The reach in seconds: in a rule without "next", a point is reported at the latest by the first event or notice whose time
    /// is at least this much after its own.
    pub fn reach(&self) -> u32 {
        self.reach
    }

    /// The pattern's free variables, ascending: they are the columns of a reported row.
    pub fn free_variables(&self) -> impl Iterator<Item = usize> {
        let free = self.free;
        (0..crate::MAX_COLUMNS).filter(move |k| free >> k & 1 == 1)
    }

    /// How many columns the relation has, if the rule has so many relations.
    pub fn columns(&self, relation: usize) -> Option<usize> {
        // an accepted file has its relation count in byte 1 and its arities from byte 4 on
        (relation < self.file[1] as usize).then(|| self.file[4 + relation] as usize)
    }
}

impl fmt::Debug for Rule<'_> {
    fn fmt(&self, out: &mut fmt::Formatter) -> fmt::Result {
        out.debug_struct("Rule").field("bytes", &self.file.len()).field("reach", &self.reach).finish_non_exhaustive()
    }
}

#[cfg(test)]
mod tests {
    use super::Rule;
    use std::vec::Vec;

    #[test]
    fn relations_and_variables_are_those_of_the_file() {
        let rule = Rule::check(include_bytes!("../../examples/leak.rule")).unwrap();
        assert_eq!(rule.free_variables().collect::<Vec<_>>(), [0]);
        assert_eq!([0, 1, 2, 8, usize::MAX].map(|k| rule.columns(k)), [Some(1), Some(1), None, None, None]);
        assert_eq!((rule.file().len(), rule.reach()), (92, 61));
    }
}
