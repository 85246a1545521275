//! A monitor for metric first-order temporal rules, such as "no valve opens without a reading of its block in the last
//! thirty minutes". It takes events one by one, in fixed memory, and reports for each point, in the very call that settles
//! it, exactly the valuations that break the rule. What it does is proved; this crate is a thin safe wrapper around it.
//!
//! A rule is checked, a state is started, events are taken as they come, and clock notices while none come:
//!
//! ```
//! use yokemango::{Event, Refusal, Report, Rule, State, MAX_REPORT_WORDS};
//!
//! # fn main() -> Result<(), Box<dyn std::error::Error>> {
//! // a leak (relation 0) that no closing (relation 1) follows within 60 seconds
//! let file = include_bytes!("../../examples/leak.rule");
//! let rule = Rule::check(file)?;
//! assert_eq!(rule.reach(), 61);
//!
//! let mut state = State::start(&rule)?;
//! let mut buffer = [0; MAX_REPORT_WORDS];
//! let leak = Event::new(&rule, 100).with(0, &[7])?.with(0, &[9])?;
//! assert!(state.take(&leak, &mut buffer)?.is_empty());
//! let close = Event::new(&rule, 130).with(1, &[9])?;
//! state.take(&close, &mut buffer)?;
//!
//! // no event comes, and a clock notice 61 seconds after the leak reports that valve 7 wasn't closed in time
//! assert!(state.notice(160, &mut buffer)?.is_empty());
//! let report = state.notice(161, &mut buffer)?;
//! assert_eq!(report.len(), 1);
//! for point in &report {
//!     assert_eq!((point.number(), point.time()), (0, 100));
//!     assert!(point.rows().eq([[7]]));
//! }
//!
//! // an event below the notice is refused, which changes nothing
//! assert_eq!(state.take(&Event::new(&rule, 160), &mut buffer).err(), Some(Refusal::Time));
//! assert_eq!((state.points(), state.latest(), state.open_points()), (2, 161, Ok(1)));
//! # Ok(())
//! # }
//! ```
//!
//! Moisture and temperature are readings in signed hundredths, which words store: [`word_of`] and [`reading_of`].
//!
//! For a battery change a state is saved to words, an image, and read in again: [`State::save`] and [`State::restore`].
//!
//! It needs no heap and no operating system. A state is 13,220 bytes; the longest report is 4,326 words, the longest image 3,816.
//!
//! To build it, the environment variable `YOKEMANGO_LIB` names the folder that has libyokemango.a, the monitor's static
//! library.
#![no_std]
#![deny(missing_docs)]
#![deny(unsafe_code)]

#[cfg(test)]
extern crate std;

mod event;
mod library;
mod reading;
mod refusal;
mod report;
mod rule;
mod state;

pub use event::{Event, Unfit};
pub use reading::{reading_of, word_of};
pub use refusal::Refusal;
pub use report::{Point, Points, Report, Rows};
pub use rule::Rule;
pub use state::State;

/// The bytes of the longest rule file.
pub const MAX_RULE_BYTES: usize = 652;
/// The most nodes of a rule.
pub const MAX_NODES: usize = 32;
/// The most relations of a rule.
pub const MAX_RELATIONS: usize = 8;
/// The most columns of a relation, and the most variables of a rule.
pub const MAX_COLUMNS: usize = 4;
/// The most rows of an event, and the most valuations of a node at a point.
pub const MAX_ROWS: usize = 32;
/// The most points that are accepted and not yet reported.
pub const MAX_OPEN_POINTS: u32 = 32;
/// The most kept entries.
pub const MAX_KEPT: u32 = 512;
/// The most points from a start on.
pub const MAX_POINTS: u32 = 10_000_000;
/// The longest window, in seconds.
pub const MAX_WINDOW: u32 = 604_800;
/// The words of the longest event.
pub const MAX_EVENT_WORDS: usize = 162;
/// The words of the longest report: a buffer of this length never meets [`Refusal::Short`].
pub const MAX_REPORT_WORDS: usize = 4_326;
/// The words of the longest image: a buffer of this length never meets [`Refusal::Room`].
pub const MAX_IMAGE_WORDS: usize = 3_816;
/// The words of a state.
pub const STATE_WORDS: usize = 3_305;

#[cfg(test)]
mod tests {
    /// What the header defines a name as, without the mark of an unsigned number.
    fn defined(name: &str) -> &'static str {
        let header = include_str!("../../include/yokemango.h");
        let line = header.lines().find(|line| line.split(' ').take(2).eq(["#define", &std::format!("YOKEMANGO_{name}")]));
        line.unwrap_or_else(|| panic!("the header has no {name}")).split(' ').nth(2).unwrap().trim_end_matches('u')
    }

    #[test]
    fn limits_and_version_are_those_of_the_header() {
        let limits = [
            ("RULE_BYTES", crate::MAX_RULE_BYTES),
            ("NODES", crate::MAX_NODES),
            ("RELATIONS", crate::MAX_RELATIONS),
            ("COLUMNS", crate::MAX_COLUMNS),
            ("ROWS", crate::MAX_ROWS),
            ("OPEN_POINTS", crate::MAX_OPEN_POINTS as usize),
            ("KEPT", crate::MAX_KEPT as usize),
            ("POINTS", crate::MAX_POINTS as usize),
            ("WINDOW", crate::MAX_WINDOW as usize),
            ("EVENT_WORDS", crate::MAX_EVENT_WORDS),
            ("REPORT_WORDS", crate::MAX_REPORT_WORDS),
            ("IMAGE_WORDS", crate::MAX_IMAGE_WORDS),
        ];
        for (name, limit) in limits {
            assert_eq!(defined(&std::format!("MAX_{name}")), std::format!("{limit}"), "{name}");
        }
        let header = include_str!("../../include/yokemango.h");
        assert_eq!(header.matches("#define YOKEMANGO_MAX_").count(), limits.len());
        assert_eq!(defined("VERSION"), concat!("\"", env!("CARGO_PKG_VERSION"), "\""));
        assert_eq!(["MAJOR", "MINOR", "PATCH"].map(|part| defined(&std::format!("VERSION_{part}"))), [env!("CARGO_PKG_VERSION_MAJOR"), env!("CARGO_PKG_VERSION_MINOR"), env!("CARGO_PKG_VERSION_PATCH")]);
    }
}
