use core::fmt;

/// Why a call was refused, with its place where there is one. A refused call has changed nothing.
///
/// It prints in words:
///
/// ```
/// use yokemango::Refusal;
///
/// let refusal = Refusal::Window { node: 2 };
/// assert_eq!((refusal.number(), refusal.place()), (5, 2));
/// assert_eq!(refusal.to_string(), "the window is out of range: node 2");
/// ```
#[derive(Clone, Copy, PartialEq, Eq, Debug, Hash)]
pub enum Refusal {
    /// 1: a rule file is under 12 bytes, or its length isn't 12 and 20 for each node.
    Length,
    /// 2: its version isn't 1.
    Version,
    /// 3: a size, an arity or the zero byte is out of range.
    Sizes,
    /// 4: a node has an unknown kind, child, relation, variable or comparison, or an unnamed field that isn't 0.
    Node {
        /// The node's number.
        node: u32,
    },
    /// 5: a node's window is out of range.
    Window {
        /// The node's number.
        node: u32,
    },
    /// 6: a condition on a node's free variables is broken.
    FreeVariables {
        /// The node's number.
        node: u32,
    },
    /// 7: a node isn't a child exactly once.
    Parent {
        /// The node's number.
        node: u32,
    },
    /// 8: a state isn't well formed. No state that a call handed back meets this.
    State,
    /// 9: an event is under 2 words, has more than 32 rows, or is of a wrong length.
    Event,
    /// 10: a row's relation is unknown, or an unused column isn't 0.
    Row {
        /// The first such row, from 0.
        row: u32,
    },
    /// 11: the time is below the latest known, of a point or a notice.
    Time,
    /// 12: there are 10,000,000 points already.
    Full,
    /// 13: a node would have more than 32 valuations at a point.
    Crowded {
        /// The lowest such node's number.
        node: u32,
    },
    /// 14: more than 32 points would be open.
    Backlog,
    /// 15: more than 512 entries would be kept.
    Kept,
    /// 16: the report buffer is too short.
    Short {
        /// The words that the report needs.
        needed: u32,
    },
    /// 17: words aren't a report.
    Report,
    /// 18: words aren't an image in form, or the rule in it is refused.
    Image,
    /// 19: the buffer is too short for the image.
    Room {
        /// The words that the image needs.
        needed: u32,
    },
}

impl Refusal {
    /// The refusal of this number and place, 1 to 19.
    pub(crate) fn of(number: u32, place: u32) -> Refusal {
        match number {
            1 => Refusal::Length,
            2 => Refusal::Version,
            3 => Refusal::Sizes,
            4 => Refusal::Node { node: place },
            5 => Refusal::Window { node: place },
            6 => Refusal::FreeVariables { node: place },
            7 => Refusal::Parent { node: place },
            8 => Refusal::State,
            9 => Refusal::Event,
            10 => Refusal::Row { row: place },
            11 => Refusal::Time,
            12 => Refusal::Full,
            13 => Refusal::Crowded { node: place },
            14 => Refusal::Backlog,
            15 => Refusal::Kept,
            16 => Refusal::Short { needed: place },
            17 => Refusal::Report,
            18 => Refusal::Image,
            19 => Refusal::Room { needed: place },
            _ => unreachable!("the library has no refusal {number}"),
        }
    }

    /// The refusal's number, 1 to 19.
    pub fn number(self) -> u32 {
        match self {
            Refusal::Length => 1,
            Refusal::Version => 2,
            Refusal::Sizes => 3,
            Refusal::Node { .. } => 4,
            Refusal::Window { .. } => 5,
            Refusal::FreeVariables { .. } => 6,
            Refusal::Parent { .. } => 7,
            Refusal::State => 8,
            Refusal::Event => 9,
            Refusal::Row { .. } => 10,
            Refusal::Time => 11,
            Refusal::Full => 12,
            Refusal::Crowded { .. } => 13,
            Refusal::Backlog => 14,
            Refusal::Kept => 15,
            Refusal::Short { .. } => 16,
            Refusal::Report => 17,
            Refusal::Image => 18,
            Refusal::Room { .. } => 19,
        }
    }

    /// The refusal in words, without its place.
    pub fn words(self) -> &'static str {
        match self {
            Refusal::Length => "under 12 bytes, or a length that isn't 12 + 20 for each node",
            Refusal::Version => "the version isn't 1",
            Refusal::Sizes => "a size, an arity or the zero byte is out of range",
            Refusal::Node { .. } => "an unknown kind, child, relation, variable or comparison, or a field without a meaning that isn't 0",
            Refusal::Window { .. } => "the window is out of range",
            Refusal::FreeVariables { .. } => "a condition on the free variables is broken",
            Refusal::Parent { .. } => "the node isn't a child exactly once",
            Refusal::State => "the state isn't well formed",
            Refusal::Event => "under 2 words, over 32 rows, or a wrong length",
            Refusal::Row { .. } => "no such relation, or an unused column that isn't 0",
            Refusal::Time => "the time is below the latest known",
            Refusal::Full => "10,000,000 points were taken already",
            Refusal::Crowded { .. } => "over 32 valuations at a point newly settled",
            Refusal::Backlog => "over 32 points would be open",
            Refusal::Kept => "over 512 entries would be kept",
            Refusal::Short { .. } => "the report buffer is too short",
            Refusal::Report => "not a report, or no such entry",
            Refusal::Image => "the image is out of form, or its rule is refused",
            Refusal::Room { .. } => "the image buffer is too short",
        }
    }

    /// The refusal's place; 0 where there is none.
    pub fn place(self) -> u32 {
        match self {
            Refusal::Node { node } | Refusal::Window { node } | Refusal::FreeVariables { node } | Refusal::Parent { node } | Refusal::Crowded { node } => node,
            Refusal::Row { row } => row,
            Refusal::Short { needed } | Refusal::Room { needed } => needed,
            _ => 0,
        }
    }
}

impl fmt::Display for Refusal {
    fn fmt(&self, out: &mut fmt::Formatter) -> fmt::Result {
        out.write_str(self.words())?;
        match *self {
            Refusal::Node { node } | Refusal::Window { node } | Refusal::FreeVariables { node } | Refusal::Parent { node } | Refusal::Crowded { node } => write!(out, ": node {node}"),
            Refusal::Row { row } => write!(out, ": row {row}"),
            Refusal::Short { needed } | Refusal::Room { needed } => write!(out, ": {needed} words are needed"),
            _ => Ok(()),
        }
    }
}

impl core::error::Error for Refusal {}

#[cfg(test)]
mod tests {
    use super::Refusal;

    #[test]
    fn words_and_names_are_those_of_the_header() {
        let header = include_str!("../../include/yokemango.h");
        for number in 1..=19 {
            let refusal = Refusal::of(number, 9);
            // the variant's name in capitals, its words parted by _
            let name = std::format!("{refusal:?}").split(' ').next().unwrap().chars().enumerate().fold(std::string::String::new(), |mut name, (k, c)| {
                if k > 0 && c.is_uppercase() {
                    name.push('_');
                }
                name.push(c.to_ascii_uppercase());
                name
            });
            assert!(header.contains(&std::format!("YOKEMANGO_REFUSED_{name} = {number}")), "{name}");
            let words = std::format!("case YOKEMANGO_REFUSED_{name}: return \"{}\";", refusal.words());
            assert!(header.contains(&words), "{words}");
        }
    }

    #[test]
    fn the_place_is_told() {
        let said = [(4, "node 9"), (5, "node 9"), (6, "node 9"), (7, "node 9"), (10, "row 9"), (13, "node 9"), (16, "9 words are needed"), (19, "9 words are needed")];
        for number in 1..=19 {
            let refusal = Refusal::of(number, 9);
            let place = said.iter().find(|(n, _)| *n == number);
            let words = place.map_or(std::string::String::from(refusal.words()), |(_, place)| std::format!("{}: {place}", refusal.words()));
            assert_eq!(std::format!("{refusal}"), words);
        }
    }

    #[test]
    fn number_and_place_come_back() {
        let placed = [4, 5, 6, 7, 10, 13, 16, 19];
        for number in 1..=19 {
            let refusal = Refusal::of(number, 9);
            let place = if placed.contains(&number) { 9 } else { 0 };
            assert_eq!((refusal.number(), refusal.place()), (number, place));
        }
    }
}
