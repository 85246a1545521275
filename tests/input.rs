// Rule files and events as 01 and request 105 lay them out, and numbers to draw them by.
#![allow(dead_code)]
use std::fmt;

pub const ATOM: u8 = 1;
pub const AND: u8 = 2;
pub const AND_NOT: u8 = 3;
pub const KEEP: u8 = 4;
pub const OR: u8 = 5;
pub const EXISTS: u8 = 6;
pub const PREVIOUS: u8 = 7;
pub const NEXT: u8 = 8;
pub const SINCE: u8 = 9;
pub const NOT_SINCE: u8 = 10;
pub const UNTIL: u8 = 11;
pub const NOT_UNTIL: u8 = 12;
pub const ONCE: u8 = 13;
pub const EVENTUALLY: u8 = 14;
pub const SHIFTED: u8 = 15;
pub const NAMES: [&str; 16] = [
    "", "atom", "and", "and-not", "keep", "or", "exists", "previous", "next", "since", "not-since", "until", "not-until",
    "once", "eventually", "keep-shifted",
];

pub const LONGEST_WINDOW: u32 = 604_800;
pub const LONGEST_REPORT: usize = 4_326;

// ---- rules

#[derive(Clone, Copy)]
pub struct Node {
    pub kind: u8,
    pub left: u8,
    pub right: u8,
    pub mask: u8,
    pub words: [u32; 4],
}

impl Node {
    pub fn is_past(&self) -> bool {
        [SINCE, NOT_SINCE, ONCE].contains(&self.kind)
    }

    pub fn is_future(&self) -> bool {
        [UNTIL, NOT_UNTIL, EVENTUALLY].contains(&self.kind)
    }

    pub fn has_window(&self) -> bool {
        (PREVIOUS..=EVENTUALLY).contains(&self.kind)
    }

    pub fn children(&self) -> impl Iterator<Item = usize> {
        let count = match self.kind {
            ATOM => 0,
            AND | AND_NOT | OR | SINCE..=NOT_UNTIL => 2,
            _ => 1,
        };
        [self.left as usize, self.right as usize].into_iter().take(count)
    }
}

// An atom whose terms are these variables.
pub fn atom(relation: u8, variables: &[u32]) -> Node {
    let mut words = [0; 4];
    words[..variables.len()].copy_from_slice(variables);
    Node { kind: ATOM, left: relation, right: 0, mask: 0, words }
}

// A node without terms; where it has one child, right is 0, and where it has no window, c and d are 0.
pub fn node(kind: u8, left: u8, right: u8, c: u32, d: u32) -> Node {
    Node { kind, left, right, mask: 0, words: [c, d, 0, 0] }
}

#[derive(Clone)]
pub struct Rule {
    pub arities: Vec<u8>,
    pub nodes: Vec<Node>,
}

impl Rule {
    // The terms of an atom, a "keep" or a "keep-shifted": a constant, or a variable's number.
    pub fn terms(&self, n: &Node) -> impl Iterator<Item = Term> {
        let count = match n.kind {
            ATOM => self.arities[n.left as usize] as usize,
            KEEP | SHIFTED => 2,
            _ => 0,
        };
        let (mask, words) = (n.mask, n.words);
        (0..count).map(move |k| if mask >> k & 1 == 1 { Term::Constant(words[k]) } else { Term::Variable(words[k] as usize) })
    }

    pub fn bytes(&self) -> Vec<u8> {
        let mut out = vec![1, self.arities.len() as u8, self.nodes.len() as u8, 0];
        out.extend(&self.arities);
        out.resize(12, 0);
        for n in &self.nodes {
            out.extend([n.kind, n.left, n.right, n.mask]);
        }
        for n in &self.nodes {
            out.extend(n.words.iter().flat_map(|w| w.to_le_bytes()));
        }
        out
    }
}

#[derive(Clone, Copy)]
pub enum Term {
    Constant(u32),
    Variable(usize),
}

impl fmt::Display for Rule {
    fn fmt(&self, out: &mut fmt::Formatter) -> fmt::Result {
        writeln!(out, "arities {:?}", self.arities)?;
        for (x, n) in self.nodes.iter().enumerate() {
            write!(out, "node {x}: {}", NAMES[n.kind as usize])?;
            if n.kind == ATOM {
                write!(out, " of relation {}", n.left)?;
            }
            for c in n.children() {
                write!(out, " {c}")?;
            }
            if n.kind == KEEP {
                write!(out, " where {}:", ["equal", "different", "less", "not less"][n.right as usize])?;
            }
            for t in self.terms(n) {
                match t {
                    Term::Constant(c) => write!(out, " {c}")?,
                    Term::Variable(v) => write!(out, " v{v}")?,
                }
            }
            if n.kind == SHIFTED {
                write!(out, " by {}", n.words[2] as i32)?;
            }
            if n.kind == EXISTS {
                write!(out, " of v{}", n.words[0])?;
            }
            if n.has_window() {
                write!(out, " [{}, {})", n.words[0], n.words[1])?;
            }
            writeln!(out)?;
        }
        Ok(())
    }
}

// Rule L: a leak (relation 0) that no closing (relation 1) follows within 60 seconds.
pub fn rule_l() -> Rule {
    let nodes = vec![atom(0, &[0]), atom(1, &[0]), node(EVENTUALLY, 1, 0, 0, 61), node(AND_NOT, 0, 2, 0, 0)];
    Rule { arities: vec![1, 1], nodes }
}

// ---- events

pub type Row = (u32, Vec<u32>);

pub fn event(time: u32, rows: &[Row]) -> Vec<u32> {
    let mut words = vec![time, rows.len() as u32];
    words.extend(rows.iter().map(|r| r.0));
    for (_, values) in rows {
        let mut columns = values.clone();
        columns.resize(4, 0);
        words.extend(columns);
    }
    words
}

// ---- numbers that look random, the same for the same seed

pub struct Random(pub u64);

impl Random {
    pub fn next(&mut self) -> u64 {
        self.0 = self.0.wrapping_add(0x9e37_79b9_7f4a_7c15);
        let mut z = self.0;
        z = (z ^ (z >> 30)).wrapping_mul(0xbf58_476d_1ce4_e5b9);
        z = (z ^ (z >> 27)).wrapping_mul(0x94d0_49bb_1331_11eb);
        z ^ (z >> 31)
    }

    pub fn below(&mut self, n: usize) -> usize {
        (self.next() % n as u64) as usize
    }

    // From `low` to `high`, both among them.
    pub fn from(&mut self, low: usize, high: usize) -> usize {
        low + self.below(high - low + 1)
    }

    pub fn one_in(&mut self, n: usize) -> bool {
        self.below(n) == 0
    }

    pub fn pick<T: Copy>(&mut self, of: &[T]) -> T {
        of[self.below(of.len())]
    }

    pub fn shuffle<T>(&mut self, of: &mut [T]) {
        for k in (1..of.len()).rev() {
            of.swap(k, self.below(k + 1));
        }
    }
}
