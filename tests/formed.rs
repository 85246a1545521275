// The conditions of refusal 8 as docs/STATE.md lists them, worked out on a state's words.
use crate::input::*;
use crate::keeper::{free_variables, in_order, MOST_KEPT, MOST_OPEN, MOST_POINTS, MOST_ROWS};
use crate::library::{check, State};

const MOST_TIMES: usize = 64;

struct Stored<'s> {
    rule: Rule,
    free: Vec<[bool; 4]>,
    first: usize,
    points: usize,
    latest: u64,
    times: &'s [u32],
    entries: Vec<Entry>,
}

#[derive(Clone, Copy, PartialEq)]
struct Entry {
    owner: u32,
    number: u32,
    row: [u32; 4],
}

impl Stored<'_> {
    fn time(&self, i: usize) -> u64 {
        self.times[i - self.first] as u64
    }

    // How many points each node has settled: all before the first retained, and those that 01 says from there on.
    fn counts(&self) -> Vec<usize> {
        let mut counts: Vec<usize> = vec![];
        for n in &self.rule.nodes {
            let children = n.children().map(|c| counts[c]).min().unwrap_or(self.points);
            counts.push(match n.kind {
                PREVIOUS => self.points.min(children + 1),
                NEXT => children.saturating_sub(1),
                UNTIL | NOT_UNTIL | EVENTUALLY => {
                    // the latest known time is at least Ti + d, and no point before the end is one that the children leave open
                    let settled = |i: &usize| {
                        let end = self.time(*i) + n.words[1] as u64;
                        self.latest >= end && (children..self.points).all(|j| self.time(j) >= end)
                    };
                    self.first + (self.first..children).take_while(settled).count()
                }
                _ => children,
            });
        }
        counts
    }

    // The first point at which a node's rows are kept.
    fn wanted_from(&self, x: usize, counts: &[usize]) -> usize {
        let nodes = &self.rule.nodes;
        let parent = (0..nodes.len()).find(|p| nodes[*p].children().any(|c| c == x));
        parent.map_or(counts[x], |p| match nodes[p].kind {
            PREVIOUS => counts[p].saturating_sub(1),
            NEXT => counts[p] + 1,
            _ => counts[p],
        })
    }

    fn row_fits(&self, x: usize, row: &[u32; 4]) -> bool {
        (0..4).all(|v| self.free[x][v] || row[v] == 0)
    }

    // Entry e stands before entry f: by number, and then by the row's values of the variables that are free in node x.
    fn before(&self, x: usize, e: &Entry, f: &Entry) -> bool {
        let own = |e: &Entry| -> Vec<u32> { (0..4).filter(|v| self.free[x][*v]).map(|v| e.row[v]).collect() };
        e.number.cmp(&f.number).then_with(|| in_order(&own(e), &own(f))).is_lt()
    }

    // The rows of node x at a point: at most 32, strictly ascending, 0 at variables that aren't free.
    fn rows_fit(&self, x: usize, run: &[Entry]) -> bool {
        run.len() <= MOST_ROWS && run.windows(2).all(|w| self.before(x, &w[0], &w[1])) && run.iter().all(|e| self.row_fits(x, &e.row))
    }

    // The pairs of node x: strictly ascending by age and row, and no age that the window leaves out.
    fn pairs_fit(&self, x: usize, run: &[Entry]) -> bool {
        let [c, d, ..] = self.rule.nodes[x].words;
        let age_fits = |age: u32| if d == 0 { age <= c } else { age < d };
        let ascend = run.windows(2).all(|w| self.before(x, &w[0], &w[1]));
        ascend && run.iter().all(|e| age_fits(e.number) && self.row_fits(x, &e.row))
    }

    // The entries are those of the nodes in file order, and nothing else.
    fn entries_fit(&self, counts: &[usize]) -> bool {
        let mut rest = &self.entries[..];
        let mut next = |belongs: &dyn Fn(&Entry) -> bool| {
            let (run, after) = rest.split_at(rest.iter().take_while(|e| belongs(e)).count());
            rest = after;
            run
        };
        for (x, n) in self.rule.nodes.iter().enumerate() {
            let owner = 2 * x as u32;
            for j in self.wanted_from(x, counts)..counts[x] {
                if !self.rows_fit(x, next(&|e| e.owner == owner && e.number == j as u32)) {
                    return false;
                }
            }
            if n.is_past() && !self.pairs_fit(x, next(&|e| e.owner == owner + 1)) {
                return false;
            }
        }
        rest.is_empty()
    }
}

// The rule of a file that is accepted.
pub fn rule_of(bytes: &[u8]) -> Rule {
    let nodes = bytes[2] as usize;
    let word = |at: usize| u32::from_le_bytes([bytes[at], bytes[at + 1], bytes[at + 2], bytes[at + 3]]);
    let node = |x: usize| {
        let (head, body) = (12 + 4 * x, 12 + 4 * nodes + 16 * x);
        let words = [word(body), word(body + 4), word(body + 8), word(body + 12)];
        Node { kind: bytes[head], left: bytes[head + 1], right: bytes[head + 2], mask: bytes[head + 3], words }
    };
    Rule { arities: bytes[4..4 + bytes[1] as usize].to_vec(), nodes: (0..nodes).map(node).collect() }
}

pub fn well_formed(s: &State) -> bool {
    let (bytes, points, retained, count) = (s.bytes as usize, s.points as usize, s.retained as usize, s.count as usize);
    if bytes > s.rule.len() || check(&s.rule[..bytes]).0 != 0 {
        return false;
    }
    if points > MOST_POINTS || retained > MOST_TIMES || retained > points || count > MOST_KEPT {
        return false;
    }
    let rule = rule_of(&s.rule[..bytes]);
    let mut free = vec![];
    for n in &rule.nodes {
        free.push(free_variables(&rule, n, &free));
    }
    let entry = |k: usize| Entry { owner: s.owners[k], number: s.numbers[k], row: [0, 1, 2, 3].map(|v| s.values[4 * k + v]) };
    let entries = (0..count).map(entry).collect();
    let stored = Stored { rule, free, first: points - retained, points, latest: s.latest as u64, times: &s.times[..retained], entries };
    let counts = stored.counts();
    let least = counts.iter().copied().min().unwrap();
    let in_time = stored.times.is_sorted() && stored.times.last().is_none_or(|t| *t <= s.latest);
    points - counts.last().unwrap() <= MOST_OPEN && stored.first == least.saturating_sub(1) && in_time && stored.entries_fit(&counts)
}
