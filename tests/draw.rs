// Rules, events, notices, buffers and states drawn at random for takings.rs and images.rs.
#![allow(dead_code)]
use crate::input::*;
use crate::keeper::*;
use crate::library::{State, ENTRIES, RETAINED, RULE_BYTES};

// What a list leans on: rows of a node, kept entries, the same as settling raises them, or open points.
#[derive(Clone, Copy, PartialEq)]
pub enum Aim {
    Any,
    Rows,
    Kept,
    Raised,
    Open,
}

// Values at the ends of what a word holds, and around that of the reading 0.
const EDGES: [u32; 8] = [0, 1, 7, ZERO - 1, ZERO, ZERO + 1, u32::MAX - 1, u32::MAX];
const ZERO: u32 = 1 << 31;

// The choices that hold for a whole list.
pub struct Draw {
    pub g: Random,
    pub aim: Aim,
    arities: Vec<u8>,
    values: Vec<u32>,
    variables: usize,
    unit: u32,
}

impl Draw {
    pub fn new(seed: u64) -> Draw {
        let mut g = Random(seed);
        let aim = g.pick(&[Aim::Any, Aim::Any, Aim::Any, Aim::Any, Aim::Rows, Aim::Kept, Aim::Raised, Aim::Open]);
        let (arities, relations): (&[u8], &[usize]) = match aim {
            Aim::Any | Aim::Open => (&[0, 1, 1, 1, 2, 2, 3, 4], &[1, 2, 2, 3, 3, 8]),
            Aim::Rows => (&[1, 1, 2, 2, 3, 4], &[1, 2, 2, 3]),
            Aim::Kept | Aim::Raised => (&[1, 2, 3, 4], &[1, 1, 2]),
        };
        let relations = g.pick(relations);
        let arities = (0..relations).map(|_| g.pick(arities)).collect();
        let few = g.from(1, 4);
        let values = match aim {
            Aim::Any | Aim::Open if g.one_in(3) => (0..few).map(|_| g.pick(&EDGES)).collect(),
            Aim::Any | Aim::Open => (0..few as u32).collect(),
            Aim::Rows | Aim::Kept | Aim::Raised => (0..40).collect(),
        };
        let variables = g.from(1, 4);
        let unit = g.pick(&[1, 1, 1, 2, 10, 60, 1_000, 100_000]);
        Draw { g, aim, arities, values, variables, unit }
    }

    // How many values a relation's column has. Where the kept figure is aimed at, the rows that a relation can have are at most
    // 32, so that 13 doesn't come first.
    fn few(&self, arity: u8) -> usize {
        if matches!(self.aim, Aim::Kept | Aim::Raised) { [1, 30, 5, 3, 2][arity as usize] } else { self.values.len() }
    }

    fn value(&mut self, arity: u8) -> u32 {
        let few = self.few(arity);
        self.g.pick(&self.values[..few])
    }

    fn window(&mut self, ends: bool) -> [u32; 4] {
        let g = &mut self.g;
        let steps = if self.aim == Aim::Any { 6 } else { 200 };
        let c = if g.one_in(2) { 0 } else { (g.below(4) as u32 * self.unit + g.below(2) as u32).min(LONGEST_WINDOW - 1) };
        let length = 1 + g.below(steps) as u32 * self.unit + g.below(2) as u32;
        let d = match g.below(12) {
            0 => LONGEST_WINDOW,
            1..=4 if !ends => 0,
            _ => (c + length).min(LONGEST_WINDOW),
        };
        [c, d, 0, 0]
    }

    fn atom(&mut self) -> Node {
        let left = self.g.below(self.arities.len()) as u8;
        let mut n = Node { kind: ATOM, left, right: 0, mask: 0, words: [0; 4] };
        let arity = self.arities[left as usize];
        for k in 0..arity as usize {
            if self.aim == Aim::Raised {
                // each column its own variable, so that every row is a valuation
                n.words[k] = k as u32;
            } else if self.g.one_in(6) {
                n.mask |= 1 << k;
                n.words[k] = self.value(arity);
            } else {
                n.words[k] = self.g.below(self.variables) as u32;
            }
        }
        n
    }

    // `below` is the child's kind.
    fn one_child(&mut self, left: u8, below: u8, free: [bool; 4]) -> Node {
        let variables: Vec<u32> = (0..4).filter(|v| free[*v as usize]).collect();
        let kinds: &[u8] = match self.aim {
            Aim::Raised if below == ATOM => &[EVENTUALLY],
            Aim::Raised if below == EVENTUALLY => &[ONCE, ONCE, ONCE, NEXT],
            Aim::Open => &[KEEP, SHIFTED, EXISTS, PREVIOUS, NEXT, NEXT, ONCE, EVENTUALLY, EVENTUALLY, EVENTUALLY],
            Aim::Kept => &[KEEP, SHIFTED, EXISTS, PREVIOUS, NEXT, ONCE, ONCE, ONCE, EVENTUALLY, EVENTUALLY],
            _ => &[KEEP, SHIFTED, EXISTS, PREVIOUS, NEXT, ONCE, EVENTUALLY],
        };
        let mut n = Node { kind: self.g.pick(kinds), left, right: 0, mask: 0, words: [0; 4] };
        match n.kind {
            KEEP => {
                n.right = self.g.below(4) as u8;
                for k in 0..2 {
                    if variables.is_empty() || self.g.one_in(2) {
                        n.mask |= 1 << k;
                        n.words[k] = self.value(1);
                    } else {
                        n.words[k] = self.g.pick(&variables);
                    }
                }
            }
            SHIFTED => {
                // values that the terms may have
                let mut met = [0; 2];
                for k in 0..2 {
                    met[k] = self.value(1);
                    if variables.is_empty() || self.g.one_in(3) {
                        met[k] = if self.g.one_in(3) { self.g.pick(&[0, ZERO, u32::MAX]) } else { met[k] };
                        n.mask |= 1 << k;
                        n.words[k] = met[k];
                    } else {
                        n.words[k] = self.g.pick(&variables);
                    }
                }
                n.words[2] = self.shift(met);
            }
            EXISTS if variables.is_empty() => {
                n.kind = ONCE;
                n.words = self.window(false);
            }
            EXISTS => n.words[0] = self.g.pick(&variables),
            _ => n.words = self.window(n.kind == EVENTUALLY),
        }
        n
    }

    // The k of a "keep-shifted": one that brings the first of these values to the second, one less or one more; one at an end of
    // what a word holds; or a small one. As two's complement.
    fn shift(&mut self, [first, second]: [u32; 2]) -> u32 {
        let g = &mut self.g;
        let k = match g.below(4) {
            0 => g.pick(&[0, 1, -1, 250, -250, i32::MIN, i32::MIN + 1, i32::MAX - 1, i32::MAX]),
            1 => g.below(9) as i32 - 4,
            _ => {
                let apart = second as i64 - first as i64 + g.below(3) as i64 - 1;
                apart.clamp(i32::MIN as i64, i32::MAX as i64) as i32
            }
        };
        k as u32
    }

    fn two_children(&mut self, a: (u8, [bool; 4]), b: (u8, [bool; 4])) -> Node {
        let within = |s: [bool; 4], t: [bool; 4]| (0..4).all(|v| t[v] || !s[v]);
        let mut kinds = vec![AND];
        if within(b.1, a.1) {
            kinds.extend([AND_NOT, AND_NOT]);
        }
        if a.1 == b.1 {
            kinds.extend([OR, OR]);
        }
        if within(a.1, b.1) {
            kinds.extend([SINCE, NOT_SINCE, UNTIL, NOT_UNTIL]);
        }
        let kind = self.g.pick(&kinds);
        let words = if kind >= SINCE { self.window(kind >= UNTIL) } else { [0; 4] };
        Node { kind, left: a.0, right: b.0, mask: 0, words }
    }

    // An accepted rule: nodes are put down in file order, each on trees that have no parent yet, so that the trees grow
    // between one another and the last node joins all that is left.
    pub fn rule(&mut self) -> Rule {
        let nodes = match self.g.below(12) {
            _ if self.aim == Aim::Raised => self.g.from(3, 5),
            0 => self.g.from(9, 32),
            1 => 32,
            2..=4 => self.g.from(5, 8),
            _ => self.g.from(1, 5),
        };
        let mut rule = Rule { arities: self.arities.clone(), nodes: vec![] };
        let mut free: Vec<[bool; 4]> = vec![];
        let mut roots: Vec<u8> = vec![];
        for x in 0..nodes {
            let later = nodes - 1 - x;
            let choice = self.g.below(3);
            let n = if roots.is_empty() || (roots.len() <= later && choice == 0) {
                self.atom()
            } else {
                let a = roots.swap_remove(self.g.below(roots.len()));
                if !roots.is_empty() && (roots.len() > later || choice == 1) {
                    let b = roots.swap_remove(self.g.below(roots.len()));
                    self.two_children((a, free[a as usize]), (b, free[b as usize]))
                } else {
                    self.one_child(a, rule.nodes[a as usize].kind, free[a as usize])
                }
            };
            free.push(free_variables(&rule, &n, &free));
            rule.nodes.push(n);
            roots.push(x as u8);
        }
        rule
    }

    pub fn first_time(&mut self) -> u32 {
        let g = &mut self.g;
        match g.below(16) {
            0 => 0,
            1 => u32::MAX - g.below(3) as u32,
            2 => u32::MAX - (g.below(100) as u32 * self.unit),
            3..=5 => g.next() as u32,
            _ => g.below(1_000) as u32,
        }
    }

    // Times of the windows in the rule, one less and one more.
    fn edge(&mut self, rule: &Rule) -> u32 {
        let n = rule.nodes[self.g.below(rule.nodes.len())];
        let at = n.words[self.g.below(2)];
        if n.has_window() { (at + self.g.below(3) as u32).saturating_sub(1) } else { 0 }
    }

    pub fn step(&mut self, rule: &Rule, open: usize) -> u32 {
        let long: u32 = rule.nodes.iter().filter(|n| n.is_future()).map(|n| n.words[1]).sum();
        let choices = match self.aim {
            _ if open >= 32 => 4,
            Aim::Open | Aim::Raised => 40,
            _ => 14,
        };
        match self.g.below(choices) {
            0 => long,
            1 => self.g.below(1 + long as usize) as u32,
            2 | 3 => self.edge(rule),
            4 => self.g.below(4) as u32 * self.unit + 1,
            5..=7 => 0,
            8 | 9 => 1,
            _ if self.aim == Aim::Raised => self.unit,
            _ => self.g.below(2) as u32 * self.unit,
        }
    }

    pub fn rows(&mut self) -> Vec<Row> {
        let m = match (self.aim, self.g.below(16)) {
            (_, 0) => 0,
            (_, 1) => self.g.from(0, 32),
            (Aim::Kept, _) => self.g.from(16, 32),
            (Aim::Raised, 2 | 3) => return self.all_rows(),
            (Aim::Raised, _) => self.g.from(0, 1),
            (Aim::Rows, 2..=8) => self.g.from(16, 32),
            (Aim::Rows, _) => self.g.from(1, 20),
            _ => self.g.from(0, 6),
        };
        let mut rows: Vec<Row> = vec![];
        for _ in 0..m {
            let relation = self.g.below(self.arities.len());
            let arity = self.arities[relation];
            let row = (relation as u32, (0..arity).map(|_| self.value(arity)).collect());
            let again = !rows.is_empty() && self.g.one_in(12);
            rows.push(if again { rows[self.g.below(rows.len())].clone() } else { row });
        }
        rows
    }

    // The rows of a relation of every value there may be, as many as an event has.
    fn all_rows(&mut self) -> Vec<Row> {
        let relation = self.g.below(self.arities.len());
        let (arity, few) = (self.arities[relation] as usize, self.few(self.arities[relation]));
        let row = |k: usize| (relation as u32, (0..arity).map(|c| self.values[k / few.pow(c as u32) % few]).collect());
        (0..few.pow(arity as u32).min(32)).map(row).collect()
    }

    // The time of a notice: often that of a window's end for which a point waits, a second before it or after it; also the
    // latest known one, later ones up to the last that there is, and now and then one below the latest.
    pub fn notice(&mut self, log: &Log, time: u32) -> u32 {
        let latest = log.latest().unwrap_or(time);
        let ends = window_ends(log);
        match self.g.below(64) {
            0..=3 => latest.saturating_sub(1 + self.g.below(5) as u32),
            4..=11 => latest,
            12..=47 if !ends.is_empty() => {
                // where points are to pile up only the first is settled
                let which = if self.aim == Aim::Raised { [0; 3] } else { [0, self.g.below(ends.len()), ends.len() - 1] };
                let end = ends[self.g.pick(&which)];
                (end - 1).saturating_add(self.g.below(3) as u32)
            }
            60..=62 => latest.saturating_add(LONGEST_WINDOW + self.g.below(2) as u32),
            63 if self.g.one_in(4) => u32::MAX,
            _ => latest.saturating_add(self.step(&log.meaning.rule, 0)),
        }
    }

    // Words that are mostly to be refused by 9, 10 or 11.
    pub fn damage(&mut self, event: &mut Vec<u32>, last: Option<u32>) {
        let g = &mut self.g;
        let m = event[1] as usize;
        match g.below(9) {
            0 => event.truncate(g.below(event.len())),
            1 => event.truncate(g.below(2)),
            2 => (0..=g.below(5)).for_each(|_| event.push(0)),
            3 => {
                // 33 rows, all there
                event.truncate(2);
                event[1] = 33;
                event.resize(2 + 5 * 33, 0);
            }
            4 => event[1] = g.pick(&[m as u32 + 1, 32, 33, u32::MAX, 0x3333_3333]),
            5 | 6 if m > 0 => {
                for _ in 0..g.from(1, 2) {
                    event[2 + g.below(m)] = g.pick(&[self.arities.len() as u32, 8, 256, u32::MAX]);
                }
            }
            7 if m > 0 => {
                for _ in 0..g.from(1, 2) {
                    event[2 + m + g.below(4 * m)] = g.pick(&[1, 256, u32::MAX]);
                }
            }
            _ => event[0] = last.map_or(event[0], |t| t.saturating_sub(1 + g.below(5) as u32)),
        }
    }

    // One taking in so many is a notice, or none. Where nothing waits for a time few are enough, and where points are to pile up
    // they are not to be settled too soon.
    pub fn notices(&mut self, rule: &Rule) -> Option<usize> {
        let often: &[Option<usize>] = match self.aim {
            _ if !rule.nodes.iter().any(|n| n.is_future()) => &[None, Some(10)],
            Aim::Open | Aim::Kept => &[None, Some(10), Some(20)],
            Aim::Raised => &[Some(5), Some(8)],
            _ => &[None, Some(2), Some(3), Some(5)],
        };
        self.g.pick(often)
    }

    pub fn room(&mut self) -> Room {
        match self.g.below(16) {
            0 => Room::Empty,
            1 => Room::Short,
            2 => Room::Full,
            3..=6 => Room::Long(self.g.from(1, 40)),
            _ => Room::Exact,
        }
    }

    // Whether lists are steered by a figure.
    pub fn steers(&self) -> bool {
        matches!(self.aim, Aim::Rows | Aim::Kept | Aim::Raised)
    }

    // As many of the rows as bring the aimed figure to its limit or one past it, where there are so many.
    pub fn steered(&mut self, log: &Log, time: u32, rows: &[Row]) -> Option<usize> {
        let aim = self.aim;
        let distance = |m: usize| past_limit(aim, &reckon(log, Point { time, rows: rows[..m].to_vec() }));
        if !distance(rows.len()).is_some_and(|far| far >= 0) {
            return None;
        }
        let past = !self.g.one_in(4) as isize;
        [past, 1 - past].iter().find_map(|p| (0..=rows.len()).find(|m| distance(*m) == Some(*p)))
    }

    // A window's end at which a notice brings the aimed figure to its limit or past it, where one of the last few does.
    pub fn steered_notice(&self, log: &Log) -> Option<u32> {
        let reaches = |end: &u32| past_limit(self.aim, &reckon_notice(log, *end)).is_some_and(|past| past >= 0);
        window_ends(log).into_iter().rev().take(6).find(reaches)
    }
}

// How far the aimed figure is past its limit, where no other refusal comes before.
fn past_limit(aim: Aim, r: &Reckoned) -> Option<isize> {
    match (aim, r.refusal) {
        (Aim::Rows, None | Some((13, _))) => Some(r.most_rows() as isize - MOST_ROWS as isize),
        (Aim::Kept | Aim::Raised, None | Some((15, _))) => Some(r.kept as isize - MOST_KEPT as isize),
        _ => None,
    }
}

// The times, later than the latest known, at which a window ends for a point that the window's node hasn't settled; ascending.
pub fn window_ends(log: &Log) -> Vec<u32> {
    let mut ends = vec![];
    for (x, n) in log.meaning.rule.nodes.iter().enumerate().filter(|(_, n)| n.is_future()) {
        let unsettled = (0..log.size()).filter(|i| !log.settled(x, *i));
        ends.extend(unsettled.filter_map(|i| log.points[i].time.checked_add(n.words[1])));
    }
    ends.retain(|end| log.latest().is_some_and(|latest| latest < *end));
    ends.sort();
    ends.dedup();
    ends
}

// How many words are lent for a report that needs some.
#[derive(Clone, Copy)]
pub enum Room {
    Empty,
    Short,
    Exact,
    Long(usize),
    Full,
    Words(usize),
}

impl Room {
    pub fn words(self, needed: usize) -> usize {
        match self {
            Room::Empty => 0,
            Room::Short => needed - 1,
            Room::Exact => needed,
            Room::Long(more) => needed + more,
            Room::Full => LONGEST_REPORT,
            Room::Words(n) => n,
        }
    }
}

// A change to words of the state that are in use.
pub fn disturb(g: &mut Random, s: &mut State) {
    let change = |g: &mut Random, w: u32| match g.below(4) {
        0 => w.wrapping_add(1),
        1 => w.wrapping_sub(1),
        2 => g.pick(&[0, 1, 64, 65, 512, 513, 10_000_000, 10_000_001, u32::MAX]),
        _ => g.next() as u32,
    };
    let (bytes, retained, count) = (s.bytes as usize, s.retained as usize, s.count as usize);
    match g.below(14) {
        0 if (1..=RULE_BYTES).contains(&bytes) => s.rule[g.below(bytes)] ^= 1 << g.below(8),
        1 => s.bytes = change(g, s.bytes),
        2 => s.points = change(g, s.points),
        3 => s.retained = change(g, s.retained),
        4 => s.count = change(g, s.count),
        5 | 6 if (1..=RETAINED).contains(&retained) => {
            let k = g.below(retained);
            s.times[k] = change(g, s.times[k]);
        }
        7 => s.latest = change(g, s.latest),
        // a little before the last retained time, or as much later as a window may be long
        8 if (1..=RETAINED).contains(&retained) => {
            let last = s.times[retained - 1];
            s.latest = if g.one_in(2) { last.wrapping_sub(g.below(3) as u32) } else { last.wrapping_add(g.pick(&[1, 5, 60, 1_000, LONGEST_WINDOW])) };
        }
        _ if (1..=ENTRIES).contains(&count) => {
            let (k, other) = (g.below(count), g.below(count));
            let column = 4 * k + g.below(4);
            match g.below(5) {
                0 => s.owners[k] = change(g, s.owners[k]),
                1 => s.numbers[k] = change(g, s.numbers[k]),
                2 | 3 => s.values[column] = change(g, s.values[column]),
                _ => {
                    s.owners.swap(k, other);
                    s.numbers.swap(k, other);
                    (0..4).for_each(|v| s.values.swap(4 * k + v, 4 * other + v));
                }
            }
        }
        _ => move_on(s, g.pick(&[1, 7, 1_000_000])),
    }
}

// The same state after so many more points before it, all settled.
pub fn move_on(s: &mut State, by: u32) {
    s.points = s.points.wrapping_add(by);
    for k in (0..ENTRIES.min(s.count as usize)).filter(|k| s.owners[*k] % 2 == 0) {
        s.numbers[k] = s.numbers[k].wrapping_add(by);
    }
}
