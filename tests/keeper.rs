// The keeper of 01 and of requests 101, 103, 104 and 105, which holds the whole log: Definition 2, "When a point is settled", "What
// is kept", "Take an event", clock notices, images and the shifted comparison, each worked out as it is defined. Written from these
// texts alone; nothing here is shared with the monitor.
#![allow(dead_code)]
use crate::input::*;
use std::cell::RefCell;
use std::cmp::Ordering;
use std::collections::BTreeSet;
use std::ops::Range;
use std::rc::Rc;

pub const MOST_ROWS: usize = 32;
pub const MOST_OPEN: usize = 32;
pub const MOST_KEPT: usize = 512;
pub const MOST_POINTS: usize = 10_000_000;

// A word for each free variable, nothing for the others.
pub type Valuation = [Option<u32>; 4];
pub type Set = BTreeSet<Valuation>;

// ---- the rule

pub struct Meaning {
    pub rule: Rule,
    pub free: Vec<[bool; 4]>,
    reach: Vec<u32>,
    parents: Vec<Option<usize>>,
}

impl Meaning {
    // `rule` is one that "Check a rule" accepts.
    pub fn of(rule: Rule) -> Meaning {
        let mut m = Meaning { free: vec![], reach: vec![], parents: vec![None; rule.nodes.len()], rule };
        for x in 0..m.rule.nodes.len() {
            let n = m.rule.nodes[x];
            n.children().for_each(|c| m.parents[c] = Some(x));
            let below = n.children().map(|c| m.reach[c]).max().unwrap_or(0);
            m.reach.push(if n.is_future() { n.words[1] + below } else { below });
            m.free.push(free_variables(&m.rule, &n, &m.free));
        }
        m
    }

    fn last(&self) -> usize {
        self.rule.nodes.len() - 1
    }

    pub fn reach(&self) -> u32 {
        self.reach[self.last()]
    }

    pub fn pattern_free(&self) -> [bool; 4] {
        self.free[self.last()]
    }
}

// The free variables of a node, given those of the nodes below it.
pub fn free_variables(rule: &Rule, n: &Node, below: &[[bool; 4]]) -> [bool; 4] {
    let of = |c: u8| below[c as usize];
    let mut free = [false; 4];
    match n.kind {
        ATOM => {
            for t in rule.terms(n) {
                if let Term::Variable(v) = t {
                    free[v] = true;
                }
            }
        }
        AND => (0..4).for_each(|v| free[v] = of(n.left)[v] || of(n.right)[v]),
        EXISTS => {
            free = of(n.left);
            free[n.words[0] as usize] = false;
        }
        SINCE..=NOT_UNTIL => free = of(n.right),
        _ => free = of(n.left),
    }
    free
}

fn inside(n: &Node, t: u64) -> bool {
    let (c, d) = (n.words[0] as u64, n.words[1] as u64);
    c <= t && (d == 0 || t < d)
}

fn compares(how: u8, a: u32, b: u32) -> bool {
    match how {
        0 => a == b,
        1 => a != b,
        2 => a < b,
        _ => a >= b,
    }
}

// Whether the first word and k, of which a word is the two's complement, are together less than the second, over whole numbers.
fn shifted_less(first: u32, k: u32, second: u32) -> bool {
    let below_zero = k >= 1 << 31;
    let k = k as i64 - if below_zero { 1 << 32 } else { 0 };
    first as i64 + k < second as i64
}

// The valuation of an atom's terms that a row's values give, if there is one.
fn matched(terms: impl Iterator<Item = Term>, values: &[u32]) -> Option<Valuation> {
    let mut v = [None; 4];
    for (t, value) in terms.zip(values) {
        let agrees = match t {
            Term::Constant(c) => c == *value,
            Term::Variable(x) => *v[x].get_or_insert(*value) == *value,
        };
        if !agrees {
            return None;
        }
    }
    Some(v)
}

fn joined(u: &Valuation, w: &Valuation) -> Option<Valuation> {
    let mut both = *u;
    for x in 0..4 {
        if let Some(value) = w[x] {
            if *both[x].get_or_insert(value) != value {
                return None;
            }
        }
    }
    Some(both)
}

// ---- the log

// A kept entry: its node, 0 for a point or 1 for an age, and that number; and its valuation.
struct Entry {
    owner: [u32; 3],
    valuation: Valuation,
}

pub struct Point {
    pub time: u32,
    pub rows: Vec<Row>,
}

// Points accepted and the latest known time, of a point or a notice, with what was worked out over them so far. Of the notices
// nothing else is asked. What is settled stays settled, with the same valuations, so a log that grows takes this over; `afresh`
// drops it, so that the same can be worked out again on the log as it then is.
#[derive(Clone)]
pub struct Log<'m> {
    pub meaning: &'m Meaning,
    pub points: Vec<Rc<Point>>,
    latest: Option<u32>,
    settled: RefCell<Vec<Vec<bool>>>,
    valuations: RefCell<Vec<Vec<Option<Rc<Set>>>>>,
}

impl<'m> Log<'m> {
    pub fn new(meaning: &'m Meaning) -> Log<'m> {
        Log::of(meaning, vec![], None)
    }

    fn of(meaning: &'m Meaning, points: Vec<Rc<Point>>, latest: Option<u32>) -> Log<'m> {
        let (n, nodes) = (points.len(), meaning.rule.nodes.len());
        let (settled, valuations) = (vec![vec![false; n]; nodes], vec![vec![None; n]; nodes]);
        Log { meaning, points, latest, settled: RefCell::new(settled), valuations: RefCell::new(valuations) }
    }

    pub fn grown(&self, point: Rc<Point>) -> Log<'m> {
        let mut log = self.clone();
        log.latest = Some(point.time);
        log.points.push(point);
        log.settled.get_mut().iter_mut().for_each(|s| s.push(false));
        log.valuations.get_mut().iter_mut().for_each(|s| s.push(None));
        log
    }

    // The log with a notice at its end.
    pub fn noted(&self, time: u32) -> Log<'m> {
        Log { latest: Some(time), ..self.clone() }
    }

    pub fn afresh(&self) -> Log<'m> {
        Log::of(self.meaning, self.points.clone(), self.latest)
    }

    pub fn size(&self) -> usize {
        self.points.len()
    }

    // The latest known time, of a point or a notice, if there is any.
    pub fn latest(&self) -> Option<u32> {
        self.latest
    }

    fn time(&self, i: usize) -> u64 {
        self.points[i].time as u64
    }

    fn node(&self, x: usize) -> &'m Node {
        &self.meaning.rule.nodes[x]
    }

    // ---- when a point is settled

    pub fn settled(&self, x: usize, i: usize) -> bool {
        if i >= self.size() {
            return false;
        }
        let known = self.settled.borrow()[x][i];
        let settled = known || self.settles(x, i);
        self.settled.borrow_mut()[x][i] = settled;
        settled
    }

    fn settles(&self, x: usize, i: usize) -> bool {
        let n = self.node(x);
        let children = |j: usize| n.children().all(|c| self.settled(c, j));
        match n.kind {
            ATOM => true,
            PREVIOUS => i == 0 || children(i - 1),
            NEXT => children(i + 1),
            SINCE | NOT_SINCE | ONCE => (0..=i).all(children),
            UNTIL | NOT_UNTIL | EVENTUALLY => {
                let end = self.time(i) + n.words[1] as u64;
                let reached = self.latest.is_some_and(|t| t as u64 >= end);
                reached && (i..self.size()).filter(|j| self.time(*j) < end).all(children)
            }
            _ => children(i),
        }
    }

    // ---- Definition 2

    // The valuations that satisfy node x at point i, which is settled for x.
    pub fn valuations(&self, x: usize, i: usize) -> Rc<Set> {
        let known = self.valuations.borrow()[x][i].clone();
        known.unwrap_or_else(|| {
            assert!(self.settled(x, i));
            let set = Rc::new(self.satisfying(x, i));
            self.valuations.borrow_mut()[x][i] = Some(set.clone());
            set
        })
    }

    fn satisfying(&self, x: usize, i: usize) -> Set {
        let n = self.node(x);
        let left = |j| self.valuations(n.left as usize, j);
        let right = |j| self.valuations(n.right as usize, j);
        match n.kind {
            ATOM => {
                let rows = self.points[i].rows.iter().filter(|r| r.0 == n.left as u32);
                rows.filter_map(|r| matched(self.meaning.rule.terms(n), &r.1)).collect()
            }
            AND => {
                let (us, ws) = (left(i), right(i));
                us.iter().flat_map(|u| ws.iter().filter_map(move |w| joined(u, w))).collect()
            }
            AND_NOT => left(i).iter().filter(|u| !self.holds(n.right, i, u)).copied().collect(),
            KEEP | SHIFTED => {
                let fits = |u: &Valuation| {
                    let word = |t| match t {
                        Term::Constant(c) => c,
                        Term::Variable(v) => u[v].unwrap(),
                    };
                    let words: Vec<u32> = self.meaning.rule.terms(n).map(word).collect();
                    match n.kind {
                        SHIFTED => shifted_less(words[0], n.words[2], words[1]),
                        _ => compares(n.right, words[0], words[1]),
                    }
                };
                left(i).iter().filter(|u| fits(u)).copied().collect()
            }
            OR => left(i).union(&right(i)).copied().collect(),
            EXISTS => {
                let without = |u: &Valuation| {
                    let mut rest = *u;
                    rest[n.words[0] as usize] = None;
                    rest
                };
                left(i).iter().map(without).collect()
            }
            PREVIOUS if i > 0 && inside(n, self.time(i) - self.time(i - 1)) => (*left(i - 1)).clone(),
            NEXT if i + 1 < self.size() && inside(n, self.time(i + 1) - self.time(i)) => (*left(i + 1)).clone(),
            PREVIOUS | NEXT => Set::new(),
            SINCE | NOT_SINCE | ONCE => {
                let within = (0..=i).filter(|j| inside(n, self.time(i) - self.time(*j)));
                within.flat_map(|j| self.lasting(n, j, j + 1..i + 1)).collect()
            }
            _ => {
                let within = (i..self.size()).filter(|j| inside(n, self.time(*j) - self.time(i)));
                within.flat_map(|j| self.lasting(n, j, i..j)).collect()
            }
        }
    }

    // Whether node x holds at j for what the valuation says of x's free variables.
    fn holds(&self, x: u8, j: usize, u: &Valuation) -> bool {
        let mut own = *u;
        for v in 0..4 {
            if !self.meaning.free[x as usize][v] {
                own[v] = None;
            }
        }
        self.valuations(x as usize, j).contains(&own)
    }

    // Right's valuations at j for which left holds, or is denied, at each point between; left's alone where left is always true.
    fn lasting(&self, n: &Node, j: usize, between: Range<usize>) -> Vec<Valuation> {
        match n.kind {
            ONCE | EVENTUALLY => self.valuations(n.left as usize, j).iter().copied().collect(),
            _ => {
                let wanted = n.kind == SINCE || n.kind == UNTIL;
                let lasts = |u: &&Valuation| between.clone().all(|k| self.holds(n.left, k, u) == wanted);
                self.valuations(n.right as usize, j).iter().filter(lasts).copied().collect()
            }
        }
    }

    // ---- what is kept

    // The pairs of valuation and age at point i, for a node of kind 9, 10 or 13.
    fn pairs(&self, n: &Node, i: usize) -> BTreeSet<(Valuation, u64)> {
        let (c, d) = (n.words[0] as u64, n.words[1] as u64);
        let mut pairs = BTreeSet::new();
        for j in 0..=i {
            let age = self.time(i) - self.time(j);
            let counted = if d == 0 { age.min(c) } else { age };
            if d == 0 || age < d {
                pairs.extend(self.lasting(n, j, j + 1..i + 1).into_iter().map(|u| (u, counted)));
            }
        }
        pairs
    }

    // Whether point j of a child is one that an unsettled or future point of `parent` consults.
    fn consulted(&self, parent: usize, least_open: usize, j: usize) -> bool {
        match self.node(parent).kind {
            UNTIL | NOT_UNTIL | EVENTUALLY => j >= least_open,
            PREVIOUS => !self.settled(parent, j + 1),
            NEXT => j > 0 && !self.settled(parent, j - 1),
            _ => !self.settled(parent, j),
        }
    }

    // What is kept, in no order.
    fn entries(&self) -> Vec<Entry> {
        let mut entries = vec![];
        for x in 0..=self.meaning.last() {
            let n = self.node(x);
            let settled: Vec<usize> = (0..self.size()).filter(|i| self.settled(x, *i)).collect();
            if let (true, Some(i)) = (n.is_past(), settled.last()) {
                entries.extend(self.pairs(n, *i).into_iter().map(|(valuation, age)| Entry { owner: [x as u32, 1, age as u32], valuation }));
            }
            if let Some(parent) = self.meaning.parents[x] {
                let least_open = (0..).find(|i| !self.settled(parent, *i)).unwrap();
                for j in settled.iter().filter(|j| self.consulted(parent, least_open, **j)) {
                    let of_point = |valuation: &Valuation| Entry { owner: [x as u32, 0, *j as u32], valuation: *valuation };
                    entries.extend(self.valuations(x, *j).iter().map(of_point));
                }
            }
        }
        entries
    }

    pub fn kept(&self) -> usize {
        self.entries().len()
    }

    pub fn open(&self) -> usize {
        (0..self.size()).filter(|i| !self.settled(self.meaning.last(), *i)).count()
    }

    // ---- the image

    // The times of each point that some node hasn't settled and of the last that all have, in point order.
    fn retained(&self) -> Vec<u32> {
        let by_all = |i: &usize| (0..=self.meaning.last()).all(|x| self.settled(x, *i));
        let last = (0..self.size()).rev().find(by_all);
        (0..self.size()).filter(|i| Some(*i) == last || !by_all(i)).map(|i| self.points[i].time).collect()
    }

    // Sizes, owners, values, retained times, and the rule file's bytes, four to a word.
    pub fn image(&self) -> Vec<u32> {
        let (mut entries, times, rule) = (self.entries(), self.retained(), self.meaning.rule.bytes());
        let values = |e: &Entry| -> Vec<u32> { e.valuation.iter().flatten().copied().collect() };
        entries.sort_by(|e, f| e.owner.cmp(&f.owner).then_with(|| in_order(&values(e), &values(f))));
        let mut words = vec![1, self.size() as u32, self.latest.unwrap_or(0), entries.len() as u32, times.len() as u32];
        words.extend(entries.iter().flat_map(|e| e.owner));
        words.extend(entries.iter().flat_map(|e| e.valuation.map(|value| value.unwrap_or(0))));
        words.extend(times);
        words.extend(rule.chunks(4).map(|bytes| bytes.iter().rev().fold(0, |word, byte| word << 8 | *byte as u32)));
        words
    }

    // ---- what is reported

    // The valuations of the pattern at a settled point, in the report's order.
    pub fn rows(&self, i: usize) -> Vec<Vec<u32>> {
        let valuations = self.valuations(self.meaning.last(), i);
        let mut rows: Vec<Vec<u32>> = valuations.iter().map(|u| u.iter().flatten().copied().collect()).collect();
        rows.sort_by(|a, b| in_order(a, b));
        rows
    }
}

// The order of rows with a value for each free variable, lowest first: the lowest ascends, each later one descends.
pub fn in_order(a: &[u32], b: &[u32]) -> Ordering {
    match (a, b) {
        ([x, later @ ..], [y, others @ ..]) => x.cmp(y).then_with(|| others.cmp(later)),
        _ => Ordering::Equal,
    }
}

// ---- taking an event or a notice

// What a taking is fed: an event's words, or a notice's time.
#[derive(Clone)]
pub enum Fed {
    Event(Vec<u32>),
    Notice(u32),
}

pub struct Reported {
    pub point: usize,
    pub time: u32,
    pub rows: Vec<Vec<u32>>,
}

// What is reckoned as if the event or the notice were taken. After a refusal 13 no more is reckoned than the nodes up to its
// place, and after 14 no kept figure.
pub struct Reckoned<'m> {
    pub log: Log<'m>,
    pub newly: Vec<Newly>,
    pub open: usize,
    pub kept: usize,
    pub refusal: Option<(u32, u32)>,
    pub reported: Vec<Reported>,
}

// A point newly settled for a node, and how many valuations the node has there.
pub struct Newly {
    pub node: usize,
    pub point: usize,
    pub rows: usize,
}

impl Reckoned<'_> {
    pub fn most_rows(&self) -> usize {
        self.newly.iter().map(|n| n.rows).max().unwrap_or(0)
    }

    pub fn report(&self) -> Vec<u32> {
        let free = self.log.meaning.pattern_free().iter().filter(|f| **f).count();
        let total: usize = self.reported.iter().map(|r| r.rows.len()).sum();
        let mut words = vec![self.reported.len() as u32, free as u32, total as u32];
        for r in &self.reported {
            words.extend([r.point as u32, r.time, r.rows.len() as u32]);
        }
        words.extend(self.reported.iter().flat_map(|r| r.rows.concat()));
        words
    }
}

// The point that the event's words are, or a refusal from 9 to 12.
pub fn point_of(log: &Log, event: &[u32]) -> Result<Point, (u32, u32)> {
    if event.len() < 2 || event[1] > 32 || event.len() != 2 + 5 * event[1] as usize {
        return Err((9, 0));
    }
    let (time, m) = (event[0], event[1] as usize);
    let arities = &log.meaning.rule.arities;
    let mut rows = vec![];
    for k in 0..m {
        let (relation, columns) = (event[2 + k], &event[2 + m + 4 * k..][..4]);
        match arities.get(relation as usize) {
            Some(a) if columns[*a as usize..].iter().all(|w| *w == 0) => rows.push((relation, columns[..*a as usize].to_vec())),
            _ => return Err((10, k as u32)),
        }
    }
    not_below(log, time)?;
    if log.size() >= MOST_POINTS {
        return Err((12, 0));
    }
    Ok(Point { time, rows })
}

// Refusal 11, of an event or a notice.
fn not_below(log: &Log, time: u32) -> Result<(), (u32, u32)> {
    if log.latest.is_some_and(|latest| time < latest) { Err((11, 0)) } else { Ok(()) }
}

// A refusal from 9 to 12, or what is reckoned; of a notice 9, 10 and 12 ask nothing.
pub fn fed<'m>(log: &Log<'m>, fed: &Fed) -> Result<Reckoned<'m>, (u32, u32)> {
    match fed {
        Fed::Event(words) => point_of(log, words).map(|p| reckon(log, p)),
        Fed::Notice(time) => not_below(log, *time).map(|()| reckon_notice(log, *time)),
    }
}

pub fn reckon<'m>(old: &Log<'m>, point: Point) -> Reckoned<'m> {
    weighed(old, old.grown(Rc::new(point)), true)
}

// The same for a notice that isn't below the latest known time; 14 isn't tested on it.
pub fn reckon_notice<'m>(old: &Log<'m>, time: u32) -> Reckoned<'m> {
    weighed(old, old.noted(time), false)
}

// Refusals 13 to 15, and what would be reported.
fn weighed<'m>(old: &Log<'m>, log: Log<'m>, of_event: bool) -> Reckoned<'m> {
    let last = log.meaning.last();
    let mut all = Reckoned { log, newly: vec![], open: 0, kept: 0, refusal: None, reported: vec![] };
    let log = &all.log;
    for node in 0..=last {
        for point in (0..log.size()).filter(|i| !old.settled(node, *i) && log.settled(node, *i)) {
            let rows = log.valuations(node, point).len();
            all.newly.push(Newly { node, point, rows });
        }
        if all.newly.iter().any(|n| n.rows > MOST_ROWS) {
            all.refusal = Some((13, node as u32));
            return all;
        }
    }
    all.open = log.open();
    if of_event && all.open > MOST_OPEN {
        all.refusal = Some((14, 0));
        return all;
    }
    all.kept = log.kept();
    if all.kept > MOST_KEPT {
        all.refusal = Some((15, 0));
    }
    for i in all.newly.iter().filter(|n| n.node == last).map(|n| n.point) {
        all.reported.push(Reported { point: i, time: log.points[i].time, rows: log.rows(i) });
    }
    all
}
