//! A monitor as it is written by hand, for speed, with nothing proved: Vec, VecDeque and BTreeMap, general over the fifteen
//! kinds. It takes accepted rules, events in form and notices, has no limits, and gives the words of the report.
use std::collections::{BTreeMap, VecDeque};

type Row = [u32; 4];
type Set = Vec<Row>; // ascending, each once; 0 at variables that aren't free
type Mask = [u32; 4]; // variables: all bits where one is among them

pub struct Monitor {
    nodes: Vec<Node>,
    columns: Vec<usize>,
    clock: Clock,
    spare: Spare,
    reported: u32,
    report: Vec<u32>,
}

/// The times of the points from `base` on, and the latest known time, of a point or a notice.
struct Clock {
    times: VecDeque<u32>,
    base: usize,
    points: usize,
    latest: u32,
}

/// Emptied sets, so that their memory is used again.
struct Spare(Vec<Set>);

struct Node {
    op: Op,
    free: Mask,
    settled: usize,
    /// The newest sets, up to the last settled point, that the parent hasn't taken.
    out: VecDeque<Set>,
}

enum Op {
    Atom { relation: u32, terms: Vec<Term> },
    And { left: usize, right: usize, shared: Mask, added: Mask },
    AndNot { left: usize, right: usize, cut: Mask },
    Keep { left: usize, how: u8, terms: [Term; 2] },
    Shifted { left: usize, by: i32, terms: [Term; 2] },
    Or { left: usize, right: usize },
    Exists { left: usize },
    Previous { left: usize, window: Window },
    Next { left: usize, window: Window, skipped: bool },
    Past { left: Option<Left>, right: usize, window: Window, since: Since },
    Future { left: Option<Left>, right: usize, window: Window, until: Until },
}

#[derive(Clone, Copy)]
enum Term {
    Constant(u32),
    Variable(usize),
}

/// The left child of since and until, the variables that are free in it, and whether it is denied.
struct Left {
    node: usize,
    cut: Mask,
    denied: bool,
}

#[derive(Clone, Copy)]
struct Window {
    start: u32,
    end: Option<u32>,
}

/// For each valuation, the times at which right held and since which left has lasted.
enum Since {
    /// A window from 0 on: the latest is enough.
    Latest(BTreeMap<Row, u32>),
    /// A window without end: the earliest is enough.
    Earliest(BTreeMap<Row, u32>),
    /// All, in their order.
    All(BTreeMap<Row, VecDeque<u32>>),
}

#[derive(Default)]
struct Until {
    /// Where left's valuations have held from, up to the last point taken in; or, denied, where they held last.
    left: BTreeMap<Row, usize>,
    /// Right's valuations at the points from the first unsettled one on, each with the first point from which left lasts.
    right: VecDeque<Vec<(Row, usize)>>,
    spare: Vec<Vec<(Row, usize)>>,
    taken: usize,
}

impl Window {
    fn has(&self, t: u32) -> bool {
        self.start <= t && self.end.is_none_or(|d| t < d)
    }
}

impl Clock {
    fn time(&self, i: usize) -> u32 {
        self.times[i - self.base]
    }

    fn gap(&self, i: usize) -> u32 {
        self.time(i) - self.time(i - 1)
    }
}

impl Spare {
    fn set(&mut self) -> Set {
        self.0.pop().unwrap_or_default()
    }

    fn put(&mut self, mut set: Set) {
        set.clear();
        self.0.push(set);
    }
}

/// The row with 0 at variables that aren't among these.
fn cut(row: &Row, variables: Mask) -> Row {
    std::array::from_fn(|k| row[k] & variables[k])
}

fn contains(set: &[Row], row: &Row) -> bool {
    if set.len() <= 8 { set.contains(row) } else { set.binary_search(row).is_ok() }
}

fn tidy(set: &mut Set) {
    if !set.is_sorted_by(|a, b| a < b) {
        set.sort_unstable();
        set.dedup();
    }
}

fn word(row: &Row, term: Term) -> u32 {
    match term {
        Term::Constant(c) => c,
        Term::Variable(v) => row[v],
    }
}

/// The row of an atom's variables that an event's columns give.
fn matched(terms: &[Term], columns: &[u32]) -> Option<Row> {
    let (mut row, mut bound) = ([0; 4], 0u8);
    for (term, value) in terms.iter().zip(columns) {
        match *term {
            Term::Constant(c) if c != *value => return None,
            Term::Constant(_) => {}
            Term::Variable(v) if bound >> v & 1 == 1 && row[v] != *value => return None,
            Term::Variable(v) => {
                row[v] = *value;
                bound |= 1 << v;
            }
        }
    }
    Some(row)
}

impl Since {
    fn new(window: Window) -> Since {
        match window {
            Window { end: None, .. } => Since::Earliest(BTreeMap::new()),
            Window { start: 0, .. } => Since::Latest(BTreeMap::new()),
            _ => Since::All(BTreeMap::new()),
        }
    }

    /// Grows by a point: left's and right's sets there, and its time. What holds there goes to `out`.
    fn grow(&mut self, left: Option<(&Left, &Set)>, right: &Set, window: Window, now: u32, out: &mut Set) {
        let lasts = |row: &Row| left.is_none_or(|(l, set)| contains(set, &cut(row, l.cut)) != l.denied);
        match self {
            Since::Latest(times) => {
                let end = window.end.unwrap_or(u32::MAX);
                times.retain(|row, t| now - *t < end && lasts(row));
                right.iter().for_each(|row| _ = times.insert(*row, now));
                out.extend(times.keys());
            }
            Since::Earliest(times) => {
                times.retain(|row, _| lasts(row));
                right.iter().for_each(|row| _ = times.entry(*row).or_insert(now));
                out.extend(times.iter().filter(|(_, t)| now - **t >= window.start).map(|(row, _)| row));
            }
            Since::All(times) => {
                times.retain(|row, ts| {
                    while ts.front().is_some_and(|t| !Window { start: 0, ..window }.has(now - t)) {
                        ts.pop_front();
                    }
                    !ts.is_empty() && lasts(row)
                });
                right.iter().for_each(|row| times.entry(*row).or_default().push_back(now));
                out.extend(times.iter().filter(|(_, ts)| now - ts[0] >= window.start).map(|(row, _)| row));
            }
        }
    }
}

impl Until {
    /// Takes in a point: left's and right's sets there.
    fn take(&mut self, left: Option<(&Left, &Set)>, right: &Set, settled: usize) {
        let j = self.taken;
        let from = |row: &Row| match left {
            None => 0,
            Some((l, _)) if l.denied => self.left.get(&cut(row, l.cut)).map_or(0, |k| k + 1),
            Some((l, _)) => *self.left.get(&cut(row, l.cut)).unwrap_or(&j),
        };
        let mut rows = self.spare.pop().unwrap_or_default();
        rows.clear();
        rows.extend(right.iter().map(|row| (*row, from(row))));
        self.right.push_back(rows);
        match left {
            None => {}
            Some((l, set)) if l.denied => {
                self.left.retain(|_, k| *k >= settled);
                self.left.extend(set.iter().map(|row| (*row, j)));
            }
            Some((_, set)) => {
                self.left.retain(|row, _| contains(set, row));
                set.iter().for_each(|row| _ = self.left.entry(*row).or_insert(j));
            }
        }
        self.taken += 1;
    }

    /// What holds at point i, the first unsettled one, whose window's points are all taken in.
    fn settle(&mut self, i: usize, window: Window, clock: &Clock, out: &mut Set) {
        let now = clock.time(i);
        for (k, rows) in self.right.iter().enumerate() {
            let t = clock.time(i + k) - now;
            if window.end.is_some_and(|d| t >= d) {
                break;
            }
            if t >= window.start {
                out.extend(rows.iter().filter(|(_, from)| *from <= i).map(|(row, _)| row));
            }
        }
        self.spare.extend(self.right.pop_front());
        tidy(out);
    }
}

impl Node {
    /// Takes in what the children have settled, and settles what that allows.
    fn step(&mut self, below: &mut [Node], event: &[u32], clock: &Clock, spare: &mut Spare) {
        match &mut self.op {
            Op::Atom { relation, terms } => {
                let m = event[1] as usize;
                let mut out = spare.set();
                for k in (0..m).filter(|k| event[2 + k] == *relation) {
                    out.extend(matched(terms, &event[2 + m + 4 * k..]));
                }
                tidy(&mut out);
                self.out.push_back(out);
                self.settled += 1;
            }
            Op::Previous { left, window } => {
                while self.settled < clock.points {
                    let mut set = spare.set();
                    if self.settled > 0 {
                        let Some(before) = below[*left].out.pop_front() else { break };
                        if window.has(clock.gap(self.settled)) {
                            set.extend(&before);
                        }
                        spare.put(before);
                    }
                    self.out.push_back(set);
                    self.settled += 1;
                }
            }
            Op::Next { left, window, skipped } => {
                while let Some(mut after) = below[*left].out.pop_front() {
                    if !*skipped {
                        *skipped = true;
                        spare.put(after);
                        continue;
                    }
                    if !window.has(clock.gap(self.settled + 1)) {
                        after.clear();
                    }
                    self.out.push_back(after);
                    self.settled += 1;
                }
            }
            Op::Future { left, right, window, until } => {
                while let Some((a, b)) = popped(below, left.as_ref().map(|l| l.node), *right) {
                    until.take(left.as_ref().zip(a.as_ref()), &b, self.settled);
                    a.into_iter().chain([b]).for_each(|set| spare.put(set));
                }
                let known = if until.taken < clock.points { clock.time(until.taken) } else { clock.latest } as u64;
                while self.settled < until.taken && clock.time(self.settled) as u64 + window.end.unwrap_or(0) as u64 <= known {
                    let mut out = spare.set();
                    until.settle(self.settled, *window, clock, &mut out);
                    self.out.push_back(out);
                    self.settled += 1;
                }
            }
            _ => {
                while let Some((a, b)) = self.pop(below) {
                    let mut out = spare.set();
                    self.at_point(&a, b.as_ref(), clock, &mut out);
                    self.out.push_back(out);
                    self.settled += 1;
                    [Some(a), b].into_iter().flatten().for_each(|set| spare.put(set));
                }
            }
        }
    }

    /// The children's sets at the first unsettled point, where both are there: left or the only one, right.
    fn pop(&self, below: &mut [Node]) -> Option<(Set, Option<Set>)> {
        match &self.op {
            Op::And { left, right, .. } | Op::AndNot { left, right, .. } | Op::Or { left, right } => popped(below, Some(*left), *right).map(|(a, b)| (a.unwrap(), Some(b))),
            Op::Past { left: Some(left), right, .. } => popped(below, Some(left.node), *right).map(|(a, b)| (a.unwrap(), Some(b))),
            Op::Past { left: None, right: left, .. } | Op::Keep { left, .. } | Op::Shifted { left, .. } | Op::Exists { left } => below[*left].out.pop_front().map(|a| (a, None)),
            _ => None,
        }
    }

    /// The kinds that look at the children's sets at the point itself.
    fn at_point(&mut self, a: &Set, b: Option<&Set>, clock: &Clock, out: &mut Set) {
        match (&mut self.op, b) {
            (Op::And { shared, added, .. }, Some(b)) => {
                for u in a {
                    let key = cut(u, *shared);
                    for w in b.iter().filter(|w| cut(w, *shared) == key) {
                        let more = cut(w, *added);
                        out.push(std::array::from_fn(|k| u[k] | more[k]));
                    }
                }
                tidy(out);
            }
            (Op::AndNot { cut: free, .. }, Some(b)) => out.extend(a.iter().filter(|u| !contains(b, &cut(u, *free)))),
            (Op::Or { .. }, Some(b)) => {
                out.extend(a.iter().chain(b));
                tidy(out);
            }
            (Op::Past { left: Some(left), window, since, .. }, Some(b)) => since.grow(Some((left, a)), b, *window, clock.time(self.settled), out),
            (Op::Past { window, since, .. }, None) => since.grow(None, a, *window, clock.time(self.settled), out),
            (Op::Keep { how, terms, .. }, _) => {
                let fits = |u: &&Row| {
                    let (s, t) = (word(u, terms[0]), word(u, terms[1]));
                    match how {
                        0 => s == t,
                        1 => s != t,
                        2 => s < t,
                        _ => s >= t,
                    }
                };
                out.extend(a.iter().filter(fits));
            }
            // the second is more than `by` above the first
            (Op::Shifted { by, terms, .. }, _) => out.extend(a.iter().filter(|u| word(u, terms[1]) as i64 - word(u, terms[0]) as i64 > *by as i64)),
            _ => {
                out.extend(a.iter().map(|u| cut(u, self.free)));
                tidy(out);
            }
        }
    }
}

/// The next sets of both children, or of right alone, where they are there.
fn popped(below: &mut [Node], left: Option<usize>, right: usize) -> Option<(Option<Set>, Set)> {
    if below[right].out.is_empty() || left.is_some_and(|l| below[l].out.is_empty()) {
        return None;
    }
    let a = left.and_then(|l| below[l].out.pop_front());
    below[right].out.pop_front().map(|b| (a, b))
}

impl Monitor {
    /// A monitor of an accepted rule file.
    pub fn new(file: &[u8]) -> Monitor {
        let count = file[2] as usize;
        let arities = &file[4..12];
        let mut nodes: Vec<Node> = Vec::new();
        for x in 0..count {
            let head = &file[12 + 4 * x..][..4];
            let body = &file[12 + 4 * count + 16 * x..][..16];
            let words: Row = std::array::from_fn(|k| u32::from_le_bytes(std::array::from_fn(|b| body[4 * k + b])));
            let term = |k: usize| if head[3] >> k & 1 == 1 { Term::Constant(words[k]) } else { Term::Variable(words[k] as usize) };
            let (left, right) = (head[1] as usize, head[2] as usize);
            let free = |x: usize| nodes[x].free;
            let window = Window { start: words[0], end: (words[1] > 0).then_some(words[1]) };
            let lasting = |denied| Some(Left { node: left, cut: free(left), denied });
            let (op, free) = match head[0] {
                1 => {
                    let terms: Vec<Term> = (0..arities[left] as usize).map(term).collect();
                    let has = |v: usize| terms.iter().any(|t| matches!(t, Term::Variable(u) if *u == v));
                    let free = std::array::from_fn(|v| if has(v) { u32::MAX } else { 0 });
                    (Op::Atom { relation: left as u32, terms }, free)
                }
                2 => {
                    let (a, b) = (free(left), free(right));
                    let (shared, added) = (cut(&a, b), std::array::from_fn(|k| b[k] & !a[k]));
                    (Op::And { left, right, shared, added }, std::array::from_fn(|k| a[k] | b[k]))
                }
                3 => (Op::AndNot { left, right, cut: free(right) }, free(left)),
                4 => (Op::Keep { left, how: head[2], terms: [term(0), term(1)] }, free(left)),
                5 => (Op::Or { left, right }, free(left)),
                6 => {
                    let mut rest = free(left);
                    rest[words[0] as usize] = 0;
                    (Op::Exists { left }, rest)
                }
                7 => (Op::Previous { left, window }, free(left)),
                8 => (Op::Next { left, window, skipped: false }, free(left)),
                9 | 10 => (Op::Past { left: lasting(head[0] == 10), right, window, since: Since::new(window) }, free(right)),
                11 | 12 => (Op::Future { left: lasting(head[0] == 12), right, window, until: Until::default() }, free(right)),
                13 => (Op::Past { left: None, right: left, window, since: Since::new(window) }, free(left)),
                15 => (Op::Shifted { left, by: words[2] as i32, terms: [term(0), term(1)] }, free(left)),
                _ => (Op::Future { left: None, right: left, window, until: Until::default() }, free(left)),
            };
            nodes.push(Node { op, free, settled: 0, out: VecDeque::new() });
        }
        let columns = (0..4).filter(|k| nodes[count - 1].free[*k] != 0).collect();
        let clock = Clock { times: VecDeque::new(), base: 0, points: 0, latest: 0 };
        Monitor { nodes, columns, clock, spare: Spare(Vec::new()), reported: 0, report: Vec::new() }
    }

    /// Takes an event and gives the words of the report.
    pub fn take(&mut self, event: &[u32]) -> &[u32] {
        self.clock.times.push_back(event[0]);
        self.clock.points += 1;
        self.clock.latest = event[0];
        for x in 0..self.nodes.len() {
            let (below, above) = self.nodes.split_at_mut(x);
            above[0].step(below, event, &self.clock, &mut self.spare);
        }
        self.finish()
    }

    /// Takes a notice, which gives atoms no point, and gives the words of the report.
    #[allow(dead_code)]
    pub fn notice(&mut self, time: u32) -> &[u32] {
        self.clock.latest = time;
        for x in 0..self.nodes.len() {
            let (below, above) = self.nodes.split_at_mut(x);
            if !matches!(above[0].op, Op::Atom { .. }) {
                above[0].step(below, &[], &self.clock, &mut self.spare);
            }
        }
        self.finish()
    }

    fn finish(&mut self) -> &[u32] {
        self.write_report();
        let least = self.nodes.iter().map(|n| n.settled).min().unwrap_or(0);
        while self.clock.base + 1 < least {
            self.clock.times.pop_front();
            self.clock.base += 1;
        }
        &self.report
    }

    fn write_report(&mut self) {
        let last = self.nodes.len() - 1;
        let sets = &mut self.nodes[last].out;
        // the lowest free variable ascends, each later one descends
        if let [first, later @ ..] = &self.columns[..] {
            let later_of = |row: Row| later.iter().map(move |k| row[*k]);
            sets.iter_mut().for_each(|set| set.sort_unstable_by(|a, b| a[*first].cmp(&b[*first]).then_with(|| later_of(*b).cmp(later_of(*a)))));
        }
        self.report.clear();
        let total: usize = sets.iter().map(Vec::len).sum();
        self.report.extend([sets.len() as u32, self.columns.len() as u32, total as u32]);
        for (k, set) in sets.iter().enumerate() {
            let point = self.reported + k as u32;
            self.report.extend([point, self.clock.time(point as usize), set.len() as u32]);
        }
        for row in sets.iter().flatten() {
            self.report.extend(self.columns.iter().map(|k| row[*k]));
        }
        self.reported += sets.len() as u32;
        sets.drain(..).for_each(|set| self.spare.put(set));
    }
}
