// Checks rule files with the proved code and with an evaluator written here from the text of "The rule file", "Check a rule"
// and request 105, and compares number, place, reach and free variables. Accepted rules are made, damaged, cut and
// lengthened, and random bytes are tried. Words are turned into readings and back. It fails on any difference, and where a
// number, a kind or a damage to a "keep-shifted" was met too rarely.
//
//   tools/build yokemango
//   rustc -O --edition 2021 -L target/staticlib -o target/rules tests/rules.rs
//   target/rules            compare
//   target/rules --time     time one check of a rule of 32 nodes
mod library;

use library::{checked, reading_of, word_of, Checked};
use std::collections::BTreeSet;
use std::process::exit;
use std::time::Instant;

const SEED: u64 = 0x0123_4567_89ab_cdef;
const ROUNDS: usize = 60_000;
const LEAST: u64 = 1_000;
const LONGEST: u32 = 604_800;

fn refuse(number: u32, place: usize) -> Checked {
    Checked { number, place: place as u32, reach: 0, free: 0 }
}

// ---- the evaluator

#[derive(Clone, Copy)]
struct Row {
    kind: u8,
    left: u8,
    right: u8,
    mask: u8,
    words: [u32; 4],
}

fn row(rule: &[u8], nodes: usize, x: usize) -> Row {
    let head = &rule[12 + 4 * x..12 + 4 * x + 4];
    let body = &rule[12 + 4 * nodes + 16 * x..][..16];
    let mut words = [0; 4];
    for (k, w) in body.chunks(4).enumerate() {
        words[k] = u32::from_le_bytes([w[0], w[1], w[2], w[3]]);
    }
    Row { kind: head[0], left: head[1], right: head[2], mask: head[3], words }
}

fn children(r: &Row) -> Vec<usize> {
    match r.kind {
        1 => vec![],
        2 | 3 | 5 | 9..=12 => vec![r.left as usize, r.right as usize],
        _ => vec![r.left as usize],
    }
}

// How many of the first words are terms.
fn terms(r: &Row, arities: &[u8]) -> usize {
    match r.kind {
        1 => arities[r.left as usize] as usize,
        4 | 15 => 2,
        _ => 0,
    }
}

fn variables(r: &Row, arities: &[u8]) -> BTreeSet<u32> {
    (0..terms(r, arities)).filter(|k| r.mask >> k & 1 == 0).map(|k| r.words[k]).collect()
}

// Refusal 4.
fn misshapen(r: &Row, x: usize, relations: u8, arities: &[u8]) -> bool {
    if r.kind < 1 || r.kind > 15 {
        return true;
    }
    if r.kind == 1 && r.left >= relations {
        return true;
    }
    if children(r).iter().any(|c| *c >= x) {
        return true;
    }
    // right: a child, a comparison, or unnamed
    let right_named = children(r).len() == 2 || (r.kind == 4 && r.right <= 3);
    if !right_named && r.right != 0 {
        return true;
    }
    let terms = terms(r, arities);
    if r.mask as u32 >= 1 << terms {
        return true;
    }
    if variables(r, arities).iter().any(|v| *v > 3) {
        return true;
    }
    let named = match r.kind {
        1 | 4 => terms,
        6 => 1,
        7..=14 => 2,
        // the terms and k, of which nothing is asked
        15 => 3,
        _ => 0,
    };
    if r.kind == 6 && r.words[0] > 3 {
        return true;
    }
    r.words[named..].iter().any(|w| *w != 0)
}

// Refusal 5.
fn window_out(r: &Row) -> bool {
    if !(7..=14).contains(&r.kind) {
        return false;
    }
    let (c, d) = (r.words[0], r.words[1]);
    match d {
        0 => [11, 12, 14].contains(&r.kind) || c > LONGEST - 1,
        _ => d <= c || d > LONGEST,
    }
}

fn reach_below(rows: &[Row], x: usize) -> u32 {
    let r = &rows[x];
    let below = children(r).iter().map(|c| reach_below(rows, *c)).max().unwrap_or(0);
    if [11, 12, 14].contains(&r.kind) { r.words[1] + below } else { below }
}

fn expected(rule: &[u8]) -> Checked {
    if rule.len() < 12 {
        return refuse(1, 0);
    }
    if rule[0] != 1 {
        return refuse(2, 0);
    }
    let (relations, nodes) = (rule[1], rule[2] as usize);
    let arities = &rule[4..12];
    let arity_out = (0..8).any(|k| arities[k] > 4 || (k >= relations as usize && arities[k] != 0));
    if !(1..=8).contains(&relations) || !(1..=32).contains(&nodes) || rule[3] != 0 || arity_out {
        return refuse(3, 0);
    }
    if rule.len() != 12 + 20 * nodes {
        return refuse(1, 0);
    }
    let rows: Vec<Row> = (0..nodes).map(|x| row(rule, nodes, x)).collect();
    let mut free: Vec<BTreeSet<u32>> = vec![];
    for (x, r) in rows.iter().enumerate() {
        if misshapen(r, x, relations, arities) {
            return refuse(4, x);
        }
        if window_out(r) {
            return refuse(5, x);
        }
        let of = |c: u8| free[c as usize].clone();
        let (fits, own) = match r.kind {
            1 => (true, variables(r, arities)),
            2 => (true, &of(r.left) | &of(r.right)),
            3 => (of(r.right).is_subset(&of(r.left)), of(r.left)),
            4 | 15 => (variables(r, arities).is_subset(&of(r.left)), of(r.left)),
            5 => (of(r.left) == of(r.right), of(r.left)),
            6 => {
                let mut rest = of(r.left);
                (rest.remove(&r.words[0]), rest)
            }
            9..=12 => (of(r.left).is_subset(&of(r.right)), of(r.right)),
            _ => (true, of(r.left)),
        };
        if !fits {
            return refuse(6, x);
        }
        free.push(own);
    }
    let mut uses = vec![0; nodes];
    for r in &rows {
        for c in children(r) {
            uses[c] += 1;
        }
    }
    if let Some(x) = (0..nodes - 1).find(|x| uses[*x] != 1) {
        return refuse(7, x);
    }
    let mask = free[nodes - 1].iter().map(|v| 1 << v).sum();
    Checked { number: 0, place: 0, reach: reach_below(&rows, nodes - 1), free: mask }
}

// ---- the generator

struct Random(u64);

impl Random {
    fn next(&mut self) -> u64 {
        self.0 = self.0.wrapping_add(0x9e37_79b9_7f4a_7c15);
        let mut z = self.0;
        z = (z ^ (z >> 30)).wrapping_mul(0xbf58_476d_1ce4_e5b9);
        z = (z ^ (z >> 27)).wrapping_mul(0x94d0_49bb_1331_11eb);
        z ^ (z >> 31)
    }

    fn below(&mut self, n: usize) -> usize {
        (self.next() % n as u64) as usize
    }

    fn one_in(&mut self, n: usize) -> bool {
        self.below(n) == 0
    }

    fn pick<T: Copy>(&mut self, of: &[T]) -> T {
        of[self.below(of.len())]
    }
}

struct Rule {
    relations: u8,
    arities: [u8; 8],
    rows: Vec<Row>,
}

impl Rule {
    fn bytes(&self) -> Vec<u8> {
        let mut out = vec![1, self.relations, self.rows.len() as u8, 0];
        out.extend(self.arities);
        for r in &self.rows {
            out.extend([r.kind, r.left, r.right, r.mask]);
        }
        for r in &self.rows {
            for w in r.words {
                out.extend(w.to_le_bytes());
            }
        }
        out
    }
}

fn window(g: &mut Random, ends: bool) -> [u32; 4] {
    let (c, d) = match g.below(if ends { 3 } else { 5 }) {
        0 => (LONGEST - 1, LONGEST),
        1 => (0, 1 + g.below(LONGEST as usize) as u32),
        2 => {
            let c = g.below(LONGEST as usize) as u32;
            (c, c + 1 + g.below((LONGEST - c) as usize) as u32)
        }
        3 => (g.below(LONGEST as usize) as u32, 0),
        _ => (LONGEST - 1, 0),
    };
    [c, d, 0, 0]
}

fn atom(g: &mut Random, rule: &Rule) -> Row {
    let left = g.below(rule.relations as usize) as u8;
    let mut r = Row { kind: 1, left, right: 0, mask: 0, words: [0; 4] };
    for k in 0..rule.arities[left as usize] as usize {
        if g.one_in(3) {
            r.mask |= 1 << k;
            r.words[k] = g.next() as u32;
        } else {
            r.words[k] = g.below(4) as u32;
        }
    }
    r
}

// Words for a constant or for k: at the ends of what a word holds, unsigned and as two's complement, and small ones.
const ANY_WORD: [u32; 12] = [0, 1, 2, 4, 250, 250u32.wrapping_neg(), 1 << 31, (1 << 31) - 1, (1 << 31) + 1, u32::MAX, u32::MAX - 1, LONGEST + 1];

fn one_child(g: &mut Random, left: u8, free: &BTreeSet<u32>) -> Row {
    let vars: Vec<u32> = free.iter().copied().collect();
    let mut r = Row { kind: 0, left, right: 0, mask: 0, words: [0; 4] };
    r.kind = g.pick(&[4, 4, 6, 7, 8, 13, 14, 15, 15]);
    if r.kind == 6 && vars.is_empty() {
        r.kind = 4;
    }
    match r.kind {
        4 | 15 => {
            for k in 0..2 {
                if vars.is_empty() || g.one_in(2) {
                    r.mask |= 1 << k;
                    r.words[k] = if g.one_in(2) { g.next() as u32 } else { g.pick(&ANY_WORD) };
                } else {
                    r.words[k] = g.pick(&vars);
                }
            }
            if r.kind == 4 {
                r.right = g.below(4) as u8;
            } else {
                r.words[2] = if g.one_in(4) { g.next() as u32 } else { g.pick(&ANY_WORD) };
            }
        }
        6 => r.words[0] = g.pick(&vars),
        _ => r.words = window(g, r.kind == 14),
    }
    r
}

// The kinds that two children's free variables allow.
fn two_children(g: &mut Random, a: (u8, &BTreeSet<u32>), b: (u8, &BTreeSet<u32>)) -> Row {
    let mut kinds = vec![2];
    if b.1.is_subset(a.1) {
        kinds.extend([3, 3]);
    }
    if a.1 == b.1 {
        kinds.extend([5, 5]);
    }
    if a.1.is_subset(b.1) {
        kinds.extend([9, 10, 11, 12]);
    }
    let kind = g.pick(&kinds);
    let words = if kind >= 9 { window(g, kind >= 11) } else { [0; 4] };
    Row { kind, left: a.0, right: b.0, mask: 0, words }
}

// An accepted rule: nodes are put down in file order, each on trees that have no parent yet, so that the trees grow
// between one another and the last node joins all that is left.
fn accepted(g: &mut Random) -> Rule {
    let relations = 1 + g.below(8) as u8;
    let mut arities = [0; 8];
    for k in 0..relations as usize {
        arities[k] = g.pick(&[0, 1, 1, 2, 2, 3, 4]);
    }
    let mut rule = Rule { relations, arities, rows: vec![] };
    let nodes = if g.one_in(4) { 32 } else { 1 + g.below(32) };
    let mut open: Vec<u8> = vec![];
    let mut free: Vec<BTreeSet<u32>> = vec![];
    for x in 0..nodes {
        let later = nodes - 1 - x;
        let may_atom = open.len() <= later;
        let must_join = open.len() > later + 1;
        let choice = if open.is_empty() { 0 } else { g.below(3) };
        let r = if open.is_empty() || (may_atom && choice == 0) {
            atom(g, &rule)
        } else if open.len() > 1 && (must_join || choice == 1) {
            let a = open.swap_remove(g.below(open.len()));
            let b = open.swap_remove(g.below(open.len()));
            two_children(g, (a, &free[a as usize]), (b, &free[b as usize]))
        } else {
            let a = open.swap_remove(g.below(open.len()));
            one_child(g, a, &free[a as usize])
        };
        let own: BTreeSet<u32> = match r.kind {
            1 => variables(&r, &rule.arities),
            2 => &free[r.left as usize] | &free[r.right as usize],
            6 => free[r.left as usize].iter().copied().filter(|v| *v != r.words[0]).collect(),
            9..=12 => free[r.right as usize].clone(),
            _ => free[r.left as usize].clone(),
        };
        rule.rows.push(r);
        free.push(own);
        open.push(x as u8);
    }
    rule
}

// What may be done to a node of kind 15, one thing at a time; the last two leave it in shape.
const DAMAGES: [&str; 9] = ["kind 14", "kind 16", "a right", "a mask bit above 1", "a word 3", "variable 4", "a variable above", "any word 2", "two constants"];

// Damages a node of kind 15, where there is one: which of the damages it was.
fn damage_shifted(g: &mut Random, b: &mut [u8]) -> Option<usize> {
    let nodes = b[2] as usize;
    let shifted: Vec<usize> = (0..nodes).filter(|x| b[12 + 4 * x] == 15).collect();
    if shifted.is_empty() {
        return None;
    }
    let x = g.pick(&shifted);
    let (head, body) = (12 + 4 * x, 12 + 4 * nodes + 16 * x);
    let mut put = |k: usize, w: u32| b[body + 4 * k..body + 4 * k + 4].copy_from_slice(&w.to_le_bytes());
    let (term, any) = (g.below(2), g.next() as u32);
    let how = g.below(DAMAGES.len());
    match how {
        0 => b[head] = 14,
        1 => b[head] = 16,
        2 => b[head + 2] = g.pick(&[1, 2, 3, 4, x as u8, 255]),
        3 => b[head + 3] |= 4 << g.below(6),
        4 => put(3, g.pick(&[1, 1 << 31, u32::MAX, any | 1])),
        5 | 6 => {
            put(term, if how == 5 { 4 } else { any.max(5) });
            b[head + 3] &= !(1 << term);
        }
        7 => put(2, any),
        _ => {
            put(0, any);
            b[head + 3] = 3;
        }
    }
    Some(how)
}

fn damage(g: &mut Random, b: &mut [u8]) {
    let nodes = b[2] as usize;
    if b.len() != 12 + 20 * nodes || nodes == 0 {
        let at = g.below(b.len());
        b[at] = g.next() as u8;
        return;
    }
    let x = g.below(nodes);
    let head = 12 + 4 * x;
    let word = 12 + 4 * nodes + 16 * x + 4 * g.below(4);
    let window = 12 + 4 * nodes + 16 * x;
    match g.below(16) {
        0 => b[g.below(12)] = g.pick(&[0, 1, 2, 4, 5, 8, 9, 32, 33, 255]),
        1 => b[head] = g.below(18) as u8,
        2 | 3 => b[head + 1] = g.below(nodes + 1) as u8,
        4 | 5 => b[head + 2] = g.below(nodes + 1) as u8,
        6 => b[head + 1 + g.below(2)] = x as u8,
        7 => b[head + 3] ^= 1 << g.below(8),
        8 => {
            let w = g.pick(&[0, 1, 3, 4, LONGEST - 1, LONGEST, LONGEST + 1, u32::MAX]);
            b[word..word + 4].copy_from_slice(&w.to_le_bytes());
        }
        9 => {
            let w = g.below(5) as u32;
            b[word..word + 4].copy_from_slice(&w.to_le_bytes());
        }
        // an empty window, and one that is too long
        10 => b.copy_within(window..window + 4, window + 4),
        11 => b[window + 4..window + 8].copy_from_slice(&(LONGEST + 1).to_le_bytes()),
        12 => b[window + 4..window + 8].copy_from_slice(&0u32.to_le_bytes()),
        // two nodes change their places
        13 => {
            let y = g.below(nodes);
            for k in 0..4 {
                b.swap(head + k, 12 + 4 * y + k);
            }
            for k in 0..16 {
                b.swap(window + k, 12 + 4 * nodes + 16 * y + k);
            }
        }
        14 => b[word + g.below(4)] ^= 1 << g.below(8),
        _ => {
            let at = g.below(b.len());
            b[at] = g.next() as u8;
        }
    }
}

// ---- the comparison

struct Tally {
    files: u64,
    numbers: [u64; 8],
    kinds: [u64; 16],
    damages: [u64; DAMAGES.len()],
    words: u64,
    differences: u64,
}

impl Tally {
    fn compare(&mut self, rule: &[u8]) -> Checked {
        let (is, should) = (checked(rule), expected(rule));
        if is != should {
            self.differences += 1;
            if self.differences <= 5 {
                println!("difference on {rule:?}: the code says {is:?}, the text {should:?}");
            }
        }
        self.files += 1;
        self.numbers[(should.number as usize).min(7)] += 1;
        if should.number == 0 {
            for x in 0..rule[2] as usize {
                self.kinds[rule[12 + 4 * x] as usize] += 1;
            }
        }
        should
    }

    // A file whose answer is written out here.
    fn is(&mut self, what: &str, rule: &[u8], number: u32, place: u32) {
        let should = self.compare(rule);
        if (should.number, should.place) != (number, place) {
            println!("{what}: expected {number} at {place}, the evaluator says {should:?}");
            self.differences += 1;
        }
    }
}

// An atom and one node above it.
fn over_atom(kind: u8, c: u32, d: u32) -> Vec<u8> {
    let leaf = Row { kind: 1, left: 0, right: 0, mask: 0, words: [0; 4] };
    let top = Row { kind, left: 0, right: 0, mask: 0, words: [c, d, 0, 0] };
    Rule { relations: 1, arities: [1, 0, 0, 0, 0, 0, 0, 0], rows: vec![leaf, top] }.bytes()
}

// A chain of 32 nodes.
fn chain() -> Vec<u8> {
    let mut rows = vec![Row { kind: 1, left: 0, right: 0, mask: 0, words: [0, 1, 2, 3] }];
    for x in 1..32u8 {
        rows.push(Row { kind: 14, left: x - 1, right: 0, mask: 0, words: [0, LONGEST, 0, 0] });
    }
    Rule { relations: 1, arities: [4, 0, 0, 0, 0, 0, 0, 0], rows }.bytes()
}

fn limits(t: &mut Tally) {
    t.is("the longest window", &over_atom(13, 0, LONGEST), 0, 0);
    t.is("one second longer", &over_atom(13, 0, LONGEST + 1), 5, 1);
    t.is("the latest start with no end", &over_atom(13, LONGEST - 1, 0), 0, 0);
    t.is("one second later", &over_atom(13, LONGEST, 0), 5, 1);
    t.is("an empty window", &over_atom(13, 7, 7), 5, 1);
    t.is("eventually with no end", &over_atom(14, 0, 0), 5, 1);
    t.is("next with no end", &over_atom(8, 0, 0), 0, 0);
    t.is("exists of a variable that isn't free", &over_atom(6, 1, 0), 6, 1);
    t.is("no bytes", &[], 1, 0);
    let mut one = over_atom(13, 0, 1);
    one[12 + 5] = 1;
    t.is("a child equal to the node", &one, 4, 1);
    let deep = chain();
    t.is("a chain of 32", &deep, 0, 0);
    assert_eq!(expected(&deep), Checked { number: 0, place: 0, reach: 31 * LONGEST, free: 15 });
}

// An atom of variable 0 and a node of kind 15 above it.
fn shifted_over_atom(right: u8, mask: u8, words: [u32; 4]) -> Vec<u8> {
    let leaf = Row { kind: 1, left: 0, right: 0, mask: 0, words: [0; 4] };
    let top = Row { kind: 15, left: 0, right, mask, words };
    Rule { relations: 1, arities: [1, 0, 0, 0, 0, 0, 0, 0], rows: vec![leaf, top] }.bytes()
}

// The same with another kind.
fn as_kind(kind: u8, mut rule: Vec<u8>) -> Vec<u8> {
    rule[12 + 4] = kind;
    rule
}

// Kind 15 at its edges.
fn shifted(t: &mut Tally) {
    for k in [0, 1, 250, 0x7fff_ffff, 0x8000_0000, 0xffff_ffff, 250u32.wrapping_neg(), LONGEST, LONGEST + 1] {
        t.is("any word 2", &shifted_over_atom(0, 0, [0, 0, k, 0]), 0, 0);
        t.is("the same with two constants", &shifted_over_atom(0, 3, [u32::MAX, 0, k, 0]), 0, 0);
        let (number, place) = if k == 0 { (0, 0) } else { (4, 1) };
        t.is("a word 2 of kind 4", &as_kind(4, shifted_over_atom(0, 0, [0, 0, k, 0])), number, place);
    }
    // an empty window, one that is too long, and one that has no end and begins too late
    for (c, d) in [(7, 7), (8, 7), (0, LONGEST + 1), (LONGEST, 0), (u32::MAX, u32::MAX)] {
        t.is("constants that are no window", &shifted_over_atom(0, 3, [c, d, 5, 0]), 0, 0);
    }
    for bit in 2..8 {
        for mask in 0..4 {
            t.is("a mask bit above 1", &shifted_over_atom(0, mask | 1 << bit, [0; 4]), 4, 1);
        }
    }
    for right in 1..=255 {
        t.is("a right that isn't 0", &shifted_over_atom(right, 0, [0; 4]), 4, 1);
    }
    for k in 0..32 {
        t.is("a word 3", &shifted_over_atom(0, 0, [0, 0, 0, 1 << k]), 4, 1);
    }
    for (mask, words, number) in [
        (0, [0, 1, 0, 0], 6),
        (0, [3, 0, 0, 0], 6),
        (0, [0, 4, 0, 0], 4),
        (0, [4, 0, 0, 0], 4),
        (0, [u32::MAX, 0, 0, 0], 4),
        (1, [4, 0, 0, 0], 0),
        (1, [0, 4, 0, 0], 4),
        (1, [4, 1, 0, 0], 6),
        (2, [0, 4, 0, 0], 0),
        (2, [4, 0, 0, 0], 4),
        (2, [1, 4, 0, 0], 6),
        (3, [4, u32::MAX, 0, 0], 0),
        (4, [0, 1, 0, 0], 4),
        (0, [0, 1, 0, 1], 4),
    ] {
        t.is("terms", &shifted_over_atom(0, mask, words), number, (number != 0) as u32);
    }
    let mut of_itself = shifted_over_atom(0, 0, [0; 4]);
    of_itself[12 + 5] = 1;
    t.is("a child equal to the node", &of_itself, 4, 1);
    for kind in 16..=255 {
        t.is("an unknown kind", &as_kind(kind, shifted_over_atom(0, 0, [0; 4])), 4, 1);
    }
    // its reach and free variables are its child's
    let rows = vec![
        Row { kind: 1, left: 0, right: 0, mask: 0, words: [1, 3, 0, 0] },
        Row { kind: 14, left: 0, right: 0, mask: 0, words: [5, 61, 0, 0] },
        Row { kind: 15, left: 1, right: 0, mask: 0, words: [3, 1, 250u32.wrapping_neg(), 0] },
    ];
    let later = Rule { relations: 1, arities: [2, 0, 0, 0, 0, 0, 0, 0], rows }.bytes();
    t.is("over eventually", &later, 0, 0);
    assert_eq!(expected(&later), Checked { number: 0, place: 0, reach: 61, free: 10 });
}

// ---- readings: a word is its hundredths and 2147483648

const ZERO: i64 = 1 << 31;
const WORDS: u32 = 1 << 23;

fn readings(t: &mut Tally) {
    let edges = [0, 1, 2, ZERO - 250, ZERO - 1, ZERO, ZERO + 1, ZERO + 250, 2 * ZERO - 2, 2 * ZERO - 1];
    // words all over, each once: the multiplier is odd
    let all_over = (0..WORDS).map(|k| k.wrapping_mul(0x9e37_79b1));
    for word in edges.into_iter().map(|w| w as u32).chain(all_over) {
        let reading = word as i64 - ZERO;
        // the same bits, as hundredths
        let hundredths = word as i32;
        let (is, back, other) = (reading_of(word), word_of(reading as i32), word_of(hundredths));
        if is as i64 != reading || back != word || other as i64 != hundredths as i64 + ZERO || reading_of(other) != hundredths {
            println!("word {word}: reading {is} for {reading}, and {back} back; hundredths {hundredths}: word {other}");
            t.differences += 1;
            return;
        }
        t.words += 1;
    }
}

fn time() {
    let deep = chain();
    let turns = 200_000;
    let mut best = f64::MAX;
    let mut sum = 0u64;
    for _ in 0..5 {
        let began = Instant::now();
        for _ in 0..turns {
            let rule = std::hint::black_box(&deep[..]);
            sum += checked(rule).number as u64;
        }
        best = best.min(began.elapsed().as_nanos() as f64 / turns as f64);
    }
    println!("one check of a chain of 32 nodes: {best:.0} ns (best of 5 runs of {turns}; refusals {sum})");
}

fn main() {
    if std::env::args().any(|a| a == "--time") {
        time();
        return;
    }
    let mut g = Random(SEED);
    let mut t = Tally { files: 0, numbers: [0; 8], kinds: [0; 16], damages: [0; DAMAGES.len()], words: 0, differences: 0 };
    limits(&mut t);
    shifted(&mut t);
    readings(&mut t);
    for _ in 0..ROUNDS {
        let whole = accepted(&mut g).bytes();
        if t.compare(&whole).number != 0 {
            println!("the generator made a rule that isn't accepted: {whole:?}");
            t.differences += 1;
        }
        for _ in 0..2 {
            let mut hurt = whole.clone();
            for _ in 0..1 + g.below(3) {
                damage(&mut g, &mut hurt);
            }
            t.compare(&hurt);
        }
        let mut hurt = whole.clone();
        if let Some(how) = damage_shifted(&mut g, &mut hurt) {
            t.damages[how] += 1;
            let number = t.compare(&hurt).number;
            // as kind 14 it may be in shape, where mask and word 2 are 0, and its window may be out
            let fits = match how {
                0 => [0, 4, 5].contains(&number),
                7 | 8 => number == 0,
                _ => number == 4,
            };
            if !fits {
                println!("a keep-shifted with {} is answered {number}: {hurt:?}", DAMAGES[how]);
                t.differences += 1;
            }
        }
        let mut other = whole.clone();
        match g.below(3) {
            0 => other.truncate(g.below(whole.len())),
            1 => other.resize(whole.len() + 1 + g.below(24), 0),
            _ => {
                // random bytes behind sizes that are mostly right
                other.truncate(12);
                let nodes = other[2] as usize;
                other.extend((0..20 * nodes).map(|_| if g.one_in(2) { 0 } else { g.next() as u8 % 17 }));
                if g.one_in(8) {
                    other.iter_mut().for_each(|b| *b = g.next() as u8);
                }
            }
        }
        t.compare(&other);
    }
    println!("files {}, words turned into readings {}, differences {}", t.files, t.words, t.differences);
    for (k, n) in t.numbers.iter().enumerate() {
        println!("number {k}: {n}");
    }
    for (k, n) in t.kinds.iter().enumerate().skip(1) {
        println!("kind {k} in accepted rules: {n}");
    }
    for (what, n) in DAMAGES.iter().zip(t.damages) {
        println!("keep-shifted with {what}: {n}");
    }
    let rare = t.numbers.iter().chain(&t.kinds[1..]).chain(&t.damages).any(|n| *n < LEAST);
    if rare {
        println!("a number, a kind or a damage was met fewer than {LEAST} times");
    }
    if t.differences > 0 || rare {
        exit(1);
    }
}
