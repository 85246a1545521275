// Compares "Read rows", compiled from the proved crates, with an evaluator of document 01 that is written here from its text:
// good reports, damaged ones, and words of any kind. Prints what was tried and exits with 1 on any difference.
//
//     tools/build yokemango
//     rustc -O -L target/staticlib -o target/reports tests/reports.rs
//     target/reports          the comparison
//     target/reports --time   the time to read one entry of the longest report, beside a plain pass over its words
use std::cmp::Ordering;
use std::hint::black_box;
use std::time::Instant;

#[link(name = "yokemango", kind = "static")]
extern "C" {
    fn yokemango_check_report(report: *const u32, len: usize) -> u32;
    fn yokemango_row_count(report: *const u32, len: usize, k: usize) -> u64;
    fn yokemango_rows_start(report: *const u32, len: usize, k: usize) -> usize;
    fn yokemango_rows_len(report: *const u32, len: usize, k: usize) -> usize;
    fn yokemango_rows_word(report: *const u32, len: usize, k: usize, i: usize) -> u64;
}

const NONE: u64 = 1 << 32;

// The functions ask nothing of the words or of k, so any slice may be passed.
fn check(r: &[u32]) -> u32 {
    unsafe { yokemango_check_report(r.as_ptr(), r.len()) }
}
fn row_count(r: &[u32], k: usize) -> u64 {
    unsafe { yokemango_row_count(r.as_ptr(), r.len(), k) }
}
fn rows_start(r: &[u32], k: usize) -> usize {
    unsafe { yokemango_rows_start(r.as_ptr(), r.len(), k) }
}
fn rows_len(r: &[u32], k: usize) -> usize {
    unsafe { yokemango_rows_len(r.as_ptr(), r.len(), k) }
}
fn rows_word(r: &[u32], k: usize, i: usize) -> u64 {
    unsafe { yokemango_rows_word(r.as_ptr(), r.len(), k, i) }
}

// ---- document 01, "The report" and "Read rows"

struct Entry {
    count: u32,
    rows: std::ops::Range<usize>,
}

// The order of rows: column 0 ascends, the others descend.
fn in_order(a: &[u32], b: &[u32]) -> Ordering {
    match (a, b) {
        ([x, later @ ..], [y, others @ ..]) => x.cmp(y).then_with(|| others.cmp(later)),
        _ => Ordering::Equal,
    }
}

// The entries of a report, or nothing where the words are not one.
fn entries(r: &[u32]) -> Option<Vec<Entry>> {
    let (p, f, total) = match r {
        [p, f, total, ..] => (*p as usize, *f as usize, *total as u128),
        _ => return None,
    };
    if p > 33 || f > 4 || 3 + 3 * p as u128 + f as u128 * total > r.len() as u128 {
        return None;
    }
    let triples: Vec<&[u32]> = r[3..3 + 3 * p].chunks(3).collect();
    if triples.iter().map(|t| t[2] as u128).sum::<u128>() != total {
        return None;
    }
    if triples.windows(2).any(|w| w[0][0] >= w[1][0]) {
        return None;
    }
    let mut at = 3 + 3 * p;
    let mut found = Vec::new();
    for t in triples {
        let words = f * t[2] as usize;
        let ascend = match f {
            0 => t[2] <= 1,
            _ => {
                let rows: Vec<&[u32]> = r[at..at + words].chunks(f).collect();
                rows.windows(2).all(|w| in_order(w[0], w[1]).is_lt())
            }
        };
        if !ascend {
            return None;
        }
        found.push(Entry {
            count: t[2],
            rows: at..at + words,
        });
        at += words;
    }
    Some(found)
}

// ---- numbers that look random, the same on each run

struct Random(u64);

impl Random {
    fn next(&mut self) -> u64 {
        self.0 ^= self.0 << 13;
        self.0 ^= self.0 >> 7;
        self.0 ^= self.0 << 17;
        self.0.wrapping_mul(0x2545_f491_4f6c_dd1d) >> 16
    }
    fn below(&mut self, n: u64) -> u64 {
        self.next() % n
    }
    fn word(&mut self) -> u32 {
        match self.below(4) {
            0 => self.below(5) as u32,
            1 => u32::MAX - self.below(5) as u32,
            2 => self.below(40) as u32,
            _ => self.next() as u32,
        }
    }
}

// ---- reports

// A report in form, with p points, f free variables and at most `most` rows to a point. Values are few, so that rows tie often.
fn good(g: &mut Random, p: usize, f: usize, most: u64) -> Vec<u32> {
    let values = 1 + g.below(4) as u32;
    let high = g.below(3) == 0;
    let mut triples = Vec::new();
    let mut words = Vec::new();
    let mut total = 0;
    let mut point = g.below(1000) as u32;
    for _ in 0..p {
        let mut rows: Vec<Vec<u32>> = (0..g.below(most + 1))
            .map(|_| (0..f).map(|_| {
                let v = g.below(values as u64 + 1) as u32;
                if high { u32::MAX - v } else { v }
            }).collect())
            .collect();
        rows.sort_by(|a, b| in_order(a, b));
        rows.dedup();
        total += rows.len() as u32;
        triples.extend([point, g.next() as u32, rows.len() as u32]);
        words.extend(rows.concat());
        point += 1 + g.below(3) as u32;
    }
    let mut r = vec![p as u32, f as u32, total];
    r.extend(triples);
    r.extend(words);
    r
}

struct Tally {
    class: &'static str,
    reports: u64,
    in_form: u64,
    answered: u64,
    refused: u64,
}

// Compares what is read of the report for entries in range and out of range.
fn compare(t: &mut Tally, r: &[u32]) {
    let expected = entries(r);
    t.reports += 1;
    t.in_form += expected.is_some() as u64;
    if (check(r) == 0) != expected.is_some() || ![0, 17].contains(&check(r)) {
        println!("difference: {}, {:?} is answered {}", t.class, r, check(r));
        std::process::exit(1);
    }
    let p = r.first().map_or(0, |w| *w as usize).min(34);
    for k in (0..p + 2).chain([1 << 32, usize::MAX]) {
        let entry = expected.as_ref().and_then(|e| e.get(k));
        let (count, start, rows): (u64, usize, &[u32]) = match entry {
            Some(e) => (e.count as u64, e.rows.start, &r[e.rows.clone()]),
            None => (NONE, 0, &[]),
        };
        *(if entry.is_some() { &mut t.answered } else { &mut t.refused }) += 1;
        let mut same = row_count(r, k) == count && rows_start(r, k) == start && rows_len(r, k) == rows.len();
        let step = 1 + rows.len() / 8;
        for i in (0..rows.len()).step_by(step).chain([rows.len(), usize::MAX]) {
            let word = rows.get(i).map_or(NONE, |w| *w as u64);
            same &= rows_word(r, k, i) == word;
        }
        if !same {
            println!("difference: {}, entry {} of {:?}", t.class, k, r);
            println!("  expected {} at {} of {} words", count, start, rows.len());
            println!("  got {} at {} of {} words", row_count(r, k), rows_start(r, k), rows_len(r, k));
            std::process::exit(1);
        }
    }
}

fn class(name: &'static str, tries: impl FnOnce(&mut Tally, &mut Random)) -> Tally {
    let mut t = Tally {
        class: name,
        reports: 0,
        in_form: 0,
        answered: 0,
        refused: 0,
    };
    let mut g = Random(0x9e37_79b9_7f4a_7c15 ^ name.len() as u64);
    tries(&mut t, &mut g);
    println!(
        "{:<44} {:>8} reports, {:>7} in form; entries: {:>8} answered, {:>8} refused",
        t.class, t.reports, t.in_form, t.answered, t.refused
    );
    t
}

fn compare_all() {
    let done = [
        class("good, any size", |t, g| {
            for _ in 0..3_000 {
                let (p, f) = (g.below(34) as usize, g.below(5) as usize);
                compare(t, &good(g, p, f, 8));
            }
        }),
        class("good, small", |t, g| {
            for _ in 0..40_000 {
                let (p, f) = (g.below(5) as usize, g.below(5) as usize);
                compare(t, &good(g, p, f, 4));
            }
        }),
        class("good, with trailing words", |t, g| {
            for _ in 0..20_000 {
                let (p, f) = (g.below(5) as usize, g.below(5) as usize);
                let mut r = good(g, p, f, 4);
                for _ in 0..1 + g.below(6) {
                    r.push(g.word());
                }
                compare(t, &r);
            }
        }),
        class("each word changed in turn", |t, g| {
            for _ in 0..800 {
                let (p, f) = (g.below(4) as usize, g.below(5) as usize);
                let r = good(g, p, f, 3);
                for i in 0..r.len() {
                    let old = r[i];
                    for new in [old.wrapping_add(1), old.wrapping_sub(1), 0, u32::MAX, g.word()] {
                        let mut s = r.clone();
                        s[i] = new;
                        compare(t, &s);
                    }
                }
            }
        }),
        class("cut at each word", |t, g| {
            for _ in 0..1_500 {
                let (p, f) = (g.below(5) as usize, g.below(5) as usize);
                let r = good(g, p, f, 4);
                for n in 0..r.len() {
                    compare(t, &r[..n]);
                }
            }
        }),
        class("two rows or two points out of order", |t, g| {
            for _ in 0..20_000 {
                let (p, f) = (1 + g.below(4) as usize, 1 + g.below(4) as usize);
                let mut r = good(g, p, f, 6);
                let first = 3 + 3 * p;
                let rows = (r.len() - first) / f;
                if rows >= 2 && g.below(4) > 0 {
                    // one row becomes its neighbour, swaps with it, or differs from it in one variable only
                    let q = first + f * g.below(rows as u64 - 1) as usize;
                    match g.below(3) {
                        0 => r.copy_within(q..q + f, q + f),
                        1 => (0..f).for_each(|c| r.swap(q + c, q + f + c)),
                        _ => {
                            r.copy_within(q..q + f, q + f);
                            let c = q + f + g.below(f as u64) as usize;
                            r[c] = r[c].wrapping_add(1 + (g.below(2) as u32).wrapping_mul(u32::MAX - 1));
                        }
                    }
                } else if p >= 2 {
                    let k = g.below(p as u64 - 1) as usize;
                    r[3 + 3 * (k + 1)] = r[3 + 3 * k] + g.below(2) as u32;
                }
                compare(t, &r);
            }
        }),
        class("no free variable", |t, g| {
            for _ in 0..30_000 {
                let p = g.below(6) as usize;
                let mut r = vec![p as u32, 0, 0];
                for k in 0..p {
                    let count = match g.below(8) {
                        0 => 2,
                        1 => g.word(),
                        n => (n % 2) as u32,
                    };
                    r[2] = r[2].wrapping_add(count);
                    r.extend([10 + k as u32, 20, count]);
                }
                compare(t, &r);
            }
        }),
        class("counts near 4,294,967,295", |t, g| {
            for _ in 0..30_000 {
                let (p, f) = (1 + g.below(4) as usize, g.below(5) as usize);
                let mut r = good(g, p, f, 3);
                for _ in 0..1 + g.below(2) {
                    r[3 + 3 * g.below(p as u64) as usize + 2] = u32::MAX - g.below(4) as u32;
                }
                // the total as the counts add up modulo 2 to the 32, as it was, or near the top
                r[2] = match g.below(3) {
                    0 => (0..p).fold(0, |s: u32, k| s.wrapping_add(r[3 + 3 * k + 2])),
                    1 => r[2],
                    _ => u32::MAX - g.below(4) as u32,
                };
                compare(t, &r);
            }
        }),
        class("0, 33 and 34 points", |t, g| {
            for _ in 0..700 {
                let f = g.below(5) as usize;
                for p in [0, 33, 34] {
                    compare(t, &good(g, p, f, 3));
                }
            }
        }),
        class("free variables past 4", |t, g| {
            for _ in 0..3_000 {
                let (p, f) = (g.below(4) as usize, 5 + g.below(3) as usize);
                compare(t, &good(g, p, f, 3));
            }
        }),
        class("any words", |t, g| {
            for _ in 0..60_000 {
                let n = g.below(16) as usize;
                let few = 1 + g.below(4);
                let r: Vec<u32> = (0..n)
                    .map(|_| if g.below(8) == 0 { g.word() } else { g.below(few) as u32 })
                    .collect();
                compare(t, &r);
            }
        }),
        class("the longest, 4,326 words", |t, g| {
            let r = longest();
            compare(t, &r);
            for _ in 0..12 {
                let mut s = r.clone();
                let i = g.below(s.len() as u64) as usize;
                s[i] = g.word();
                compare(t, &s);
            }
        }),
    ];
    let sum = |part: fn(&Tally) -> u64| done.iter().map(part).sum::<u64>();
    println!(
        "{} reports, {} in form; {} entries answered, {} refused; no difference",
        sum(|t| t.reports),
        sum(|t| t.in_form),
        sum(|t| t.answered),
        sum(|t| t.refused)
    );
}

// ---- time

// 33 points of 32 rows of 4 values, equal but for the last.
fn longest() -> Vec<u32> {
    let mut r = vec![33, 4, 33 * 32];
    (0..33).for_each(|k| r.extend([k, 100 + k, 32]));
    (0..33 * 32).for_each(|q| r.extend([7, 7, 7, q]));
    r
}

// The median of the time of one call, over runs of many calls.
fn nanoseconds(mut call: impl FnMut()) -> f64 {
    let mut runs: Vec<f64> = (0..31)
        .map(|_| {
            let start = Instant::now();
            (0..2_000).for_each(|_| call());
            start.elapsed().as_nanos() as f64 / 2_000.0
        })
        .collect();
    runs.sort_by(f64::total_cmp);
    runs[runs.len() / 2]
}

fn time() {
    let r = longest();
    assert!(r.len() == 4_326 && row_count(&r, 16) == 32 && rows_len(&r, 16) == 128);
    println!("a report of {} words, entry 16 of 33:", r.len());
    println!("  row count {:>8.0} ns", nanoseconds(|| {
        black_box(row_count(black_box(&r), black_box(16)));
    }));
    println!("  rows      {:>8.0} ns", nanoseconds(|| {
        black_box(rows_len(black_box(&r), black_box(16)));
    }));
    println!("  plain pass, exclusive or of the words {:>8.0} ns", nanoseconds(|| {
        black_box(black_box(&r).iter().fold(0, |s, w| s ^ w));
    }));
    println!("  plain pass, one word at a time        {:>8.0} ns", nanoseconds(|| {
        black_box(black_box(&r).iter().fold(0, |s: u32, w| black_box(s ^ w)));
    }));
}

fn main() {
    match std::env::args().nth(1).as_deref() {
        None => compare_all(),
        Some("--time") => time(),
        Some(_) => {
            eprintln!("usage: reports [--time]");
            std::process::exit(2);
        }
    }
}
