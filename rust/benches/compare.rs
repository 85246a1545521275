//! The cost of an event, side by side in one run and on the same input: this monitor; one written by hand for speed, general
//! over the fifteen kinds, with nothing proved (compare/incremental.rs); and the desk's method, which evaluates the whole
//! log again at each event. The last is given the best evaluator at hand, the second monitor run over the log from its first
//! point, and is timed at the last event alone, since all of them together would take hours.
//!
//! The time of an event with so many points is that of the last tenth of them: the median over chunks of 100 events.
//!
//!     cargo bench                  100 to 1,000,000 points
//!     cargo bench -- 10000         up to 10,000 points
//!
//! Before it is timed, all three are compared word for word on the first events.
#[path = "compare/events.rs"]
mod events;
#[path = "compare/incremental.rs"]
mod incremental;

use events::{burst, dry_zone, half_hour, leak, orchard, running, Random};
use std::hint::black_box;
use std::time::Instant;
use yokemango::{Rule, State, MAX_REPORT_WORDS};

const COMPARED: usize = 5_000;
const AGAIN: usize = 200; // events at which the whole log is evaluated again for the comparison

struct Case {
    name: &'static str,
    file: &'static [u8],
    /// The words of event k: its time and its rows, each a relation and its values.
    event: fn(&mut Random, u32) -> Vec<u32>,
}

const CASES: [Case; 6] = [
    Case { name: "leak (rule L): leak(x) and not eventually [0, 61) close(x); 6 points to a window", file: include_bytes!("../../examples/leak.rule"), event: leak },
    Case { name: "half-hour: open(b) and not once [0, 1801) reading(b); 8 blocks, 40 points to a window", file: include_bytes!("../../examples/half-hour.rule"), event: half_hour },
    Case { name: "running: running(p) since [5, 60) switched(p); 8 pumps, a point a second", file: include_bytes!("../../examples/running.rule"), event: running },
    Case { name: "burst: low(z) until [0, 30) burst(z); 4 zones, 30 points open", file: include_bytes!("../../examples/burst.rule"), event: burst },
    Case { name: "dry-zone: flow(v, z) and dry(z, p); 8 rows of each, joined to 16", file: include_bytes!("../../examples/dry-zone.rule"), event: dry_zone },
    Case { name: "orchard: 32 nodes of 13 kinds; 3 rows an event", file: include_bytes!("../../examples/orchard.rule"), event: orchard },
];

// ---- input

/// Events end to end, and where each begins.
struct Input {
    words: Vec<u32>,
    starts: Vec<usize>,
}

impl Input {
    fn new(case: &Case, count: usize) -> Input {
        let (mut g, mut input) = (Random(1), Input { words: vec![], starts: vec![0] });
        for k in 0..count {
            input.words.extend((case.event)(&mut g, k as u32));
            input.starts.push(input.words.len());
        }
        input
    }

    fn first(&self, count: usize) -> impl Iterator<Item = &[u32]> {
        self.starts.windows(2).take(count).map(|w| &self.words[w[0]..w[1]])
    }
}

// ---- the comparison

/// Compares the reports of all three on the first events.
fn compare(rule: &Rule, input: &Input, buffer: &mut [u32]) -> (usize, usize) {
    let mut state = State::start(rule).expect("the rule is accepted");
    let mut monitor = incremental::Monitor::new(rule.file());
    let (mut points, mut rows) = (0, 0);
    for (k, event) in input.first(COMPARED).enumerate() {
        let report = state.take_words(event, buffer).expect("the event is taken");
        let expected = monitor.take(event);
        let (p, r) = (report.len(), report.total_rows());
        assert_eq!(&buffer[..expected.len()], expected, "event {k}");
        if k < AGAIN {
            let mut again = incremental::Monitor::new(rule.file());
            let last = input.first(k + 1).map(|e| again.take(e).to_vec()).last();
            assert_eq!(last.as_deref(), Some(&buffer[..expected.len()]), "event {k}, the log again");
        }
        points += p;
        rows += r;
    }
    (points, rows)
}

// ---- time

const CHUNK: usize = 100;

/// Takes the first `count` events. For each chunk of the last tenth, and for at least one, the time of an event; and the time
/// of all events together; in nanoseconds.
fn run(input: &Input, count: usize, mut take: impl FnMut(&[u32]) -> usize) -> (Vec<f64>, f64) {
    let timed = (count - count / 10).min(count - CHUNK);
    let (mut chunks, mut rows) = (vec![], 0);
    let start = Instant::now();
    let mut last = start;
    for (k, event) in input.first(count).enumerate() {
        if k == timed {
            last = Instant::now();
        }
        rows += take(event);
        if k >= timed && (k + 1 - timed) % CHUNK == 0 {
            let now = Instant::now();
            chunks.push((now - last).as_nanos() as f64 / CHUNK as f64);
            last = now;
        }
    }
    black_box(rows);
    (chunks, start.elapsed().as_nanos() as f64)
}

fn median(mut of: Vec<f64>) -> f64 {
    of.sort_by(f64::total_cmp);
    of[of.len() / 2]
}

/// Prints a line of the table. The answer is its three times: this monitor's, by hand, the log again.
fn time(rule: &Rule, input: &Input, count: usize, buffer: &mut [u32]) -> [f64; 3] {
    let (mut ours, mut hand, mut whole) = (vec![], vec![], vec![]);
    for _ in 0..(300_000 / count).clamp(1, 300) {
        let mut state = State::start(rule).expect("the rule is accepted");
        ours.extend(run(input, count, |e| state.take_words(e, buffer).expect("the event is taken").total_rows()).0);
        let mut monitor = incremental::Monitor::new(rule.file());
        let (chunks, all) = run(input, count, |e| monitor.take(e)[2] as usize);
        hand.extend(chunks);
        whole.push(all);
    }
    // what the last event costs the desk
    let (ours, hand, desk) = (median(ours), median(hand), median(whole));
    println!("{count:>10} {ours:>14.0} {hand:>10.0} {:>7.1} {desk:>18.0} {:>12.6}", ours / hand, ours / desk);
    [ours, hand, desk]
}

fn main() {
    let most = std::env::args().skip(1).find_map(|a| a.parse().ok()).unwrap_or(1_000_000);
    let mut buffer = vec![0; MAX_REPORT_WORDS];
    println!("nanoseconds for an event; a ratio is this monitor's time to the other's");
    for case in &CASES {
        let rule = Rule::check(case.file).expect("the rule is accepted");
        let input = Input::new(case, most.max(COMPARED));
        let (points, rows) = compare(&rule, &input, &mut buffer);
        println!("\n{}\nthe first {COMPARED} events report {points} points with {rows} rows, all three alike", case.name);
        println!("{:>10} {:>14} {:>10} {:>7} {:>18} {:>12}", "points", "this monitor", "by hand", "ratio", "the log again", "ratio");
        let counts: Vec<usize> = [100, 1_000, 10_000, 100_000, 1_000_000].into_iter().filter(|n| *n <= most).collect();
        let times: Vec<[f64; 3]> = counts.iter().map(|n| time(&rule, &input, *n, &mut buffer)).collect();
        if let [first, .., last] = &times[..] {
            let [ours, hand, desk] = std::array::from_fn(|k| last[k] / first[k]);
            println!("from {} to {} points: this monitor {ours:.2} times, by hand {hand:.2}, the log again {desk:.0}", counts[0], counts[counts.len() - 1]);
        }
    }
}
