// Ten million points through the monitor in one run, by a rule with past and future: a leak in a block that was read within
// the last thirty minutes, and that no closing follows within 60 seconds. After one event in eight comes a clock notice before
// the next, and now and then the field is silent for up to half an hour, with a notice every minute. Each answer and each word of
// each report is compared with a reckoning for this one rule, which keeps only the readings of thirty minutes and the open
// points; so are the kept and open figures, now and then. After one event in 1,000 and some notices an event and a notice of an
// earlier time are refused by 11. After the last point the next event must be refused by 12, and a notice settles what is open.
//
//   tools/build yokemango
//   rustc -O --edition 2021 -L target/staticlib -o target/soak tests/soak.rs
//   target/soak [POINTS]
mod input;
mod library;

use input::*;
use library::{State, Told};
use std::collections::{BTreeSet, VecDeque};
use std::process::exit;
use std::time::Instant;

const MOST_POINTS: u32 = 10_000_000;
const BLOCKS: usize = 8;
const LEAK: u32 = 0;
const READING: u32 = 1;
const CLOSE: u32 = 2;
const FRESH: u32 = 1_801;
const REACH: u32 = 61;

fn rule() -> Rule {
    let nodes = vec![
        atom(LEAK as u8, &[0]),
        atom(READING as u8, &[0]),
        node(ONCE, 1, 0, 0, FRESH),
        node(AND, 0, 2, 0, 0),
        atom(CLOSE as u8, &[0]),
        node(EVENTUALLY, 4, 0, 0, REACH),
        node(AND_NOT, 3, 5, 0, 0),
    ];
    Rule { arities: vec![1, 1, 1], nodes }
}

// A point that isn't settled: its leaks in blocks with a fresh reading, and its closings.
struct Waiting {
    point: u32,
    time: u32,
    leaks: BTreeSet<u32>,
    closings: BTreeSet<u32>,
}

// The reckoning: the latest known time, readings as block and time, each once, and the open points.
#[derive(Default)]
struct Reckoning {
    points: u32,
    latest: u32,
    readings: VecDeque<(u32, u32)>,
    open: VecDeque<Waiting>,
}

impl Reckoning {
    // The words of the report.
    fn take(&mut self, time: u32, rows: &[Row]) -> Vec<u32> {
        let of = |relation| rows.iter().filter(move |r| r.0 == relation).map(|r| r.1[0]);
        while self.readings.front().is_some_and(|r| time - r.1 >= FRESH) {
            self.readings.pop_front();
        }
        for block in of(READING).collect::<BTreeSet<u32>>() {
            if !self.readings.contains(&(block, time)) {
                self.readings.push_back((block, time));
            }
        }
        let fresh = |block: &u32| self.readings.iter().any(|r| r.0 == *block);
        let (leaks, closings) = (of(LEAK).filter(fresh).collect(), of(CLOSE).collect());
        self.open.push_back(Waiting { point: self.points, time, leaks, closings });
        self.points += 1;
        self.settle(time)
    }

    // The words of the report at this time, which is the event's or the notice's.
    fn settle(&mut self, time: u32) -> Vec<u32> {
        self.latest = time;
        let (mut triples, mut words) = (vec![], vec![]);
        while self.open.front().is_some_and(|w| time - w.time >= REACH) {
            let within = |w: &&Waiting| w.time - self.open[0].time < REACH;
            let closed: BTreeSet<u32> = self.open.iter().take_while(within).flat_map(|w| w.closings.iter().copied()).collect();
            let settled = self.open.pop_front().unwrap();
            let rows: Vec<u32> = settled.leaks.difference(&closed).copied().collect();
            triples.extend([settled.point, settled.time, rows.len() as u32]);
            words.extend(rows);
        }
        let mut report = vec![triples.len() as u32 / 3, 1, words.len() as u32];
        report.extend(triples);
        report.extend(words);
        report
    }

    // The pairs of "once", the rows of "and" at open points, and the closings from the first open point on.
    fn kept(&self) -> u32 {
        let waiting: usize = self.open.iter().map(|w| w.leaks.len() + w.closings.len()).sum();
        (self.readings.len() + waiting) as u32
    }
}

fn rows(g: &mut Random) -> Vec<Row> {
    let relation = |g: &mut Random| g.pick(&[LEAK, READING, CLOSE]);
    (0..g.below(4)).map(|_| (relation(g), vec![g.below(BLOCKS) as u32])).collect()
}

fn differ(point: u32, what: String) -> ! {
    println!("difference at point {point}: {what}");
    exit(1)
}

// What was reported: by events, and by notices.
#[derive(Default)]
struct Tally {
    points: u64,
    rows: u64,
}

// The monitor beside the reckoning.
struct Soak {
    state: State,
    reckoning: Reckoning,
    buffer: Vec<u32>,
    refused: u64,
    most_kept: u32,
    notices: u64,
    by_events: Tally,
    by_notices: Tally,
}

impl Soak {
    // The answer must be the report that is reckoned.
    fn compare(&mut self, told: Told, report: Vec<u32>, by_notice: bool) {
        let answer = (told.number, told.place, told.words as usize);
        let written = &self.buffer[..report.len()];
        if answer != (0, 0, report.len()) || *written != report[..] {
            differ(self.reckoning.points, format!("the answer is {answer:?} and the report {written:?} for {report:?}"));
        }
        let tally = if by_notice { &mut self.by_notices } else { &mut self.by_events };
        tally.points += report[0] as u64;
        tally.rows += report[2] as u64;
    }

    fn take(&mut self, time: u32, rows: &[Row]) {
        let report = self.reckoning.take(time, rows);
        let told = library::take_in(&mut self.state, &event(time, rows), &mut self.buffer);
        self.compare(told, report, false);
        self.most_kept = self.most_kept.max(self.reckoning.kept());
    }

    fn notice(&mut self, time: u32) {
        let report = self.reckoning.settle(time);
        let told = library::notice_in(&mut self.state, time, &mut self.buffer);
        self.compare(told, report, true);
        self.notices += 1;
    }

    // An event and a notice a second before the latest known time.
    fn refuse(&mut self) {
        let early = self.reckoning.latest - 1;
        let event = library::take(&self.state, &event(early, &[]), &mut self.buffer);
        let notice = library::notice(&self.state, early, &mut self.buffer);
        for told in [event, notice] {
            if (told.number, told.place) != (11, 0) || told.state != self.state {
                differ(self.reckoning.points, format!("an earlier time is answered {} at {}", told.number, told.place));
            }
        }
        self.refused += 2;
    }

    fn figures(&self) {
        let (state, figures) = (&self.state, library::figures(&self.state));
        let is = (state.points, state.latest, figures.number, figures.open_points, figures.kept);
        let r = &self.reckoning;
        let should = (r.points, r.latest, 0, r.open.len() as u32, r.kept());
        if is != should {
            differ(r.points, format!("points, latest known time, refusal, open and kept are {is:?} for {should:?}"));
        }
    }
}

fn main() {
    let points = match std::env::args().nth(1).map(|a| a.parse()) {
        None => MOST_POINTS,
        Some(Ok(n)) if n <= MOST_POINTS => n,
        Some(_) => {
            eprintln!("usage: soak [POINTS]    at most {MOST_POINTS}");
            exit(2)
        }
    };
    let began = Instant::now();
    let started = library::start(&rule().bytes());
    if (started.number, started.reach) != (0, REACH) {
        differ(0, format!("start answers {} and reach {}", started.number, started.reach));
    }
    let mut g = Random(1);
    let mut soak = Soak {
        state: started.state,
        reckoning: Reckoning::default(),
        buffer: vec![0; LONGEST_REPORT],
        refused: 0,
        most_kept: 0,
        notices: 0,
        by_events: Tally::default(),
        by_notices: Tally::default(),
    };
    let mut time = 0;
    soak.notice(time);
    while soak.reckoning.points < points {
        let at = soak.reckoning.points;
        if at % 1_000 == 999 {
            soak.refuse();
        }
        // at most 61 / 3 points and a few of equal time are open, and 1,801 / 3 readings of some blocks are fresh
        let step = if g.one_in(16) { 0 } else { g.from(3, 12) as u32 };
        if g.one_in(8) {
            soak.notice(time + g.below(step as usize + 1) as u32);
            if soak.notices % 1_000 == 0 {
                soak.refuse();
                soak.figures();
            }
        }
        time += step;
        if g.one_in(256) {
            for _ in 0..g.from(1, 30) {
                time += 60;
                soak.notice(time);
            }
        }
        soak.take(time, &rows(&mut g));
        if at % 1_000 == 0 || at + 1 == points {
            soak.figures();
        }
    }
    let next = library::take(&soak.state, &event(time, &[]), &mut soak.buffer);
    let expected = if points == MOST_POINTS { 12 } else { 0 };
    if (next.number, next.place) != (expected, 0) || (expected == 12 && next.state != soak.state) {
        differ(points, format!("the next event is answered {} at {}", next.number, next.place));
    }
    println!("the next event is answered {}; open {} kept {}", next.number, soak.reckoning.open.len(), soak.reckoning.kept());
    soak.notice(time + REACH);
    soak.figures();
    println!("a notice after it settles what is open; open {} kept {}", soak.reckoning.open.len(), soak.reckoning.kept());
    let Soak { notices, refused, most_kept, by_events, by_notices, .. } = soak;
    println!("{points} points and {notices} notices, {refused} refused by 11, at most {most_kept} kept; no difference");
    for (what, tally) in [("events", by_events), ("notices", by_notices)] {
        println!("reported by {what}: {} points with {} rows", tally.points, tally.rows);
    }
    println!("{:.1} s", began.elapsed().as_secs_f64());
}
