// How long after its time a point of rule L is reported, with a clock notice every minute and without: seconds from the point's
// time to the time of the call that reports it. The log has bursts of events and quiet stretches of up to six hours. It fails
// where with notices a point is reported later than the reach and 59 seconds after it, or not at all, or where a point has other
// rows than without.
//
//   tools/build yokemango
//   rustc -O --edition 2021 -L target/staticlib -o target/delay tests/delay.rs
//   target/delay [POINTS]     20,000
mod input;
mod library;

use input::*;
use std::process::exit;

const RULE: &[u8] = include_bytes!("../examples/leak.rule");
const LEAK: u32 = 0;
const CLOSE: u32 = 1;
const BLOCKS: usize = 8;
const MINUTE: u32 = 60;
const LONGEST_QUIET: usize = 6 * 3_600;

// An event's time and rows.
type Event = (u32, Vec<Row>);

// Bursts of 1 to 30 events, 3 to 40 seconds apart, and then silence.
fn log(points: usize) -> Vec<Event> {
    let (mut g, mut time, mut left) = (Random(1), 1_000, 0);
    let mut events = vec![];
    for _ in 0..points {
        if left == 0 {
            left = g.from(1, 30);
            time += g.from(MINUTE as usize, LONGEST_QUIET) as u32;
        }
        left -= 1;
        time += g.from(3, 40) as u32;
        let relation = if g.one_in(3) { CLOSE } else { LEAK };
        events.push((time, vec![(relation, vec![g.below(BLOCKS) as u32])]));
    }
    events
}

// A reported point: its time, its rows, and the time of the call that reported it.
struct Reported {
    time: u32,
    rows: Vec<u32>,
    at: u32,
}

struct Run {
    state: library::State,
    reach: u32,
    buffer: Vec<u32>,
    reported: Vec<Reported>,
}

fn fail(what: String) -> ! {
    println!("{what}");
    exit(1)
}

impl Run {
    fn start() -> Run {
        let started = library::start(RULE);
        if started.number != 0 {
            fail(format!("start is refused by {}", started.number));
        }
        Run { state: started.state, reach: started.reach, buffer: vec![0; LONGEST_REPORT], reported: vec![] }
    }

    fn take(&mut self, (time, rows): &Event) {
        let told = library::take_in(&mut self.state, &event(*time, rows), &mut self.buffer);
        self.read(*time, told);
    }

    fn notice(&mut self, time: u32) {
        let told = library::notice_in(&mut self.state, time, &mut self.buffer);
        self.read(time, told);
    }

    // The points of the report. They come in order, so that each is the next.
    fn read(&mut self, at: u32, told: library::Told) {
        if told.number != 0 {
            fail(format!("the call at {at} is refused by {}", told.number));
        }
        let points = self.buffer[0] as usize;
        let mut rows = &self.buffer[3 + 3 * points..];
        for triple in self.buffer[3..3 + 3 * points].chunks(3) {
            if triple[0] as usize != self.reported.len() {
                fail(format!("point {} is reported after {} others", triple[0], self.reported.len()));
            }
            let (own, rest) = rows.split_at(triple[2] as usize);
            self.reported.push(Reported { time: triple[1], rows: own.to_vec(), at });
            rows = rest;
        }
    }

    // One line of the table, and the greatest delay.
    fn tell(&self, what: &str) -> u32 {
        let delays = || self.reported.iter().map(|r| r.at - r.time);
        let (greatest, sum) = (delays().max().unwrap_or(0), delays().map(u64::from).sum::<u64>());
        println!("{what:<24}{:>16}{greatest:>16}{:>16.1}", self.reported.len(), sum as f64 / self.reported.len().max(1) as f64);
        greatest
    }
}

fn main() {
    let points = match std::env::args().nth(1).map(|a| a.parse()) {
        None => 20_000,
        Some(Ok(n)) if (1..=300_000).contains(&n) => n,
        Some(_) => {
            eprintln!("usage: delay [POINTS]    at most 300000");
            exit(2)
        }
    };
    let events = log(points);
    let (mut with, mut without) = (Run::start(), Run::start());
    let (mut minute, mut notices) = (MINUTE, 0);
    let last = events[points - 1].0;
    for event in &events {
        while minute < event.0 {
            with.notice(minute);
            (minute, notices) = (minute + MINUTE, notices + 1);
        }
        with.take(event);
        without.take(event);
    }
    while minute < last + with.reach + MINUTE {
        with.notice(minute);
        (minute, notices) = (minute + MINUTE, notices + 1);
    }

    println!("rule L, reach {} s, {points} points over {} days, quiet for up to {} h at a time", with.reach, last / 86_400, LONGEST_QUIET / 3_600);
    println!("{:<24}{:>16}{:>16}{:>16}", "", "reported", "greatest, s", "mean, s");
    let greatest = with.tell(&format!("{notices} notices"));
    without.tell("no notices");
    if with.reported.len() != points {
        fail(format!("with notices {} points are not reported", points - with.reported.len()));
    }
    if greatest > with.reach + MINUTE - 1 {
        fail(format!("with notices a point is reported {greatest} s after its time"));
    }
    let same = |a: &Reported, b: &Reported| (a.time, &a.rows) == (b.time, &b.rows);
    if let Some(i) = (0..without.reported.len()).find(|i| !same(&with.reported[*i], &without.reported[*i])) {
        fail(format!("point {i} has other rows with notices than without"));
    }
}
