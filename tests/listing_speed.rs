// What an event costs in the listing program beside the same takings in memory, on six rules, side by side.
//
//   tools/build yokemango listing
//   rustc -O --edition 2021 -L target/staticlib -o target/listing_speed tests/listing_speed.rs
//   target/listing_speed                  1,000,000 events of each rule, three times each
//   target/listing_speed 20000 1          fewer, once: that both give the same points, rows and figures
//
// The program reads a file and writes a file, both below target/. In memory the events are words, and reports stay words. Times are
// of the processor, the system's part included, so that other work on the machine tells little.
#[path = "../rust/benches/compare/events.rs"]
mod events;
mod library;

use events::{burst, dry_zone, half_hour, leak, orchard, running, Random};
use std::fs::File;
use std::hint::black_box;
use std::io::{BufWriter, Write};
use std::process::Command;

const INPUT: &str = "target/listing_speed.in";
const OUTPUT: &str = "target/listing_speed.out";

struct Case {
    name: &'static str,
    file: &'static [u8],
    event: fn(&mut Random, u32) -> Vec<u32>,
}

const CASES: [Case; 6] = [
    Case { name: "rule L", file: include_bytes!("../examples/leak.rule"), event: leak },
    Case { name: "half-hour", file: include_bytes!("../examples/half-hour.rule"), event: half_hour },
    Case { name: "since [5, 60)", file: include_bytes!("../examples/running.rule"), event: running },
    Case { name: "until [0, 30)", file: include_bytes!("../examples/burst.rule"), event: burst },
    Case { name: "a join", file: include_bytes!("../examples/dry-zone.rule"), event: dry_zone },
    Case { name: "32 nodes", file: include_bytes!("../examples/orchard.rule"), event: orchard },
];

// What getrusage of the C library fills in: the times of user and system, in seconds and microseconds, and 14 counts.
#[repr(C)]
struct Usage {
    times: [i64; 4],
    counts: [i64; 14],
}

extern "C" {
    fn getrusage(who: i32, usage: *mut Usage) -> i32;
}

const OWN: i32 = 0;
const OF_CHILDREN: i32 = -1;

// The seconds of the processor that this process, or those that it waited for, have used.
fn used(who: i32) -> f64 {
    let mut usage = Usage { times: [0; 4], counts: [0; 14] };
    assert_eq!(unsafe { getrusage(who, &mut usage) }, 0);
    let [user, user_part, system, system_part] = usage.times.map(|t| t as f64);
    user + system + (user_part + system_part) / 1e6
}

// What a run gave: the points and rows reported, and the figures at its end.
#[derive(Debug, PartialEq)]
struct Gave {
    points: u64,
    rows: u64,
    open: u32,
    kept: u32,
}

// Takes the events in memory; they stand end to end, and `ends` says where each ends.
fn in_memory(file: &[u8], words: &[u32], ends: &[usize]) -> (f64, Gave) {
    let (mut buffer, mut points, mut rows, mut from) = (vec![0; 4_326], 0, 0, 0);
    let mut state = library::start(file).state;
    let began = used(OWN);
    for &end in ends {
        let told = library::take_in(&mut state, black_box(&words[from..end]), black_box(&mut buffer));
        assert_eq!(told.number, 0, "an event is refused by {}", told.number);
        points += buffer[0] as u64;
        rows += buffer[2] as u64;
        from = end;
    }
    let spent = used(OWN) - began;
    let figures = library::figures(&state);
    (spent, Gave { points, rows, open: figures.open_points, kept: figures.kept })
}

// Runs the listing program on the file.
fn listed() -> f64 {
    let (input, output) = (File::open(INPUT).unwrap(), File::create(OUTPUT).unwrap());
    let began = used(OF_CHILDREN);
    let ended = Command::new("target/bin/listing").stdin(input).stdout(output).status().expect("target/bin/listing is there");
    let spent = used(OF_CHILDREN) - began;
    assert!(ended.success(), "the listing program ended with {ended}");
    spent
}

// What it printed, behind the line of the rule.
fn printed() -> Gave {
    let text = std::fs::read_to_string(OUTPUT).unwrap();
    let mut lines = text.lines();
    assert!(lines.next().is_some_and(|l| l.starts_with("rule ok reach ")), "the rule is refused");
    let last: Vec<&str> = lines.next_back().unwrap_or("").split(' ').collect();
    let ["open", open, "kept", kept] = last[..] else { panic!("the last line is {last:?}") };
    let (mut points, mut rows) = (0, 0);
    for line in lines {
        if line.starts_with("point ") {
            points += 1;
        } else {
            assert!(!line.starts_with('r'), "{line}");
            rows += 1;
        }
    }
    Gave { points, rows, open: open.parse().unwrap(), kept: kept.parse().unwrap() }
}

fn least(of: &[f64]) -> f64 {
    of.iter().copied().fold(f64::INFINITY, f64::min)
}

fn compare(case: &Case, count: u32, turns: usize) {
    let (mut g, mut words, mut ends) = (Random(1), vec![], vec![]);
    for k in 0..count {
        words.extend((case.event)(&mut g, k));
        ends.push(words.len());
    }
    let mut input = BufWriter::new(File::create(INPUT).unwrap());
    input.write_all(&(case.file.len() as u32).to_le_bytes()).unwrap();
    input.write_all(case.file).unwrap();
    for word in &words {
        input.write_all(&word.to_le_bytes()).unwrap();
    }
    input.into_inner().unwrap();
    let (mut by_program, mut by_library) = (vec![], vec![]);
    for _ in 0..turns {
        by_program.push(listed());
        let (spent, gave) = in_memory(case.file, &words, &ends);
        by_library.push(spent);
        assert_eq!(printed(), gave, "{}", case.name);
    }
    let each = 1e6 / count as f64;
    let (program, library) = (least(&by_program) * each, least(&by_library) * each);
    println!("{}: listing {program:.2} µs, in memory {library:.2} µs, ratio {:.2}", case.name, program / library);
}

fn main() {
    let mut given = std::env::args().skip(1).map(|n| n.parse().expect("a number"));
    let (count, turns) = (given.next().unwrap_or(1_000_000), given.next().unwrap_or(3));
    for case in &CASES {
        compare(case, count, turns as usize);
    }
    std::fs::remove_file(INPUT).unwrap();
    std::fs::remove_file(OUTPUT).unwrap();
}
