// Instructions of an event, clearing included, over the first 3,000 events of six rules and of three with long zone lists, of a notice
// of rule L after each of 3,000 events, and of a saving and a reading in after each of 3,000 events of three: those that callgrind counts
// within `yokemango_take`, `yokemango_notice`, `yokemango_save` and `yokemango_restore`. It needs valgrind.
//
//   tools/build yokemango
//   rustc -O --edition 2021 -L target/staticlib -o target/instructions tests/instructions.rs
//   target/instructions                              all
//   callgrind_annotate target/instructions.0         which functions they are in, for the first rule
#[path = "../rust/benches/compare/events.rs"]
mod events;
mod library;

use events::{burst, dry_zone, leak, orchard, running, words, Random};
use std::process::Command;

const EVENTS: u32 = 3_000;

struct Case {
    name: &'static str,
    file: &'static [u8],
    event: fn(&mut Random, u32) -> Vec<u32>,
    counted: Counted,
}

// What is counted: events, a notice so many seconds after each event that settles so many points, or a saving of the state after
// each event, or a reading in of what was saved.
enum Counted {
    Events,
    Notices { after: u32, points: u32 },
    Saves,
    Restores,
}

use Counted::{Events, Notices, Restores, Saves};

const LEAK: &[u8] = include_bytes!("../examples/leak.rule");
const HALF_HOUR: &[u8] = include_bytes!("../examples/half-hour.rule");

const CASES: [Case; 17] = [
    Case { name: "rule L", file: LEAK, event: leak, counted: Events },
    Case { name: "half-hour, 91 kept", file: HALF_HOUR, event: reading, counted: Events },
    Case { name: "since [5, 60)", file: include_bytes!("../examples/running.rule"), event: running, counted: Events },
    Case { name: "until [0, 30), 30 open", file: include_bytes!("../examples/burst.rule"), event: burst, counted: Events },
    Case { name: "a join", file: include_bytes!("../examples/dry-zone.rule"), event: dry_zone, counted: Events },
    Case { name: "32 nodes", file: include_bytes!("../examples/orchard.rule"), event: orchard, counted: Events },
    Case { name: "half-hour, one of 31 blocks in no order", file: HALF_HOUR, event: one_block, counted: Events },
    Case { name: "half-hour, 31 blocks at once in no order", file: HALF_HOUR, event: blocks, counted: Events },
    Case { name: "32 rows in each set", file: include_bytes!("../examples/unread.rule"), event: full_sets, counted: Events },
    Case { name: "rule L, a notice that settles nothing", file: LEAK, event: every_ten, counted: Notices { after: 0, points: 0 } },
    Case { name: "rule L, a notice that settles one point", file: LEAK, event: every_ten, counted: Notices { after: 1, points: 1 } },
    Case { name: "rule L, a saving", file: LEAK, event: leak, counted: Saves },
    Case { name: "rule L, a reading in", file: LEAK, event: leak, counted: Restores },
    Case { name: "half-hour, a saving of 91 kept", file: HALF_HOUR, event: reading, counted: Saves },
    Case { name: "half-hour, a reading in of 91 kept", file: HALF_HOUR, event: reading, counted: Restores },
    Case { name: "half-hour, a saving of 512 kept", file: HALF_HOUR, event: all_blocks, counted: Saves },
    Case { name: "half-hour, a reading in of 512 kept", file: HALF_HOUR, event: all_blocks, counted: Restores },
];

// A leak or a closing of one of 8 blocks every 10 seconds: a point is settled by the seventh after it, or by a notice a second
// after the sixth.
fn every_ten(g: &mut Random, k: u32) -> Vec<u32> {
    words(10 * k, &[(g.below(2), &[g.below(8)])])
}

// One of 8 blocks is read every 20 seconds, and at every fourth point a valve opens.
fn reading(_: &mut Random, k: u32) -> Vec<u32> {
    let rows: [(u32, &[u32]); 2] = [(1, &[k % 8]), (0, &[k / 4 % 9])];
    words(20 * k, if k % 4 == 0 { &rows } else { &rows[..1] })
}

// One of 31 blocks is read every 20 seconds, in no order, and at every fourth point a valve opens.
fn one_block(g: &mut Random, k: u32) -> Vec<u32> {
    let (read, opened) = ([g.below(31)], [k / 4 % 32]);
    let rows: [(u32, &[u32]); 2] = [(1, &read), (0, &opened)];
    words(20 * k, if k % 4 == 0 { &rows } else { &rows[..1] })
}

// Every 200 seconds 31 blocks are read, in no order, and a valve of one of 32 blocks opens.
fn blocks(g: &mut Random, k: u32) -> Vec<u32> {
    let mut blocks: Vec<u32> = (0..31).collect();
    for i in (1..31).rev() {
        blocks.swap(i, g.below(i as u32 + 1) as usize);
    }
    let mut rows: Vec<(u32, &[u32])> = blocks.iter().map(|b| (1, std::slice::from_ref(b))).collect();
    let opened = [g.below(32)];
    rows.push((0, &opened));
    words(200 * k, &rows)
}

// Every 120 seconds all of 32 blocks are read, so that 16 ages of each are kept.
fn all_blocks(_: &mut Random, k: u32) -> Vec<u32> {
    let blocks: Vec<u32> = (0..32).collect();
    let rows: Vec<(u32, &[u32])> = blocks.iter().map(|b| (1, std::slice::from_ref(b))).collect();
    words(120 * k, &rows)
}

// Every 60 seconds all of 32 blocks are read, the lowest first.
fn full_sets(_: &mut Random, k: u32) -> Vec<u32> {
    let blocks: Vec<u32> = (0..32).collect();
    let rows: Vec<(u32, &[u32])> = blocks.iter().map(|b| (0, std::slice::from_ref(b))).collect();
    words(60 * k, &rows)
}

// Takes the events of a case, with its notices, its savings or its readings in.
fn run(case: &Case) {
    let (mut g, mut buffer, mut image) = (Random(1), vec![0; 4_326], vec![0; library::IMAGE_WORDS]);
    let mut state = library::start(case.file).state;
    for k in 0..EVENTS {
        let event = (case.event)(&mut g, k);
        let told = library::take_in(&mut state, &event, &mut buffer);
        assert_eq!(told.number, 0, "{}: event {k} is refused by {}", case.name, told.number);
        if let Notices { after, points } = case.counted {
            let told = library::notice_in(&mut state, event[0] + after, &mut buffer);
            // the first points are settled later
            let points = if k < 6 { 0 } else { points };
            assert_eq!((told.number, buffer[0]), (0, points), "{}: the notice after event {k}", case.name);
        }
        if let Saves | Restores = case.counted {
            let told = library::save(&state, &mut image);
            assert_eq!(told.number, 0, "{}: the saving after event {k}", case.name);
            let words = told.words;
            if let Restores = case.counted {
                let told = library::restore_in(&image[..words as usize], &mut state);
                assert_eq!((told.number, told.words), (0, words), "{}: the reading in after event {k}", case.name);
            }
        }
    }
    println!("kept {}, open {}", library::figures(&state).kept, library::figures(&state).open_points);
}

// Runs this program on case k under callgrind.
fn count(k: usize) {
    let program = std::env::current_exe().unwrap();
    let out = format!("--callgrind-out-file=target/instructions.{k}");
    let (within, each) = match CASES[k].counted {
        Events => ("--toggle-collect=yokemango_take", "an event"),
        Notices { .. } => ("--toggle-collect=yokemango_notice", "a notice"),
        Saves => ("--toggle-collect=yokemango_save", "a saving"),
        Restores => ("--toggle-collect=yokemango_restore", "a reading in"),
    };
    let ran = Command::new("valgrind")
        .args(["--tool=callgrind", within, &out])
        .arg(program)
        .arg(k.to_string())
        .output()
        .expect("valgrind is there");
    let (figures, said) = (String::from_utf8_lossy(&ran.stdout), String::from_utf8_lossy(&ran.stderr));
    assert!(ran.status.success(), "{said}");
    let collected: u64 = said.lines().find_map(|l| l.split("Collected : ").nth(1)).and_then(|n| n.trim().parse().ok()).expect("callgrind tells what it counted");
    println!("{}: {} instructions {each}; {}", CASES[k].name, collected / EVENTS as u64, figures.trim());
}

fn main() {
    match std::env::args().nth(1) {
        Some(k) => run(&CASES[k.parse::<usize>().expect("the number of a case")]),
        None => (0..CASES.len()).for_each(count),
    }
}
