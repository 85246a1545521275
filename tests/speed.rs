// What one taking costs: time after 1,000 and after 1,000,000 points, side by side; and what a save and a restore cost beside it.
//
//   tools/build yokemango
//   rustc -O --edition 2021 -L target/staticlib -o target/speed tests/speed.rs
//   target/speed
mod input;
mod library;

use input::*;
use library::State;
use std::hint::black_box;
use std::mem::size_of;
use std::time::Instant;

// ---- the rules, and the events of each by the point's number

struct Case {
    name: &'static str,
    rule: Rule,
    // The time of a point and its rows; these come again after PERIOD points.
    step: u32,
    rows: fn(usize) -> Vec<Row>,
}

const PERIOD: usize = 1_000;
const FEW: usize = 1_000;
const MANY: usize = 1_000_000;

impl Case {
    fn event(&self, point: usize) -> Vec<u32> {
        event(point as u32 * self.step, &(self.rows)(point % PERIOD))
    }
}

fn rows_of_l(i: usize) -> Vec<Row> {
    let block = vec![(i / 3 % 8) as u32];
    match i % 3 {
        0 => vec![(0, block)],
        1 if i % 9 != 1 => vec![(1, block)],
        _ => vec![],
    }
}

// "No valve opens without a reading of its block in the last thirty minutes."
fn half_hour() -> Rule {
    let nodes = vec![atom(0, &[0]), atom(1, &[0]), node(ONCE, 1, 0, 0, 1_801), node(AND_NOT, 0, 2, 0, 0)];
    Rule { arities: vec![1, 1], nodes }
}

// Each point reads one of 8 blocks in turn: 91 pairs are kept where a point comes every 20 seconds, 46 where every 40.
fn rows_of_half_hour(i: usize) -> Vec<Row> {
    let mut rows = vec![(1, vec![(i % 8) as u32])];
    if i % 4 == 0 {
        rows.push((0, vec![(i / 4 % 9) as u32]));
    }
    rows
}

// Each point reads all 8 blocks: 80 pairs are kept where a point comes every 200 seconds.
fn rows_of_all_blocks(i: usize) -> Vec<Row> {
    let mut rows: Vec<Row> = (0..8).map(|block| (1, vec![block])).collect();
    if i % 4 == 0 {
        rows.push((0, vec![(i / 4 % 9) as u32]));
    }
    rows
}

// Each point reads one of 31 blocks, in no order.
fn rows_of_any_block(i: usize) -> Vec<Row> {
    let mut rows = vec![(1, vec![((i * 7_919 + i / 13 * 104_729) % 31) as u32])];
    if i % 4 == 0 {
        rows.push((0, vec![(i / 4 % 32) as u32]));
    }
    rows
}

// Eight relations, each seen through two nodes, joined in pairs, and a comparison on top.
fn nodes_32() -> Rule {
    let mut nodes = vec![];
    let mut roots = vec![];
    for relation in 0..8u8 {
        let at = nodes.len() as u8;
        nodes.push(atom(relation, &[0]));
        let (first, second) = match relation % 4 {
            0 => (node(ONCE, at, 0, 0, 301), node(PREVIOUS, at + 1, 0, 0, 0)),
            1 => (node(EVENTUALLY, at, 0, 0, 61), node(ONCE, at + 1, 0, 30, 121)),
            2 => (node(PREVIOUS, at, 0, 0, 31), node(EVENTUALLY, at + 1, 0, 0, 31)),
            _ => (node(NEXT, at, 0, 0, 31), node(ONCE, at + 1, 0, 0, 121)),
        };
        nodes.extend([first, second]);
        roots.push(at + 2);
    }
    for kind in [OR, SINCE, AND_NOT, UNTIL, OR, NOT_SINCE, OR] {
        let (a, b) = (roots.remove(0), roots.remove(0));
        let (c, d) = if kind >= SINCE { (0, 61) } else { (0, 0) };
        roots.push(nodes.len() as u8);
        nodes.push(node(kind, a, b, c, d));
    }
    let different_from_9 = Node { kind: KEEP, left: roots[0], right: 1, mask: 2, words: [0, 9, 0, 0] };
    nodes.push(different_from_9);
    Rule { arities: vec![1; 8], nodes }
}

fn rows_of_nodes_32(i: usize) -> Vec<Row> {
    vec![((i % 8) as u32, vec![(i % 4) as u32]), ((i * 5 % 8) as u32, vec![(i / 2 % 4) as u32])]
}

fn cases() -> Vec<Case> {
    vec![
        Case { name: "rule L", rule: rule_l(), step: 7, rows: rows_of_l },
        Case { name: "the half-hour rule, a reading every 40 s", rule: half_hour(), step: 40, rows: rows_of_half_hour },
        Case { name: "the half-hour rule, a reading every 20 s", rule: half_hour(), step: 20, rows: rows_of_half_hour },
        Case { name: "the half-hour rule, all 8 blocks every 200 s", rule: half_hour(), step: 200, rows: rows_of_all_blocks },
        Case { name: "the half-hour rule, one of 31 blocks in no order every 20 s", rule: half_hour(), step: 20, rows: rows_of_any_block },
        Case { name: "32 nodes", rule: nodes_32(), step: 10, rows: rows_of_nodes_32 },
    ]
}

// ---- time

fn started(rule: &Rule) -> State {
    let started = library::start(&rule.bytes());
    assert_eq!(started.number, 0, "{rule}");
    started.state
}

fn run(state: &mut State, events: &[Vec<u32>], buffer: &mut [u32]) -> u64 {
    let mut rows = 0;
    for e in events {
        let told = library::take_in(state, black_box(e), buffer);
        assert_eq!(told.number, 0, "refused at {}", told.place);
        rows += buffer[2] as u64;
    }
    rows
}

fn median(mut of: Vec<f64>) -> f64 {
    of.sort_by(f64::total_cmp);
    of[of.len() / 2]
}

// The next PERIOD events from a state of FEW points and from one of MANY, by turns, so that both meet the same noise.
fn time(case: &Case) {
    let mut buffer = vec![0; LONGEST_REPORT];
    let mut state = started(&case.rule);
    let mut from = vec![];
    for point in (0..MANY).step_by(PERIOD) {
        let events: Vec<Vec<u32>> = (point..point + PERIOD).map(|i| case.event(i)).collect();
        run(&mut state, &events, &mut buffer);
        if point + PERIOD == FEW || point + PERIOD == MANY {
            let next: Vec<Vec<u32>> = (point + PERIOD..point + 2 * PERIOD).map(|i| case.event(i)).collect();
            from.push((state, next));
        }
    }
    let mut spent = [vec![], vec![]];
    let mut rows = [0, 0];
    for _ in 0..41 {
        for (k, (state, events)) in from.iter().enumerate() {
            let mut state = *state;
            let began = Instant::now();
            rows[k] = run(&mut state, events, &mut buffer);
            spent[k].push(began.elapsed().as_nanos() as f64 / PERIOD as f64);
        }
    }
    assert_eq!(rows[0], rows[1]);
    let [few, many] = spent.map(median);
    let (name, kept, open) = (case.name, library::figures(&state).kept, library::figures(&state).open_points);
    println!("{name}: {few:.0} ns an event after {FEW} points, {many:.0} ns after {MANY}, ratio {:.2}; kept {kept}, open {open}", many / few);
    time_image(name, &state);
}

// A save of a state and a restore of its image, over and over.
fn time_image(name: &str, state: &State) {
    let mut image = vec![0; library::IMAGE_WORDS];
    let words = library::save(state, &mut image).words as usize;
    let mut spent = [vec![], vec![]];
    for _ in 0..41 {
        let began = Instant::now();
        for _ in 0..PERIOD {
            assert_eq!(library::save(black_box(state), &mut image).number, 0);
        }
        spent[0].push(began.elapsed().as_nanos() as f64 / PERIOD as f64);
        let mut read = *state;
        let began = Instant::now();
        for _ in 0..PERIOD {
            assert_eq!(library::restore_in(black_box(&image[..words]), &mut read).number, 0);
        }
        spent[1].push(began.elapsed().as_nanos() as f64 / PERIOD as f64);
        assert!(read == *state);
    }
    let [save, restore] = spent.map(median);
    println!("{name}: {save:.0} ns a save of {words} words, {restore:.0} ns a restore; kept {}", state.count);
}

// A state that keeps as many entries as it may: 32 blocks read every 120 seconds.
fn full() -> State {
    let mut state = started(&half_hour());
    let rows: Vec<Row> = (0..32).map(|block| (1, vec![block])).collect();
    for k in 0..40 {
        assert_eq!(library::take_in(&mut state, &event(k * 120, &rows), &mut [0; 9]).number, 0);
    }
    assert_eq!(state.count, 512);
    state
}

fn main() {
    println!("a state is {} bytes", size_of::<State>());
    for case in cases() {
        time(&case);
    }
    time_image("the half-hour rule, 32 blocks every 120 s", &full());
}
