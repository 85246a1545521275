// The stack of one call, by painting the stack below it: a usual event and a usual notice, bursts, the trees that keep most
// sets alive at once, each settled by an event and by a notice, and a saving and a reading in. It fails above the figures of
// README.md.
//
//   tools/build yokemango
//   rustc -O --edition 2021 -L target/staticlib -o target/stack tests/stack.rs
//   target/stack
mod input;
mod library;

use input::*;
use library::State;
use std::hint::black_box;
use std::mem::MaybeUninit;

const KB: usize = 1_024;

// ---- painting

const PAINTED: usize = 4 << 20;
const PAINT: u64 = 0x5afe_5afe_5afe_5afe;

// Fills the stack below the caller with one word, and answers where that begins.
#[inline(never)]
fn paint() -> usize {
    let mut room = [MaybeUninit::<u64>::uninit(); PAINTED / 8];
    for word in room.iter_mut() {
        unsafe { word.as_mut_ptr().write_volatile(PAINT) };
    }
    black_box(&mut room).as_ptr() as usize
}

// The first address from `low` on that isn't painted any more.
#[inline(never)]
fn overwritten_from(low: usize) -> usize {
    let painted = |at: usize| unsafe { (at as *const u64).read_volatile() == PAINT };
    (low..).step_by(8).find(|at| !painted(*at)).unwrap()
}

// Bytes of stack below the caller that a call overwrote, on a stack of its own.
fn used_by(call: impl FnOnce() + Send + 'static) -> usize {
    let measure = move || {
        let here = 0u64;
        let low = paint();
        call();
        black_box(&here) as *const u64 as usize - overwritten_from(low)
    };
    std::thread::Builder::new().stack_size(4 * PAINTED).spawn(measure).unwrap().join().unwrap()
}

#[inline(never)]
fn taken(mut state: Box<State>, event: Vec<u32>) {
    let mut buffer = vec![0; LONGEST_REPORT];
    let told = library::take_in(&mut state, &event, &mut buffer);
    assert_eq!(told.number, 0, "refused at {}", told.place);
    black_box((&state, &buffer));
}

fn of_taking(state: &State, event: &[u32]) -> usize {
    let (state, event) = (Box::new(*state), event.to_vec());
    used_by(move || taken(state, event))
}

// The notice must settle so many points.
#[inline(never)]
fn noted(mut state: Box<State>, time: u32, points: u32) {
    let mut buffer = vec![0; LONGEST_REPORT];
    let told = library::notice_in(&mut state, time, &mut buffer);
    assert_eq!((told.number, buffer[0]), (0, points), "refused at {}", told.place);
    black_box((&state, &buffer));
}

fn of_notice(state: &State, time: u32, points: u32) -> usize {
    let state = Box::new(*state);
    used_by(move || noted(state, time, points))
}

// A saving of the state, and a reading in of what was saved. Both must be answered by so many words.
#[inline(never)]
fn saved(state: Box<State>, mut image: Vec<u32>) {
    let told = library::save(&state, &mut image);
    assert_eq!((told.number, told.words as usize), (0, image.len()));
    black_box((&state, &image));
}

#[inline(never)]
fn restored(mut state: Box<State>, image: Vec<u32>) {
    let told = library::restore_in(&image, &mut state);
    assert_eq!((told.number, told.words as usize), (0, image.len()));
    black_box((&state, &image));
}

fn of_image(name: &str, state: &State) {
    let mut image = vec![0; library::IMAGE_WORDS];
    let told = library::save(state, &mut image);
    assert_eq!(told.number, 0);
    image.truncate(told.words as usize);
    let (of_saving, room) = (Box::new(*state), image.clone());
    let saving = used_by(move || saved(of_saving, room));
    let (of_reading, words) = (Box::new(*state), image.len());
    let reading = used_by(move || restored(of_reading, image));
    println!("{name}, {} kept, an image of {words} words: a saving {saving} bytes, a reading in {reading} bytes", state.count);
}

// ---- what is measured

fn take(state: &mut State, event: &[u32]) -> Vec<u32> {
    let mut buffer = vec![0; LONGEST_REPORT];
    let told = library::take_in(state, event, &mut buffer);
    assert_eq!(told.number, 0, "refused at {}", told.place);
    buffer
}

fn started(rule: &Rule) -> State {
    let started = library::start(&rule.bytes());
    assert_eq!(started.number, 0, "{rule}");
    started.state
}

// The most of the events from the thousandth on.
fn usual(rule: &Rule, event_at: impl Fn(u32) -> Vec<u32>) -> usize {
    let mut state = started(rule);
    for k in 0..1_000 {
        take(&mut state, &event_at(k));
    }
    let mut most = 0;
    for k in 1_000..1_024 {
        most = most.max(of_taking(&state, &event_at(k)));
        take(&mut state, &event_at(k));
    }
    most
}

// What a burst takes that an event settles, and one that a notice does.
struct Burst {
    by_event: usize,
    by_notice: usize,
}

// Points that wait, one a second, until 32 are open, with as many rows as 512 entries allow; and then an event, or a notice, that settles them all. Each "previous" at the top lets one more point wait.
fn burst(rule: &Rule) -> Burst {
    let waiting = 32 + rule.nodes.iter().filter(|n| n.kind == PREVIOUS).count() as u32;
    let columns = rule.arities[0] as usize;
    let time = LONGEST_WINDOW + waiting;
    let last = event(time, &[]);
    let mut buffer = vec![0; LONGEST_REPORT];
    let mut rows = 32;
    'fewer: loop {
        let mut state = started(rule);
        for i in 0..waiting {
            let own: Vec<Row> = (0..rows).map(|k| (0, [i % 2, k, 1, 2][..columns].to_vec())).collect();
            if library::take_in(&mut state, &event(i, &own), &mut buffer).number != 0 {
                assert!(rows > 0, "{waiting} points can't wait:\n{rule}");
                rows -= 1;
                continue 'fewer;
            }
        }
        let mut after = state;
        if library::take_in(&mut after, &last, &mut buffer).number != 0 {
            assert!(rows > 0, "the last event is refused:\n{rule}");
            rows -= 1;
            continue;
        }
        assert_eq!(library::figures(&state).open_points, 32);
        return Burst { by_event: of_taking(&state, &last), by_notice: of_notice(&state, time, 32) };
    }
}

// Leaves under "eventually", joined in pairs by a kind, with "previous" above.
fn joined(leaves: u8, kind: u8, above: u8) -> Rule {
    let mut nodes = vec![];
    let mut roots = vec![];
    for _ in 0..leaves {
        nodes.push(atom(0, &[0, 1, 2, 3]));
        nodes.push(node(EVENTUALLY, nodes.len() as u8 - 1, 0, 0, LONGEST_WINDOW));
        roots.push(nodes.len() as u8 - 1);
    }
    while roots.len() > 1 {
        let (a, b) = (roots.remove(0), roots.remove(0));
        nodes.push(if kind == OR { node(OR, a, b, 0, 0) } else { node(kind, a, b, 0, LONGEST_WINDOW) });
        roots.push(nodes.len() as u8 - 1);
    }
    for _ in 0..above {
        nodes.push(node(PREVIOUS, nodes.len() as u8 - 1, 0, 0, 0));
    }
    Rule { arities: vec![4], nodes }
}

// An atom with `nested` times a kind above it, and then "previous".
fn chain(kind: u8, nested: u8, above: u8) -> Rule {
    let mut nodes = vec![atom(0, &[0, 1, 2, 3])];
    for x in 0..nested {
        nodes.push(node(kind, x, 0, 0, LONGEST_WINDOW));
    }
    for x in nested..nested + above {
        nodes.push(node(PREVIOUS, x, 0, 0, 0));
    }
    Rule { arities: vec![4], nodes }
}

fn leaks(k: u32) -> Vec<u32> {
    let block = vec![k / 3 % 8];
    let rows: Vec<Row> = match k % 3 {
        0 => vec![(0, block)],
        1 if k % 9 != 1 => vec![(1, block)],
        _ => vec![],
    };
    event(7 * k, &rows)
}

// A notice after 1,000 events of rule L: one of the last event's time, which settles nothing, and one that settles the first open
// point. A point comes every 7 seconds, so that the last 9 are open.
fn usual_notice(rule: &Rule) -> usize {
    let state = after(rule, leaks);
    let first_open = 7 * (1_000 - library::figures(&state).open_points);
    of_notice(&state, state.latest, 0).max(of_notice(&state, first_open + 61, 1))
}

// The state after 1,000 events.
fn after(rule: &Rule, event_at: impl Fn(u32) -> Vec<u32>) -> State {
    let mut state = started(rule);
    (0..1_000).for_each(|k| drop(take(&mut state, &event_at(k))));
    state
}

// A valve opened in a block (relation 0) that wasn't read (relation 1) within the last half hour.
fn half_hour() -> Rule {
    let nodes = vec![atom(0, &[0]), atom(1, &[0]), node(ONCE, 1, 0, 0, 1_801), node(AND_NOT, 0, 2, 0, 0)];
    Rule { arities: vec![1, 1], nodes }
}

// One of 8 blocks is read every 20 seconds; or all of 32 every 120, so that 16 ages of each are kept.
fn readings(k: u32) -> Vec<u32> {
    event(20 * k, &[(1, vec![k % 8])])
}

fn all_blocks(k: u32) -> Vec<u32> {
    event(120 * k, &(0..32).map(|block| (1, vec![block])).collect::<Vec<Row>>())
}

fn told(name: &str, bytes: usize, most: usize) -> bool {
    println!("{name}: {bytes} bytes of stack, {} asked", most);
    bytes <= most
}

// Both of a burst.
fn told_both(name: &str, burst: Burst, most: usize) -> bool {
    println!("{name}: {} bytes of stack by an event, {} by a notice, {} asked", burst.by_event, burst.by_notice, most);
    burst.by_event.max(burst.by_notice) <= most
}

fn main() {
    let l = rule_l();
    let mut fine = told("rule L, a usual event", usual(&l, leaks), 32 * KB);
    fine &= told("rule L, a notice that settles nothing or one point", usual_notice(&l), 32 * KB);
    fine &= told_both("rule L, 32 points settled at once", burst(&l), 64 * KB);
    for (name, rule) in [
        ("8 leaves under eventually, joined by until, 9 previous above", joined(8, UNTIL, 9)),
        ("8 leaves under eventually, joined by or, 9 previous above", joined(8, OR, 9)),
        ("11 leaves under eventually, joined by until", joined(11, UNTIL, 0)),
        ("11 leaves under eventually, joined by or", joined(11, OR, 0)),
        ("11 leaves under eventually, joined by since", joined(11, SINCE, 0)),
        ("5 leaves under eventually, joined by or, 17 previous above", joined(5, OR, 17)),
        ("31 nested eventually", chain(EVENTUALLY, 31, 0)),
        ("30 nested once over eventually", {
            let mut rule = chain(ONCE, 31, 0);
            rule.nodes[1] = node(EVENTUALLY, 0, 0, 0, LONGEST_WINDOW);
            rule
        }),
        ("30 previous over eventually", chain(EVENTUALLY, 1, 30)),
    ] {
        assert!(rule.nodes.len() <= 32);
        fine &= told_both(name, burst(&rule), 160 * KB);
    }
    for nodes in [2u8, 4, 8, 16, 32] {
        let leaves = (nodes + 1) / 3;
        let rule = joined(leaves, OR, nodes + 1 - 3 * leaves);
        assert_eq!(rule.nodes.len(), nodes as usize);
        let usual = usual(&rule, |k| event(LONGEST_WINDOW * k, &[(0, vec![k % 4, 0, 0, 0])]));
        let Burst { by_event, by_notice } = burst(&rule);
        println!("a rule of {nodes} nodes: a usual event {usual} bytes, a burst {by_event} bytes by an event, {by_notice} by a notice");
    }
    let own = l.bytes();
    println!("start: {} bytes", used_by(move || drop(black_box(Box::new(library::start(&own))))));
    let state = Box::new(started(&l));
    println!("figures: {} bytes", used_by(move || assert_eq!(library::figures(&state).number, 0)));
    of_image("rule L", &after(&l, leaks));
    of_image("half-hour", &after(&half_hour(), readings));
    of_image("half-hour", &after(&half_hour(), all_blocks));
    assert!(fine, "a call takes more stack than README.md says");
}
