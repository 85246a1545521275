// Runs generated rules and lists of takings, of events and of clock notices, through the monitor and through the keeper of 01
// and of request 101 (keeper.rs), which holds the whole log, and compares every answer, every word of every buffer, the latest
// known time and the kept and open figures after each taking, and the state after each refusal. At the end of some lists the
// log goes on by points and notices that needn't be acceptable, and every reported point is worked out again on the log as it
// then is. It fails on the first difference, and where something was met too rarely.
//
//   tools/build yokemango
//   rustc -O --edition 2021 -L target/staticlib -o target/takings tests/takings.rs
//   target/takings [LISTS [SEED]]     5,000 lists from seed 1
//
// List k has the seed SEED + k, so that a list that differs is run again by `target/takings 1` and its own seed.
mod draw;
mod formed;
mod input;
mod keeper;
mod library;

use draw::*;
use input::*;
use keeper::*;
use library::{State, Taken, Told, RETAINED};
use std::process::exit;
use std::rc::Rc;

// In a run of 1,000 lists and more, each refusal and each kind with rows must be met at least once for 10 lists, each limit at
// its exact figure and one past it at least once for 100, and each refusal of a notice at least once for 200. In every run each
// refusal of a notice and each of its limits must be met.
const LISTS_TO_ASK: u64 = 1_000;
const LISTS_TO_A_MEETING: u64 = 10;
const LISTS_TO_A_LIMIT: u64 = 100;
const LISTS_TO_A_NOTICE: u64 = 200;

// A report of at least so many points is counted as a burst.
const BURST: usize = 10;

// The refusals that a notice meets beside 8. 9, 10, 12 and 14 are never given to one.
const OF_NOTICES: [u32; 4] = [11, 13, 15, 16];

// Where lengths of buffers are tried one by one, they go up to this.
const SMALL_REPORT: usize = 24;

// ---- what was met

#[derive(Default)]
struct Tally {
    lists: u64,
    takings: u64,
    taken: u64,
    refusals: [u64; 17],
    points_with_rows: [u64; NAMES.len()],
    rows_of_kind: [u64; NAMES.len()],
    reports: u64,
    points: u64,
    rows: u64,
    words: u64,
    bursts: u64,
    most_at_once: u64,
    longest: u64,
    latest_times: u64,
    again: u64,
    within_reach: u64,
    limits: [u64; 6],
    starts_refused: u64,
    states: u64,
    states_formed: u64,
    lent_short: u64,
    notices: Notices,
}

const LIMITS: [&str; 6] =
    ["32 rows, taken", "33 rows, refused", "32 open, taken", "33 open, refused", "512 kept, taken", "513 kept, refused"];

// What was met by notices.
#[derive(Default)]
struct Notices {
    all: u64,
    taken: u64,
    refusals: [u64; 17],
    limits: [u64; 4],
    before_any_point: u64,
    of_equal_time: u64,
    at_a_windows_end: u64,
    a_second_before: u64,
    settling: u64,
    points: u64,
    rows: u64,
    most_at_once: u64,
    longest: u64,
    every_length: u64,
    with_all_points: u64,
}

const NOTICE_LIMITS: [&str; 4] = ["32 rows, taken", "33 rows, refused", "kept raised to 512, taken", "kept raised to 513, refused"];

// ---- the list as it is run

// Words on both sides of a buffer that no call may touch.
const FENCE: usize = 8;

struct List<'m, 't> {
    seed: u64,
    log: Log<'m>,
    open: usize,
    kept: usize,
    state: State,
    done: Vec<(Fed, usize)>,
    reported: Vec<(usize, Vec<Vec<u32>>)>,
    tally: &'t mut Tally,
}

impl<'m, 't> List<'m, 't> {
    fn start(seed: u64, meaning: &'m Meaning, tally: &'t mut Tally) -> List<'m, 't> {
        let started = library::start(&meaning.rule.bytes());
        let log = Log::new(meaning);
        let list = List { seed, log, open: 0, kept: 0, state: started.state, done: vec![], reported: vec![], tally };
        let free = (0..4).filter(|v| meaning.pattern_free()[*v]).map(|v| 1 << v).sum();
        let (is, should) = ((started.number, started.place, started.reach, started.free), (0, 0, meaning.reach(), free));
        if is != should {
            list.differ(&format!("start answers {is:?} for {should:?}"));
        }
        list.compare_figures();
        list.tally.lists += 1;
        list
    }

    fn differ(&self, what: &str) -> ! {
        let rule = &self.log.meaning.rule;
        println!("difference in the list of seed {}: {what}\n{rule}rule file {:?}", self.seed, rule.bytes());
        for (fed, room) in &self.done {
            match fed {
                Fed::Event(words) => print!("event {words:?}"),
                Fed::Notice(time) => print!("notice {time}"),
            }
            println!(" with {room} words for the report");
        }
        exit(1)
    }

    // The figures that the monitor gives for its state, beside those of the keeper's log.
    fn compare_figures(&self) {
        let got = library::figures(&self.state);
        let is = (self.state.points as usize, self.state.latest, got.number, got.open_points as usize, got.kept as usize);
        let should = (self.log.size(), self.log.latest().unwrap_or(0), 0, self.open, self.kept);
        if is != should {
            self.differ(&format!("points, latest known time, refusal, open and kept are {is:?} for {should:?}"));
        }
    }

    // One taking. The answer is the refusal's number, or 0.
    fn take(&mut self, g: &mut Random, fed: Fed, room: Room) -> u32 {
        let reckoned = keeper::fed(&self.log, &fed);
        let report = reckoned.as_ref().map_or(vec![0; 3], |r| r.report());
        let room = room.words(report.len());
        let refusal = match &reckoned {
            Err(refusal) => Some(*refusal),
            Ok(r) => r.refusal.or((room < report.len()).then_some((16, report.len() as u32))),
        };

        let before: Vec<u32> = (0..room + 2 * FENCE).map(|_| g.next() as u32).collect();
        let mut buffer = before.clone();
        let taken = passed(&self.state, &fed, &mut buffer[FENCE..FENCE + room]);
        self.done.push((fed.clone(), room));

        let mut expected = before;
        let answer = refusal.unwrap_or((0, 0));
        let words = if refusal.is_none() { report.len() } else { 0 };
        expected[FENCE..FENCE + words].copy_from_slice(&report[..words]);
        let is = (taken.number, taken.place);
        if is != answer || (refusal.is_none() && taken.words as usize != words) {
            self.differ(&format!("the answer is {is:?} and {} words for {answer:?} and {words}", taken.words));
        }
        if let Some(k) = (0..buffer.len()).find(|k| buffer[*k] != expected[*k]) {
            let (at, is, should) = (k as isize - FENCE as isize, buffer[k], expected[k]);
            self.differ(&format!("word {at} of the buffer is {is} for {should}; the report is {report:?}"));
        }
        if refusal.is_some() && taken.state != self.state {
            self.differ("the state of a refused call isn't as it was");
        }
        self.state = taken.state;
        self.count(&reckoned, answer.0, words);
        if let Fed::Notice(time) = fed {
            self.count_notice(time, &reckoned, answer.0, words);
        }
        if let (None, Ok(r)) = (refusal, reckoned) {
            self.reported.extend(r.reported.into_iter().map(|p| (p.point, p.rows)));
            (self.log, self.open, self.kept) = (r.log, r.open, r.kept);
            self.within_reach();
        }
        self.compare_figures();
        answer.0
    }

    // In a rule without "next" no point stays open past the reach, be it reached by a point's time or a notice's.
    fn within_reach(&mut self) {
        let (Meaning { rule, .. }, log) = (self.log.meaning, &self.log);
        if rule.nodes.iter().any(|n| n.kind == NEXT) {
            return;
        }
        let (reach, latest) = (log.meaning.reach() as u64, log.latest().unwrap() as u64);
        let first_open = log.size() - self.open;
        if log.points.get(first_open).is_some_and(|p| p.time as u64 + reach <= latest) {
            self.differ(&format!("point {first_open} is open past the reach"));
        }
        self.tally.within_reach += 1;
    }

    fn count(&mut self, reckoned: &Result<Reckoned, (u32, u32)>, number: u32, words: usize) {
        let t = &mut *self.tally;
        t.takings += 1;
        let Ok(r) = reckoned else {
            t.refusals[number as usize] += 1;
            return;
        };
        let limits = [
            number == 0 && r.most_rows() == 32,
            number == 13 && r.most_rows() == 33,
            number == 0 && r.open == 32,
            number == 14 && r.open == 33,
            number == 0 && r.kept == 512,
            number == 15 && r.kept == 513,
        ];
        for (count, met) in t.limits.iter_mut().zip(limits) {
            *count += met as u64;
        }
        if number != 0 {
            t.refusals[number as usize] += 1;
            return;
        }
        t.taken += 1;
        for n in r.newly.iter().filter(|n| n.rows > 0) {
            let kind = self.log.meaning.rule.nodes[n.node].kind as usize;
            t.points_with_rows[kind] += 1;
            t.rows_of_kind[kind] += n.rows as u64;
        }
        t.reports += 1;
        t.points += r.reported.len() as u64;
        t.rows += r.reported.iter().map(|p| p.rows.len() as u64).sum::<u64>();
        t.words += words as u64;
        t.bursts += (r.reported.len() >= BURST) as u64;
        t.latest_times += (r.log.latest() == Some(u32::MAX)) as u64;
        t.most_at_once = t.most_at_once.max(r.reported.len() as u64);
        t.longest = t.longest.max(words as u64);
    }

    // What a notice met; the log is the one before it.
    fn count_notice(&mut self, time: u32, reckoned: &Result<Reckoned, (u32, u32)>, number: u32, words: usize) {
        if number != 0 && !OF_NOTICES.contains(&number) {
            self.differ(&format!("a notice is refused by {number}"));
        }
        let (log, kept) = (&self.log, self.kept);
        let n = &mut self.tally.notices;
        n.all += 1;
        n.refusals[number as usize] += (number != 0) as u64;
        let Ok(r) = reckoned else { return };
        let limits = [
            number == 0 && r.most_rows() == 32,
            number == 13 && r.most_rows() == 33,
            number == 0 && r.kept == 512 && kept < 512,
            number == 15 && r.kept == 513,
        ];
        for (count, met) in n.limits.iter_mut().zip(limits) {
            *count += met as u64;
        }
        let ends = window_ends(log);
        n.at_a_windows_end += ends.contains(&time) as u64;
        n.a_second_before += time.checked_add(1).is_some_and(|t| ends.contains(&t)) as u64;
        n.before_any_point += (log.size() == 0) as u64;
        n.of_equal_time += (log.latest() == Some(time)) as u64;
        if number == 0 {
            n.taken += 1;
            n.settling += !r.reported.is_empty() as u64;
            n.points += r.reported.len() as u64;
            n.rows += r.reported.iter().map(|p| p.rows.len() as u64).sum::<u64>();
            n.most_at_once = n.most_at_once.max(r.reported.len() as u64);
            n.longest = n.longest.max(words as u64);
        }
    }

    // Every reported point, worked out again on a log that goes on from this one by any points and notices whose times aren't
    // below the latest known one.
    fn work_out_again(&mut self, longer: Log) {
        let (now, longer, last) = (self.log.afresh(), longer.afresh(), self.log.meaning.rule.nodes.len() - 1);
        if self.reported.iter().map(|r| r.0).ne((0..now.size()).filter(|i| now.settled(last, *i))) {
            self.differ("the points reported are not those that are settled");
        }
        for (i, rows) in &self.reported {
            if !longer.settled(last, *i) || longer.rows(*i) != *rows {
                self.differ(&format!("point {i} has other rows on a longer log"));
            }
        }
        self.tally.again += self.reported.len() as u64;
    }

    // A taking from a state that no log need have. Refusal 8 is as docs/STATE.md says; a refusal leaves state and buffer as
    // they were; otherwise the new state is well formed. The answer is the number.
    fn take_from(&mut self, g: &mut Random, state: &State, fed: &Fed, room: usize) -> u32 {
        let before: Vec<u32> = (0..room + 2 * FENCE).map(|_| g.next() as u32).collect();
        let mut buffer = before.clone();
        let taken = passed(state, fed, &mut buffer[FENCE..FENCE + room]);
        let formed = formed::well_formed(state);
        let known = match fed {
            _ if !formed => taken.number == 8,
            Fed::Event(_) => taken.number == 0 || (9..=16).contains(&taken.number),
            Fed::Notice(_) => taken.number == 0 || OF_NOTICES.contains(&taken.number),
        };
        let figures = library::figures(state);
        if !known || figures.number != if formed { 0 } else { 8 } || figures.kept != state.count {
            self.differ(&format!("a state that is well formed ({formed}) is answered {} and {}", taken.number, figures.number));
        }
        let kept = if taken.number == 0 { formed::well_formed(&taken.state) } else { taken.state == *state };
        if !kept {
            self.differ(&format!("a state that no log need have is answered {}, and isn't kept or not well formed then", taken.number));
        }
        let written = FENCE..FENCE + if taken.number == 0 { taken.words as usize } else { 0 };
        if written.end > FENCE + room || (0..buffer.len()).any(|k| !written.contains(&k) && buffer[k] != before[k]) {
            self.differ("a state that no log need have changes words of the buffer that aren't its report's");
        }
        self.tally.states += 1;
        self.tally.states_formed += formed as u64;
        taken.number
    }
}

// Hands the monitor an event or a notice.
fn passed(state: &State, fed: &Fed, report: &mut [u32]) -> Taken {
    match fed {
        Fed::Event(words) => library::take(state, words, report),
        Fed::Notice(time) => library::notice(state, *time, report),
    }
}

// ---- the lists

fn run(seed: u64, tally: &mut Tally) {
    let mut draw = Draw::new(seed);
    let meaning = Meaning::of(draw.rule());
    let rule = &meaning.rule;
    let mut list = List::start(seed, &meaning, tally);
    let takings = if draw.g.one_in(8) { draw.g.from(100, 200) } else { draw.g.from(10, 80) };
    let mut time = draw.first_time();
    let mut steers = if draw.steers() { 6 } else { 0 };
    let notices = draw.notices(rule);
    for _ in 0..takings {
        if notices.is_some_and(|n| draw.g.one_in(n)) {
            let steered = if steers > 0 { draw.steered_notice(&list.log) } else { None };
            steers -= steered.is_some() as u32;
            let at = steered.unwrap_or_else(|| draw.notice(&list.log, time));
            take_notice(&mut draw, &mut list, at);
            time = list.log.latest().unwrap_or(time);
            continue;
        }
        time = time.saturating_add(draw.step(rule, list.open));
        let mut rows = draw.rows();
        if steers > 0 {
            if let Some(m) = draw.steered(&list.log, time, &rows) {
                rows.truncate(m);
                steers -= 1;
            }
        }
        let mut words = event(time, &rows);
        if draw.g.one_in(12) {
            let latest = list.log.latest();
            draw.damage(&mut words, latest);
        }
        let room = draw.room();
        let number = list.take(&mut draw.g, Fed::Event(words.clone()), room);
        if number == 16 && draw.g.one_in(2) {
            list.take(&mut draw.g, Fed::Event(words), Room::Exact);
        }
        time = list.log.latest().unwrap_or(time);
    }
    if draw.g.one_in(4) {
        let mut longer = list.log.clone();
        for _ in 0..draw.g.below(6) {
            time = time.saturating_add(draw.step(rule, 0));
            longer = if draw.g.one_in(4) { longer.noted(time) } else { longer.grown(Rc::new(Point { time, rows: draw.rows() })) };
        }
        list.work_out_again(longer);
    }
    other_states(&mut draw, &mut list, time);
}

// A notice; one in eight with buffers of every length from 0 up to one that is enough, where that is small.
fn take_notice(draw: &mut Draw, list: &mut List, time: u32) {
    let notice = Fed::Notice(time);
    let mut room = draw.room();
    if draw.g.one_in(8) {
        for words in 0..=SMALL_REPORT {
            if list.take(&mut draw.g, notice.clone(), Room::Words(words)) != 16 {
                list.tally.notices.every_length += 1;
                return;
            }
        }
        room = Room::Exact;
    }
    if list.take(&mut draw.g, notice.clone(), room) == 16 && draw.g.one_in(2) {
        list.take(&mut draw.g, notice, Room::Exact);
    }
}

// A rule file damaged in a byte, which start answers as the check does, and states that no log need have.
fn other_states(draw: &mut Draw, list: &mut List, time: u32) {
    let mut bytes = list.log.meaning.rule.bytes();
    let at = draw.g.below(bytes.len());
    bytes[at] = draw.g.pick(&[0, 1, 2, 4, 9, 14, 15, 16, 255]);
    let started = library::start(&bytes);
    let refused = started.number != 0;
    if (started.number, started.place) != library::check(&bytes) || (refused && started.state != library::NO_STATE) {
        list.differ(&format!("start and check differ on {bytes:?}"));
    }
    list.tally.starts_refused += refused as u64;

    let event = Fed::Event(event(time, &draw.rows()));
    let notice = Fed::Notice(draw.notice(&list.log, time));
    let g = &mut draw.g;
    let mut states = vec![started.state];
    for _ in 0..3 {
        let mut state = list.state;
        (0..g.from(1, 2)).for_each(|_| disturb(g, &mut state));
        states.push(state);
    }
    for state in &states {
        for fed in [&event, &notice] {
            let room = g.pick(&[0, 3, 40, LONGEST_REPORT]);
            let number = list.take_from(g, state, fed, room);
            list.tally.refusals[8] += (number == 8) as u64;
        }
    }

    // a field of the state lent short is refused by 8, and changes nothing
    let field = g.below(library::LENGTHS.len());
    let mut lengths = library::LENGTHS;
    lengths[field] = g.below(lengths[field]);
    let (mut state, mut buffer) = (list.state, vec![5; LONGEST_REPORT]);
    for fed in [&event, &notice] {
        let told = match fed {
            Fed::Event(words) => library::take_of(&mut state, lengths, words, &mut buffer),
            Fed::Notice(time) => library::notice_of(&mut state, lengths, *time, &mut buffer),
        };
        if told != (Told { number: 8, place: 0, words: 0 }) || state != list.state || buffer != [5; LONGEST_REPORT] {
            list.differ(&format!("a state lent at lengths {lengths:?} is answered {told:?}, or is changed"));
        }
    }
    let figures = library::figures_of(&state, lengths);
    if (figures.number, figures.open_points, figures.kept) != (8, 0, state.count) {
        list.differ(&format!("a state lent at lengths {lengths:?} has number {}", figures.number));
    }
    list.tally.lent_short += 1;

    // with all points there may be, the next event is refused by 12, and a notice goes through
    let mut last = list.state;
    move_on(&mut last, MOST_POINTS as u32 - list.state.points);
    if formed::well_formed(&last) {
        let number = list.take_from(g, &last, &event, LONGEST_REPORT);
        if number != 12 {
            list.differ(&format!("with {MOST_POINTS} points the next event is answered {number}"));
        }
        list.tally.refusals[12] += 1;
        let latest = list.state.latest;
        for time in [latest, latest.saturating_add(list.log.meaning.reach())] {
            with_all_points(list, &last, time);
        }
    }
}

// A notice in a state that is the list's, moved on to all points there may be: it is answered as the keeper does, but for the
// points' numbers.
fn with_all_points(list: &mut List, state: &State, time: u32) {
    let reckoned = reckon_notice(&list.log, time);
    let mut report = reckoned.report();
    for k in 0..reckoned.reported.len() {
        report[3 + 3 * k] += state.points - list.state.points;
    }
    let answer = reckoned.refusal.unwrap_or((0, 0));
    let mut buffer = vec![5; LONGEST_REPORT];
    let taken = library::notice(state, time, &mut buffer);
    let mut expected = vec![5; LONGEST_REPORT];
    if answer.0 == 0 {
        expected[..report.len()].copy_from_slice(&report);
    }
    let is = (taken.number, taken.place);
    let held = if answer.0 == 0 { (taken.state.points, taken.state.latest) == (state.points, time) } else { taken.state == *state };
    if is != answer || buffer != expected || !held || !formed::well_formed(&taken.state) {
        list.differ(&format!("with {MOST_POINTS} points a notice at {time} is answered {is:?} for {answer:?}, or with another report or state"));
    }
    list.tally.notices.with_all_points += 1;
}

// A notice has no point of its own, so that at most 32 are reported by one.
const LONGEST_OF_NOTICE: usize = 3 + 32 * 3 + 32 * 32 * 4;

// 33 points of 32 rows of 4 values in one report: what is before a point that eventually [0, 1000) reaches from each. The last
// taking, at 1,320, is an event or a notice, and its report has so many words.
fn longest_report(tally: &mut Tally, last: Fed, words: usize) {
    let nodes = vec![atom(0, &[0, 1, 2, 3]), node(EVENTUALLY, 0, 0, 0, 1_000), node(PREVIOUS, 1, 0, 0, 0)];
    let meaning = Meaning::of(Rule { arities: vec![4], nodes });
    let (mut g, mut list) = (Random(0), List::start(0, &meaning, tally));
    for i in 0..33 {
        let rows = if i < 32 { 0..0 } else { 0..32 };
        let rows: Vec<Row> = rows.map(|k| (0, vec![7, u32::MAX, k / 4, 31 - k])).collect();
        list.take(&mut g, Fed::Event(event(10 * i, &rows)), Room::Full);
    }
    for room in [Room::Empty, Room::Short, Room::Exact] {
        list.take(&mut g, last.clone(), room);
    }
    let longest = list.done.last().unwrap().1;
    if longest != words {
        list.differ(&format!("the longest report has {longest} words for {words}"));
    }
    let log = list.log.clone();
    list.work_out_again(log);
}

// States of n points within the window of an eventually, all of them open and of 8 rows each, as no start leads to past 32.
// An event or a notice past the window settles them all. With up to 32 it is taken, with more the state is refused by 8.
fn many_open(tally: &mut Tally) {
    let nodes = vec![atom(0, &[0, 1, 2, 3]), node(EVENTUALLY, 0, 0, 0, 1_000)];
    let meaning = Meaning::of(Rule { arities: vec![4], nodes });
    let (mut g, mut list) = (Random(0), List::start(0, &meaning, tally));
    for n in 0..RETAINED {
        let mut state = list.state;
        (state.points, state.retained, state.count) = (n as u32, n as u32, 8 * n as u32);
        (0..n).for_each(|i| state.times[i] = 10 * i as u32);
        state.latest = 10 * n.saturating_sub(1) as u32;
        for k in 0..8 * n {
            (state.numbers[k], state.values[4 * k]) = (k as u32 / 8, k as u32 % 8);
        }
        for fed in [Fed::Event(event(2_000, &[])), Fed::Notice(2_000)] {
            let number = list.take_from(&mut g, &state, &fed, LONGEST_REPORT);
            if number != if n <= MOST_OPEN { 0 } else { 8 } {
                list.differ(&format!("with {n} open points the next taking is answered {number}"));
            }
        }
    }
}

// An event with a row of relation 0 for each of these values.
fn values(time: u32, of: std::ops::Range<u32>) -> Fed {
    Fed::Event(event(time, &of.map(|v| (0, vec![v])).collect::<Vec<Row>>()))
}

fn expect(list: &List, what: &str, is: u32, should: u32) {
    if is != should {
        list.differ(&format!("{what} is answered {is} for {should}"));
    }
}

// 13 by a notice: eventually [0, 100) at the first point has the rows of both, 32 of them, and 33.
fn crowded_by_notice(tally: &mut Tally) {
    let meaning = Meaning::of(Rule { arities: vec![1], nodes: vec![atom(0, &[0]), node(EVENTUALLY, 0, 0, 0, 100)] });
    for (rows, number) in [(32, 0), (33, 13)] {
        let (mut g, mut list) = (Random(0), List::start(0, &meaning, tally));
        list.take(&mut g, values(0, 0..16), Room::Full);
        list.take(&mut g, values(1, 16..rows), Room::Full);
        for (time, should) in [(99, 0), (100, number), (101, number)] {
            let is = list.take(&mut g, Fed::Notice(time), Room::Full);
            expect(&list, &format!("a notice at {time} that settles {rows} rows"), is, should);
        }
    }
}

// 15 by a notice: once [0, 1000) over eventually [0, 100) over an atom. 16 points, a second apart, of which the last has 32 rows:
// settled, each has them all, and "once" has 512 pairs where 32 rows were kept. With a row at one point more 513 would be kept.
fn kept_by_notice(tally: &mut Tally) {
    let nodes = vec![atom(0, &[0]), node(EVENTUALLY, 0, 0, 0, 100), node(ONCE, 1, 0, 0, 1_000)];
    let meaning = Meaning::of(Rule { arities: vec![1], nodes });
    for (more, number) in [(false, 0), (true, 15)] {
        let (mut g, mut list) = (Random(0), List::start(0, &meaning, tally));
        for i in 0..16 {
            list.take(&mut g, values(i, if i < 15 { 0..0 } else { 0..32 }), Room::Full);
        }
        if more {
            list.take(&mut g, values(16, 0..1), Room::Full);
        }
        let (kept, end) = (list.kept, 100 + list.log.latest().unwrap());
        for (time, should) in [(99, 0), (end, number), (end, number)] {
            let is = list.take(&mut g, Fed::Notice(time), Room::Full);
            expect(&list, &format!("a notice at {time} with {kept} kept before"), is, should);
        }
        let kept = list.kept;
        if kept != if more { 33 } else { MOST_KEPT } {
            list.differ(&format!("{kept} are kept after the notices"));
        }
    }
}

// Where 14 would be met by an event, a notice isn't asked: with 32 open points it goes through at an equal time, again and
// again. Before any point every time is taken, and "next" is settled by none.
fn open_and_next(tally: &mut Tally) {
    let meaning = Meaning::of(Rule { arities: vec![1], nodes: vec![atom(0, &[0]), node(EVENTUALLY, 0, 0, 0, 100)] });
    let (mut g, mut list) = (Random(0), List::start(0, &meaning, tally));
    for _ in 0..32 {
        list.take(&mut g, values(7, 0..1), Room::Full);
    }
    let (one, notice) = (|time| values(time, 0..1), Fed::Notice);
    for (fed, should) in [(one(7), 14), (notice(7), 0), (notice(7), 0), (one(7), 14), (notice(107), 0), (one(106), 11), (one(107), 0)] {
        let is = list.take(&mut g, fed, Room::Full);
        expect(&list, "a taking beside 32 open points", is, should);
    }
    for first in [0, 1, u32::MAX] {
        let meaning = Meaning::of(Rule { arities: vec![1], nodes: vec![atom(0, &[0]), node(NEXT, 0, 0, 0, 0)] });
        let mut list = List::start(0, &meaning, &mut *list.tally);
        for fed in [Fed::Notice(first), Fed::Notice(first), values(first, 0..1), Fed::Notice(u32::MAX)] {
            let is = list.take(&mut g, fed, Room::Full);
            expect(&list, "a taking of \"next\"", is, 0);
        }
        if list.open != 1 {
            list.differ("\"next\" is settled by a notice");
        }
    }
}

// The latest known time of a state changed: rule L with a leak at 100, which 160 leaves open and 161 settles.
fn latest_changed(tally: &mut Tally) {
    let meaning = Meaning::of(rule_l());
    let (mut g, mut list) = (Random(0), List::start(0, &meaning, tally));
    for (latest, should) in [(0, 0), (1, 0), (u32::MAX, 11)] {
        let state = State { latest, ..list.state };
        let is = list.take_from(&mut g, &state, &Fed::Event(event(100, &[])), 3);
        expect(&list, &format!("a state of no points whose latest known time is {latest}"), is, should);
    }
    list.take(&mut g, values(100, 7..8), Room::Full);
    for (latest, should) in [(0, 8), (99, 8), (100, 0), (101, 0), (160, 0), (161, 8), (u32::MAX, 8)] {
        let state = State { latest, ..list.state };
        for fed in [Fed::Event(event(200, &[])), Fed::Notice(200)] {
            let is = list.take_from(&mut g, &state, &fed, LONGEST_REPORT);
            expect(&list, &format!("a state whose latest known time is {latest}"), is, should);
        }
    }
}

fn main() {
    let mut args = std::env::args().skip(1);
    let mut number = |default: u64| match args.next().map(|a| a.parse()) {
        None => default,
        Some(Ok(n)) => n,
        Some(Err(_)) => {
            eprintln!("usage: takings [LISTS [SEED]]");
            exit(2)
        }
    };
    let (lists, seed) = (number(5_000), number(1));
    let mut t = Tally::default();
    longest_report(&mut t, Fed::Event(event(1_320, &[])), LONGEST_REPORT);
    longest_report(&mut t, Fed::Notice(1_320), LONGEST_OF_NOTICE);
    many_open(&mut t);
    crowded_by_notice(&mut t);
    kept_by_notice(&mut t);
    open_and_next(&mut t);
    latest_changed(&mut t);
    for k in 0..lists {
        run(seed.wrapping_add(k), &mut t);
    }

    println!("{} lists, {} takings, {} of them taken; no difference", t.lists, t.takings, t.taken);
    println!("{} reports with {} points and {} rows in {} words compared", t.reports, t.points, t.rows, t.words);
    println!("{} reports of {BURST} points and more; at most {} points and {} words in one", t.bursts, t.most_at_once, t.longest);
    println!("{} taken at time {}; {} reported points worked out again on longer logs", t.latest_times, u32::MAX, t.again);
    println!("{} takings after which no point was open past the reach", t.within_reach);
    println!("{} starts refused; {} states that no log need have, {} of them well formed; {} lent short", t.starts_refused, t.states, t.states_formed, t.lent_short);
    let mut rare = vec![];
    for (number, met) in t.refusals.iter().enumerate().skip(8) {
        println!("refusal {number}: {met}");
        if *met < lists / LISTS_TO_A_MEETING {
            rare.push(format!("refusal {number}"));
        }
    }
    for (what, met) in LIMITS.iter().zip(t.limits) {
        println!("{what}: {met}");
        if met < lists / LISTS_TO_A_LIMIT {
            rare.push(what.to_string());
        }
    }
    for kind in 1..NAMES.len() {
        println!("{}: rows at {} points, {} rows", NAMES[kind], t.points_with_rows[kind], t.rows_of_kind[kind]);
        if t.points_with_rows[kind] < lists / LISTS_TO_A_MEETING {
            rare.push(NAMES[kind].to_string());
        }
    }
    let n = &t.notices;
    println!("{} notices, {} of them taken; {} settled {} points with {} rows, at most {} points and {} words at once", n.all, n.taken, n.settling, n.points, n.rows, n.most_at_once, n.longest);
    let met = [
        ("before any point", n.before_any_point),
        ("of the latest known time", n.of_equal_time),
        ("at the end of a window", n.at_a_windows_end),
        ("a second before it", n.a_second_before),
        ("with every length of buffer up to enough", n.every_length),
        ("with all points taken", n.with_all_points),
    ];
    for (what, met) in met {
        println!("notices {what}: {met}");
        if met < lists / LISTS_TO_A_MEETING {
            rare.push(format!("notices {what}"));
        }
    }
    for (what, met) in NOTICE_LIMITS.iter().zip(n.limits) {
        println!("notices, {what}: {met}");
    }
    let mut never: Vec<String> = NOTICE_LIMITS.iter().zip(n.limits).filter(|l| l.1 == 0).map(|l| l.0.to_string()).collect();
    for number in OF_NOTICES {
        let met = n.refusals[number as usize];
        println!("notices, refusal {number}: {met}");
        if met == 0 {
            never.push(format!("refusal {number}"));
        }
        if met < lists / LISTS_TO_A_NOTICE {
            rare.push(format!("notices, refusal {number}"));
        }
    }
    if !never.is_empty() {
        println!("never met by a notice: {}", never.join(", "));
        exit(1);
    }
    if lists >= LISTS_TO_ASK && !rare.is_empty() {
        println!("met too rarely: {}", rare.join(", "));
        exit(1);
    }
}
