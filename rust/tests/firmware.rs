//! The crate as firmware uses it, beside the keeper of the scope (tests/keeper.rs), which holds the whole log.
//!
//!     cargo test --test firmware                 500 lists from seed 1
//!     cargo test --test firmware -- LISTS SEED   others
//!
//! Every buffer that is lent ends, or begins, at a page that can't be read or written, so that a word read or written outside
//! it stops the run. What is tried:
//!
//! - lists of events and notices, some to be refused, each with report buffers of every length from 0 up to enough. The monitor
//!   written by hand, with which the benchmark compares, takes the accepted ones too. At random places the state is saved, and
//!   what its image gives back takes its place;
//! - notices of four rules, word for word; saves and restores of rule L, word for word, and its reports after them;
//! - states changed in a word: every bit of the words in use and random values in any word. Refusal 8 comes exactly where
//!   docs/STATE.md has it (tests/formed.rs), in saving too, and a refusal leaves state and buffer as they were;
//! - images damaged in a word or cut. Refusal 18 comes exactly where what they hold isn't a well-formed state; the others give
//!   their own words back, and a taking in them doesn't meet 8;
//! - rules damaged in a byte or cut;
//! - reports damaged in a word or cut, read through the iterators.
#[path = "../../tests/draw.rs"]
#[allow(dead_code)]
mod draw;
#[path = "../../tests/formed.rs"]
mod formed;
#[path = "../benches/compare/incremental.rs"]
mod incremental;
#[path = "../../tests/input.rs"]
mod input;
#[path = "../../tests/keeper.rs"]
#[allow(dead_code)]
mod keeper;
#[path = "../../tests/library.rs"]
mod library;

use draw::{move_on, Draw};
use input::{atom, event, node, rule_l, Random, EVENTUALLY, LONGEST_REPORT, NEXT, ONCE};
use keeper::{fed, in_order, Fed, Log, Meaning, MOST_POINTS};
use std::mem::{offset_of, transmute};
use std::process::exit;
use yokemango::{Event, Refusal, Report, Rule, State, Unfit, MAX_IMAGE_WORDS, STATE_WORDS};

// ---- memory that ends or begins at a page without access

const PAGE: usize = 4_096;

extern "C" {
    fn mmap(at: *mut u8, length: usize, access: i32, flags: i32, file: i32, offset: i64) -> *mut u8;
    fn mprotect(at: *mut u8, length: usize, access: i32) -> i32;
}

struct Fenced {
    data: *mut u8,
    length: usize,
}

impl Fenced {
    fn new(least: usize) -> Fenced {
        let length = least.next_multiple_of(PAGE);
        // read and write; private, of no file
        let all = unsafe { mmap(std::ptr::null_mut(), length + 2 * PAGE, 3, 0x22, -1, 0) };
        assert!(all as isize != -1);
        let fences = unsafe { [mprotect(all, PAGE, 0), mprotect(all.add(PAGE + length), PAGE, 0)] };
        assert_eq!(fences, [0, 0]);
        Fenced { data: unsafe { all.add(PAGE) }, length }
    }

    /// `count` bytes that end at the fence, or begin at it.
    fn bytes(&mut self, count: usize, at_end: bool) -> &mut [u8] {
        assert!(count <= self.length);
        let from = if at_end { self.length - count } else { 0 };
        unsafe { std::slice::from_raw_parts_mut(self.data.add(from), count) }
    }

    fn words(&mut self, count: usize, at_end: bool) -> &mut [u32] {
        let bytes = self.bytes(4 * count, at_end);
        unsafe { std::slice::from_raw_parts_mut(bytes.as_mut_ptr().cast(), count) }
    }

    fn copy(&mut self, words: &[u32], at_end: bool) -> &mut [u32] {
        let room = self.words(words.len(), at_end);
        room.copy_from_slice(words);
        room
    }
}

// ---- what was tried

#[derive(Default)]
struct Tally {
    lists: u64,
    calls: u64,
    events: u64,
    notices: u64,
    settling: u64,
    refusals: [u64; 20],
    notices_refused: [u64; 20],
    lengths: u64,
    rows_unfit: u64,
    states: u64,
    states_refused: u64,
    states_taken: u64,
    rules: u64,
    rules_accepted: u64,
    reports: u64,
    reports_in_form: u64,
    restored: u64,
    images: u64,
    images_in_form: u64,
}

struct Run {
    seed: u64,
    event: Fenced,
    report: Fenced,
    rule: Fenced,
    image: Fenced,
    tally: Tally,
}

impl Run {
    fn differ(&self, what: &str) -> ! {
        println!("difference in the list of seed {}: {what}", self.seed);
        exit(1)
    }

    /// One call with a report buffer of `room` words, by the function for C and by the crate's. What it answers, and the
    /// buffer before and after it.
    fn call(&mut self, g: &mut Random, state: &mut State, taking: &Fed, room: usize) -> (Result<usize, Refusal>, Vec<u32>, Vec<u32>) {
        let at_end = g.one_in(2);
        let buffer = self.report.words(room, at_end);
        buffer.iter_mut().for_each(|w| *w = g.next() as u32);
        let before = buffer.to_vec();
        let taken = match taking {
            Fed::Event(words) => library::take(&raw_of(state.words()), self.event.copy(words, at_end), buffer),
            Fed::Notice(time) => library::notice(&raw_of(state.words()), *time, buffer),
        };
        let in_c = buffer.to_vec();
        buffer.copy_from_slice(&before);
        let report = match taking {
            Fed::Event(words) => state.take_words(self.event.copy(words, at_end), buffer),
            Fed::Notice(time) => state.notice(*time, buffer),
        };
        let answer = report.map(|report| 3 + 3 * report.len() + report.columns() * report.total_rows());
        let after = buffer.to_vec();
        self.tally.calls += 1;
        let said = match answer {
            Ok(words) => (0, 0, words as u32),
            Err(refusal) => (refusal.number(), refusal.place(), 0),
        };
        self.tally.refusals[said.0 as usize] += 1;
        self.tally.notices_refused[said.0 as usize] += matches!(taking, Fed::Notice(_)) as u64;
        if (taken.number, taken.place, taken.words) != said || taken.state != raw_of(state.words()) || in_c != after {
            self.differ(&format!("the function for C gives another answer than {answer:?}, another state or other words"));
        }
        (answer, before, after)
    }
}

// ---- lists of events and notices

fn list(run: &mut Run, seed: u64) {
    run.seed = seed;
    run.tally.lists += 1;
    let mut draw = Draw::new(seed);
    let meaning = Meaning::of(draw.rule());
    let bytes = meaning.rule.bytes();
    let Ok(rule) = Rule::check(&bytes) else { run.differ("the rule is refused") };
    let free = (0..4).filter(|v| meaning.pattern_free()[*v]);
    if rule.reach() != meaning.reach() || !rule.free_variables().eq(free) {
        run.differ("the rule has another reach or other free variables");
    }
    let Ok(mut state) = State::start(&rule) else { run.differ("start is refused") };
    let (mut log, mut time) = (Log::new(&meaning), draw.first_time());
    let mut by_hand = incremental::Monitor::new(&bytes);
    let mut last_report = vec![];
    // one taking in so many is a notice
    let notices = draw.g.pick(&[2, 4, 8, 100]);
    // a random run of its own, so that the rules and events are drawn as without saves; before one taking in so many comes one
    let mut saves = Random(!seed);
    let cuts = saves.pick(&[1, 2, 4, 16]);
    for _ in 0..draw.g.from(5, 40) {
        if saves.one_in(cuts) {
            state = cut(run, &mut saves, &state);
        }
        let taking = if draw.g.one_in(notices) {
            Fed::Notice(draw.notice(&log, time))
        } else {
            time = time.saturating_add(draw.step(&meaning.rule, log.open()));
            let rows = draw.rows();
            let mut words = event(time, &rows);
            build(run, &rule, time, &rows, &words);
            if draw.g.one_in(12) {
                draw.damage(&mut words, log.latest());
            }
            Fed::Event(words)
        };
        if let Some(report) = take(run, &mut draw.g, &mut state, &mut log, &taking) {
            let expected = match &taking {
                Fed::Event(words) => by_hand.take(words),
                Fed::Notice(time) => by_hand.notice(*time),
            };
            if expected != report {
                run.differ("the monitor written by hand gives another report");
            }
            last_report = report;
        }
        time = log.latest().unwrap_or(time);
    }
    let late = time.saturating_add(604_800);
    let takings = [Fed::Event(event(time, &draw.rows())), Fed::Notice(late), Fed::Event(event(late, &draw.rows()))];
    damaged_images(run, &mut saves, &state, &takings);
    other_states(run, &mut draw.g, &state, &takings);
    damaged_rules(run, &mut draw.g, &bytes);
    damaged_reports(run, &mut draw.g, &last_report);
}

/// The builder gives the event's words, and refuses a row too many or of the wrong form.
fn build(run: &mut Run, rule: &Rule, time: u32, rows: &[input::Row], words: &[u32]) {
    let mut built = Event::new(rule, time);
    let pushed = rows.iter().all(|(relation, values)| built.push(*relation as usize, values).is_ok());
    if !pushed || built.words() != words {
        run.differ("the builder gives other words");
    }
    let arity = rule.columns(0).unwrap_or(0);
    let faults = [
        (0, arity + 1, Unfit::OtherColumns { expected: arity }),
        (8, arity, Unfit::NoRelation),
        (usize::MAX, arity, Unfit::NoRelation),
    ];
    for (relation, columns, why) in faults {
        if built.push(relation, &vec![0; columns]) != Err(why) || built.words() != words {
            run.differ("the builder takes a row that doesn't fit");
        }
    }
    run.tally.rows_unfit += faults.len() as u64;
    if built.rows() == 32 && built.push(0, &vec![0; arity]) != Err(Unfit::TooManyRows) {
        run.differ("the builder takes a 33rd row");
    }
}

/// An event or a notice, with every length of buffer that is too short and one that is enough, beside the keeper. The report,
/// if it is taken.
fn take(run: &mut Run, g: &mut Random, state: &mut State, log: &mut Log, taking: &Fed) -> Option<Vec<u32>> {
    let reckoned = fed(log, taking);
    let refusal = match &reckoned {
        Err(refusal) => Some(*refusal),
        Ok(r) => r.refusal,
    };
    let report = reckoned.as_ref().map_or(vec![0; 3], |r| r.report());
    // a long report's lengths are tried by steps, and near its end one by one
    let step = 1 + report.len() / 100;
    let short: Vec<usize> = (0..report.len()).filter(|n| n % step == 0 || n + 3 >= report.len()).collect();
    let enough = report.len() + g.pick(&[0, 0, 1, 7]);
    for room in short.into_iter().chain([enough]) {
        let expected = match refusal {
            Some(refusal) => Err(refusal),
            None if room < report.len() => Err((16, report.len() as u32)),
            None => Ok(report.len()),
        };
        let before = state.clone();
        let (answer, buffer, after) = run.call(g, state, taking, room);
        run.tally.lengths += 1;
        if answer.map_err(|r| (r.number(), r.place())) != expected {
            run.differ(&format!("the answer is {answer:?} for {expected:?}"));
        }
        let written = answer.unwrap_or(0);
        if after[..written] != report[..written] || after[written..] != buffer[written..] {
            run.differ(&format!("the buffer is {after:?}, the report {report:?}"));
        }
        if answer.is_err() && *state != before {
            run.differ("the state of a refused call isn't as it was");
        }
    }
    let figures = |state: &State| (state.points() as usize, Some(state.latest()), state.open_points().map(|n| n as usize), state.kept() as usize);
    let (None, Ok(r)) = (refusal, reckoned) else { return None };
    match taking {
        Fed::Event(_) => run.tally.events += 1,
        Fed::Notice(_) => {
            run.tally.notices += 1;
            run.tally.settling += !r.reported.is_empty() as u64;
        }
    }
    *log = r.log;
    if figures(state) != (log.size(), log.latest(), Ok(r.open), r.kept) {
        run.differ(&format!("the figures are {:?}", figures(state)));
    }
    Some(report)
}

// ---- notices, word for word

/// Takes from a start of the rule, each with the length of the buffer and the answer. The state after them.
fn answers(run: &mut Run, g: &mut Random, rule: input::Rule, takings: &[(Fed, usize, Result<&[u32], Refusal>)]) -> State {
    let bytes = rule.bytes();
    let mut state = State::start(&Rule::check(&bytes).unwrap()).unwrap();
    for (k, (taking, room, expected)) in takings.iter().enumerate() {
        let before = state.clone();
        let (answer, buffer, after) = run.call(g, &mut state, taking, *room);
        let report = expected.unwrap_or(&[]);
        let written = after.starts_with(report) && after[report.len()..] == buffer[report.len()..];
        if answer != expected.map(<[u32]>::len) || !written || answer.is_err() && state != before {
            run.differ(&format!("taking {k} is answered {answer:?}, and the buffer is then {after:?}"));
        }
    }
    state
}

fn notices(run: &mut Run, g: &mut Random) {
    const NOTHING: Result<&[u32], Refusal> = Ok(&[0, 1, 0]);
    let rows = |relation: u32, values: std::ops::Range<u32>| values.map(|v| (relation, vec![v])).collect::<Vec<_>>();
    let leak = |time: u32| Fed::Event(event(time, &rows(0, 7..8)));
    let close = |time: u32| Fed::Event(event(time, &rows(1, 7..8)));
    let crowd = |time: u32, from: u32, count: u32| Fed::Event(event(time, &rows(0, from..from + count)));

    // a leak is reported 61 seconds later, by a notice as by an event
    let state = answers(run, g, rule_l(), &[
        (Fed::Notice(50), 3, NOTHING),
        (close(49), 3, Err(Refusal::Time)),
        (leak(100), 3, NOTHING),
        (Fed::Notice(160), 3, NOTHING),
        (Fed::Notice(159), 9, Err(Refusal::Time)),
        (Fed::Notice(160), 9, NOTHING),
        (Fed::Notice(161), 0, Err(Refusal::Short { needed: 7 })),
        (Fed::Notice(161), 6, Err(Refusal::Short { needed: 7 })),
        (Fed::Notice(160), 3, NOTHING),
        (Fed::Notice(161), 9, Ok(&[1, 1, 1, 0, 100, 1, 7])),
        (close(160), 9, Err(Refusal::Time)),
        (Fed::Notice(161), 3, NOTHING),
        (close(161), 3, NOTHING),
        (Fed::Notice(u32::MAX), 6, Ok(&[1, 1, 0, 1, 161, 0])),
        (leak(u32::MAX), 3, NOTHING),
        (Fed::Notice(u32::MAX), 3, NOTHING),
    ]);
    if (state.points(), state.latest(), state.open_points(), state.kept()) != (3, u32::MAX, Ok(1), 1) {
        run.differ(&format!("the notices of rule L leave {state:?}"));
    }

    // "next" is settled by an event alone
    let rule = input::Rule { arities: vec![1], nodes: vec![atom(0, &[0]), node(NEXT, 0, 0, 0, 0)] };
    answers(run, g, rule, &[
        (leak(100), 3, NOTHING),
        (Fed::Notice(604_900), 3, NOTHING),
        (Fed::Notice(u32::MAX), 3, NOTHING),
        (leak(u32::MAX), 7, Ok(&[1, 1, 1, 0, 100, 1, 7])),
    ]);

    // 64 rows within the window of one point; a refused notice doesn't move the latest time
    let eventually = [atom(0, &[0]), node(EVENTUALLY, 0, 0, 0, 61)];
    let rule = input::Rule { arities: vec![1], nodes: eventually.to_vec() };
    answers(run, g, rule, &[
        (crowd(0, 0, 32), 3, NOTHING),
        (crowd(1, 32, 32), 3, NOTHING),
        (Fed::Notice(60), 3, NOTHING),
        (Fed::Notice(61), 0, Err(Refusal::Crowded { node: 1 })),
        (Fed::Notice(60), 3, NOTHING),
    ]);

    // 20 points of 16 rows are kept as 20 times 16 entries while they are open, as 19 times 32 and 16 once they are settled
    let rule = input::Rule { arities: vec![1], nodes: [&eventually[..], &[node(ONCE, 1, 0, 0, 604_800)]].concat() };
    let mut takings: Vec<_> = (0..20).map(|k| (crowd(k, 16 * (k % 2), 16), 3, NOTHING)).collect();
    takings.extend([(Fed::Notice(60), 3, NOTHING), (Fed::Notice(80), 0, Err(Refusal::Kept)), (Fed::Notice(60), 3, NOTHING)]);
    answers(run, g, rule, &takings);

    // after as many points as there may be, a notice still reports
    let state = answers(run, g, rule_l(), &[(close(39), 3, NOTHING), (leak(100), 6, Ok(&[1, 1, 0, 0, 39, 0]))]);
    let mut raw = raw_of(state.words());
    move_on(&mut raw, MOST_POINTS as u32 - 2);
    let mut last = State::from_words(&words_of(raw));
    let refused = run.call(g, &mut last, &close(161), 7).0;
    let (answer, _, report) = run.call(g, &mut last, &Fed::Notice(161), 7);
    if refused != Err(Refusal::Full) || answer != Ok(7) || report != [1, 1, 1, 9_999_999, 100, 1, 7] {
        run.differ(&format!("after all points an event is answered {refused:?}, a notice {answer:?} and {report:?}"));
    }
}

// ---- images

/// The image of what a state holds, by the request's text.
fn image_of(raw: &library::State) -> Vec<u32> {
    let (kept, retained) = (raw.count as usize, raw.retained as usize);
    let mut image = vec![1, raw.points, raw.latest, raw.count, raw.retained];
    image.extend((0..kept).flat_map(|k| [raw.owners[k] / 2, raw.owners[k] % 2, raw.numbers[k]]));
    image.extend(&raw.values[..4 * kept]);
    image.extend(&raw.times[..retained]);
    image.extend(raw.rule[..raw.bytes as usize].chunks(4).map(|bytes| u32::from_le_bytes(bytes.try_into().unwrap())));
    image
}

/// What an image holds, with 0 in all other words; or nothing where its sizes aren't within its words or don't fit a state, or it
/// isn't well formed.
fn read_image(image: &[u32]) -> Option<library::State> {
    let [version, points, latest, kept, retained] = *image.first_chunk::<5>()?;
    if version != 1 || kept as usize > library::ENTRIES || retained as usize > library::RETAINED {
        return None;
    }
    let (owners, rest) = image[5..].split_at_checked(3 * kept as usize)?;
    let (values, rest) = rest.split_at_checked(4 * kept as usize)?;
    let (times, rule) = rest.split_at_checked(retained as usize)?;
    if 4 * rule.len() > library::RULE_BYTES {
        return None;
    }
    let mut raw = library::State { bytes: 4 * rule.len() as u32, points, latest, retained, count: kept, ..library::NO_STATE };
    for (k, owner) in owners.chunks(3).enumerate() {
        // no mark is above 1, and no node above 31
        if owner[0] > 31 || owner[1] > 1 {
            return None;
        }
        (raw.owners[k], raw.numbers[k]) = (2 * owner[0] + owner[1], owner[2]);
    }
    raw.values[..values.len()].copy_from_slice(values);
    raw.times[..times.len()].copy_from_slice(times);
    rule.iter().enumerate().for_each(|(k, word)| raw.rule[4 * k..4 * k + 4].copy_from_slice(&word.to_le_bytes()));
    formed::well_formed(&raw).then_some(raw)
}

/// Saves with room for so many words. What it answers, the words of the image where it is saved; the words past them, or all on a
/// refusal, must be as they were.
fn save(run: &mut Run, g: &mut Random, state: &State, room: usize) -> Result<Vec<u32>, Refusal> {
    let at_end = g.one_in(2);
    let buffer = run.image.words(room, at_end);
    buffer.iter_mut().for_each(|w| *w = g.next() as u32);
    let before = buffer.to_vec();
    let answer = state.save(buffer).map(<[u32]>::to_vec);
    let after = buffer.to_vec();
    let written = answer.as_ref().map_or(&[][..], |image| image);
    if !after.starts_with(written) || after[written.len()..] != before[written.len()..] {
        run.differ(&format!("{answer:?} is saved, and the buffer is then {after:?}"));
    }
    if let Err(refusal) = answer {
        run.tally.refusals[refusal.number() as usize] += 1;
    }
    answer
}

/// Reads in, from words that end or begin at a page without access.
fn restore(run: &mut Run, g: &mut Random, image: &[u32]) -> Result<State, Refusal> {
    let restored = State::restore(run.image.copy(image, g.one_in(2)));
    if let Err(refusal) = restored {
        run.tally.refusals[refusal.number() as usize] += 1;
    }
    restored
}

/// The battery is changed: the state that is read in from the image of this one. Buffers too short are tried before.
fn cut(run: &mut Run, g: &mut Random, state: &State) -> State {
    let image = image_of(&raw_of(state.words()));
    let needed = image.len();
    for room in [0, g.below(needed), needed - 1] {
        let answer = save(run, g, state, room);
        if answer != Err(Refusal::Room { needed: needed as u32 }) {
            run.differ(&format!("saving to {room} words is answered {answer:?}, and {needed} are needed"));
        }
    }
    let room = g.pick(&[needed, needed, needed + 1, MAX_IMAGE_WORDS]);
    let answer = save(run, g, state, room);
    if answer.as_ref() != Ok(&image) {
        run.differ(&format!("{answer:?} is saved, and the image is {image:?}"));
    }
    let answer = restore(run, g, &image);
    let Ok(restored) = answer else { run.differ(&format!("the image that was saved is answered {answer:?}")) };
    if read_image(&image) != Some(raw_of(restored.words())) {
        run.differ("the state that is read in isn't the image's");
    }
    // what it holds is what the state holds, and it saves to the same words
    let figures = |state: &State| (state.points(), state.latest(), state.open_points(), state.kept());
    if figures(&restored) != figures(state) || save(run, g, &restored, needed) != Ok(image) {
        run.differ("the state that is read in isn't the one that was saved");
    }
    run.tally.restored += 1;
    restored
}

fn damaged_images(run: &mut Run, g: &mut Random, state: &State, takings: &[Fed; 3]) {
    let image = image_of(&raw_of(state.words()));
    let (kept, retained) = (image[3] as usize, image[4] as usize);
    // the first words of the parts, and of what comes after them
    let parts = [0, 5, 5 + 3 * kept, 5 + 7 * kept, 5 + 7 * kept + retained, image.len()];
    for _ in 0..50 {
        let mut words = image.clone();
        for _ in 0..g.pick(&[1, 1, 1, 2]) {
            let part = g.below(5);
            let within = if parts[part] < parts[part + 1] { parts[part]..parts[part + 1] } else { 0..5 };
            let at = g.from(within.start, within.end - 1);
            words[at] = match g.below(5) {
                0 => words[at].wrapping_add(1),
                1 => words[at].wrapping_sub(1),
                2 => words[at] ^ 1 << g.below(32),
                3 => g.pick(&[0, 1, 2, 32, 64, 65, 512, 513, 10_000_000, 10_000_001, 0x8000_0000, u32::MAX]),
                _ => words[g.below(words.len())],
            };
        }
        match g.below(8) {
            0 => words.truncate(g.below(words.len())),
            1 => (0..g.from(1, 5)).for_each(|_| words.push(g.pick(&[0, 0, 1, u32::MAX]))),
            _ => {}
        }
        other_image(run, g, &words, takings);
    }
    for length in [image.len() - 1, image.len() + 1, 0, MAX_IMAGE_WORDS + 1] {
        let mut words = image.clone();
        words.resize(length, 0);
        other_image(run, g, &words, takings);
    }
}

fn other_image(run: &mut Run, g: &mut Random, words: &[u32], takings: &[Fed; 3]) {
    run.tally.images += 1;
    let expected = read_image(words);
    let answer = restore(run, g, words);
    if answer.as_ref().map(|state| raw_of(state.words())).map_err(|r| *r) != expected.ok_or(Refusal::Image) {
        run.differ(&format!("{words:?} is read in as {answer:?}"));
    }
    let Ok(mut state) = answer else { return };
    run.tally.images_in_form += 1;
    if save(run, g, &state, words.len()).as_deref() != Ok(words) {
        run.differ(&format!("{words:?} is read in, and saves to other words"));
    }
    for taking in takings {
        let answer = run.call(g, &mut state, taking, LONGEST_REPORT).0;
        if answer == Err(Refusal::State) || state.open_points().is_err() {
            run.differ(&format!("{words:?} is read in, and a taking is answered {answer:?}"));
        }
    }
}

/// Rule L with its leaks at 100: the image word for word, what is refused, and the reports after it.
fn images(run: &mut Run, g: &mut Random) {
    let rule = rule_l();
    let rows = |relation: u32, value: u32| Fed::Event(event(if relation == 0 { 100 } else { 130 }, &[(relation, vec![value])]));
    let file: Vec<u32> = rule.bytes().chunks(4).map(|bytes| u32::from_le_bytes(bytes.try_into().unwrap())).collect();
    let mut state = answers(run, g, rule, &[(rows(0, 9), 3, Ok(&[0, 1, 0])), (rows(0, 7), 3, Ok(&[0, 1, 0])), (rows(1, 9), 3, Ok(&[0, 1, 0]))]);
    // the leaks at points 0 and 1 and the closing at 2 are kept, and all times are retained
    let mut image = vec![1, 3, 130, 3, 3];
    image.extend([0, 0, 0, 0, 0, 1, 1, 0, 2]);
    image.extend([9, 0, 0, 0, 7, 0, 0, 0, 9, 0, 0, 0]);
    image.extend([100, 100, 130]);
    image.extend(&file);
    let needed = image.len();
    let saved = save(run, g, &state, needed + 2);
    if saved.as_ref() != Ok(&image) {
        run.differ(&format!("rule L is saved as {saved:?}"));
    }
    let short = save(run, g, &state, needed - 1);
    if short != Err(Refusal::Room { needed: needed as u32 }) {
        run.differ(&format!("saving to a word too few is answered {short:?}"));
    }
    // another version; more points; a time below the last; an entry, a time more than there are; a mark; entries out of order; a
    // word past the rule; a rule that checking refuses
    let damages: [&dyn Fn(&mut Vec<u32>); 9] = [
        &|w| w[0] = 2,
        &|w| w[1] = 4,
        &|w| w[2] = 129,
        &|w| w[3] = 4,
        &|w| w[4] = 4,
        &|w| w[9] = 1,
        &|w| w.swap(7, 10),
        &|w| w.push(0),
        &|w| w[29] ^= 2,
    ];
    for (k, damage) in damages.iter().enumerate() {
        let mut words = image.clone();
        damage(&mut words);
        let answer = restore(run, g, &words);
        if answer != Err(Refusal::Image) {
            run.differ(&format!("damaged image {k} is answered {answer:?}"));
        }
    }
    let (first, second) = (restore(run, g, &image), restore(run, g, &image));
    if first != second || first.as_ref().is_ok_and(|first| *first != state) {
        run.differ("an image is read in as two states, or as another than was saved");
    }
    let Ok(mut restored) = first else { run.differ("the image of rule L is refused") };
    let end = [(Fed::Notice(160), vec![0, 1, 0]), (Fed::Notice(161), vec![2, 1, 1, 0, 100, 0, 1, 100, 1, 7]), (Fed::Notice(191), vec![1, 1, 0, 2, 130, 0])];
    for (taking, report) in end {
        let (whole, _, without) = run.call(g, &mut state, &taking, report.len());
        let (answer, _, after) = run.call(g, &mut restored, &taking, report.len());
        if whole != Ok(report.len()) || answer != whole || without != report || after != report {
            run.differ(&format!("{without:?} is reported, and {after:?} after an image was read in"));
        }
    }
}

// ---- states changed in a word

// The words at which the fields begin.
const BYTES: usize = offset_of!(library::State, bytes) / 4;
const POINTS: usize = offset_of!(library::State, points) / 4;
const LATEST: usize = offset_of!(library::State, latest) / 4;
const TIMES: usize = offset_of!(library::State, times) / 4;
const RETAINED: usize = offset_of!(library::State, retained) / 4;
const OWNERS: usize = offset_of!(library::State, owners) / 4;
const NUMBERS: usize = offset_of!(library::State, numbers) / 4;
const VALUES: usize = offset_of!(library::State, values) / 4;
const COUNT: usize = offset_of!(library::State, count) / 4;

fn other_states(run: &mut Run, g: &mut Random, state: &State, takings: &[Fed; 3]) {
    let words = *state.words();
    let raw = raw_of(&words);
    let kept = raw.count as usize;
    let mut used: Vec<usize> = (0..(raw.bytes as usize).div_ceil(4)).collect();
    used.extend([BYTES, POINTS, LATEST, RETAINED, COUNT]);
    used.extend((0..raw.retained as usize).map(|k| TIMES + k));
    for k in 0..kept {
        used.extend([OWNERS + k, NUMBERS + k]);
        used.extend((0..4).map(|v| VALUES + 4 * k + v));
    }
    // every bit of the words in use in one list of 32, some bits of some of them in the others
    let every = run.seed % 32 == 0;
    for w in &used {
        for bit in 0..32 {
            if every || g.one_in(128) {
                let mut changed = words;
                changed[*w] ^= 1 << bit;
                other_state(run, g, &changed, takings);
            }
        }
    }
    for _ in 0..100 {
        let mut changed = words;
        for _ in 0..g.pick(&[1, 1, 2, 5]) {
            let w = if g.one_in(2) { used[g.below(used.len())] } else { g.below(STATE_WORDS) };
            changed[w] = match g.below(5) {
                0 => changed[w].wrapping_add(1),
                1 => changed[w].wrapping_sub(1),
                2 => g.pick(&[0, 1, 32, 64, 65, 66, 512, 513, 652, 10_000_000, 10_000_001, u32::MAX]),
                3 => words[g.below(STATE_WORDS)],
                _ => g.next() as u32,
            };
        }
        other_state(run, g, &changed, takings);
    }
    let noise: [u32; STATE_WORDS] = std::array::from_fn(|_| g.next() as u32);
    other_state(run, g, &noise, takings);
}

fn raw_of(words: &[u32; STATE_WORDS]) -> library::State {
    unsafe { transmute(*words) }
}

fn words_of(raw: library::State) -> [u32; STATE_WORDS] {
    unsafe { transmute(raw) }
}

fn other_state(run: &mut Run, g: &mut Random, words: &[u32; STATE_WORDS], takings: &[Fed; 3]) {
    run.tally.states += 1;
    let well_formed = formed::well_formed(&raw_of(words));
    let mut state = State::from_words(words);
    let saved = save(run, g, &state, MAX_IMAGE_WORDS);
    if saved != if well_formed { Ok(image_of(&raw_of(words))) } else { Err(Refusal::State) } {
        run.differ(&format!("a state that is well formed: {well_formed} is saved as {saved:?}"));
    }
    // a state that is taken is taken on
    for k in 0..3 {
        let before = state.clone();
        let taking = &takings[(k + run.tally.states as usize) % 3];
        let room = g.pick(&[0, 3, 40, LONGEST_REPORT]);
        let (answer, buffer, after) = run.call(g, &mut state, taking, room);
        let known: &[u32] = match taking {
            Fed::Event(_) => &[8, 9, 10, 11, 12, 13, 14, 15, 16],
            Fed::Notice(_) => &[8, 11, 13, 15, 16],
        };
        if (answer == Err(Refusal::State)) == well_formed || state.open_points().is_ok() != well_formed {
            run.differ(&format!("a state that is well formed: {well_formed} is answered {answer:?}"));
        }
        let written = match answer {
            Ok(words) => words,
            Err(refusal) if !known.contains(&refusal.number()) => run.differ(&format!("a taking answers {refusal}")),
            Err(_) if state != before => run.differ("the state of a refused call isn't as it was"),
            Err(_) => 0,
        };
        if after.get(written..) != buffer.get(written..) {
            run.differ("words past the report are changed");
        }
        if written > 0 && read(&after[..written]).is_none() {
            run.differ(&format!("{:?} is written, which is no report", &after[..written]));
        }
        run.tally.states_taken += (written > 0) as u64;
        run.tally.states_refused += (answer == Err(Refusal::State)) as u64;
        if answer == Err(Refusal::State) {
            return;
        }
    }
}

/// Rule L with 32 leaks kept at its first point, and with one more, which no log has.
fn crowded_states(run: &mut Run, g: &mut Random) {
    let rule = Rule::check(include_bytes!("../../examples/leak.rule")).unwrap();
    let mut state = State::start(&rule).unwrap();
    let leaks: Vec<input::Row> = (0..32).map(|v| (0, vec![v])).collect();
    state.take_words(&event(100, &leaks), &mut [0; 3]).unwrap();
    let mut words = *state.words();
    let takings = [Fed::Event(event(100, &[])), Fed::Notice(161), Fed::Event(event(161, &[]))];
    let refused = run.tally.states_refused;
    for k in [31, 32, 33] {
        (words[OWNERS + k], words[NUMBERS + k], words[VALUES + 4 * k], words[COUNT]) = (0, 0, k as u32, k as u32 + 1);
        other_state(run, g, &words, &takings);
    }
    if run.tally.states_refused != refused + 2 {
        run.differ("a state with 33 rows of a node at a point isn't refused, or one with 32 is");
    }
}

// ---- damaged rules

fn damaged_rules(run: &mut Run, g: &mut Random, rule: &[u8]) {
    for _ in 0..20 {
        let mut bytes = rule.to_vec();
        for _ in 0..g.pick(&[1, 1, 2]) {
            let at = g.below(bytes.len());
            bytes[at] = match g.below(3) {
                0 => bytes[at] ^ 1 << g.below(8),
                1 => g.pick(&[0, 1, 2, 3, 4, 5, 9, 14, 15, 16, 32, 33]),
                _ => g.next() as u8,
            };
        }
        match g.below(8) {
            0 => bytes.truncate(g.below(bytes.len())),
            1 => bytes.resize(bytes.len() + g.from(1, 40), 0),
            _ => {}
        }
        let at_end = g.one_in(2);
        let (number, place) = library::check(&bytes);
        let lent = run.rule.bytes(bytes.len(), at_end);
        lent.copy_from_slice(&bytes);
        let started = library::start(lent);
        let answer = Rule::check(lent);
        run.tally.rules += 1;
        let said = answer.as_ref().err().map_or((0, 0), |r| (r.number(), r.place()));
        if said != (number, place) || (started.number, started.place) != (number, place) {
            run.differ(&format!("checking and starting answer differently for {bytes:?}"));
        }
        let Ok(rule) = answer else {
            let nothing = started.state == library::NO_STATE && (started.reach, started.free) == (0, 0);
            if !nothing || !(1..=7).contains(&number) {
                run.differ(&format!("a refused start isn't of zeros, or its number is {number}"));
            }
            run.tally.refusals[number as usize] += 1;
            continue;
        };
        run.tally.rules_accepted += 1;
        let mut state = State::start(&rule).unwrap();
        let mut event = Event::new(&rule, 5);
        let fits = (0..8).filter_map(|r| rule.columns(r).map(|n| (r, n))).all(|(r, n)| event.push(r, &[7; 4][..n]).is_ok());
        let answer = state.take(&event, &mut vec![0; LONGEST_REPORT]).map(|report| report.len());
        if !fits || answer.is_err() {
            run.differ(&format!("a first event of {bytes:?} is answered {answer:?}"));
        }
    }
}

// ---- damaged reports

type Entry = (u32, u32, Vec<Vec<u32>>);

/// The entries of a report by the scope's text, or nothing where the words are none.
fn read(words: &[u32]) -> Option<Vec<Entry>> {
    let [p, f, total] = *words.first_chunk::<3>()?;
    let triples = words.get(3..3 + 3 * p as usize)?.chunks(3);
    let counted: u64 = triples.clone().map(|t| t[2] as u64).sum();
    let needed = 3 + 3 * p as u64 + f as u64 * total as u64;
    if p > 33 || f > 4 || counted != total as u64 || needed > words.len() as u64 {
        return None;
    }
    let mut rest = &words[3 + 3 * p as usize..];
    let mut entries: Vec<Entry> = vec![];
    for t in triples {
        // rows of no words don't ascend
        if f == 0 && t[2] > 1 {
            return None;
        }
        let (own, after) = rest.split_at(f as usize * t[2] as usize);
        let rows: Vec<Vec<u32>> = (0..t[2] as usize).map(|k| own[f as usize * k..][..f as usize].to_vec()).collect();
        if rows.windows(2).any(|w| in_order(&w[0], &w[1]).is_ge()) || entries.last().is_some_and(|e| e.0 >= t[0]) {
            return None;
        }
        entries.push((t[0], t[1], rows));
        rest = after;
    }
    Some(entries)
}

fn damaged_reports(run: &mut Run, g: &mut Random, report: &[u32]) {
    for k in 0..20 {
        let mut words = report.to_vec();
        if k > 0 && !words.is_empty() {
            let at = g.below(words.len());
            words[at] = match g.below(4) {
                0 => words[at].wrapping_add(1),
                1 => words[at].wrapping_sub(1),
                2 => g.pick(&[0, 1, 2, 4, 5, 33, 34, u32::MAX]),
                _ => words[g.below(words.len())],
            };
            match g.below(4) {
                0 => words.truncate(g.below(words.len())),
                1 => words.extend([g.next() as u32, 0]),
                _ => {}
            }
        }
        let expected = read(&words);
        let lent = run.report.copy(&words, g.one_in(2));
        let got = Report::read(lent).map(|report| {
            let points = report.points();
            let exact = points.len() == points.clone().count() && points.clone().all(|p| p.rows().len() == p.rows().count());
            let rows = |p: &yokemango::Point| p.rows().map(<[u32]>::to_vec).collect::<Vec<_>>();
            let back = |p: &yokemango::Point| p.rows().rev().map(<[u32]>::to_vec).collect::<Vec<_>>();
            let turned = points.clone().all(|p| rows(&p).into_iter().rev().eq(back(&p)));
            (exact && turned, points.map(|p| (p.number(), p.time(), rows(&p))).collect::<Vec<Entry>>())
        });
        run.tally.reports += 1;
        run.tally.reports_in_form += expected.is_some() as u64;
        run.tally.refusals[17] += expected.is_none() as u64;
        if got != expected.map(|e| (true, e)).ok_or(Refusal::Report) {
            run.differ(&format!("{words:?} is read as {got:?}"));
        }
    }
}

fn main() {
    let mut args = std::env::args().skip(1).filter_map(|a| a.parse::<u64>().ok());
    let (lists, seed) = (args.next().unwrap_or(500), args.next().unwrap_or(1));
    let words = 4 * (LONGEST_REPORT + 16);
    let (image, tally) = (Fenced::new(4 * (MAX_IMAGE_WORDS + 16)), Tally::default());
    let mut run = Run { seed, event: Fenced::new(PAGE), report: Fenced::new(words), rule: Fenced::new(PAGE), image, tally };
    crowded_states(&mut run, &mut Random(seed));
    notices(&mut run, &mut Random(seed));
    images(&mut run, &mut Random(seed));
    for k in 0..lists {
        list(&mut run, seed.wrapping_add(k));
    }
    let t = &run.tally;
    println!("{} lists, {} calls; {} of them with a buffer of some length up to enough", t.lists, t.calls, t.lengths);
    println!("{} events taken; {} notices taken, {} of them with a point reported", t.events, t.notices, t.settling);
    println!("{} rows that the builder refused", t.rows_unfit);
    println!("{} changed states: {} refused by 8, {} events and notices taken from the others", t.states, t.states_refused, t.states_taken);
    println!("{} damaged rules, {} of them accepted; {} reports, {} of them in form", t.rules, t.rules_accepted, t.reports, t.reports_in_form);
    println!("{} times the state read in went on for the one saved; {} damaged images, {} of them in form", t.restored, t.images, t.images_in_form);
    let least = lists / 25;
    let mut rare: Vec<String> = (1..=19).filter(|n| t.refusals[*n] < least && *n != 12).map(|n| format!("refusal {n}")).collect();
    rare.extend([8, 11, 13, 16].iter().filter(|n| t.notices_refused[**n] < least).map(|n| format!("refusal {n} of a notice")));
    rare.extend((t.settling < least).then(|| "a notice that reports".to_string()));
    rare.extend((t.images_in_form < least).then(|| "a damaged image in form".to_string()));
    for (number, met) in t.refusals.iter().enumerate().skip(1) {
        println!("refusal {number}: {met}, of notices {}", t.notices_refused[number]);
    }
    println!("no difference");
    if lists >= 500 && !rare.is_empty() {
        println!("met too rarely: {}", rare.join(", "));
        exit(1);
    }
}
