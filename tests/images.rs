// Cuts generated lists of takings (takings.rs) by saves and by reading in what was saved, request 104: at a cut the image is
// compared word by word with the keeper's (keeper.rs), which holds the whole log and knows of no cut, and the list goes on in
// what was read in, into memory of any words. Now and then it goes back to an older image, and the keeper to its log then. Every
// answer, every word of every buffer, the kept and open figures and every later image must be the keeper's. Then images are
// changed word by word, cut short, lengthened, or put together of any words: reading them in is refused by 18 unless they are in
// form as docs/STATE.md says (formed.rs), and what is read in gives its own words back and is never refused by 8. It fails on the
// first difference, and where something was met too rarely.
//
//   tools/build yokemango
//   rustc -O --edition 2021 -L target/staticlib -o target/images tests/images.rs
//   target/images [LISTS [SEED]]     2,500 lists from seed 1
//
// List k has the seed SEED + k, so that a list that differs is run again by `target/images 1` and its own seed. A run of a few
// lists is short enough for valgrind: images that are read in stand in memory of just their length.
mod draw;
mod formed;
mod input;
mod keeper;
mod library;

use draw::*;
use input::*;
use keeper::*;
use library::{fields_of, Fields, State, Told, ENTRIES, IMAGE_WORDS, LENGTHS, NO_STATE, RULE_BYTES};
use std::process::exit;

// In a run of 500 lists and more, each refusal and each thing that is counted must be met at least once for 50 lists.
const LISTS_TO_ASK: u64 = 500;
const LISTS_TO_A_MEETING: u64 = 50;

// Images of up to so many words are changed in every word, and longer ones in as many; those of up to so many are cut short to every
// length, and longer ones to a few.
const WORDS_CHANGED: usize = 80;
const EVERY_LENGTH: usize = 400;

// The longest rule file's words, and the most times that an image has.
const RULE_WORDS: usize = RULE_BYTES / 4;
const MOST_TIMES: usize = 64;

const NOT_WELL_FORMED: Told = Told { number: 8, place: 0, words: 0 };
const NO_IMAGE: Told = Told { number: 18, place: 0, words: 0 };

#[derive(Default)]
struct Tally {
    lists: u64,
    takings: u64,
    taken: u64,
    notices: u64,
    cuts: u64,
    back: u64,
    images: u64,
    words: u64,
    longest: u64,
    refusals: [u64; 20],
    changed: u64,
    changed_in_form: u64,
    lengths: u64,
    any: u64,
    any_in_form: u64,
    rules: u64,
    states: u64,
    states_saved: u64,
    lent: u64,
    went_on: u64,
}

// ---- buffers and memory

// Words on both sides of a buffer that no call may touch.
const FENCE: usize = 8;

// A lent buffer of random words.
struct Buffer {
    before: Vec<u32>,
    all: Vec<u32>,
}

impl Buffer {
    fn new(g: &mut Random, room: usize) -> Buffer {
        let before: Vec<u32> = (0..room + 2 * FENCE).map(|_| g.next() as u32).collect();
        Buffer { all: before.clone(), before }
    }

    fn words(&mut self) -> &mut [u32] {
        let n = self.all.len();
        &mut self.all[FENCE..n - FENCE]
    }

    // The first word that isn't as it should be: these at the front, and every other word as it was.
    fn wrong(&self, front: &[u32]) -> Option<String> {
        let mut expected = self.before.clone();
        expected[FENCE..FENCE + front.len()].copy_from_slice(front);
        let k = (0..expected.len()).find(|k| self.all[*k] != expected[*k])?;
        Some(format!("word {} of the buffer is {} for {}", k as isize - FENCE as isize, self.all[k], expected[k]))
    }
}

// Memory for a state, in which any words stand.
fn any_memory(g: &mut Random) -> State {
    let mut s = NO_STATE;
    s.rule.iter_mut().for_each(|b| *b = g.next() as u8);
    for words in [&mut s.times[..], &mut s.owners, &mut s.numbers, &mut s.values] {
        words.iter_mut().for_each(|w| *w = g.next() as u32);
    }
    for word in [&mut s.bytes, &mut s.points, &mut s.latest, &mut s.retained, &mut s.count] {
        *word = g.next() as u32;
    }
    s
}

// ---- the image and the form

// The image of what a state's fields hold, whose counts are within its arrays.
fn words_of(s: &State) -> Vec<u32> {
    let (bytes, retained, count) = (s.bytes as usize, s.retained as usize, s.count as usize);
    let mut words = vec![1, s.points, s.latest, s.count, s.retained];
    (0..count).for_each(|k| words.extend([s.owners[k] / 2, s.owners[k] % 2, s.numbers[k]]));
    words.extend(&s.values[..4 * count]);
    words.extend(&s.times[..retained]);
    words.extend(s.rule[..bytes].chunks(4).map(word_of));
    words
}

fn word_of(bytes: &[u8]) -> u32 {
    bytes.iter().rev().fold(0, |word, byte| word << 8 | *byte as u32)
}

// The parts of an image whose sizes are within its words.
#[derive(Clone)]
struct Parts {
    points: u32,
    latest: u32,
    owners: Vec<[u32; 3]>,
    values: Vec<[u32; 4]>,
    times: Vec<u32>,
    rule: Vec<u32>,
}

impl Parts {
    fn of(image: &[u32]) -> Parts {
        let (count, retained) = (image[3] as usize, image[4] as usize);
        let (owners, rest) = image[5..].split_at(3 * count);
        let (values, rest) = rest.split_at(4 * count);
        let (times, rule) = rest.split_at(retained);
        let owners = owners.chunks(3).map(|o| [o[0], o[1], o[2]]).collect();
        let values = values.chunks(4).map(|v| [v[0], v[1], v[2], v[3]]).collect();
        Parts { points: image[1], latest: image[2], owners, values, times: times.to_vec(), rule: rule.to_vec() }
    }

    fn words(&self) -> Vec<u32> {
        let mut words = vec![1, self.points, self.latest, self.owners.len() as u32, self.times.len() as u32];
        words.extend(self.owners.concat());
        words.extend(self.values.concat());
        words.extend(&self.times);
        words.extend(&self.rule);
        words
    }

    fn bytes(&self) -> Vec<u8> {
        self.rule.iter().flat_map(|w| w.to_le_bytes()).collect()
    }
}

// What memory holds after an image, in form, is read into it: its parts at the front of each array, and behind them what was there.
fn read_into(memory: &State, image: &[u32]) -> State {
    let (mut s, parts) = (*memory, Parts::of(image));
    (s.points, s.latest, s.count, s.retained) = (parts.points, parts.latest, parts.owners.len() as u32, parts.times.len() as u32);
    for (k, [node, mark, number]) in parts.owners.iter().enumerate() {
        (s.owners[k], s.numbers[k]) = (2 * node + mark, *number);
        s.values[4 * k..4 * k + 4].copy_from_slice(&parts.values[k]);
    }
    s.times[..parts.times.len()].copy_from_slice(&parts.times);
    let bytes = parts.bytes();
    s.rule[..bytes.len()].copy_from_slice(&bytes);
    s.bytes = bytes.len() as u32;
    s
}

// Whether words are in form: version 1, sizes that a state has and that the words are enough for, owners with a mark of 0 or 1, a
// rule file in all the words behind the times, and nothing that would meet 8.
fn in_form(words: &[u32]) -> bool {
    if words.len() < 5 || words[0] != 1 || words[3] as usize > ENTRIES || words[4] as usize > MOST_TIMES {
        return false;
    }
    let count = words[3] as usize;
    let rule = 5 + 7 * count + words[4] as usize;
    if !(rule..=rule + RULE_WORDS).contains(&words.len()) {
        return false;
    }
    let mut owners = words[5..5 + 3 * count].chunks(3);
    owners.all(|o| o[0] < 32 && o[1] < 2) && formed::well_formed(&read_into(&NO_STATE, words))
}

// ---- the list as it is run

// What was done: a taking with so many words for the report, a cut, or a way back to what an earlier cut saved.
enum Done {
    Taken(Fed, usize),
    Cut,
    Back(usize),
}

// What a cut saved, and the keeper's log then.
#[derive(Clone)]
struct Saved<'m> {
    image: Vec<u32>,
    log: Log<'m>,
    open: usize,
    kept: usize,
}

struct List<'m, 't> {
    seed: u64,
    log: Log<'m>,
    open: usize,
    kept: usize,
    state: State,
    memory: State,
    saved: Vec<Saved<'m>>,
    done: Vec<Done>,
    tally: &'t mut Tally,
}

impl<'m, 't> List<'m, 't> {
    fn start(seed: u64, g: &mut Random, meaning: &'m Meaning, tally: &'t mut Tally) -> List<'m, 't> {
        let started = library::start(&meaning.rule.bytes());
        let (log, memory) = (Log::new(meaning), any_memory(g));
        let list = List { seed, log, open: 0, kept: 0, state: started.state, memory, saved: vec![], done: vec![], tally };
        if started.number != 0 {
            list.differ(&format!("start answers {}", started.number));
        }
        list.tally.lists += 1;
        list
    }

    fn differ(&self, what: &str) -> ! {
        let rule = &self.log.meaning.rule;
        println!("difference in the list of seed {}: {what}\n{rule}rule file {:?}", self.seed, rule.bytes());
        let mut cuts = 0;
        for done in &self.done {
            match done {
                Done::Taken(Fed::Event(words), room) => println!("event {words:?} with {room} words for the report"),
                Done::Taken(Fed::Notice(time), room) => println!("notice {time} with {room} words for the report"),
                Done::Cut => {
                    println!("cut {cuts}");
                    cuts += 1;
                }
                Done::Back(cut) => println!("back to what cut {cut} saved"),
            }
        }
        exit(1)
    }

    // The figures that the monitor gives for its state, beside those of the keeper's log.
    fn compare_figures(&self) {
        let got = library::figures(&self.state);
        let is = (self.state.points as usize, self.state.latest, got.number, got.open_points as usize, got.kept as usize);
        let should = (self.log.size(), self.log.latest().unwrap_or(0), 0, self.open, self.kept);
        if is != should {
            self.differ(&format!("points, latest known time, refusal, open and kept are {is:?} for {should:?}"));
        }
    }

    // One taking. The answer is the refusal's number, or 0.
    fn take(&mut self, g: &mut Random, fed: Fed, room: Room) -> u32 {
        let reckoned = keeper::fed(&self.log, &fed);
        let report = reckoned.as_ref().map_or(vec![0; 3], |r| r.report());
        let room = room.words(report.len());
        let refusal = match &reckoned {
            Err(refusal) => Some(*refusal),
            Ok(r) => r.refusal.or((room < report.len()).then_some((16, report.len() as u32))),
        };
        let (number, place) = refusal.unwrap_or((0, 0));
        let report = if number == 0 { &report[..] } else { &[] };

        let (before, mut buffer) = (self.state, Buffer::new(g, room));
        let told = match &fed {
            Fed::Event(words) => library::take_in(&mut self.state, words, buffer.words()),
            Fed::Notice(time) => library::notice_in(&mut self.state, *time, buffer.words()),
        };
        self.tally.notices += matches!(fed, Fed::Notice(_)) as u64;
        self.done.push(Done::Taken(fed, room));
        let should = Told { number, place, words: report.len() as u32 };
        if told != should {
            self.differ(&format!("the answer is {told:?} for {should:?}"));
        }
        if let Some(wrong) = buffer.wrong(report) {
            self.differ(&format!("{wrong}; the report is {report:?}"));
        }
        if number != 0 && self.state != before {
            self.differ("the state of a refused call isn't as it was");
        }
        self.tally.takings += 1;
        self.tally.taken += (number == 0) as u64;
        self.tally.refusals[number as usize] += (number != 0) as u64;
        if let (None, Ok(r)) = (refusal, reckoned) {
            (self.log, self.open, self.kept) = (r.log, r.open, r.kept);
        }
        self.compare_figures();
        number
    }

    // Saves a state that has this image into a buffer of so many words: 19 where they are too few.
    fn save(&mut self, g: &mut Random, state: &State, image: &[u32], room: usize) {
        let (mut buffer, needed) = (Buffer::new(g, room), image.len() as u32);
        let told = library::save(state, buffer.words());
        let short = room < image.len();
        let should = if short { Told { number: 19, place: needed, words: 0 } } else { Told { number: 0, place: 0, words: needed } };
        if told != should {
            self.differ(&format!("saving into {room} words is answered {told:?} for {should:?}; the image is {image:?}"));
        }
        if let Some(wrong) = buffer.wrong(if short { &[] } else { image }) {
            self.differ(&format!("saving into {room} words: {wrong}; the image is {image:?}"));
        }
        self.tally.refusals[19] += short as u64;
    }

    // What an image that was saved is read in to, over any words or over the state as it is.
    fn read(&mut self, g: &mut Random, image: &[u32]) -> State {
        let memory = if g.one_in(4) { self.state } else { any_memory(g) };
        let mut fields = fields_of(&memory, LENGTHS);
        let told = library::restore_of(&image.to_vec(), &mut fields);
        if told != (Told { number: 0, place: 0, words: image.len() as u32 }) {
            self.differ(&format!("reading in is answered {told:?}; the image is {image:?}"));
        }
        let state = library::state_of(&fields);
        if state != read_into(&memory, image) {
            self.differ(&format!("what is read in isn't the image, or words behind it aren't as they were; the image is {image:?}"));
        }
        state
    }

    // Saves, into buffers that are too short, just long enough and longer, and goes on in what is read in.
    fn cut(&mut self, g: &mut Random) {
        let (image, state) = (self.log.image(), self.state);
        let n = image.len();
        if n > IMAGE_WORDS {
            self.differ(&format!("an image has {n} words"));
        }
        for room in [g.below(n), n - 1, n, n + g.from(1, 40)] {
            self.save(g, &state, &image, room);
        }
        self.state = self.read(g, &image);
        let (log, open, kept) = (self.log.clone(), self.open, self.kept);
        self.saved.push(Saved { image, log, open, kept });
        self.done.push(Done::Cut);
        self.compare_figures();
        self.tally.cuts += 1;
        self.tally.images += 1;
        self.tally.words += n as u64;
        self.tally.longest = self.tally.longest.max(n as u64);
    }

    // Goes on in what an earlier cut saved, and the keeper on its log then.
    fn back(&mut self, g: &mut Random) {
        let k = g.below(self.saved.len());
        let saved = self.saved[k].clone();
        self.state = self.read(g, &saved.image);
        (self.log, self.open, self.kept) = (saved.log, saved.open, saved.kept);
        self.done.push(Done::Back(k));
        self.compare_figures();
        self.tally.back += 1;
    }

    // ---- words of other origin

    // Reads any words in: by 18, and all memory as it was, unless they are in form; then they come back, and the state goes on.
    // The answer is whether they are in form.
    fn read_any(&mut self, draw: &mut Draw, words: &[u32]) -> bool {
        // in memory of just their length
        let words = &words.to_vec()[..];
        let fits = in_form(words);
        let mut state = self.memory;
        let told = library::restore_in(words, &mut state);
        let should = if fits { Told { number: 0, place: 0, words: words.len() as u32 } } else { NO_IMAGE };
        if told != should {
            self.differ(&format!("reading in is answered {told:?} for {should:?}; the words are {words:?}"));
        }
        if state != if fits { read_into(&self.memory, words) } else { self.memory } {
            self.differ(&format!("reading in, answered {told:?}, leaves other words in memory; the words are {words:?}"));
        }
        self.tally.refusals[18] += !fits as u64;
        if fits {
            let room = words.len() + draw.g.below(3);
            self.save(&mut draw.g, &state, words, room);
            self.go_on(draw, state, words);
        }
        fits
    }

    // An event, a notice and an event of any words in a state that was read in from words of other origin.
    fn go_on(&mut self, draw: &mut Draw, mut state: State, from: &[u32]) {
        let later = draw.g.pick(&[0, 0, 1, 61, LONGEST_WINDOW]);
        let event = event(state.latest.saturating_add(later), &draw.rows());
        let any = (0..draw.g.below(20)).map(|_| draw.g.below(4) as u32).collect();
        let notice = draw.notice(&self.log, state.latest).max(state.latest - draw.g.below(2).min(state.latest as usize) as u32);
        for fed in [Fed::Event(event), Fed::Notice(notice), Fed::Event(any)] {
            let room = draw.g.pick(&[0, 3, 40, LONGEST_REPORT]);
            let (before, mut buffer) = (state, Buffer::new(&mut draw.g, room));
            let (told, known) = match &fed {
                Fed::Event(words) => (library::take_in(&mut state, words, buffer.words()), &[0, 9, 10, 11, 12, 13, 14, 15, 16][..]),
                Fed::Notice(time) => (library::notice_in(&mut state, *time, buffer.words()), &[0, 11, 13, 15, 16][..]),
            };
            if !known.contains(&told.number) {
                self.differ(&format!("a state that was read in is answered {told:?}; the words are {from:?}"));
            }
            let written = if told.number == 0 { told.words as usize } else { 0 };
            let report = buffer.words()[..written].to_vec();
            let held = if told.number == 0 { formed::well_formed(&state) } else { state == before };
            if !held || buffer.wrong(&report).is_some() {
                self.differ(&format!("a state that was read in is answered {told:?}, and isn't held or not well formed then, or the buffer isn't; the words are {from:?}"));
            }
        }
        let image = words_of(&state);
        self.save(&mut draw.g, &state, &image, image.len());
        self.tally.went_on += 1;
    }
}

// ---- the lists

fn run(seed: u64, tally: &mut Tally) {
    let mut draw = Draw::new(seed);
    let meaning = Meaning::of(draw.rule());
    let rule = &meaning.rule;
    let mut list = List::start(seed, &mut draw.g, &meaning, tally);
    let takings = if draw.g.one_in(8) { draw.g.from(100, 200) } else { draw.g.from(10, 80) };
    let cuts = draw.g.pick(&[1, 3, 10, 30]);
    let mut time = draw.first_time();
    let mut steers = if draw.steers() { 6 } else { 0 };
    let notices = draw.notices(rule);
    for _ in 0..takings {
        if draw.g.one_in(cuts) {
            list.cut(&mut draw.g);
            if draw.g.one_in(8) {
                list.back(&mut draw.g);
                time = list.log.latest().unwrap_or(time);
            }
        }
        let room = draw.room();
        if notices.is_some_and(|n| draw.g.one_in(n)) {
            let steered = if steers > 0 { draw.steered_notice(&list.log) } else { None };
            steers -= steered.is_some() as u32;
            let at = steered.unwrap_or_else(|| draw.notice(&list.log, time));
            if list.take(&mut draw.g, Fed::Notice(at), room) == 16 && draw.g.one_in(2) {
                list.take(&mut draw.g, Fed::Notice(at), Room::Exact);
            }
        } else {
            time = time.saturating_add(draw.step(rule, list.open));
            let mut rows = draw.rows();
            if steers > 0 {
                if let Some(m) = draw.steered(&list.log, time, &rows) {
                    rows.truncate(m);
                    steers -= 1;
                }
            }
            let mut words = event(time, &rows);
            if draw.g.one_in(12) {
                let latest = list.log.latest();
                draw.damage(&mut words, latest);
            }
            if list.take(&mut draw.g, Fed::Event(words.clone()), room) == 16 && draw.g.one_in(2) {
                list.take(&mut draw.g, Fed::Event(words), Room::Exact);
            }
        }
        time = list.log.latest().unwrap_or(time);
    }
    list.cut(&mut draw.g);
    let image = list.saved.last().unwrap().image.clone();
    changed_words(&mut draw, &mut list, &image);
    other_sizes(&mut draw, &mut list, &image);
    other_ends(&mut draw, &mut list, &image);
    any_words(&mut draw, &mut list, &image);
    other_entries(&mut draw, &mut list, &image);
    other_rules(&mut draw, &mut list, &image);
    other_states(&mut draw, &mut list);
    other_lengths(&mut draw, &mut list, &image);
}

// Each word of a small image in turn changed to others; of a longer one the sizes, and as many in all.
fn changed_words(draw: &mut Draw, list: &mut List, image: &[u32]) {
    let mut places: Vec<usize> = (0..image.len()).collect();
    draw.g.shuffle(&mut places[5..]);
    for at in places.into_iter().take(WORDS_CHANGED) {
        let w = image[at];
        for other in [0, 1, w.wrapping_add(1), w.wrapping_sub(1), u32::MAX, w ^ 1 << draw.g.below(32), draw.g.next() as u32] {
            let mut changed = image.to_vec();
            changed[at] = other;
            let fits = list.read_any(draw, &changed);
            if other == w && !fits {
                list.differ(&format!("an image that was saved is out of form: {image:?}"));
            }
            list.tally.changed += (other != w) as u64;
            list.tally.changed_in_form += (other != w && fits) as u64;
        }
    }
}

// Sizes at the ends of what is allowed and of what a word holds, and such that their sum, reckoned in 32 bits, is as it was.
fn other_sizes(draw: &mut Draw, list: &mut List, image: &[u32]) {
    let seventh = u32::MAX / 7;
    let near = [u32::MAX, u32::MAX - 1, u32::MAX - 4, u32::MAX - 6, 1 << 31, 1 << 30, 1 << 29, seventh, seventh + 1];
    for at in 0..5 {
        for other in near.into_iter().chain([2, 64, 65, 512, 513, 10_000_000, 10_000_001]) {
            let mut changed = image.to_vec();
            changed[at] = other;
            list.read_any(draw, &changed);
            list.tally.any += 1;
        }
    }
    let sum = image[3].wrapping_mul(7).wrapping_add(image[4]);
    for kept in near.into_iter().chain([image[3].wrapping_add(1), image[3].wrapping_sub(1)]) {
        let mut changed = image.to_vec();
        (changed[3], changed[4]) = (kept, sum.wrapping_sub(kept.wrapping_mul(7)));
        list.read_any(draw, &changed);
        list.tally.any += 1;
    }
}

// An image cut short by any number of words, or lengthened, is always out of form.
fn other_ends(draw: &mut Draw, list: &mut List, image: &[u32]) {
    let n = image.len();
    let lengths: Vec<usize> = if n <= EVERY_LENGTH { (0..n).collect() } else { (0..8).chain(n - 8..n).chain((0..40).map(|_| draw.g.below(n))).collect() };
    let mut others: Vec<Vec<u32>> = lengths.into_iter().map(|n| image[..n].to_vec()).collect();
    for more in [vec![0], vec![draw.g.next() as u32], vec![0; 5], image.to_vec()] {
        others.push([image, &more].concat());
    }
    for words in others {
        if list.read_any(draw, &words) {
            list.differ(&format!("an image of {n} words is in form with {} words", words.len()));
        }
        list.tally.lengths += 1;
    }
}

// Words of any kind; small sizes and any words behind them; small sizes, small words and the rule.
fn any_words(draw: &mut Draw, list: &mut List, image: &[u32]) {
    for _ in 0..4 {
        let g = &mut draw.g;
        let (kept, retained) = (g.below(3), g.below(3));
        let any: Vec<u32> = (0..g.below(60)).map(|_| g.next() as u32).collect();
        let sizes = [1, g.below(4) as u32, g.next() as u32, kept as u32, retained as u32];
        let small: Vec<u32> = (0..7 * kept + retained).map(|_| g.below(3) as u32).collect();
        let rule = Parts::of(image).rule;
        for words in [any.clone(), [&sizes[..], &any].concat(), [&sizes[..], &small, &rule].concat()] {
            let fits = list.read_any(draw, &words);
            list.tally.any += 1;
            list.tally.any_in_form += fits as u64;
        }
    }
}

// An entry or a time left out, put in twice, or changed places with another; and owners whose words are others, but for which
// 2 * node + mark, in 32 bits, is what it was. An entry twice or out of its place, and such an owner, are always out of form.
fn other_entries(draw: &mut Draw, list: &mut List, image: &[u32]) {
    let whole = Parts::of(image);
    let mut others = vec![];
    for _ in 0..if whole.owners.is_empty() { 0 } else { 6 } {
        let (k, other) = (draw.g.below(whole.owners.len()), draw.g.below(whole.owners.len()));
        let (mut without, mut twice, mut moved) = (whole.clone(), whole.clone(), whole.clone());
        without.owners.remove(k);
        without.values.remove(k);
        twice.owners.insert(k, whole.owners[k]);
        twice.values.insert(k, whole.values[k]);
        moved.owners.swap(k, other);
        moved.values.swap(k, other);
        others.extend([(without, true), (twice, false), (moved, k == other)]);
        let [node, mark, number] = whole.owners[k];
        for (node, mark) in [(node.wrapping_sub(1), mark + 2), (node + (1 << 31), mark), (0, 2 * node + mark), (u32::MAX, 2 * node + mark + 2)] {
            let mut alike = whole.clone();
            alike.owners[k] = [node, mark, number];
            others.push((alike, mark < 2 && node < 32));
        }
    }
    for _ in 0..if whole.times.is_empty() { 0 } else { 2 } {
        let (k, other) = (draw.g.below(whole.times.len()), draw.g.below(whole.times.len()));
        let (mut without, mut twice, mut moved) = (whole.clone(), whole.clone(), whole.clone());
        without.times.remove(k);
        twice.times.insert(k, whole.times[k]);
        moved.times.swap(k, other);
        others.extend([(without, true), (twice, true), (moved, true)]);
    }
    for (parts, may_fit) in others {
        let words = parts.words();
        let fits = list.read_any(draw, &words);
        if fits && !may_fit {
            list.differ(&format!("these words are in form: {words:?}"));
        }
        list.tally.any += 1;
        list.tally.any_in_form += (fits && words != image) as u64;
    }
}

// The rule file damaged in a byte until it is refused: the image is then out of form. Without points any rule that is accepted, and
// any latest known time, is in form.
fn other_rules(draw: &mut Draw, list: &mut List, image: &[u32]) {
    let whole = Parts::of(image);
    for _ in 0..4 {
        let mut bytes = whole.bytes();
        let at = draw.g.below(bytes.len());
        bytes[at] = draw.g.pick(&[0, 1, 2, 4, 9, 14, 15, 16, 255]);
        let accepted = library::check(&bytes).0 == 0;
        let rule: Vec<u32> = bytes.chunks(4).map(word_of).collect();
        let fits = list.read_any(draw, &Parts { rule: rule.clone(), ..whole.clone() }.words());
        let latest = draw.g.next() as u32;
        let of_none = list.read_any(draw, &[&[1, 0, latest, 0, 0], &rule[..]].concat());
        if fits && !accepted || of_none != accepted {
            list.differ(&format!("an image with the rule {bytes:?} is in form ({fits}, {of_none})"));
        }
        list.tally.rules += !accepted as u64;
    }
}

// States that no log need have: 8 comes first, whatever the buffer; those that are well formed are saved, and come back.
fn other_states(draw: &mut Draw, list: &mut List) {
    let mut states = vec![];
    for _ in 0..6 {
        let mut state = list.state;
        (0..draw.g.from(1, 2)).for_each(|_| disturb(&mut draw.g, &mut state));
        states.push(state);
    }
    let mut last = list.state;
    move_on(&mut last, MOST_POINTS as u32 - list.state.points);
    if formed::well_formed(&last) {
        with_all_points(list, &last, &draw.rows());
    }
    states.push(last);
    for state in states {
        list.tally.states += 1;
        let held = state.bytes as usize <= RULE_BYTES && state.retained as usize <= MOST_TIMES && state.count as usize <= ENTRIES;
        let image = if held { words_of(&state) } else { vec![] };
        if formed::well_formed(&state) {
            for room in [draw.g.below(image.len()), image.len()] {
                list.save(&mut draw.g, &state, &image, room);
            }
            list.tally.states_saved += 1;
        } else {
            let room = draw.g.pick(&[0, 5, IMAGE_WORDS]);
            let mut buffer = Buffer::new(&mut draw.g, room);
            let told = library::save(&state, buffer.words());
            if told != NOT_WELL_FORMED || buffer.wrong(&[]).is_some() {
                list.differ(&format!("saving a state that isn't well formed is answered {told:?}, or writes; its image would be {image:?}"));
            }
            list.tally.refusals[8] += 1;
        }
        // owners past the nodes that there may be don't come back as they are
        if held && state.bytes % 4 == 0 {
            list.read_any(draw, &image);
            list.tally.any += 1;
        }
    }
}

// A state with all points there may be, read in: the next event is refused by 12.
fn with_all_points(list: &mut List, state: &State, rows: &[Row]) {
    let (mut read, mut buffer) = (list.memory, vec![0; LONGEST_REPORT]);
    let told = library::restore_in(&words_of(state), &mut read);
    let taken = library::take_in(&mut read, &event(state.latest, rows), &mut buffer);
    if told.number != 0 || (taken.number, taken.place) != (12, 0) {
        list.differ(&format!("with {MOST_POINTS} points reading in is answered {told:?}, and the next event {taken:?}"));
    }
    list.tally.refusals[12] += 1;
}

// A field lent shorter or longer than a state's: 8 in saving, 18 in reading in, and nothing changes.
fn other_lengths(draw: &mut Draw, list: &mut List, image: &[u32]) {
    for field in 0..LENGTHS.len() {
        for length in [LENGTHS[field] - 1, draw.g.below(LENGTHS[field]), LENGTHS[field] + 1] {
            let mut lengths = LENGTHS;
            lengths[field] = length;
            let before: Fields = fields_of(&list.state, lengths);
            let (mut fields, mut buffer) = (before.clone(), Buffer::new(&mut draw.g, IMAGE_WORDS));
            let told = library::save_of(&fields, buffer.words());
            if told != NOT_WELL_FORMED || buffer.wrong(&[]).is_some() {
                list.differ(&format!("saving a state lent at lengths {lengths:?} is answered {told:?}, or writes"));
            }
            let told = library::restore_of(&image.to_vec(), &mut fields);
            if told != NO_IMAGE || fields != before {
                list.differ(&format!("reading into a state lent at lengths {lengths:?} is answered {told:?}, or writes"));
            }
            list.tally.lent += 1;
        }
    }
}

// ---- some that are known

fn expect_image(list: &List, what: &str, should: &[u32]) {
    let is = &list.saved.last().unwrap().image;
    if is != should {
        list.differ(&format!("the image {what} is {is:?} for {should:?}"));
    }
}

// Before any point: a start, a notice at 0, which leaves the image of a start, and a later one. Then a leak, which stays open, and
// one that every node settles.
fn first_images(tally: &mut Tally) {
    let meaning = Meaning::of(rule_l());
    let (mut g, mut list) = (Random(0), List::start(0, &mut Random(0), &meaning, tally));
    let rule: Vec<u32> = meaning.rule.bytes().chunks(4).map(word_of).collect();
    let of = |words: &[u32]| [words, &rule].concat();
    list.cut(&mut g);
    expect_image(&list, "of a start", &of(&[1, 0, 0, 0, 0]));
    list.take(&mut g, Fed::Notice(0), Room::Full);
    list.cut(&mut g);
    expect_image(&list, "after a notice at 0", &of(&[1, 0, 0, 0, 0]));
    list.take(&mut g, Fed::Notice(7), Room::Full);
    list.cut(&mut g);
    expect_image(&list, "after a notice at 7", &of(&[1, 0, 7, 0, 0]));
    list.take(&mut g, Fed::Event(event(100, &[(0, vec![9]), (0, vec![3])])), Room::Full);
    list.cut(&mut g);
    expect_image(&list, "after a leak in two blocks", &of(&[1, 1, 100, 2, 1, 0, 0, 0, 0, 0, 0, 3, 0, 0, 0, 9, 0, 0, 0, 100]));
    list.take(&mut g, Fed::Event(event(130, &[(1, vec![9])])), Room::Full);
    list.take(&mut g, Fed::Notice(165), Room::Full);
    list.cut(&mut g);
    expect_image(&list, "after a closing", &of(&[1, 2, 165, 1, 2, 1, 0, 1, 9, 0, 0, 0, 100, 130]));
}

// The longest image there is of a list: 512 entries, and 63 times, 30 "previous" over "eventually"; then a notice settles all.
fn longest_image(tally: &mut Tally) {
    let mut nodes = vec![atom(0, &[0, 1, 2, 3]), node(EVENTUALLY, 0, 0, 0, 1_000)];
    (1..31).for_each(|x| nodes.push(node(PREVIOUS, x, 0, 0, 0)));
    let meaning = Meaning::of(Rule { arities: vec![4], nodes });
    let (mut g, mut list) = (Random(0), List::start(0, &mut Random(0), &meaning, tally));
    list.take(&mut g, Fed::Event(event(0, &[])), Room::Full);
    for i in 0..62 {
        let rows: Vec<Row> = (0..if i < 2 { 16 } else { 8 }).map(|k| (0, vec![7, k, u32::MAX - k, k % 3])).collect();
        let number = list.take(&mut g, Fed::Event(event(1_000 + i, &rows)), Room::Full);
        if number != 0 {
            list.differ(&format!("event {i} of the longest image is refused by {number}"));
        }
    }
    list.cut(&mut g);
    let words = list.saved[0].image.len();
    if (list.kept, list.open, words) != (512, 32, 5 + 7 * 512 + 63 + RULE_WORDS) {
        list.differ(&format!("{} kept, {} open, {words} words of the image", list.kept, list.open));
    }
    for fed in [Fed::Event(event(1_061, &[])), Fed::Notice(2_061), Fed::Notice(2_061)] {
        list.take(&mut g, fed, Room::Full);
        list.cut(&mut g);
    }
}

// 512 pairs, and one more that is refused by 15: once [0, 1802) over a relation of which 32 rows come every 120 seconds.
fn full_of_pairs(tally: &mut Tally) {
    let meaning = Meaning::of(Rule { arities: vec![2], nodes: vec![atom(0, &[3, 1]), node(ONCE, 0, 0, 0, 1_802)] });
    let (mut g, mut list) = (Random(0), List::start(0, &mut Random(0), &meaning, tally));
    let rows: Vec<Row> = (0..32).map(|k| (0, vec![k % 8, k / 8])).collect();
    for i in 0..20 {
        for (time, number) in [(120 * i, 0), (120 * i + 1, if i < 15 { 0 } else { 15 })] {
            let rows = if time % 120 == 0 { &rows[..] } else { &rows[..if i < 15 { 0 } else { 1 }] };
            let is = list.take(&mut g, Fed::Event(event(time, rows)), Room::Full);
            if is != number {
                list.differ(&format!("the event at {time} is answered {is} for {number}"));
            }
            list.cut(&mut g);
        }
    }
    if list.kept != MOST_KEPT {
        list.differ(&format!("{} are kept", list.kept));
    }
}

fn main() {
    let mut args = std::env::args().skip(1);
    let mut number = |default: u64| match args.next().map(|a| a.parse()) {
        None => default,
        Some(Ok(n)) => n,
        Some(Err(_)) => {
            eprintln!("usage: images [LISTS [SEED]]");
            exit(2)
        }
    };
    let (lists, seed) = (number(2_500), number(1));
    let mut t = Tally::default();
    first_images(&mut t);
    longest_image(&mut t);
    full_of_pairs(&mut t);
    for k in 0..lists {
        run(seed.wrapping_add(k), &mut t);
    }

    println!(
        "{} lists of {} takings, {} of them notices and {} taken, with {} cuts, {} ways back and {} images of {} words, the longest of {}; {} changed images, {} of them in form, {} of another length, {} of any words, {} of them in form, {} with a refused rule; {} states that no log need have, {} of them saved; {} lent at other lengths; {} states of other origin went on; no difference",
        t.lists, t.takings, t.notices, t.taken, t.cuts, t.back, t.images, t.words, t.longest, t.changed, t.changed_in_form, t.lengths, t.any, t.any_in_form, t.rules, t.states, t.states_saved, t.lent, t.went_on
    );
    let refusals: Vec<(usize, u64)> = t.refusals.iter().copied().enumerate().filter(|r| r.0 >= 8 && r.0 != 17).collect();
    println!("refusals: {}", refusals.iter().map(|(number, met)| format!("{met} by {number}")).collect::<Vec<String>>().join(", "));
    let mut met: Vec<(String, u64)> = refusals.into_iter().map(|(number, met)| (format!("refusal {number}"), met)).collect();
    for (what, count) in [("ways back", t.back), ("changed images in form", t.changed_in_form), ("any words in form", t.any_in_form), ("refused rules", t.rules), ("states saved", t.states_saved)] {
        met.push((what.to_string(), count));
    }
    let rare: Vec<String> = met.into_iter().filter(|m| m.1 < lists / LISTS_TO_A_MEETING).map(|m| m.0).collect();
    if lists >= LISTS_TO_ASK && !rare.is_empty() {
        println!("met too rarely: {}", rare.join(", "));
        exit(1);
    }
}
