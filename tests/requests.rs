// Runs the cases of a change request through the monitor and through the keeper (keeper.rs), and compares with the file every
// answer, every word of every report and both figures after each call, and the image after the last; requests.py has the form of
// the cases. It fails on the first difference.
//
//   tools/build yokemango
//   rustc -O --edition 2021 -L target/staticlib -o target/requests tests/requests.rs
//   target/requests FILE.jsonl ..
mod formed;
mod input;
mod keeper;
mod library;

use keeper::{Fed, Log, Meaning};
use std::process::exit;

// ---- JSON: what a line of the files has

enum Json {
    Null,
    Number(u32),
    Text(String),
    List(Vec<Json>),
    Object(Vec<(String, Json)>),
}

impl Json {
    // What stands under a name; null is as though it were left out.
    fn get(&self, name: &str) -> Option<&Json> {
        let Json::Object(fields) = self else { panic!("no object where {name} is looked for") };
        fields.iter().find(|f| f.0 == name).map(|f| &f.1).filter(|value| !matches!(value, Json::Null))
    }

    fn number(&self) -> u32 {
        let Json::Number(n) = self else { panic!("no number") };
        *n
    }

    fn numbers(&self) -> Vec<u32> {
        self.list().iter().map(Json::number).collect()
    }

    fn list(&self) -> &[Json] {
        let Json::List(of) = self else { panic!("no list") };
        of
    }

    fn text(&self) -> &str {
        let Json::Text(text) = self else { panic!("no text") };
        text
    }
}

struct Reader<'t>(&'t [u8]);

impl Reader<'_> {
    // The next character past blanks, which stays.
    fn next(&mut self) -> u8 {
        while self.0[0].is_ascii_whitespace() {
            self.0 = &self.0[1..];
        }
        self.0[0]
    }

    fn pass(&mut self, expected: u8) {
        assert_eq!(self.next() as char, expected as char);
        self.0 = &self.0[1..];
    }

    // What comes before one of the ends, which stays.
    fn until(&mut self, ends: &[u8]) -> String {
        let n = self.0.iter().position(|c| ends.contains(c)).expect("an end");
        let (read, rest) = self.0.split_at(n);
        self.0 = rest;
        String::from_utf8(read.to_vec()).expect("text")
    }

    // Text without escapes.
    fn quoted(&mut self) -> String {
        self.pass(b'"');
        let text = self.until(b"\"\\");
        self.pass(b'"');
        text
    }

    // What stands between two brackets, parted by commas.
    fn parted<T>(&mut self, open: u8, close: u8, one: fn(&mut Self) -> T) -> Vec<T> {
        self.pass(open);
        let mut all = vec![];
        while self.next() != close {
            if !all.is_empty() {
                self.pass(b',');
            }
            all.push(one(self));
        }
        self.pass(close);
        all
    }

    fn value(&mut self) -> Json {
        match self.next() {
            b'"' => Json::Text(self.quoted()),
            b'[' => Json::List(self.parted(b'[', b']', Reader::value)),
            b'{' => Json::Object(self.parted(b'{', b'}', |r| {
                let name = r.quoted();
                r.pass(b':');
                (name, r.value())
            })),
            b'n' => {
                b"null".iter().for_each(|c| self.pass(*c));
                Json::Null
            }
            _ => Json::Number(self.until(b",]} ").parse().expect("a number")),
        }
    }
}

// ---- a case

// What a call answers: words of the report, or number and place; and the kept and open figures after it.
#[derive(Debug, PartialEq)]
struct Answer {
    given: Result<Vec<u32>, (u32, u32)>,
    kept: u32,
    open: u32,
}

#[derive(Default)]
struct Tally {
    cases: usize,
    rules_refused: usize,
    events: usize,
    notices: usize,
    refusals: usize,
    images: usize,
    image_words: usize,
}

fn differ(place: &str, who: &str, is: &dyn std::fmt::Debug, should: &dyn std::fmt::Debug) -> ! {
    println!("difference at {place}: {who} gives {is:?} for {should:?}");
    exit(1)
}

// The answer that stands in the file.
fn expected(call: &Json) -> Answer {
    let number = |name| call.get(name).expect(name).number();
    let given = match call.get("report") {
        Some(report) => Ok(report.numbers()),
        None => Err((number("number"), number("place"))),
    };
    if let Ok(report) = &given {
        assert_eq!(report.len(), number("words") as usize);
    }
    Answer { given, kept: number("kept"), open: number("open") }
}

// The keeper's answer, and its log after it.
fn by_keeper<'m>(log: &mut Log<'m>, fed: &Fed, room: usize) -> Answer {
    let given = match keeper::fed(log, fed) {
        Err(refusal) => Err(refusal),
        Ok(r) => match (r.refusal, r.report()) {
            (Some(refusal), _) => Err(refusal),
            (None, report) if report.len() > room => Err((16, report.len() as u32)),
            (None, report) => {
                *log = r.log;
                Ok(report)
            }
        },
    };
    Answer { given, kept: log.kept() as u32, open: log.open() as u32 }
}

// The monitor's. Words past the report, and on a refusal all of them, must stay.
fn by_monitor(place: &str, state: &mut library::State, fed: &Fed, room: usize) -> Answer {
    let mut buffer = vec![5; room];
    let told = match fed {
        Fed::Event(words) => library::take_in(state, words, &mut buffer),
        Fed::Notice(time) => library::notice_in(state, *time, &mut buffer),
    };
    if buffer[told.words as usize..].iter().any(|w| *w != 5) {
        differ(place, "the monitor", &buffer, &told);
    }
    let given = if told.number == 0 { Ok(buffer[..told.words as usize].to_vec()) } else { Err((told.number, told.place)) };
    let figures = library::figures(state);
    Answer { given, kept: figures.kept, open: figures.open_points }
}

fn run(place: &str, case: &Json, tally: &mut Tally) {
    tally.cases += 1;
    let hex = case.get("rule").expect("a rule").text();
    let file: Vec<u8> = (0..hex.len() / 2).map(|k| u8::from_str_radix(&hex[2 * k..2 * k + 2], 16).expect("hex")).collect();
    let started = library::start(&file);
    if let Some(refused) = case.get("refused") {
        let (is, should) = (vec![started.number, started.place], refused.numbers());
        if is != should {
            differ(place, "start", &is, &should);
        }
        tally.rules_refused += 1;
        return;
    }
    let should = case.get("check").expect("what checking answers").numbers();
    if (started.number, vec![started.reach, started.free]) != (0, should.clone()) {
        differ(place, "start", &(started.number, started.reach, started.free), &should);
    }
    let meaning = Meaning::of(formed::rule_of(&file));
    let free = (0..4).map(|v| (meaning.pattern_free()[v] as u32) << v).sum();
    if [meaning.reach(), free] != should[..] {
        differ(place, "the keeper", &[meaning.reach(), free], &should);
    }
    let (mut log, mut state) = (Log::new(&meaning), started.state);
    for (k, call) in case.get("calls").map_or(&[][..], Json::list).iter().enumerate() {
        let (fed, count) = match (call.get("take"), call.get("notice")) {
            (Some(words), None) => (Fed::Event(words.numbers()), &mut tally.events),
            (None, Some(time)) => (Fed::Notice(time.number()), &mut tally.notices),
            _ => panic!("{place}, call {k} is neither an event nor a notice"),
        };
        *count += 1;
        let (room, should) = (call.get("room").expect("a room").number() as usize, expected(call));
        tally.refusals += should.given.is_err() as usize;
        let place = format!("{place}, call {k}");
        let is = by_keeper(&mut log, &fed, room);
        if is != should {
            differ(&place, "the keeper", &is, &should);
        }
        let is = by_monitor(&place, &mut state, &fed, room);
        if is != should {
            differ(&place, "the monitor", &is, &should);
        }
        if !formed::well_formed(&state) || state.latest != log.latest().unwrap_or(0) {
            differ(&place, "the monitor", &state.latest, &log.latest());
        }
    }
    if let Some(image) = case.get("image") {
        compare_images(place, &log, &state, &image.numbers());
        tally.images += 1;
        tally.image_words += image.numbers().len();
    }
}

// The image by the keeper and by the monitor. Words past it must stay; and the monitor must read it in to what saves to it again.
fn compare_images(place: &str, log: &Log, state: &library::State, should: &[u32]) {
    let is = log.image();
    if is != should {
        differ(place, "the keeper", &is, &should);
    }
    let mut read = library::State { points: 7, latest: 7, ..library::NO_STATE };
    let told = library::restore_in(should, &mut read);
    if (told.number, told.place, told.words as usize) != (0, 0, should.len()) {
        differ(place, "reading the image in", &told, &should.len());
    }
    for state in [state, &read] {
        let mut buffer = vec![5; library::IMAGE_WORDS + 1];
        let told = library::save(state, &mut buffer);
        let (is, past) = buffer.split_at(should.len());
        if (told.number, told.place, told.words as usize) != (0, 0, should.len()) || is != should || past.iter().any(|w| *w != 5) {
            differ(place, "the monitor", &(told, is), &should);
        }
    }
}

fn main() {
    let files: Vec<String> = std::env::args().skip(1).collect();
    if files.is_empty() {
        eprintln!("usage: requests FILE.jsonl ..");
        exit(2)
    }
    for name in files {
        let mut tally = Tally::default();
        let text = std::fs::read_to_string(&name).expect("the file can be read");
        for (k, line) in text.lines().enumerate() {
            run(&format!("line {} of {name}", k + 1), &Reader(line.as_bytes()).value(), &mut tally);
        }
        println!("{name}: {} cases, {} of them refused rules, {} events, {} notices, {} refusals, {} images of {} words; monitor and keeper give what is expected", tally.cases, tally.rules_refused, tally.events, tally.notices, tally.refusals, tally.images, tally.image_words);
    }
}
