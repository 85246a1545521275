// The operations that crates/yokemango exports, as a program in Rust calls them. A slice is passed as its address and then
// its length; for a taking, a notice, the figures, a saving and a reading in, a state's fields are passed so. None of them asks anything of
// its words, so any may be passed.
#![allow(dead_code)]

pub const RULE_BYTES: usize = 652;
pub const RETAINED: usize = 65;
pub const ENTRIES: usize = 512;
pub const IMAGE_WORDS: usize = 3_816;

#[repr(C)]
#[derive(Clone, Copy, PartialEq, Eq)]
pub struct State {
    pub rule: [u8; RULE_BYTES],
    pub bytes: u32,
    pub points: u32,
    pub latest: u32,
    pub times: [u32; RETAINED],
    pub retained: u32,
    pub owners: [u32; ENTRIES],
    pub numbers: [u32; ENTRIES],
    pub values: [u32; 4 * ENTRIES],
    pub count: u32,
}

pub const NO_STATE: State = State {
    rule: [0; RULE_BYTES],
    bytes: 0,
    points: 0,
    latest: 0,
    times: [0; RETAINED],
    retained: 0,
    owners: [0; ENTRIES],
    numbers: [0; ENTRIES],
    values: [0; 4 * ENTRIES],
    count: 0,
};

// Number 0: accepted. Otherwise the refusal.
#[repr(C)]
#[derive(Clone, Copy, PartialEq, Eq, Debug)]
pub struct Checked {
    pub number: u32,
    pub place: u32,
    pub reach: u32,
    pub free: u32,
}

// Number 0: started. Otherwise the refusal, and a state of zeros.
#[repr(C)]
#[derive(Clone, Copy)]
pub struct Started {
    pub number: u32,
    pub place: u32,
    pub reach: u32,
    pub free: u32,
    pub state: State,
}

// Number 0: taken or saved, `words` written, or so many read in. Otherwise the refusal.
#[repr(C)]
#[derive(Clone, Copy, PartialEq, Eq, Debug)]
pub struct Told {
    pub number: u32,
    pub place: u32,
    pub words: u32,
}

// The same, with the state afterwards.
#[derive(Clone, Copy)]
pub struct Taken {
    pub number: u32,
    pub place: u32,
    pub words: u32,
    pub state: State,
}

// Number 0 and the points that are open, or 8; and the kept entries.
#[repr(C)]
#[derive(Clone, Copy)]
pub struct Figures {
    pub number: u32,
    pub open_points: u32,
    pub kept: u32,
}

#[link(name = "yokemango", kind = "static")]
extern "C" {
    fn yokemango_check(rule: *const u8, len: usize) -> Checked;
    fn yokemango_start(rule: *const u8, len: usize) -> Started;
    fn yokemango_take(
        rule: *const u8,
        rule_len: usize,
        bytes: u32,
        points: *mut u32,
        latest: *mut u32,
        times: *mut u32,
        times_len: usize,
        retained: *mut u32,
        owners: *mut u32,
        owners_len: usize,
        numbers: *mut u32,
        numbers_len: usize,
        values: *mut u32,
        values_len: usize,
        count: *mut u32,
        event: *const u32,
        event_len: usize,
        report: *mut u32,
        report_len: usize,
    ) -> Told;
    fn yokemango_notice(
        rule: *const u8,
        rule_len: usize,
        bytes: u32,
        points: *mut u32,
        latest: *mut u32,
        times: *mut u32,
        times_len: usize,
        retained: *mut u32,
        owners: *mut u32,
        owners_len: usize,
        numbers: *mut u32,
        numbers_len: usize,
        values: *mut u32,
        values_len: usize,
        count: *mut u32,
        time: u32,
        report: *mut u32,
        report_len: usize,
    ) -> Told;
    fn yokemango_figures(
        rule: *const u8,
        rule_len: usize,
        bytes: u32,
        points: u32,
        latest: u32,
        times: *const u32,
        times_len: usize,
        retained: u32,
        owners: *const u32,
        owners_len: usize,
        numbers: *const u32,
        numbers_len: usize,
        values: *const u32,
        values_len: usize,
        count: u32,
    ) -> Figures;
    fn yokemango_save(
        rule: *const u8,
        rule_len: usize,
        bytes: u32,
        points: u32,
        latest: u32,
        times: *const u32,
        times_len: usize,
        retained: u32,
        owners: *const u32,
        owners_len: usize,
        numbers: *const u32,
        numbers_len: usize,
        values: *const u32,
        values_len: usize,
        count: u32,
        image: *mut u32,
        image_len: usize,
    ) -> Told;
    fn yokemango_restore(
        image: *const u32,
        image_len: usize,
        rule: *mut u8,
        rule_len: usize,
        bytes: *mut u32,
        points: *mut u32,
        latest: *mut u32,
        times: *mut u32,
        times_len: usize,
        retained: *mut u32,
        owners: *mut u32,
        owners_len: usize,
        numbers: *mut u32,
        numbers_len: usize,
        values: *mut u32,
        values_len: usize,
        count: *mut u32,
    ) -> Told;
    fn yokemango_reading_of(word: u32) -> i32;
    fn yokemango_word_of(hundredths: i32) -> u32;
}

// What checking answers.
pub fn checked(rule: &[u8]) -> Checked {
    unsafe { yokemango_check(rule.as_ptr(), rule.len()) }
}

// The refusal's number, or 0, and its place.
pub fn check(rule: &[u8]) -> (u32, u32) {
    let checked = checked(rule);
    (checked.number, checked.place)
}

// The reading, in hundredths, that a word stores.
pub fn reading_of(word: u32) -> i32 {
    unsafe { yokemango_reading_of(word) }
}

// The word that stores a reading.
pub fn word_of(hundredths: i32) -> u32 {
    unsafe { yokemango_word_of(hundredths) }
}

pub fn start(rule: &[u8]) -> Started {
    unsafe { yokemango_start(rule.as_ptr(), rule.len()) }
}

// The lengths that all of them are told of a state's rule, times, owners, numbers and values.
pub const LENGTHS: [usize; 5] = [RULE_BYTES, RETAINED, ENTRIES, ENTRIES, 4 * ENTRIES];

// Takes an event in the state's own memory, of which so much is lent, and no more than there is.
pub fn take_of(state: &mut State, lengths: [usize; 5], event: &[u32], report: &mut [u32]) -> Told {
    let [rule, times, owners, numbers, values] = lengths;
    assert!(lengths.iter().zip(LENGTHS).all(|(lent, whole)| *lent <= whole));
    unsafe {
        yokemango_take(
            state.rule.as_ptr(),
            rule,
            state.bytes,
            &mut state.points,
            &mut state.latest,
            state.times.as_mut_ptr(),
            times,
            &mut state.retained,
            state.owners.as_mut_ptr(),
            owners,
            state.numbers.as_mut_ptr(),
            numbers,
            state.values.as_mut_ptr(),
            values,
            &mut state.count,
            event.as_ptr(),
            event.len(),
            report.as_mut_ptr(),
            report.len(),
        )
    }
}

// Takes an event in the state's own memory.
pub fn take_in(state: &mut State, event: &[u32], report: &mut [u32]) -> Told {
    take_of(state, LENGTHS, event, report)
}

// The same on a copy of the state.
pub fn take(state: &State, event: &[u32], report: &mut [u32]) -> Taken {
    let mut next = *state;
    let Told { number, place, words } = take_in(&mut next, event, report);
    Taken { number, place, words, state: next }
}

// Takes a notice in the state's own memory, of which so much is lent, and no more than there is.
pub fn notice_of(state: &mut State, lengths: [usize; 5], time: u32, report: &mut [u32]) -> Told {
    let [rule, times, owners, numbers, values] = lengths;
    assert!(lengths.iter().zip(LENGTHS).all(|(lent, whole)| *lent <= whole));
    unsafe {
        yokemango_notice(
            state.rule.as_ptr(),
            rule,
            state.bytes,
            &mut state.points,
            &mut state.latest,
            state.times.as_mut_ptr(),
            times,
            &mut state.retained,
            state.owners.as_mut_ptr(),
            owners,
            state.numbers.as_mut_ptr(),
            numbers,
            state.values.as_mut_ptr(),
            values,
            &mut state.count,
            time,
            report.as_mut_ptr(),
            report.len(),
        )
    }
}

// Takes a notice in the state's own memory.
pub fn notice_in(state: &mut State, time: u32, report: &mut [u32]) -> Told {
    notice_of(state, LENGTHS, time, report)
}

// The same on a copy of the state.
pub fn notice(state: &State, time: u32, report: &mut [u32]) -> Taken {
    let mut next = *state;
    let Told { number, place, words } = notice_in(&mut next, time, report);
    Taken { number, place, words, state: next }
}

// The figures of a state of which so much is lent, and no more than there is.
pub fn figures_of(state: &State, lengths: [usize; 5]) -> Figures {
    let [rule, times, owners, numbers, values] = lengths;
    assert!(lengths.iter().zip(LENGTHS).all(|(lent, whole)| *lent <= whole));
    unsafe {
        yokemango_figures(
            state.rule.as_ptr(),
            rule,
            state.bytes,
            state.points,
            state.latest,
            state.times.as_ptr(),
            times,
            state.retained,
            state.owners.as_ptr(),
            owners,
            state.numbers.as_ptr(),
            numbers,
            state.values.as_ptr(),
            values,
            state.count,
        )
    }
}

pub fn figures(state: &State) -> Figures {
    figures_of(state, LENGTHS)
}

// A state's fields in memory of their own, of any lengths.
#[derive(Clone, PartialEq, Eq)]
pub struct Fields {
    pub rule: Vec<u8>,
    pub bytes: u32,
    pub points: u32,
    pub latest: u32,
    pub times: Vec<u32>,
    pub retained: u32,
    pub owners: Vec<u32>,
    pub numbers: Vec<u32>,
    pub values: Vec<u32>,
    pub count: u32,
}

// The fields of a state at other lengths: the front of each array, or the array and then zeros.
pub fn fields_of(state: &State, lengths: [usize; 5]) -> Fields {
    fn at<T: Copy + Default>(length: usize, of: &[T]) -> Vec<T> {
        of.iter().copied().chain(std::iter::repeat(T::default())).take(length).collect()
    }
    let [rule, times, owners, numbers, values] = lengths;
    Fields {
        rule: at(rule, &state.rule),
        bytes: state.bytes,
        points: state.points,
        latest: state.latest,
        times: at(times, &state.times),
        retained: state.retained,
        owners: at(owners, &state.owners),
        numbers: at(numbers, &state.numbers),
        values: at(values, &state.values),
        count: state.count,
    }
}

// The state whose fields these are, at a state's lengths.
pub fn state_of(fields: &Fields) -> State {
    fn array<T: Copy, const N: usize>(of: &[T]) -> [T; N] {
        of.try_into().expect("a state's length")
    }
    State {
        rule: array(&fields.rule),
        bytes: fields.bytes,
        points: fields.points,
        latest: fields.latest,
        times: array(&fields.times),
        retained: fields.retained,
        owners: array(&fields.owners),
        numbers: array(&fields.numbers),
        values: array(&fields.values),
        count: fields.count,
    }
}

// Saves what the fields hold.
pub fn save_of(fields: &Fields, image: &mut [u32]) -> Told {
    unsafe {
        yokemango_save(
            fields.rule.as_ptr(),
            fields.rule.len(),
            fields.bytes,
            fields.points,
            fields.latest,
            fields.times.as_ptr(),
            fields.times.len(),
            fields.retained,
            fields.owners.as_ptr(),
            fields.owners.len(),
            fields.numbers.as_ptr(),
            fields.numbers.len(),
            fields.values.as_ptr(),
            fields.values.len(),
            fields.count,
            image.as_mut_ptr(),
            image.len(),
        )
    }
}

// Saves a state.
pub fn save(state: &State, image: &mut [u32]) -> Told {
    unsafe {
        yokemango_save(
            state.rule.as_ptr(),
            RULE_BYTES,
            state.bytes,
            state.points,
            state.latest,
            state.times.as_ptr(),
            RETAINED,
            state.retained,
            state.owners.as_ptr(),
            ENTRIES,
            state.numbers.as_ptr(),
            ENTRIES,
            state.values.as_ptr(),
            4 * ENTRIES,
            state.count,
            image.as_mut_ptr(),
            image.len(),
        )
    }
}

// Reads an image into the fields.
pub fn restore_of(image: &[u32], fields: &mut Fields) -> Told {
    unsafe {
        yokemango_restore(
            image.as_ptr(),
            image.len(),
            fields.rule.as_mut_ptr(),
            fields.rule.len(),
            &mut fields.bytes,
            &mut fields.points,
            &mut fields.latest,
            fields.times.as_mut_ptr(),
            fields.times.len(),
            &mut fields.retained,
            fields.owners.as_mut_ptr(),
            fields.owners.len(),
            fields.numbers.as_mut_ptr(),
            fields.numbers.len(),
            fields.values.as_mut_ptr(),
            fields.values.len(),
            &mut fields.count,
        )
    }
}

// Reads an image into a state's own memory.
pub fn restore_in(image: &[u32], state: &mut State) -> Told {
    unsafe {
        yokemango_restore(
            image.as_ptr(),
            image.len(),
            state.rule.as_mut_ptr(),
            RULE_BYTES,
            &mut state.bytes,
            &mut state.points,
            &mut state.latest,
            state.times.as_mut_ptr(),
            RETAINED,
            &mut state.retained,
            state.owners.as_mut_ptr(),
            ENTRIES,
            state.numbers.as_mut_ptr(),
            ENTRIES,
            state.values.as_mut_ptr(),
            4 * ENTRIES,
            &mut state.count,
        )
    }
}
