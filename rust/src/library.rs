//! The library's functions and structs, as include/yokemango.h has them. All unsafe code is here.
#![allow(unsafe_code)]
use crate::{MAX_KEPT, MAX_RULE_BYTES, STATE_WORDS};

const ENTRIES: usize = MAX_KEPT as usize;
const TIME_WORDS: usize = 65;

#[repr(C)]
#[derive(Clone, Copy, PartialEq, Eq)]
pub(crate) struct State {
    rule: [u8; MAX_RULE_BYTES],
    bytes: u32,
    pub(crate) points: u32,
    pub(crate) latest: u32,
    times: [u32; TIME_WORDS],
    retained: u32,
    owners: [u32; ENTRIES],
    numbers: [u32; ENTRIES],
    values: [u32; 4 * ENTRIES],
    count: u32,
}

#[repr(C)]
pub(crate) struct Checked {
    pub(crate) number: u32,
    pub(crate) place: u32,
    pub(crate) reach: u32,
    pub(crate) free: u32,
}

#[repr(C)]
pub(crate) struct Started {
    pub(crate) number: u32,
    pub(crate) place: u32,
    pub(crate) reach: u32,
    pub(crate) free: u32,
    pub(crate) state: State,
}

#[repr(C)]
pub(crate) struct Taken {
    pub(crate) number: u32,
    pub(crate) place: u32,
    pub(crate) words: u32,
}

#[repr(C)]
pub(crate) struct Figures {
    pub(crate) number: u32,
    pub(crate) open_points: u32,
    pub(crate) kept: u32,
}

#[repr(C)]
pub(crate) struct Saved {
    pub(crate) number: u32,
    pub(crate) place: u32,
    pub(crate) words: u32,
}

#[repr(C)]
pub(crate) struct Restored {
    pub(crate) number: u32,
    pub(crate) place: u32,
    words: u32,
}

// The layout that the library has.
const _: () = {
    assert!(size_of::<State>() == 4 * STATE_WORDS && align_of::<State>() == 4);
    assert!(size_of::<Checked>() == 16 && size_of::<Started>() == 13_236 && size_of::<Taken>() == 12 && size_of::<Figures>() == 12);
    assert!(size_of::<Saved>() == 12 && size_of::<Restored>() == 12);
};

extern "C" {
    fn yokemango_check(rule: *const u8, rule_len: usize) -> Checked;
    fn yokemango_start(rule: *const u8, rule_len: usize) -> Started;
    fn yokemango_take(
        rule: *const u8,
        rule_len: usize,
        bytes: u32,
        points: *mut u32,
        latest: *mut u32,
        times: *mut u32,
        times_len: usize,
        retained: *mut u32,
        owners: *mut u32,
        owners_len: usize,
        numbers: *mut u32,
        numbers_len: usize,
        values: *mut u32,
        values_len: usize,
        count: *mut u32,
        event: *const u32,
        event_len: usize,
        report: *mut u32,
        report_len: usize,
    ) -> Taken;
    fn yokemango_notice(
        rule: *const u8,
        rule_len: usize,
        bytes: u32,
        points: *mut u32,
        latest: *mut u32,
        times: *mut u32,
        times_len: usize,
        retained: *mut u32,
        owners: *mut u32,
        owners_len: usize,
        numbers: *mut u32,
        numbers_len: usize,
        values: *mut u32,
        values_len: usize,
        count: *mut u32,
        time: u32,
        report: *mut u32,
        report_len: usize,
    ) -> Taken;
    fn yokemango_figures(
        rule: *const u8,
        rule_len: usize,
        bytes: u32,
        points: u32,
        latest: u32,
        times: *const u32,
        times_len: usize,
        retained: u32,
        owners: *const u32,
        owners_len: usize,
        numbers: *const u32,
        numbers_len: usize,
        values: *const u32,
        values_len: usize,
        count: u32,
    ) -> Figures;
    fn yokemango_save(
        rule: *const u8,
        rule_len: usize,
        bytes: u32,
        points: u32,
        latest: u32,
        times: *const u32,
        times_len: usize,
        retained: u32,
        owners: *const u32,
        owners_len: usize,
        numbers: *const u32,
        numbers_len: usize,
        values: *const u32,
        values_len: usize,
        count: u32,
        image: *mut u32,
        image_len: usize,
    ) -> Saved;
    fn yokemango_restore(
        image: *const u32,
        image_len: usize,
        rule: *mut u8,
        rule_len: usize,
        bytes: *mut u32,
        points: *mut u32,
        latest: *mut u32,
        times: *mut u32,
        times_len: usize,
        retained: *mut u32,
        owners: *mut u32,
        owners_len: usize,
        numbers: *mut u32,
        numbers_len: usize,
        values: *mut u32,
        values_len: usize,
        count: *mut u32,
    ) -> Restored;
    fn yokemango_check_report(report: *const u32, report_len: usize) -> u32;
    fn yokemango_reading_of(word: u32) -> i32;
    fn yokemango_word_of(hundredths: i32) -> u32;
}

// The functions ask nothing of bytes, words or numbers, and keep no address: any slice may be lent to any of them, and what is
// written, a report's buffer, an image's or a state, is lent to one alone.

pub(crate) fn check(rule: &[u8]) -> Checked {
    unsafe { yokemango_check(rule.as_ptr(), rule.len()) }
}

pub(crate) fn start(rule: &[u8]) -> Started {
    unsafe { yokemango_start(rule.as_ptr(), rule.len()) }
}

pub(crate) fn take(state: &mut State, event: &[u32], report: &mut [u32]) -> Taken {
    unsafe {
        yokemango_take(
            state.rule.as_ptr(),
            MAX_RULE_BYTES,
            state.bytes,
            &mut state.points,
            &mut state.latest,
            state.times.as_mut_ptr(),
            TIME_WORDS,
            &mut state.retained,
            state.owners.as_mut_ptr(),
            ENTRIES,
            state.numbers.as_mut_ptr(),
            ENTRIES,
            state.values.as_mut_ptr(),
            4 * ENTRIES,
            &mut state.count,
            event.as_ptr(),
            event.len(),
            report.as_mut_ptr(),
            report.len(),
        )
    }
}

pub(crate) fn notice(state: &mut State, time: u32, report: &mut [u32]) -> Taken {
    unsafe {
        yokemango_notice(
            state.rule.as_ptr(),
            MAX_RULE_BYTES,
            state.bytes,
            &mut state.points,
            &mut state.latest,
            state.times.as_mut_ptr(),
            TIME_WORDS,
            &mut state.retained,
            state.owners.as_mut_ptr(),
            ENTRIES,
            state.numbers.as_mut_ptr(),
            ENTRIES,
            state.values.as_mut_ptr(),
            4 * ENTRIES,
            &mut state.count,
            time,
            report.as_mut_ptr(),
            report.len(),
        )
    }
}

pub(crate) fn figures(state: &State) -> Figures {
    unsafe {
        yokemango_figures(
            state.rule.as_ptr(),
            MAX_RULE_BYTES,
            state.bytes,
            state.points,
            state.latest,
            state.times.as_ptr(),
            TIME_WORDS,
            state.retained,
            state.owners.as_ptr(),
            ENTRIES,
            state.numbers.as_ptr(),
            ENTRIES,
            state.values.as_ptr(),
            4 * ENTRIES,
            state.count,
        )
    }
}

pub(crate) fn save(state: &State, image: &mut [u32]) -> Saved {
    unsafe {
        yokemango_save(
            state.rule.as_ptr(),
            MAX_RULE_BYTES,
            state.bytes,
            state.points,
            state.latest,
            state.times.as_ptr(),
            TIME_WORDS,
            state.retained,
            state.owners.as_ptr(),
            ENTRIES,
            state.numbers.as_ptr(),
            ENTRIES,
            state.values.as_ptr(),
            4 * ENTRIES,
            state.count,
            image.as_mut_ptr(),
            image.len(),
        )
    }
}

pub(crate) fn restore(state: &mut State, image: &[u32]) -> Restored {
    unsafe {
        yokemango_restore(
            image.as_ptr(),
            image.len(),
            state.rule.as_mut_ptr(),
            MAX_RULE_BYTES,
            &mut state.bytes,
            &mut state.points,
            &mut state.latest,
            state.times.as_mut_ptr(),
            TIME_WORDS,
            &mut state.retained,
            state.owners.as_mut_ptr(),
            ENTRIES,
            state.numbers.as_mut_ptr(),
            ENTRIES,
            state.values.as_mut_ptr(),
            4 * ENTRIES,
            &mut state.count,
        )
    }
}

/// 0 for a report, else 17.
pub(crate) fn check_report(report: &[u32]) -> u32 {
    unsafe { yokemango_check_report(report.as_ptr(), report.len()) }
}

// A state is plain words without gaps, and every value of them is a state.

pub(crate) fn words(state: &State) -> &[u32; STATE_WORDS] {
    unsafe { &*(state as *const State).cast() }
}

pub(crate) fn of_words(words: &[u32; STATE_WORDS]) -> State {
    unsafe { core::mem::transmute(*words) }
}

pub(crate) fn reading_of(word: u32) -> i32 {
    unsafe { yokemango_reading_of(word) }
}

pub(crate) fn word_of(hundredths: i32) -> u32 {
    unsafe { yokemango_word_of(hundredths) }
}
