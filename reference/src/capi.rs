//! The product's word interface, by the C calling convention.
//!
//! A hart is `HART_WORDS` words, a map `MAP_WORDS`, a step `STEP_WORDS` and an
//! answer `ANSWER_WORDS`. Slices of any length may be lent: the product judges
//! lengths itself. The words for page tables are of any number.
#![allow(unsafe_code)]

use crate::memory::Memory;

unsafe extern "C" {
    fn tegrwyllt_make(
        grain: u64,
        hart: *mut u64,
        hart_length: usize,
        map: *mut u64,
        map_length: usize,
    ) -> u64;

    fn tegrwyllt_step(
        hart: *mut u64,
        hart_length: usize,
        map: *mut u64,
        map_length: usize,
        memory: *const u64,
        memory_length: usize,
        base: u64,
        step: u64,
        a: u64,
        b: u64,
        answer: *mut u64,
        answer_length: usize,
    ) -> u64;

    fn tegrwyllt_run(
        hart: *mut u64,
        hart_length: usize,
        map: *mut u64,
        map_length: usize,
        memory: *const u64,
        memory_length: usize,
        base: u64,
        steps: *const u64,
        steps_length: usize,
        answers: *mut u64,
        answers_length: usize,
    ) -> u64;

    fn tegrwyllt_query(
        hart: *const u64,
        hart_length: usize,
        map: *const u64,
        map_length: usize,
        mode: u64,
        kind: u64,
        address: u64,
        size: u64,
        answer: *mut u64,
        answer_length: usize,
    ) -> u64;

    fn tegrwyllt_save(
        form: u64,
        hart: *const u64,
        hart_length: usize,
        text: *mut u8,
        text_length: usize,
    ) -> u64;

    fn tegrwyllt_restore(
        form: u64,
        text: *const u8,
        text_length: usize,
        hart: *mut u64,
        hart_length: usize,
        map: *mut u64,
        map_length: usize,
    ) -> u64;

    fn tegrwyllt_convert(
        to: u64,
        text: *const u8,
        text_length: usize,
        buffer: *mut u8,
        buffer_length: usize,
    ) -> u64;

    fn tegrwyllt_feed(
        carried: *mut u8,
        carried_length: usize,
        place: *mut u64,
        place_length: usize,
        hart: *mut u64,
        hart_length: usize,
        map: *mut u64,
        map_length: usize,
        memory: *const u64,
        memory_length: usize,
        base: u64,
        scrap: *const u8,
        scrap_length: usize,
        answers: *mut u64,
        answers_length: usize,
    ) -> u64;

    fn tegrwyllt_left(place: *const u64, place_length: usize) -> u64;
}

/// Makes a hart and its map; 1, or 0 where a length is none there is.
pub fn make(grain: u64, hart: &mut [u64], map: &mut [u64]) -> u64 {
    // SAFETY: each pointer comes with the length of the slice it belongs to,
    // and the slices lent for writing do not overlap; so for all calls below.
    unsafe { tegrwyllt_make(grain, hart.as_mut_ptr(), hart.len(), map.as_mut_ptr(), map.len()) }
}

/// One step; 1, or 0 where a length or the step's number is none there is.
pub fn step(
    hart: &mut [u64],
    map: &mut [u64],
    memory: Memory,
    step: [u64; 3],
    answer: &mut [u64],
) -> u64 {
    let [number, a, b] = step;
    unsafe {
        tegrwyllt_step(
            hart.as_mut_ptr(),
            hart.len(),
            map.as_mut_ptr(),
            map.len(),
            memory.words.as_ptr(),
            memory.words.len(),
            memory.base,
            number,
            a,
            b,
            answer.as_mut_ptr(),
            answer.len(),
        )
    }
}

/// A list of steps, each given what the one before left, and all of them the same
/// memory; 1 or 0 as for `step`.
pub fn run(
    hart: &mut [u64],
    map: &mut [u64],
    memory: Memory,
    steps: &[u64],
    answers: &mut [u64],
) -> u64 {
    unsafe {
        tegrwyllt_run(
            hart.as_mut_ptr(),
            hart.len(),
            map.as_mut_ptr(),
            map.len(),
            memory.words.as_ptr(),
            memory.words.len(),
            memory.base,
            steps.as_ptr(),
            steps.len(),
            answers.as_mut_ptr(),
            answers.len(),
        )
    }
}

/// The words of an access query.
#[derive(Clone, Copy, Debug)]
pub struct Question {
    pub mode: u64,
    /// 0 fetch, 1 load, 2 store.
    pub kind: u64,
    pub address: u64,
    pub size: u64,
}

/// An access query; 1, or 0 where a length, the mode or the kind is none there
/// is.
pub fn query(hart: &[u64], map: &[u64], question: Question, answer: &mut [u64]) -> u64 {
    unsafe {
        tegrwyllt_query(
            hart.as_ptr(),
            hart.len(),
            map.as_ptr(),
            map.len(),
            question.mode,
            question.kind,
            question.address,
            question.size,
            answer.as_mut_ptr(),
            answer.len(),
        )
    }
}

/// What the calls on texts and traces give where a form, a length or the word that tells
/// whether a reader has stopped is none there is.
pub const MISFIT: u64 = u64::MAX;

/// Saves a hart in a form; 0, the number of the refusal, or `MISFIT`.
pub fn save(form: u64, hart: &[u64], text: &mut [u8]) -> u64 {
    unsafe { tegrwyllt_save(form, hart.as_ptr(), hart.len(), text.as_mut_ptr(), text.len()) }
}

/// Reads a text of a form back; gives the same.
pub fn restore(form: u64, text: &[u8], hart: &mut [u64], map: &mut [u64]) -> u64 {
    unsafe {
        tegrwyllt_restore(
            form,
            text.as_ptr(),
            text.len(),
            hart.as_mut_ptr(),
            hart.len(),
            map.as_mut_ptr(),
            map.len(),
        )
    }
}

/// Writes a text of the other form in this one; gives the same.
pub fn convert(to: u64, text: &[u8], buffer: &mut [u8]) -> u64 {
    unsafe { tegrwyllt_convert(to, text.as_ptr(), text.len(), buffer.as_mut_ptr(), buffer.len()) }
}

/// Feeds a scrap of a trace to a reader; the bytes taken, or `MISFIT`.
pub fn feed(
    carried: &mut [u8],
    place: &mut [u64],
    hart: &mut [u64],
    map: &mut [u64],
    memory: Memory,
    scrap: &[u8],
    answers: &mut [u64],
) -> u64 {
    unsafe {
        tegrwyllt_feed(
            carried.as_mut_ptr(),
            carried.len(),
            place.as_mut_ptr(),
            place.len(),
            hart.as_mut_ptr(),
            hart.len(),
            map.as_mut_ptr(),
            map.len(),
            memory.words.as_ptr(),
            memory.words.len(),
            memory.base,
            scrap.as_ptr(),
            scrap.len(),
            answers.as_mut_ptr(),
            answers.len(),
        )
    }
}

/// The bytes short of a record that a reader has left over, or `MISFIT`.
pub fn left(place: &[u64]) -> u64 {
    unsafe { tegrwyllt_left(place.as_ptr(), place.len()) }
}
