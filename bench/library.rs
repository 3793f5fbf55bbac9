//! The nine codes, and the calls of include/malligovu.h. An empty slice is passed as a null pointer with length 0, which the header allows.
#![allow(dead_code)] // each program calls those that it needs

/// m, t and k of the nine codes.
pub const CODES: [(u32, u32, u32); 9] = [(4, 1, 11), (4, 2, 7), (4, 3, 5), (5, 1, 26), (5, 2, 21), (5, 3, 16), (6, 1, 57), (6, 2, 51), (6, 3, 45)];

extern "C" {
    fn malligovu_encode(m: u32, t: u32, s: u32, message: u64, word: *mut u8, word_length: usize) -> u32;
    fn malligovu_read(m: u32, t: u32, s: u32, word: *const u8, word_length: usize, message: *mut u64, message_length: usize) -> u32;
    fn malligovu_fault(m: u32, t: u32, s: u32, word: *const u8, word_length: usize) -> u32;
    fn malligovu_decode(
        m: u32, t: u32, s: u32, order: u32, soft: *const i8, soft_length: usize, word: *mut u8, word_length: usize,
        figures: *mut u32, figures_length: usize,
    ) -> u32;
}

fn from<T>(values: &[T]) -> *const T {
    if values.is_empty() { std::ptr::null() } else { values.as_ptr() }
}

fn into<T>(values: &mut [T]) -> *mut T {
    if values.is_empty() { std::ptr::null_mut() } else { values.as_mut_ptr() }
}

pub fn encode(m: u32, t: u32, s: u32, message: u64, word: &mut [u8]) -> u32 {
    unsafe { malligovu_encode(m, t, s, message, into(word), word.len()) }
}

pub fn read(m: u32, t: u32, s: u32, word: &[u8], message: &mut [u64]) -> u32 {
    unsafe { malligovu_read(m, t, s, from(word), word.len(), into(message), message.len()) }
}

pub fn fault(m: u32, t: u32, s: u32, word: &[u8]) -> u32 {
    unsafe { malligovu_fault(m, t, s, from(word), word.len()) }
}

pub fn decode(m: u32, t: u32, s: u32, order: u32, soft: &[i8], word: &mut [u8], figures: &mut [u32]) -> u32 {
    unsafe { malligovu_decode(m, t, s, order, from(soft), soft.len(), into(word), word.len(), into(figures), figures.len()) }
}
