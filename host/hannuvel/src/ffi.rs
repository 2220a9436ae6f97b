//! The nine calls of include/hannuvel.h. All unsafe code of the crate is here.
//!
//! Each call is proved, for memory as the header asks for it, to read and write inside what it is lent and to keep
//! nothing. A Rust slice is such memory: its pointer is never null and is aligned also where the length is 0, it holds
//! as many items as its length says, and what is borrowed mutably overlaps nothing else and is written by nobody
//! meanwhile. The reason beside each use names what it adds to that.
#![allow(unsafe_code)]

use crate::STATE_WORDS;

unsafe extern "C" {
    fn hannuvel_parse_overrides(text: *const u8, bytes: usize, table: *mut u32, words: usize) -> u64;
    fn hannuvel_parse_raw_block(text: *const u8, bytes: usize, table: *mut u32, words: usize) -> u64;
    fn hannuvel_evaluate_at(table: *const u32, words: usize, t: i32, duration: i32, state: *mut u32) -> u64;
    fn hannuvel_next_mark(table: *const u32, words: usize, t: i32, duration: i32) -> u64;
    fn hannuvel_karaoke_spans(table: *const u32, words: usize, spans: *mut u32, span_words: usize) -> u64;
    /// Safe to call with any numbers: it is lent no memory.
    safe fn hannuvel_progress(start: u32, end: u32, t: i32) -> u64;
    fn hannuvel_split_clip_arg(text: *const u8, bytes: usize) -> u64;
    fn hannuvel_parse_drawing(text: *const u8, bytes: usize, exponent: u32, path: *mut u32, words: usize) -> u64;
    fn hannuvel_style_in_force(
        table: *const u32,
        words: usize,
        t: i32,
        duration: i32,
        block: *const u8,
        block_bytes: usize,
        own: *const u8,
        own_bytes: usize,
    ) -> u64;
}

pub fn parse_overrides(text: &[u8], table: &mut [u32]) -> u64 {
    // SAFETY: a text and a table, each with its own length.
    unsafe { hannuvel_parse_overrides(text.as_ptr(), text.len(), table.as_mut_ptr(), table.len()) }
}

pub fn parse_raw_block(text: &[u8], table: &mut [u32]) -> u64 {
    // SAFETY: a text and a table, each with its own length.
    unsafe { hannuvel_parse_raw_block(text.as_ptr(), text.len(), table.as_mut_ptr(), table.len()) }
}

pub fn evaluate_at(table: &[u32], t: i32, duration: i32, state: &mut [u32; STATE_WORDS]) -> u64 {
    // SAFETY: a table with its length, and the 92 words of a state, for which the call takes no length.
    unsafe { hannuvel_evaluate_at(table.as_ptr(), table.len(), t, duration, state.as_mut_ptr()) }
}

pub fn next_mark(table: &[u32], t: i32, duration: i32) -> u64 {
    // SAFETY: a table with its length.
    unsafe { hannuvel_next_mark(table.as_ptr(), table.len(), t, duration) }
}

pub fn karaoke_spans(table: &[u32], spans: &mut [u32]) -> u64 {
    // SAFETY: a table and a list, each with its own length.
    unsafe { hannuvel_karaoke_spans(table.as_ptr(), table.len(), spans.as_mut_ptr(), spans.len()) }
}

pub fn progress(start: u32, end: u32, t: i32) -> u64 {
    hannuvel_progress(start, end, t)
}

pub fn split_clip_arg(text: &[u8]) -> u64 {
    // SAFETY: a text with its length.
    unsafe { hannuvel_split_clip_arg(text.as_ptr(), text.len()) }
}

pub fn parse_drawing(text: &[u8], exponent: u32, path: &mut [u32]) -> u64 {
    // SAFETY: a text and a path table, each with its own length; any exponent is answered or refused.
    unsafe { hannuvel_parse_drawing(text.as_ptr(), text.len(), exponent, path.as_mut_ptr(), path.len()) }
}

pub fn style_in_force(table: &[u32], t: i32, duration: i32, block: &[u8], own: &[u8]) -> u64 {
    // SAFETY: a table and two texts, each with its own length; the call writes to none, so they may overlap.
    unsafe {
        hannuvel_style_in_force(
            table.as_ptr(),
            table.len(),
            t,
            duration,
            block.as_ptr(),
            block.len(),
            own.as_ptr(),
            own.len(),
        )
    }
}
