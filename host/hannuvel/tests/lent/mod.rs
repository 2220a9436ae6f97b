//! Lent memory with guard words on both sides, in which every word that a call touches is seen.

use std::ops::Range;

const GUARD: usize = 16;

pub struct Lent {
    words: Vec<u32>,
}

impl Lent {
    pub fn new(count: usize) -> Self {
        Lent { words: (0..count + 2 * GUARD).map(garbage).collect() }
    }

    pub fn lend(&mut self) -> &mut [u32] {
        let end = self.words.len() - GUARD;
        &mut self.words[GUARD..end]
    }

    /// From the first word touched to behind the last, counted from the start of what was lent; empty if there is none.
    pub fn touched(&self) -> Range<isize> {
        let touched = |&place: &usize| self.words[place] != garbage(place);
        let mut places = (0..self.words.len()).filter(touched);
        let Some(first) = places.next() else {
            return 0..0;
        };
        let from = |place: usize| place as isize - GUARD as isize;
        from(first)..from(places.next_back().unwrap_or(first)) + 1
    }
}

/// Words that no record, state or span has.
fn garbage(place: usize) -> u32 {
    0xA5A5_0000 ^ place as u32
}
