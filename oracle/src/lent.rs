//! Lent memory: seeded garbage with guard words on both sides, so that every word that a call
//! leaves alone can be checked as well as every word that it writes.

const GUARD: usize = 16;

pub struct Lent {
    words: Vec<u32>,
}

impl Lent {
    pub fn new(seed: u64, count: usize) -> Self {
        let words = (0..count + 2 * GUARD).map(|place| garbage(seed, place));
        Lent {
            words: words.collect(),
        }
    }

    pub fn lend(&mut self) -> &mut [u32] {
        let end = self.words.len() - GUARD;
        &mut self.words[GUARD..end]
    }

    /// The same memory after `written` was put at its front.
    pub fn with(seed: u64, count: usize, written: &[u32]) -> Self {
        let mut lent = Lent::new(seed, count);
        lent.lend()[..written.len()].copy_from_slice(written);
        lent
    }

    /// The first place, counted from the start of what was lent, at which two memories differ.
    pub fn first_difference(&self, other: &Lent) -> Option<isize> {
        if self.words == other.words {
            return None;
        }
        let place = self
            .words
            .iter()
            .zip(&other.words)
            .position(|(a, b)| a != b);
        place.map(|place| place as isize - GUARD as isize)
    }

    pub fn inner(&self) -> &[u32] {
        &self.words[GUARD..self.words.len() - GUARD]
    }

    /// The word at a place counted from the start of what was lent.
    pub fn word(&self, place: isize) -> u32 {
        self.words[(place + GUARD as isize) as usize]
    }
}

fn garbage(seed: u64, place: usize) -> u32 {
    let mixed = (seed ^ place as u64).wrapping_mul(0x9E37_79B9_7F4A_7C15);
    (mixed >> 32) as u32
}

#[cfg(test)]
mod tests {
    use super::*;

    #[test]
    fn a_touched_word_is_found() {
        let before = Lent::new(5, 10);
        let mut after = Lent::new(5, 10);
        assert_eq!(before.first_difference(&after), None);
        after.lend()[9] ^= 1;
        assert_eq!(before.first_difference(&after), Some(9));
        after.words[0] ^= 1;
        assert_eq!(before.first_difference(&after), Some(-(GUARD as isize)));
    }

    #[test]
    fn written_words_stand_at_the_front() {
        let lent = Lent::with(3, 4, &[1, 2]);
        assert_eq!(lent.inner()[..2], [1, 2]);
        assert_eq!(lent.inner()[2..], Lent::new(3, 4).inner()[2..]);
    }
}
