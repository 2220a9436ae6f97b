//! Sizes of lent memory and lengths of texts around every limit of 01.

use crate::random::Random;
use crate::rule::refusal::{MOST_BYTES, MOST_PLACES};

/// Lent words for `needed` places of `width` words: exact, a little or much more, one short,
/// none, broken, and around the limit of places.
pub fn lent_words(random: &mut Random, needed: usize, width: usize) -> usize {
    let exact = needed * width;
    match random.below(32) {
        0..=11 => exact,
        12..=15 => exact + random.between(1, 3 * width),
        16..=18 => exact.saturating_sub(random.between(1, 2 * width)),
        19 => exact.saturating_sub(1),
        20 => exact + width - 1,
        21 => 0,
        22 => random.between(1, 2 * width),
        23 if random.one_in(4) => at_most_places(random, width),
        _ => exact + width * random.below(6),
    }
}

fn at_most_places(random: &mut Random, width: usize) -> usize {
    let places = random.between(MOST_PLACES - 1, MOST_PLACES + 1);
    places * width + random.below(width)
}

/// A piece repeated about as often as there are places.
pub fn many(random: &mut Random, piece: &[u8]) -> Vec<u8> {
    piece.repeat(random.between(MOST_PLACES - 2, MOST_PLACES + 2))
}

/// Repeats pieces up to a length around the limit, perhaps with a byte of 128 or more.
pub fn long_text(random: &mut Random, piece: impl Fn(&mut Random) -> Vec<u8>) -> Vec<u8> {
    let length = random.between(MOST_BYTES - 2, MOST_BYTES + 1);
    let first = piece(random);
    let same = random.one_in(2);
    let mut text = Vec::with_capacity(length + 64);
    while text.len() < length {
        let next = if same { first.clone() } else { piece(random) };
        text.extend_from_slice(if next.is_empty() { b" " } else { &next });
    }
    text.truncate(length);
    if random.one_in(8) {
        let place = random.below(length);
        text[place] = random.between(128, 255) as u8;
    }
    text
}

#[cfg(test)]
mod tests {
    use super::*;
    use std::collections::HashSet;

    #[test]
    fn sizes_around_the_limits_are_reached() {
        let sizes: HashSet<usize> = (0..20_000)
            .map(|case| lent_words(&mut Random::new(1, case), 3, 8))
            .collect();
        for wanted in [
            0,
            8,
            16,
            23,
            24,
            25,
            31,
            32,
            8 * 1_023,
            8 * 1_024,
            8 * 1_025,
            8 * 1_024 + 1,
        ] {
            assert!(sizes.contains(&wanted), "{wanted}");
        }
    }

    #[test]
    fn lengths_around_the_limit_are_reached() {
        let lengths: HashSet<usize> = (0..100)
            .map(|case| long_text(&mut Random::new(1, case), |_| b"\\r".to_vec()).len())
            .collect();
        assert!((12_287..=12_289).all(|length| lengths.contains(&length)));
    }
}
