//! Damage and noise.

use crate::random::Random;

/// Bytes that mean something to a reader.
const TELLING: &[u8] = b"\\\\\\()(),,.0123456789+-eE&HhxXtTrRfFnNsScCkKpPbBaAiIuUqQ {}\t\x0b\x0c";

/// One to four bytes deleted, inserted, replaced, doubled, or the end cut off.
pub fn damage(random: &mut Random, text: &mut Vec<u8>) {
    for _ in 0..random.between(1, 4) {
        let place = random.below(text.len() + 1);
        match random.below(6) {
            0 if place < text.len() => {
                text.remove(place);
            }
            1 => text.insert(place, telling(random)),
            2 if place < text.len() => text[place] = telling(random),
            3 => double(random, text, place),
            4 if random.one_in(3) => text.truncate(place),
            5 => drop_parenthesis(random, text),
            _ => {}
        }
    }
}

/// Any byte that means something, rarely any byte at all.
fn telling(random: &mut Random) -> u8 {
    if random.one_in(40) {
        return random.below(256) as u8;
    }
    *random.pick(TELLING)
}

fn double(random: &mut Random, text: &mut Vec<u8>, place: usize) {
    let end = (place + random.between(1, 12)).min(text.len());
    let piece = text[place..end].to_vec();
    text.splice(end..end, piece);
}

fn drop_parenthesis(random: &mut Random, text: &mut Vec<u8>) {
    let places: Vec<usize> = (0..text.len())
        .filter(|&i| matches!(text[i], b'(' | b')'))
        .collect();
    if !places.is_empty() {
        text.remove(*random.pick(&places));
    }
}

/// A text of telling bytes.
pub fn noise(random: &mut Random, text: &mut Vec<u8>, most: usize) {
    for _ in 0..random.below(most + 1) {
        text.push(telling(random));
    }
}

#[cfg(test)]
mod tests {
    use super::*;

    #[test]
    fn damage_changes_most_texts_and_reaches_high_bytes() {
        let whole = b"\\fs20\\t(0,1000,\\fs40)".to_vec();
        let damaged = |case| {
            let mut text = whole.clone();
            damage(&mut Random::new(1, case), &mut text);
            text
        };
        let changed = (0..1_000).filter(|&case| damaged(case) != whole).count();
        assert!(changed > 700, "{changed}");
        assert!((0..5_000).any(|case| damaged(case).iter().any(|&byte| byte >= 128)));
        assert_eq!(damaged(3), damaged(3));
    }
}
