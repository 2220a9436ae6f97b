//! 01, A table record: when a table is well formed.

use super::refusal::{FARTHEST, MOST_BYTES, MOST_DEPTH, MOST_PLACES};

const WIDTH: usize = 8;

pub const RESET: u32 = 41;
pub const TRANSITION: u32 = 49;

/// Whether one of the records is a T.
pub fn has_transition(words: &[u32]) -> bool {
    words.iter().step_by(WIDTH).any(|&kind| kind == TRANSITION)
}

/// What a word of a record may be.
#[derive(Clone, Copy)]
pub enum Class {
    Unused,
    Float,
    Range(u32, u32),
    /// Two's complement, within ±1,000,000,000.
    Signed,
    Weight,
    /// Any number here; the rules that join words say more.
    Joined,
}

const BYTE: Class = Class::Range(0, 255);
const FLAG: Class = Class::Range(0, 1);

/// The classes of a kind's words, less the unused ones at the end.
pub fn classes(kind: u32) -> Option<&'static [Class]> {
    use Class::*;
    Some(match kind {
        1 => &[Range(0, i32::MAX as u32), Range(0, i32::MAX as u32)],
        2 => &[BYTE, BYTE, BYTE, Signed, Signed, Signed, Signed],
        3 | 15 => &[Float, Float],
        4 => &[Float, Float, Float, Float, FLAG, Signed, Signed],
        5..=8 | 10 | 13 | 14 | 16..=21 | 23 | 24 | 35 => &[Float],
        9 | 27..=29 => &[BYTE, BYTE, BYTE],
        11 | 25 => &[Float, Float, Float, Float],
        12 | 26 => &[Joined, Joined],
        22 | 30..=34 | 38 | 40 | 48 => &[BYTE],
        36 => &[Range(0, 3)],
        37 => &[Range(1, 9)],
        39 => &[Joined, Joined, Joined, Joined],
        RESET => &[FLAG, Joined, Joined],
        42 => &[Weight],
        43..=45 => &[FLAG],
        46 => &[Range(0, 2), Range(0, FARTHEST as u32)],
        47 => &[Signed],
        TRANSITION => &[FLAG, Signed, Signed, Float, Joined],
        _ => return None,
    })
}

fn fits(class: Class, word: u32) -> bool {
    match class {
        Class::Unused => word == 0,
        Class::Float => f32::from_bits(word).abs() <= 1e9,
        Class::Range(low, high) => (low..=high).contains(&word),
        Class::Signed => i64::from(word as i32).abs() <= FARTHEST,
        Class::Weight => word == 0 || (100..=900).contains(&word),
        Class::Joined => true,
    }
}

/// A record of its own, without regard to what encloses it.
fn record_fits(record: &[u32]) -> bool {
    let Some(classes) = classes(record[0]) else {
        return false;
    };
    let unused = std::iter::repeat(&Class::Unused);
    let mut all = classes.iter().chain(unused).zip(&record[1..]);
    all.all(|(&class, &word)| fits(class, word)) && joined(record)
}

/// The rules that join words: absent times, parts, names that are not empty.
fn joined(record: &[u32]) -> bool {
    let [kind, a, b, c, d, e, f, g] = *record else {
        unreachable!("a record has eight words");
    };
    match kind {
        4 => e == 1 || (f, g) == (0, 0),
        12 | 26 => part(a, b),
        39 => part(a, b) && part(c, d) && (b, d) != (0, 0),
        RESET => part(b, c) && (c != 0) == (a == 1),
        TRANSITION => a == 1 || (b, c) == (0, 0),
        _ => true,
    }
}

fn part(offset: u32, length: u32) -> bool {
    let end = u64::from(offset) + u64::from(length);
    end <= MOST_BYTES as u64 && (length != 0 || offset == 0)
}

/// The first record at fault; for excess or a broken last record its index.
pub fn fault(words: &[u32]) -> Option<usize> {
    look(words).0
}

/// How deep the T stand inside each other that are looked into before a fault is found.
pub fn depth(words: &[u32]) -> usize {
    look(words).1
}

/// Fault and depth.
fn look(words: &[u32]) -> (Option<usize>, usize) {
    let whole = (words.len() / WIDTH).min(MOST_PLACES);
    // Where the contents end of each T that encloses the record.
    let mut ends = vec![whole];
    let mut depth = 0;
    for (place, record) in words.chunks_exact(WIDTH).take(whole).enumerate() {
        while ends.len() > 1 && ends.last() == Some(&place) {
            ends.pop();
        }
        if !record_fits(record) {
            return (Some(place), depth);
        }
        if record[0] == TRANSITION {
            let end = place + 1 + record[5] as usize;
            if ends.len() > MOST_DEPTH || Some(&end) > ends.last() {
                return (Some(place), depth);
            }
            depth = depth.max(ends.len());
            ends.push(end);
        }
    }
    ((words.len() > WIDTH * whole).then_some(whole), depth)
}

#[cfg(test)]
mod tests {
    use super::*;

    const ONE: u32 = 0x3F80_0000;

    fn t(inside: u32) -> [u32; 8] {
        [49, 0, 0, 0, ONE, inside, 0, 0]
    }

    fn bold() -> [u32; 8] {
        [42, 700, 0, 0, 0, 0, 0, 0]
    }

    #[test]
    fn single_records() {
        let good = |record: [u32; 8]| fault(&record).is_none();
        assert!(good(bold()) && good(t(0)));
        assert!(!good([42, 99, 0, 0, 0, 0, 0, 0]));
        assert!(!good([0; 8]) && !good([50, 0, 0, 0, 0, 0, 0, 0]));
        assert!(good([10, 0x4E6E_6B28, 0, 0, 0, 0, 0, 0]));
        assert!(!good([10, 0x4E6E_6B29, 0, 0, 0, 0, 0, 0]));
        assert!(!good([10, 0x7FC0_0000, 0, 0, 0, 0, 0, 0]));
        assert!(!good([10, ONE, 0, 0, 0, 0, 0, 1]));
        assert!(good([12, 0, 0, 0, 0, 0, 0, 0]) && !good([12, 1, 0, 0, 0, 0, 0, 0]));
        assert!(good([12, 12_287, 1, 0, 0, 0, 0, 0]) && !good([12, 12_287, 2, 0, 0, 0, 0, 0]));
        assert!(!good([12, u32::MAX, 2, 0, 0, 0, 0, 0]));
        assert!(good([39, 0, 0, 3, 1, 0, 0, 0]) && !good([39, 0, 0, 0, 0, 0, 0, 0]));
        assert!(good([41, 0, 0, 0, 0, 0, 0, 0]) && !good([41, 1, 0, 0, 0, 0, 0, 0]));
        assert!(!good([41, 0, 2, 2, 0, 0, 0, 0]));
        assert!(!good([4, 0, 0, 0, 0, 0, 1, 0]) && good([4, 0, 0, 0, 0, 1, 1, 0]));
        assert!(!good([49, 0, 1, 0, ONE, 0, 0, 0]));
    }

    #[test]
    fn contents_end_inside_what_encloses_them() {
        assert_eq!(fault(&[t(1), bold()].concat()), None);
        assert_eq!(fault(&[t(2), bold()].concat()), Some(0));
        assert_eq!(fault(&[t(1), t(1), bold()].concat()), Some(1));
        assert_eq!(fault(&[t(2), t(1), bold()].concat()), None);
        assert_eq!(fault(&t(u32::MAX)), Some(0));
    }

    #[test]
    fn sixteen_deep_and_no_deeper() {
        for bolds in [0, 1] {
            let nested = |deep: u32| {
                let around = (bolds..bolds + deep).rev().flat_map(t);
                around
                    .chain(bold().repeat(bolds as usize))
                    .collect::<Vec<_>>()
            };
            assert_eq!([8, 9, 16].map(|deep| fault(&nested(deep))), [None; 3]);
            assert_eq!(fault(&nested(17)), Some(16));
            let depths = [8, 9, 16, 17].map(|deep| depth(&nested(deep)));
            assert_eq!(depths, [8, 9, 16, 16]);
        }
    }

    #[test]
    fn what_stands_behind_a_fault_is_not_looked_into() {
        let t_in_t = [t(1), t(0)].concat();
        let depth_behind = |record: [u32; 8]| depth(&[record.to_vec(), t_in_t.clone()].concat());
        assert_eq!(depth_behind(bold()), 2);
        assert_eq!(depth_behind(t(2)), 3);
        assert_eq!(depth_behind(t(3)), 0);
        assert_eq!(depth_behind([0; 8]), 0);
        assert_eq!(depth(&[t_in_t, vec![0; 3]].concat()), 2);
    }

    #[test]
    fn excess_and_broken_records() {
        let table = |count: usize| bold().repeat(count);
        assert_eq!(fault(&[]), None);
        assert_eq!(fault(&table(1_024)), None);
        assert_eq!(fault(&table(1_025)), Some(1_024));
        assert_eq!(fault(&table(2)[..15]), Some(1));
        assert_eq!(fault(&[table(1_024), vec![0; 3]].concat()), Some(1_024));
        let mut reaching = table(1_026);
        reaching[8 * 1_000..8 * 1_001].copy_from_slice(&t(24));
        assert_eq!(fault(&reaching), Some(1_000));
    }
}
