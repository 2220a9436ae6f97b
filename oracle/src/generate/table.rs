//! Tables that no text was read into, well formed and damaged, and instants.

use std::sync::LazyLock;

use super::corners::ACCELERATIONS;
use super::limits::{around, bad_records};
use super::number::PATTERNS;
use crate::answer::record::{Record, WIDTH};
use crate::random::Random;
use crate::rule::refusal::{self, MOST_BYTES, MOST_DEPTH, MOST_PLACES};
use crate::rule::table::{Class, RESET, TRANSITION, classes};

/// A well-formed table.
pub fn well_formed(random: &mut Random) -> Vec<u32> {
    if random.one_in(12) {
        return steep(random);
    }
    let most = if random.one_in(400) { MOST_PLACES } else { 12 };
    let count = random.below(most + 1);
    of_size(random, count)
}

/// So many records, well formed but for their number.
pub fn of_size(random: &mut Random, count: usize) -> Vec<u32> {
    let mut words = Vec::new();
    records(random, &mut words, count, 0);
    words
}

/// \t inside each other, up to the limit, here and there with a tag before and behind.
fn steep(random: &mut Random) -> Vec<u32> {
    let mut words = flat(random);
    for _ in 0..random.between(1, MOST_DEPTH) {
        let mut t = record(random, TRANSITION);
        t[5] = (words.len() / WIDTH) as u32;
        words = [flat(random), t.to_vec(), words, flat(random)].concat();
    }
    words
}

/// A record that is no T, or none.
fn flat(random: &mut Random) -> Vec<u32> {
    let mut words = Vec::new();
    let count = usize::from(random.one_in(4));
    records(random, &mut words, count, MOST_DEPTH);
    words
}

/// Exactly `count` records, those inside a \t counted.
fn records(random: &mut Random, words: &mut Vec<u32>, count: usize, depth: usize) {
    let mut left = count;
    while left > 0 {
        left -= 1;
        let kind = random_kind(random, depth);
        let mut record = record(random, kind);
        if kind == TRANSITION {
            let inside = random.below(left + 1);
            record[5] = inside as u32;
            words.extend(record);
            records(random, words, inside, depth + 1);
            left -= inside;
        } else {
            words.extend(record);
        }
    }
}

/// Often a T, as long as it may still nest; inside one more often.
fn random_kind(random: &mut Random, depth: usize) -> u32 {
    let chances = if depth == 0 { 4 } else { 2 };
    if depth < MOST_DEPTH && random.one_in(chances) {
        return TRANSITION;
    }
    random.between(1, TRANSITION as usize - 1) as u32
}

fn record(random: &mut Random, kind: u32) -> Record {
    let mut record = [0; WIDTH];
    record[0] = kind;
    let classes = classes(kind).expect("kinds 1 to 49 have classes");
    for (word, class) in record[1..].iter_mut().zip(classes) {
        *word = word_of(random, *class);
    }
    join(random, &mut record);
    record
}

fn word_of(random: &mut Random, class: Class) -> u32 {
    match class {
        Class::Unused | Class::Joined => 0,
        Class::Float => float(random),
        Class::Range(low, high) => ranged(random, low, high),
        Class::Signed => time(random) as u32,
        Class::Weight => *random.pick(&[0, 100, 400, 700, 900]),
    }
}

fn ranged(random: &mut Random, low: u32, high: u32) -> u32 {
    match random.below(6) {
        0 => low,
        1 => high,
        2 | 3 => low + random.below(high.min(low + 3_000) as usize - low as usize + 1) as u32,
        _ => low + random.below((high - low) as usize + 1) as u32,
    }
}

/// A float in reach: mostly a small number, sometimes a boundary.
fn float(random: &mut Random) -> u32 {
    let word = match random.below(5) {
        0 => *random.pick(PATTERNS),
        1 => random.word(),
        _ => {
            let number = random.below(8_000) as f32 - 2_000.0;
            (number / *random.pick(&[1.0, 8.0, 10.0, 1_000.0])).to_bits()
        }
    };
    if f32::from_bits(word).abs() <= 1e9 {
        word
    } else {
        0
    }
}

fn time(random: &mut Random) -> i32 {
    match random.below(10) {
        0 => *random.pick(&[0, -1, 1, 1_000_000_000, -1_000_000_000]),
        1 => random.below(2_000_000_001) as i32 - 1_000_000_000,
        2 => random.below(40_000_000) as i32 - 20_000_000,
        _ => random.below(3_000) as i32 - 500,
    }
}

fn part(random: &mut Random) -> [u32; 2] {
    match random.below(4) {
        0 => [0, 0],
        1 => [(MOST_BYTES - 1) as u32, 1],
        _ => [random.below(5) as u32, random.between(1, 3) as u32],
    }
}

fn named_part(random: &mut Random) -> [u32; 2] {
    match part(random) {
        [_, 0] => [0, MOST_BYTES as u32],
        part => part,
    }
}

/// The words that depend on one another.
fn join(random: &mut Random, record: &mut Record) {
    match record[0] {
        4 if record[5] == 0 => record[6..].fill(0),
        12 | 26 => record[1..3].copy_from_slice(&part(random)),
        39 => {
            record[1..3].copy_from_slice(&part(random));
            let second = if record[2] == 0 {
                named_part(random)
            } else {
                part(random)
            };
            record[3..5].copy_from_slice(&second);
        }
        RESET if record[1] == 1 => record[2..4].copy_from_slice(&named_part(random)),
        TRANSITION => {
            if record[1] == 0 {
                record[2..4].fill(0);
            }
            if random.one_in(2) {
                record[4] = acceleration(random);
            }
        }
        _ => {}
    }
}

fn acceleration(random: &mut Random) -> u32 {
    let sign = (random.below(2) as u32) << 31;
    let eighths = random.below(60) as f32 / 8.0;
    match random.below(4) {
        0 => 1f32.to_bits(),
        1 => eighths.to_bits() | sign,
        _ => *random.pick(&ACCELERATIONS) | sign,
    }
}

/// Made once: there are thousands.
static BAD_RECORDS: LazyLock<Vec<Record>> = LazyLock::new(bad_records);

/// One or two words changed, records moved, or the end cut or drawn out.
pub fn damage(random: &mut Random, words: &mut Vec<u32>) {
    for _ in 0..random.between(1, 2) {
        match random.below(10) {
            9 => wrap(random, words),
            8 => replace_record(random, words),
            0 => words.truncate(random.below(words.len() + 1)),
            1 => words.extend((0..random.below(2 * WIDTH)).map(|_| 0)),
            2 => change_count(random, words),
            3 => drop_record(random, words),
            _ => change_word(random, words),
        }
    }
}

fn change_word(random: &mut Random, words: &mut [u32]) {
    if words.is_empty() {
        return;
    }
    let word = &mut words[random.below(words.len())];
    *word = match random.below(5) {
        0 => word.wrapping_add(1),
        1 => word.wrapping_sub(1),
        2 => *random.pick(PATTERNS),
        3 => random.below(300) as u32,
        _ => *random.pick(&[
            12_288,
            12_289,
            1_000_000_001,
            3_294_967_295,
            901,
            99,
            50,
            49,
        ]),
    };
}

/// The count of a T made larger or smaller.
fn change_count(random: &mut Random, words: &mut [u32]) {
    let places: Vec<usize> = (0..words.len() / WIDTH)
        .filter(|place| words[place * WIDTH] == TRANSITION)
        .collect();
    if places.is_empty() {
        return;
    }
    let count = &mut words[random.pick(&places) * WIDTH + 5];
    *count = match random.below(4) {
        0 => count.wrapping_sub(1),
        1 => random.word(),
        _ => count.wrapping_add(1),
    };
}

fn replace_record(random: &mut Random, words: &mut [u32]) {
    if words.len() >= WIDTH {
        let start = WIDTH * random.below(words.len() / WIDTH);
        let bad: &Record = random.pick(BAD_RECORDS.as_slice());
        words[start..start + WIDTH].copy_from_slice(bad);
    }
}

/// T around a table that is not long, at most one more than may be.
fn wrap(random: &mut Random, words: &mut Vec<u32>) {
    let count = words.len() / WIDTH;
    if count < 100 {
        let depth = random.between(1, MOST_DEPTH + 1);
        words.splice(..0, around(depth, count));
    }
}

fn drop_record(random: &mut Random, words: &mut Vec<u32>) {
    if words.len() >= WIDTH {
        let start = WIDTH * random.below(words.len() / WIDTH);
        words.drain(start..start + WIDTH);
    }
}

/// An instant or a duration: often at or beside a number of the table.
pub fn instant(random: &mut Random, words: &[u32]) -> i32 {
    match random.below(16) {
        0..=5 if !words.is_empty() => {
            let word = *random.pick(words) as i32;
            // Most far ones are bits of a float.
            if refusal::instants(&[word]).is_some() && !random.one_in(8) {
                return time(random);
            }
            word.wrapping_add(random.below(3) as i32 - 1)
        }
        6 => *random.pick(&[1_000_000_000, -1_000_000_000, 1_000_000_001, -1_000_000_001]),
        7 => *random.pick(&[i32::MIN, i32::MAX, 0, 1, -1]),
        _ => time(random),
    }
}

#[cfg(test)]
mod tests {
    use super::*;
    use crate::rule::table::{depth, fault};
    use std::collections::HashSet;

    #[test]
    fn tables_are_well_formed_and_damaged_ones_often_not() {
        let mut faults = 0;
        for case in 0..5_000 {
            let random = &mut Random::new(1, case);
            let mut words = well_formed(random);
            assert_eq!(fault(&words), None, "{words:?}");
            damage(random, &mut words);
            faults += usize::from(fault(&words).is_some());
        }
        assert!(faults > 1_500 && faults < 4_800, "{faults}");
    }

    #[test]
    fn every_kind_and_size_is_made() {
        let tables: Vec<Vec<u32>> = (0..5_000)
            .map(|case| well_formed(&mut Random::new(2, case)))
            .collect();
        let kinds: HashSet<u32> = tables
            .iter()
            .flat_map(|t| t.iter().step_by(8))
            .copied()
            .collect();
        assert_eq!(kinds, (1..=49).collect());
        assert!(tables.iter().any(|table| table.len() > 2_000));
        let deep = |least| tables.iter().filter(|table| depth(table) >= least).count();
        assert!(deep(9) > 100 && deep(16) > 10, "{} {}", deep(9), deep(16));
    }

    #[test]
    fn tables_are_wrapped_too_deep_at_times() {
        let mut wraps = HashSet::new();
        for case in 0..200 {
            let random = &mut Random::new(3, case);
            let mut words = vec![42, 700, 0, 0, 0, 0, 0, 0];
            wrap(random, &mut words);
            let around = words.len() / WIDTH - 1;
            assert_eq!(fault(&words), (around == 17).then_some(16));
            wraps.insert(around);
        }
        assert_eq!(wraps, (1..=17).collect());
    }
}
