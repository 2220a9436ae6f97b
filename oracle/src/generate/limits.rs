//! Records and tables at the limits of what is well formed, and one beyond them.

use crate::answer::record::{Record, WIDTH};
use crate::rule::refusal::{MOST_BYTES, MOST_DEPTH, MOST_PLACES};
use crate::rule::table::{Class, RESET, TRANSITION, classes};

const ONE: u32 = 0x3F80_0000;
const BILLION: i32 = 1_000_000_000;
const BYTES: u32 = MOST_BYTES as u32;

/// \b1.
pub const PLAIN: Record = [42, 700, 0, 0, 0, 0, 0, 0];

/// A \t over the whole line with so many records inside.
pub fn whole(inside: u32) -> Record {
    [TRANSITION, 0, 0, 0, ONE, inside, 0, 0]
}

/// So many \t, one inside the other, around so many records.
pub fn around(depth: usize, records: usize) -> Vec<u32> {
    let inside = (records..records + depth).rev();
    inside.flat_map(|inside| whole(inside as u32)).collect()
}

/// The words of a class that may stand, and the words beyond.
fn words(class: Class) -> (Vec<u32>, Vec<u32>) {
    match class {
        // Among `joined_good` and `joined_bad`.
        Class::Joined => (Vec::new(), Vec::new()),
        Class::Unused => (vec![0], vec![1, u32::MAX]),
        Class::Float => floats(),
        Class::Range(low, high) => (
            vec![low, high],
            vec![low.wrapping_sub(1), high + 1, u32::MAX],
        ),
        Class::Signed => {
            let far = [BILLION + 1, -BILLION - 1, i32::MIN, i32::MAX];
            let near = [BILLION, -BILLION, 0, 1, -1];
            (near.map(|n| n as u32).into(), far.map(|n| n as u32).into())
        }
        Class::Weight => (
            vec![0, 100, 101, 899, 900],
            vec![1, 50, 99, 901, 1_000, u32::MAX],
        ),
    }
}

/// Both signs of: 0, the least, 10^9; the next above, the largest, infinity and NaNs.
fn floats() -> (Vec<u32>, Vec<u32>) {
    let signed = |bits: &[u32]| bits.iter().flat_map(|&b| [b, b | 1 << 31]).collect();
    let good = [0, 1, ONE, 0x4E6E_6B28];
    let bad = [
        0x4E6E_6B29,
        0x7F7F_FFFF,
        0x7F80_0000,
        0x7F80_0001,
        0x7FC0_0000,
        0x7FFF_FFFF,
    ];
    (signed(&good), signed(&bad))
}

/// A well-formed record of the kind.
fn base(kind: u32) -> Record {
    let mut record = [0; WIDTH];
    record[0] = kind;
    for (word, class) in record[1..].iter_mut().zip(all_classes(kind)) {
        *word = words(class).0.first().copied().unwrap_or(0);
    }
    match kind {
        4 => record[5] = 1,
        39 => record[2] = 3,
        TRANSITION => record[1] = 1,
        _ => {}
    }
    record
}

/// Seven classes.
fn all_classes(kind: u32) -> impl Iterator<Item = Class> {
    let used = classes(kind).expect("kinds 1 to 49 have classes");
    let unused = std::iter::repeat(Class::Unused);
    used.iter().copied().chain(unused).take(WIDTH - 1)
}

/// Each word of each kind replaced in turn.
fn replaced(words_of: impl Fn(Class) -> Vec<u32>) -> Vec<Record> {
    let mut records = Vec::new();
    for kind in 1..=TRANSITION {
        for (place, class) in all_classes(kind).enumerate() {
            for word in words_of(class) {
                let mut record = base(kind);
                record[1 + place] = word;
                records.push(record);
            }
        }
    }
    records
}

/// With a flag that wants other words too: `joined_good` has these.
fn is_flagged(record: &Record) -> bool {
    matches!(
        (record[0], record[5], record[1]),
        (4, 0, _) | (TRANSITION, _, 0) | (RESET, _, 1)
    )
}

/// Well-formed records: each kind with each word at its limits, and what joins words.
pub fn good_records() -> Vec<Record> {
    let mut records = replaced(|class| words(class).0);
    records.retain(|record| !is_flagged(record));
    records.extend(joined_good());
    records
}

/// Records at fault: each kind with one word beyond its limit, what joins words, other kinds.
pub fn bad_records() -> Vec<Record> {
    let mut records = replaced(|class| words(class).1);
    records.extend(joined_bad());
    records.extend([0, 50, 51, 256 + 42, 1 << 31, u32::MAX].map(|kind| {
        let mut record = PLAIN;
        record[0] = kind;
        record
    }));
    records
}

const GOOD_PARTS: [[u32; 2]; 4] = [[0, BYTES], [BYTES - 1, 1], [0, 1], [3, 2]];

const BAD_PARTS: [[u32; 2]; 8] = [
    [1, 0],
    [BYTES, 0],
    [BYTES, 1],
    [BYTES - 1, 2],
    [0, BYTES + 1],
    [u32::MAX, 2],
    [2, u32::MAX],
    [u32::MAX, u32::MAX],
];

/// The kinds that hold a part, with that part and the other words as they must be.
fn with_part([offset, length]: [u32; 2]) -> [Record; 5] {
    [
        [12, offset, length, 0, 0, 0, 0, 0],
        [26, offset, length, 0, 0, 0, 0, 0],
        [39, offset, length, 5, 1, 0, 0, 0],
        [39, 5, 1, offset, length, 0, 0, 0],
        [RESET, 1, offset, length, 0, 0, 0, 0],
    ]
}

fn joined_good() -> Vec<Record> {
    let mut records: Vec<Record> = GOOD_PARTS.into_iter().flat_map(with_part).collect();
    records.extend([
        [12, 0, 0, 0, 0, 0, 0, 0],
        [26, 0, 0, 0, 0, 0, 0, 0],
        [39, 0, 0, 7, 2, 0, 0, 0],
        [RESET, 0, 0, 0, 0, 0, 0, 0],
        [4, ONE, ONE, 0, 0, 0, 0, 0],
        whole(0),
    ]);
    records
}

fn joined_bad() -> Vec<Record> {
    let mut records: Vec<Record> = BAD_PARTS.into_iter().flat_map(with_part).collect();
    let one = 1;
    records.extend([
        [39, 0, 0, 0, 0, 0, 0, 0],
        [RESET, 1, 0, 0, 0, 0, 0, 0],
        [RESET, 0, 0, 1, 0, 0, 0, 0],
        [RESET, 0, 1, 1, 0, 0, 0, 0],
        [4, ONE, ONE, 0, 0, 0, one, 0],
        [4, ONE, ONE, 0, 0, 0, 0, one],
        [TRANSITION, 0, one, 0, ONE, 0, 0, 0],
        [TRANSITION, 0, 0, one, ONE, 0, 0, 0],
        whole(u32::MAX),
    ]);
    records
}

/// A table and its first record at fault.
pub type Faulty = (Vec<u32>, usize);

/// Each record at fault alone, behind others, inside a \t, and before and behind another fault.
pub fn faulty_records() -> Vec<Faulty> {
    let other = [0; WIDTH];
    let placed = bad_records().into_iter().flat_map(|bad| {
        [
            (bad.to_vec(), 0),
            ([PLAIN, PLAIN, bad, PLAIN].concat(), 2),
            ([whole(3), whole(2), PLAIN, bad].concat(), 3),
            ([PLAIN, bad, other].concat(), 1),
            ([PLAIN, other, bad].concat(), 1),
        ]
    });
    placed.collect()
}

/// What is wrong with the records taken together.
pub fn faulty_tables() -> Vec<Faulty> {
    let plain = |count: usize| PLAIN.repeat(count);
    let mut tables = vec![
        ([whole(2), PLAIN].concat(), 0),
        ([whole(1), whole(1), PLAIN].concat(), 1),
        ([PLAIN, whole(2), whole(2), PLAIN, PLAIN].concat(), 2),
        ([whole(1), PLAIN, whole(1)].concat(), 2),
        (plain(MOST_PLACES + 1), MOST_PLACES),
        (plain(MOST_PLACES + 3), MOST_PLACES),
        ([plain(MOST_PLACES), vec![0; 3]].concat(), MOST_PLACES),
    ];
    for broken in 1..WIDTH {
        tables.push(([&PLAIN[..], &PLAIN[..broken]].concat(), 1));
        tables.push((vec![0; broken], 0));
        tables.push(([&[0; WIDTH], &PLAIN[..broken]].concat(), 0));
    }
    tables.extend(faults_in_depth());
    tables.push(reaching_over(MOST_PLACES + 2));
    tables.push(reaching_over(MOST_PLACES + 1));
    tables
}

/// A \t too deep, empty and not, alone and behind others; a record at fault inside many \t.
fn faults_in_depth() -> Vec<Faulty> {
    let too_deep = MOST_DEPTH + 1;
    let mut tables = Vec::new();
    for inside in 0..2 {
        let nested = |depth| [around(depth, inside), PLAIN.repeat(inside)].concat();
        for before in 0..3 {
            let table = [PLAIN.repeat(before), nested(too_deep)].concat();
            tables.push((table, before + MOST_DEPTH));
        }
        let table = [nested(MOST_DEPTH), nested(too_deep)].concat();
        tables.push((table, 2 * MOST_DEPTH + inside));
    }
    for depth in [8, 9, MOST_DEPTH] {
        tables.push(([around(depth, 1), vec![0; WIDTH]].concat(), depth));
    }
    tables
}

/// More records than may be, with a \t whose contents end behind the last that counts.
fn reaching_over(records: usize) -> Faulty {
    let mut table = PLAIN.repeat(records);
    let place = records - 20;
    table[WIDTH * place..WIDTH * (place + 1)].copy_from_slice(&whole(19));
    (table, place)
}

/// Well-formed tables: each good record alone and inside two \t, and the largest ones.
pub fn good_tables() -> Vec<Vec<u32>> {
    let placed = good_records().into_iter().flat_map(|record| {
        let timed = [TRANSITION, 1, 100, 900, ONE, 1, 0, 0];
        [record.to_vec(), [whole(2), timed, record].concat()]
    });
    let mut tables: Vec<Vec<u32>> = placed.collect();
    let full = [whole(MOST_PLACES as u32 - 1).to_vec(), PLAIN.repeat(1_023)];
    tables.extend([full.concat(), PLAIN.repeat(MOST_PLACES)]);
    for depth in [8, 9, MOST_DEPTH] {
        let most = MOST_PLACES - depth;
        tables.extend([around(depth, 0), around(depth, 0).repeat(2)]);
        tables.extend([1, most].map(|count| [around(depth, count), PLAIN.repeat(count)].concat()));
    }
    tables.push(Vec::new());
    tables
}

#[cfg(test)]
mod tests {
    use super::*;
    use crate::rule::table::fault;
    use std::collections::HashSet;

    #[test]
    fn faults_stand_where_they_are_said_to() {
        for (table, place) in faulty_records().into_iter().chain(faulty_tables()) {
            assert_eq!(fault(&table), Some(place), "{table:?}");
        }
    }

    #[test]
    fn limits_themselves_are_well_formed() {
        for table in good_tables() {
            assert_eq!(fault(&table), None, "{table:?}");
        }
    }

    #[test]
    fn every_kind_and_every_word_is_tried() {
        let kinds = |records: Vec<Record>| -> HashSet<u32> {
            records.iter().map(|record| record[0]).collect()
        };
        assert_eq!(kinds(good_records()), (1..=49).collect());
        assert!(kinds(bad_records()).is_superset(&(0..=51).collect()));
        let bold: HashSet<u32> = bad_records()
            .iter()
            .filter(|record| record[0] == 42)
            .map(|record| record[1])
            .collect();
        assert!([50, 99, 901].iter().all(|weight| bold.contains(weight)));
    }
}
