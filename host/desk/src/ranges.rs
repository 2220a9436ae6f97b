//! Ranges of milliseconds, bytes or frames.

use serde::Serialize;
use std::fmt;

/// From the first to the last, both in it.
#[derive(Clone, Copy, Debug, PartialEq, Eq, Serialize)]
pub struct Range {
    pub first: i64,
    pub last: i64,
}

impl Range {
    pub fn new(first: i64, last: i64) -> Self {
        Range { first, last }
    }

    pub fn len(self) -> i64 {
        self.last - self.first + 1
    }
}

impl fmt::Display for Range {
    fn fmt(&self, f: &mut fmt::Formatter) -> fmt::Result {
        match self.first == self.last {
            true => write!(f, "{}", self.first),
            false => write!(f, "{}–{}", self.first, self.last),
        }
    }
}

/// Puts a number behind the ranges: into the last one where it is the next.
pub fn add(ranges: &mut Vec<Range>, number: i64) {
    match ranges.last_mut() {
        Some(range) if range.last + 1 == number => range.last = number,
        _ => ranges.push(Range::new(number, number)),
    }
}

/// Ranges in any order as ranges that stand one behind the other, none of them empty and no two touching.
pub fn joined(ranges: impl IntoIterator<Item = Range>) -> Vec<Range> {
    let mut sorted: Vec<Range> = ranges.into_iter().filter(|range| range.len() > 0).collect();
    sorted.sort_unstable_by_key(|range| range.first);
    let mut joined: Vec<Range> = Vec::new();
    for range in sorted {
        match joined.last_mut() {
            Some(before) if range.first <= before.last + 1 => before.last = before.last.max(range.last),
            _ => joined.push(range),
        }
    }
    joined
}

/// What of the ranges lies inside another.
pub fn within(ranges: &[Range], other: Range) -> Vec<Range> {
    let cut = |range: &Range| Range::new(range.first.max(other.first), range.last.min(other.last));
    ranges.iter().map(cut).filter(|range| range.len() > 0).collect()
}

/// The first number after another that is in the ranges, which stand one behind the other.
pub fn after(ranges: &[Range], number: i64) -> Option<i64> {
    let later = ranges.partition_point(|range| range.last <= number);
    ranges.get(later).map(|range| range.first.max(number + 1))
}

/// How many numbers are in the ranges.
pub fn total(ranges: &[Range]) -> i64 {
    ranges.iter().map(|range| range.len()).sum()
}

/// The ranges in words, at most so many of them.
pub fn listed(ranges: &[Range], most: usize) -> String {
    let mut words: Vec<String> = ranges.iter().take(most).map(Range::to_string).collect();
    if ranges.len() > most {
        words.push(format!("and {} more", ranges.len() - most));
    }
    match words.is_empty() {
        true => "never".into(),
        false => words.join(", "),
    }
}

/// So many of something.
pub fn counted(number: i64, what: &str) -> String {
    format!("{} {what}{}", grouped(number), if number == 1 { "" } else { "s" })
}

/// A number with commas between its thousands.
pub fn grouped(number: impl Into<i64>) -> String {
    let number: i64 = number.into();
    let digits = number.unsigned_abs().to_string();
    let groups: Vec<&str> =
        digits.as_bytes().rchunks(3).rev().map(|group| str::from_utf8(group).unwrap_or("")).collect();
    format!("{}{}", if number < 0 { "-" } else { "" }, groups.join(","))
}

#[cfg(test)]
mod tests {
    use super::*;

    #[test]
    fn numbers_become_ranges() {
        let mut ranges = Vec::new();
        [1, 2, 3, 7, 9, 10].into_iter().for_each(|number| add(&mut ranges, number));
        assert_eq!(listed(&ranges, 10), "1–3, 7, 9–10");
        assert_eq!(listed(&ranges, 1), "1–3, and 2 more");
        assert_eq!(total(&ranges), 6);
        assert_eq!(listed(&[], 10), "never");
    }

    #[test]
    fn ranges_are_joined_and_cut() {
        let range = Range::new;
        let joined = joined([range(9, 12), range(1, 3), range(5, 4), range(4, 6), range(2, 2), range(8, 10)]);
        assert_eq!(joined, [range(1, 6), range(8, 12)]);
        assert_eq!(within(&joined, range(6, 8)), [range(6, 6), range(8, 8)]);
        assert_eq!(within(&joined, range(7, 7)), []);
        assert_eq!(
            [0, 1, 6, 7, 11, 12].map(|number| after(&joined, number)),
            [Some(1), Some(2), Some(8), Some(8), Some(12), None]
        );
    }

    #[test]
    fn one_is_no_plural() {
        assert_eq!([0, 1, 1000].map(|number| counted(number, "mark")), ["0 marks", "1 mark", "1,000 marks"]);
    }

    #[test]
    fn thousands_are_grouped() {
        assert_eq!([0, 999, 12_288, -1_000_000].map(grouped), ["0", "999", "12,288", "-1,000,000"]);
    }
}
