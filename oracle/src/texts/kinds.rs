//! Blocks of one kind of tag, one for each way in which a kind is evaluated.

/// Tags in a block, those inside a \t not counted.
const TAGS: usize = 120;

/// The instant at which the blocks are evaluated, and the duration of their line. Tags that are on
/// their way are so at this instant.
pub const INSTANT: i32 = 1_500;
pub const DURATION: i32 = 3_000;

/// The name of each way and its block. A line of the file has the name and then the tags that the
/// block is made of, again and again.
pub fn kinds() -> impl Iterator<Item = (&'static str, String)> {
    include_str!("kinds.txt").lines().map(|line| {
        let (name, tags) = line.split_once('|').expect("a name, then tags");
        (name, tags.split('|').cycle().take(TAGS).collect())
    })
}

#[cfg(test)]
mod tests {
    use super::*;
    use crate::rule::marks::next_mark;
    use crate::rule::table::TRANSITION;
    use crate::suites::source::Source;

    type Record = Vec<u32>;

    /// The records of a block, those inside a T not among them.
    fn records(text: String) -> Vec<Record> {
        let source = Source::of_text(text.into_bytes()).expect("the text is read");
        let mut records = Vec::new();
        let mut inside = 0;
        for record in source.words.chunks_exact(8) {
            if inside > 0 {
                inside -= 1;
                continue;
            }
            if record[0] == TRANSITION {
                inside = record[5];
            }
            records.push(record.to_vec());
        }
        records
    }

    #[test]
    fn every_kind_has_a_block_and_a_block_one_kind() {
        let mut kinds_met = Vec::new();
        for (name, text) in kinds() {
            let tag = name.split(' ').nth(1).expect("the tag");
            assert!(text.starts_with(tag), "{name}");
            let records = records(text);
            assert_eq!(records.len(), TAGS, "{name}");
            let kind = records[0][0];
            assert!(records.iter().all(|record| record[0] == kind), "{name}");
            kinds_met.push(kind);
        }
        kinds_met.sort_unstable();
        kinds_met.dedup();
        assert_eq!(kinds_met, (1..=TRANSITION).collect::<Vec<u32>>());
    }

    /// A record that is on its way has a mark at every instant of it.
    fn moves(record: &Record) -> bool {
        next_mark(record, INSTANT - 1, DURATION) == Some(INSTANT.into())
    }

    fn has_times(record: &Record) -> bool {
        matches!(record[..], [4, _, _, _, _, 1, ..] | [TRANSITION, 1, ..])
    }

    fn acceleration(record: &Record) -> Option<f32> {
        (record[0] == TRANSITION).then(|| f32::from_bits(record[4]))
    }

    #[test]
    fn every_tag_of_a_block_goes_the_way_named() {
        for (name, text) in kinds() {
            let says = |words: &[&str]| words.iter().any(|&word| name.contains(word));
            let given = match name.split_once("acceleration ") {
                Some((_, number)) => number.parse().unwrap(),
                None => 1.0,
            };
            for record in records(text) {
                let moving = says(&["on its way", "between", r"\move", r"\t "]);
                assert_eq!(moves(&record), moving, "{name}");
                assert_eq!(has_times(&record), says(&["with times"]), "{name}");
                assert!(acceleration(&record).is_none_or(|a| a == given), "{name}");
                assert_eq!(record[..2] == [41, 1], says(&["named"]), "{name}");
            }
        }
    }

    /// Numbers that are not normal take their own time.
    #[test]
    fn the_opacity_stays_a_normal_number() {
        for (name, text) in kinds() {
            let source = Source::of_text(text.into_bytes()).expect("the text is read");
            let state = source.cue().evaluate_at(INSTANT, DURATION);
            assert!(state.alpha_mul.is_normal(), "{name}");
        }
    }
}
