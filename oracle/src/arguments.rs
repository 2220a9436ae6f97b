//! The command line.

use crate::suite::Settings;

pub const USAGE: &str = "\
usage: compare SUITE [--seed S] [--count N] [--random-only] [--self]
       compare sample SUITE [--seed S] [--count N] --inputs FILE --answers FILE
       compare cost KIND SIZE SIDE TIMES
       compare bench [--rounds N] [--only WORDS] [--require]
       compare row NAME SIDE TIMES
       compare stack
SUITE: leaves, blocks, drawings, clips, evaluate, marks, karaoke, progress, styles";

const SUITES: &[&str] = &[
    "leaves", "blocks", "drawings", "clips", "evaluate", "marks", "karaoke", "progress", "styles",
];

pub struct Command {
    pub suite: String,
    pub settings: Settings,
    /// The files of inputs and answers, where a list is to be written.
    pub files: Option<(String, String)>,
}

/// `None`: the words are no command.
pub fn parse(words: &[String]) -> Option<Command> {
    let mut words = words.iter().map(String::as_str);
    let mut suite = words.next()?;
    let sample = suite == "sample";
    if sample {
        suite = words.next()?;
    }
    if !SUITES.contains(&suite) {
        return None;
    }
    let options = Options::parse(words)?;
    if sample && (options.random_only || options.oracle_only) {
        return None;
    }
    let files = match (options.inputs, options.answers) {
        (Some(inputs), Some(answers)) if sample => Some((inputs, answers)),
        (None, None) if !sample => None,
        _ => return None,
    };
    let settings = Settings {
        seed: options.seed.unwrap_or(1),
        count: options.count.unwrap_or(100_000),
        random_only: options.random_only,
        oracle_only: options.oracle_only,
    };
    Some(Command {
        suite: suite.to_owned(),
        settings,
        files,
    })
}

#[derive(Default)]
struct Options {
    seed: Option<u64>,
    count: Option<u64>,
    random_only: bool,
    oracle_only: bool,
    inputs: Option<String>,
    answers: Option<String>,
}

impl Options {
    fn parse<'a>(mut words: impl Iterator<Item = &'a str>) -> Option<Options> {
        let mut options = Options::default();
        while let Some(word) = words.next() {
            match word {
                "--seed" => options.seed = Some(words.next()?.parse().ok()?),
                "--count" => options.count = Some(words.next()?.parse().ok()?),
                "--random-only" => options.random_only = true,
                "--self" => options.oracle_only = true,
                "--inputs" => options.inputs = Some(words.next()?.to_owned()),
                "--answers" => options.answers = Some(words.next()?.to_owned()),
                _ => return None,
            }
        }
        Some(options)
    }
}

#[cfg(test)]
mod tests {
    use super::*;

    fn parsed(line: &str) -> Option<Command> {
        let words: Vec<String> = line.split_whitespace().map(str::to_owned).collect();
        parse(&words)
    }

    #[test]
    fn good_commands_are_taken() {
        let command = parsed("blocks --seed 7 --count 9 --random-only").unwrap();
        assert_eq!(command.suite, "blocks");
        assert_eq!((command.settings.seed, command.settings.count), (7, 9));
        assert!(command.settings.random_only && command.files.is_none());
        let files = parsed("sample leaves --inputs a --answers b")
            .unwrap()
            .files;
        assert_eq!(files, Some(("a".into(), "b".into())));
    }

    #[test]
    fn bad_commands_are_not() {
        for line in [
            "",
            "sample",
            "nothing",
            "leaves --seed",
            "leaves --seed x",
            "leaves --count -1",
            "leaves more",
            "leaves --inputs a --answers b",
            "sample leaves --inputs a",
            "sample leaves --inputs a --answers b --self",
        ] {
            assert!(parsed(line).is_none(), "{line}");
        }
    }
}
