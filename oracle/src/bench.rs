//! Times the Rust and ours on the same texts, in turn; see README.md.

use crate::calls::{self, Call, Input};
use crate::clock::timed;
use crate::places::PLACES;
use crate::texts::{self, DRAWN_EXPONENTS, DRAWN_MIX, EXPONENTS, MIXED, NUMERALS};

const USAGE: &str = "\
usage: bench [--runs N] [--rounds N] [--only WORDS] [--require]
WORDS: some of a row's name";

/// The shortest batch, in nanoseconds.
const BATCH: f64 = 2e6;

pub struct Row {
    pub name: &'static str,
    pub call: Call,
    pub inputs: Vec<Input>,
    /// Ours refuses the texts; the Rust reads them.
    pub refused: bool,
}

impl Row {
    /// What the Rust's time divided by ours is to be at least.
    fn least(&self) -> f64 {
        match self.call {
            // Ours looks over the whole table for ground 5 first; the Rust has no such check.
            Call::Spans => 0.35,
            _ if self.name.starts_with("typical") => 1.3,
            _ => 1.0,
        }
    }

    fn check(&self, lent: &mut [u32]) -> Option<()> {
        for input in &self.inputs {
            let answer = calls::ours(self.call, std::slice::from_ref(input), 1, lent)?;
            let (name, text) = (self.name, &input.text);
            assert_eq!(answer >> 48 != 0, self.refused, "{name}: {text:.80}");
        }
        Some(())
    }
}

fn row(name: &'static str, call: Call, texts: Vec<String>) -> Row {
    Row {
        name,
        call,
        inputs: Input::texts(texts),
        refused: false,
    }
}

/// What the texts read as, at instants from the first to the last of a line.
fn lines(name: &'static str, call: Call, texts: Vec<String>) -> Row {
    Row {
        inputs: Input::lines(texts, &[0, 100, 1_500, 2_900], 3_000),
        ..row(name, call, Vec::new())
    }
}

fn refused(name: &'static str, texts: Vec<String>) -> Row {
    Row {
        refused: true,
        ..row(name, Call::Overrides, texts)
    }
}

pub fn rows() -> Vec<Row> {
    let mut rows = reading_rows();
    rows.extend(line_rows());
    rows.extend(kind_rows());
    rows
}

fn deep(depth: usize) -> Vec<String> {
    vec![texts::deep(depth)]
}

fn longest_deep(depth: usize) -> Vec<String> {
    vec![texts::longest_deep(depth)]
}

/// Tables that were read before, evaluated or asked for the next mark.
fn line_rows() -> Vec<Row> {
    use Call::{Evaluate, NextMark, Spans};
    let (typical, scripts) = (texts::typical(), texts::scripts());
    let flat = vec![texts::flat(1_000)];
    let fast = vec![texts::accelerated(1_000)];
    vec![
        lines("evaluate typical lines", Evaluate, typical.clone()),
        lines("evaluate script lines", Evaluate, scripts.clone()),
        lines("evaluate sign lines", Evaluate, texts::signs()),
        lines("evaluate karaoke lines", Evaluate, texts::karaoke()),
        lines("evaluate moving lines", Evaluate, texts::moves()),
        lines("evaluate a thousand flat tags", Evaluate, flat.clone()),
        lines("evaluate eight \\t deep", Evaluate, deep(8)),
        lines("evaluate 12 KB eight \\t deep", Evaluate, longest_deep(8)),
        lines("evaluate sixteen \\t deep", Evaluate, deep(16)),
        lines(
            "evaluate 12 KB sixteen \\t deep",
            Evaluate,
            longest_deep(16),
        ),
        lines("evaluate many accelerated \\t", Evaluate, fast),
        lines("next mark of typical lines", NextMark, typical),
        lines("next mark of script lines", NextMark, scripts.clone()),
        lines("next mark of a thousand tags", NextMark, flat),
        lines("spans of script lines", Spans, scripts),
        lines(
            "spans of a thousand beats",
            Spans,
            vec![texts::beats(1_000)],
        ),
    ]
}

/// A table of one kind of tag, at one instant, for each way in which a kind is evaluated.
fn kind_rows() -> Vec<Row> {
    let rows = texts::kinds().map(|(name, text)| Row {
        inputs: Input::lines(vec![text], &[texts::INSTANT], texts::DURATION),
        ..row(name, Call::Evaluate, Vec::new())
    });
    rows.collect()
}

fn reading_rows() -> Vec<Row> {
    use Call::{Clip, Drawing, Overrides, Raw};
    let (typical, scripts, drawings) = (texts::typical(), texts::scripts(), texts::drawings());
    let (braced, scaled) = (texts::in_braces(&typical), texts::with_scale(&drawings));
    let long = |front, piece| vec![texts::longest(front, piece)];
    let pairs = "123.5 -45.25 ";
    vec![
        row("typical short blocks", Overrides, typical),
        row("typical short blocks, raw call", Raw, braced),
        row("script blocks", Overrides, scripts.clone()),
        row("script blocks, raw call", Raw, texts::in_braces(&scripts)),
        row("a thousand mixed tags", Overrides, long("", MIXED)),
        row("12 KB of numerals", Overrides, long("", NUMERALS)),
        row("12 KB with exponents", Overrides, long("", EXPONENTS)),
        row("eight \\t deep", Overrides, deep(8)),
        row("12 KB eight \\t deep", Overrides, longest_deep(8)),
        row("sixteen \\t deep", Overrides, deep(16)),
        row("12 KB sixteen \\t deep", Overrides, longest_deep(16)),
        refused("refused short blocks", texts::refused()),
        refused("refused 12 KB blocks", texts::refused_long()),
        row("drawings", Drawing, drawings.clone()),
        row("12 KB drawing of lines", Drawing, long("m 0 0 l ", pairs)),
        row(
            "12 KB drawing of a spline",
            Drawing,
            long("m 0 0 s ", pairs),
        ),
        row("12 KB drawing, mixed", Drawing, long("", DRAWN_MIX)),
        row(
            "12 KB drawing with exponents",
            Drawing,
            long("", DRAWN_EXPONENTS),
        ),
        row("clip arguments", Clip, drawings),
        row("clip arguments with a scale", Clip, scaled),
    ]
}

struct Options {
    runs: usize,
    rounds: usize,
    only: String,
    require: bool,
}

impl Options {
    fn parse(words: &[String]) -> Option<Options> {
        let mut options = Options {
            runs: 1,
            rounds: 14 * PLACES.len(),
            only: String::new(),
            require: false,
        };
        let mut words = words.iter();
        let number = |word: Option<&String>| word?.parse().ok().filter(|&n: &usize| n > 0);
        while let Some(word) = words.next() {
            match word.as_str() {
                "--runs" => options.runs = number(words.next())?,
                "--rounds" => options.rounds = number(words.next())?,
                "--only" => options.only = words.next()?.clone(),
                "--require" => options.require = true,
                _ => return None,
            }
        }
        Some(options)
    }
}

/// Whether all is as fast as required; `None`: bad words, or the archives lack a call.
pub fn run(words: &[String]) -> Option<bool> {
    let Some(options) = Options::parse(words) else {
        eprintln!("{USAGE}");
        return None;
    };
    let mut rows = rows();
    rows.retain(|row| row.name.contains(&options.only));
    if rows.is_empty() {
        eprintln!("bench: no row has {}", options.only);
        return None;
    }
    let mut lent = vec![0; calls::WORDS];
    let asked = rows.len();
    rows.retain(|row| is_there(row, &mut lent));
    let slow = slow_rows(&rows, &options, &mut lent);
    for row in &slow {
        println!("below {:.2}: {}", row.least(), row.name);
    }
    (rows.len() == asked).then_some(slow.is_empty() || !options.require)
}

fn is_there(row: &Row, lent: &mut [u32]) -> bool {
    let there = row.check(lent).is_some();
    if !there {
        eprintln!("bench: the archives lack the call of: {}", row.name);
    }
    there
}

/// Measures all rows in each run, prints them in the last, and gives those below what they are to
/// be.
fn slow_rows<'a>(rows: &'a [Row], options: &Options, lent: &mut [u32]) -> Vec<&'a Row> {
    let from_to = if options.runs == 1 { "places" } else { "runs" };
    println!(
        "{:<32} {:>5} {:>11} {:>11} {:>9}  {from_to} from .. to",
        "row", "bytes", "Rust ns", "ours ns", "Rust/ours"
    );
    let mut slow = Vec::new();
    let mut runs_of: Vec<Vec<Measured>> = rows.iter().map(|_| Vec::new()).collect();
    for run in 1..=options.runs {
        for (row, runs) in rows.iter().zip(&mut runs_of) {
            runs.push(measure(row, options.rounds, lent));
            if run < options.runs {
                continue;
            }
            let measured = Measured::over(runs);
            measured.print(row);
            if measured.ratio.middle < row.least() {
                slow.push(row);
            }
        }
    }
    slow
}

/// One side alone on a row's texts, for a profiler to watch; `None`: bad words, or the archives
/// lack the call.
pub fn run_row(words: &[String]) -> Option<()> {
    let [name, side, times] = words else {
        return None;
    };
    let times = times.parse().ok()?;
    let row = rows().into_iter().find(|row| row.name == name)?;
    match side.as_str() {
        "library" => {
            calls::ours(row.call, &row.inputs, times, &mut vec![0; calls::WORDS])?;
        }
        "rust" => calls::rust(row.call, &row.inputs, times),
        _ => return None,
    }
    Some(())
}

/// Nanoseconds of a call of each side, and the Rust's divided by ours.
#[derive(Clone, Copy)]
struct Measured {
    rust: f64,
    ours: f64,
    ratio: Spread,
}

impl Measured {
    /// The medians of some rounds, places or runs.
    fn over(parts: &[Measured]) -> Measured {
        if let [part] = parts {
            return *part;
        }
        let spread = |number: fn(&Measured) -> f64| Spread::of(parts.iter().map(number).collect());
        Measured {
            rust: spread(|part| part.rust).middle,
            ours: spread(|part| part.ours).middle,
            ratio: spread(|part| part.ratio.middle),
        }
    }

    fn print(&self, row: &Row) {
        let bytes = row.inputs.iter().map(|input| input.text.len() as f64);
        let bytes = Spread::of(bytes.collect()).middle;
        let Spread { low, middle, high } = self.ratio;
        println!(
            "{:<32} {bytes:>5.0} {:>11.1} {:>11.1} {middle:>9.2}  {low:.2} .. {high:.2}",
            row.name, self.rust, self.ours
        );
    }
}

/// The lowest of some numbers, their median and the highest.
#[derive(Clone, Copy, Debug, PartialEq)]
struct Spread {
    low: f64,
    middle: f64,
    high: f64,
}

impl Spread {
    /// The median of an even number of them lies halfway between the two in the middle.
    fn of(mut numbers: Vec<f64>) -> Spread {
        numbers.sort_unstable_by(f64::total_cmp);
        let last = numbers.len() - 1;
        Spread {
            low: numbers[0],
            middle: (numbers[last / 2] + numbers[last.div_ceil(2)]) / 2.0,
            high: numbers[last],
        }
    }
}

/// The medians over the places of what the rounds at each gave. Of the two rounds that a place has
/// in turn the Rust goes first in one.
fn measure(row: &Row, rounds: usize, lent: &mut [u32]) -> Measured {
    let batch = Batch::of(row, lent);
    let mut places = PLACES.map(|_| Vec::new());
    for number in 0..rounds {
        let place = number / 2 % PLACES.len();
        let (rust, ours) = PLACES[place](&mut || batch.round(row, number % 2 == 0, lent));
        let ratio = Spread::of(vec![rust / ours]);
        places[place].push(Measured { rust, ours, ratio });
    }
    let places = places.iter().filter(|rounds| !rounds.is_empty());
    let places: Vec<Measured> = places.map(|rounds| Measured::over(rounds)).collect();
    Measured::over(&places)
}

/// How often each side goes through the inputs in its batch.
struct Batch {
    rust: u32,
    ours: u32,
}

impl Batch {
    /// As often as each side needs to take a batch's time.
    fn of(row: &Row, lent: &mut [u32]) -> Batch {
        Batch {
            rust: times(|times| by_rust(row, times)),
            ours: times(|times| by_ours(row, times, lent)),
        }
    }

    /// A batch of each side: nanoseconds of a call of the Rust and of ours.
    fn round(&self, row: &Row, rust_first: bool, lent: &mut [u32]) -> (f64, f64) {
        let a_call = |time: f64, times: u32| time / (f64::from(times) * row.inputs.len() as f64);
        let rust = || a_call(by_rust(row, self.rust), self.rust);
        let mut ours = || a_call(by_ours(row, self.ours, lent), self.ours);
        if rust_first {
            let rust = rust();
            (rust, ours())
        } else {
            let ours = ours();
            (rust(), ours)
        }
    }
}

fn by_rust(row: &Row, times: u32) -> f64 {
    timed(|| calls::rust(row.call, &row.inputs, times))
}

fn by_ours(row: &Row, times: u32, lent: &mut [u32]) -> f64 {
    timed(|| {
        calls::ours(row.call, &row.inputs, times, lent);
    })
}

/// How often the work is done to take a batch's time.
fn times(mut work: impl FnMut(u32) -> f64) -> u32 {
    let mut times = 1;
    while work(times) < BATCH {
        times *= 2;
    }
    times
}

#[cfg(test)]
mod tests {
    use super::*;

    fn words(line: &str) -> Vec<String> {
        line.split_whitespace().map(str::to_owned).collect()
    }

    #[test]
    fn ours_answers_and_refuses_as_each_row_says() {
        let mut lent = vec![0; calls::WORDS];
        for row in rows() {
            calls::rust(row.call, &row.inputs, 1);
            let _ = row.check(&mut lent);
        }
    }

    #[test]
    fn one_side_runs_a_row() {
        let run =
            |name: &str, side: &str| run_row(&[name.to_owned(), side.to_owned(), "2".to_owned()]);
        assert!(run("clip arguments", "rust").is_some());
        assert!(run("clip", "rust").is_none());
        assert!(run("clip arguments", "c").is_none());
    }

    #[test]
    fn a_batch_takes_its_time() {
        assert_eq!(times(|times| f64::from(times) * BATCH / 3.0), 4);
        assert_eq!(times(|_| BATCH), 1);
    }

    #[test]
    fn a_spread_is_low_middle_and_high() {
        let spread = |low, middle, high| Spread { low, middle, high };
        assert_eq!(Spread::of(vec![5.0, 1.0, 2.0]), spread(1.0, 2.0, 5.0));
        assert_eq!(Spread::of(vec![4.0, 1.0, 8.0, 2.0]), spread(1.0, 3.0, 8.0));
        assert_eq!(Spread::of(vec![7.0]), spread(7.0, 7.0, 7.0));
    }

    #[test]
    fn runs_give_their_medians() {
        let run = |rust, ours| Measured {
            rust,
            ours,
            ratio: Spread::of(vec![rust / ours]),
        };
        let runs = Measured::over(&[run(6.0, 2.0), run(4.0, 4.0), run(8.0, 4.0)]);
        assert_eq!((runs.rust, runs.ours), (6.0, 4.0));
        assert_eq!(runs.ratio, Spread::of(vec![3.0, 1.0, 2.0]));
    }

    #[test]
    fn rows_are_held_to_1_but_for_the_ones_named() {
        for row in rows() {
            let least = match row.name {
                "typical short blocks" | "typical short blocks, raw call" => 1.3,
                "spans of script lines" | "spans of a thousand beats" => 0.35,
                _ => 1.0,
            };
            assert_eq!(row.least(), least, "{}", row.name);
        }
    }

    #[test]
    fn every_kind_has_its_rows() {
        let named = |row: &Row| row.name.starts_with("kind ");
        let names: Vec<&str> = rows()
            .iter()
            .filter(|row| named(row))
            .map(|row| row.name)
            .collect();
        assert!(texts::kinds().map(|(name, _)| name).eq(names));
    }

    #[test]
    fn options_are_taken_or_not() {
        let options = Options::parse(&words("--runs 2 --rounds 3 --only clip --require")).unwrap();
        assert_eq!((options.runs, options.rounds), (2, 3));
        assert_eq!((options.only.as_str(), options.require), ("clip", true));
        for line in ["--runs", "--rounds", "--rounds 0", "--only", "more"] {
            assert!(Options::parse(&words(line)).is_none(), "{line}");
        }
    }
}
