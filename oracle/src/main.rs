//! Compares the Rust with our library; see README.md.

mod answer;
mod arguments;
mod bench;
mod calls;
mod clock;
mod cost;
mod generate;
mod hex;
mod leaves;
mod lent;
mod library;
mod places;
mod random;
mod rule;
mod sample;
#[cfg(test)]
mod sheet;
mod shrink;
mod stack;
mod stand_in;
mod suite;
mod suites;
mod texts;

/// The copy that make_copy.py makes, as it is: not formatted, and with parts that go unused.
#[rustfmt::skip]
#[allow(dead_code, clippy::all)]
mod built {
    pub mod animate;
    pub mod drawing;
}

use std::process::ExitCode;

use arguments::{Command, parse};
use sample::Sampled;
use suite::{Settings, Suite};

const DIFFERENT: u8 = 1;
const UNUSABLE: u8 = 2;

fn main() -> ExitCode {
    let words: Vec<String> = std::env::args().skip(1).collect();
    match words.first().map(String::as_str) {
        Some("cost") => status(cost::run(&words[1..]).map(|()| true)),
        Some("bench") => status(bench::run(&words[1..])),
        Some("row") => status(bench::run_row(&words[1..]).map(|()| true)),
        Some("stack") if words.len() == 1 => status(Some(stack::run())),
        _ => match parse(&words) {
            Some(command) => dispatch(&command),
            None => {
                eprintln!("{}", arguments::USAGE);
                ExitCode::from(UNUSABLE)
            }
        },
    }
}

/// The status for what was measured: within its bounds, beyond them, or not at all.
fn status(measured: Option<bool>) -> ExitCode {
    match measured {
        Some(true) => ExitCode::SUCCESS,
        Some(false) => ExitCode::from(DIFFERENT),
        None => ExitCode::from(UNUSABLE),
    }
}

fn dispatch(command: &Command) -> ExitCode {
    match command.suite.as_str() {
        "leaves" => sampled(&suites::leaves::Leaves::new(), command),
        "blocks" => sampled(&suites::blocks::Blocks, command),
        "drawings" => sampled(&suites::drawings::Drawings, command),
        "clips" => sampled(&suites::clips::Clips, command),
        "evaluate" => sampled(&suites::evaluate::Evaluate, command),
        "marks" => sampled(&suites::marks::Marks, command),
        "karaoke" => sampled(&suites::karaoke::Karaoke, command),
        "progress" => sampled(&suites::progress::Progress, command),
        "styles" => sampled(&suites::styles::Styles, command),
        _ => unreachable!("the arguments name a suite"),
    }
}

fn sampled<S: Sampled>(suite: &S, command: &Command) -> ExitCode {
    let Some((inputs, answers)) = &command.files else {
        return compare(suite, &command.settings);
    };
    let Settings { seed, count, .. } = command.settings;
    match sample::write(suite, seed, count, inputs, answers) {
        Ok(()) => ExitCode::SUCCESS,
        Err(error) => {
            eprintln!("{}: {error}", S::NAME);
            ExitCode::from(UNUSABLE)
        }
    }
}

fn compare<S: Suite>(suite: &S, settings: &Settings) -> ExitCode {
    if settings.oracle_only {
        let cases = suite::check_oracle(suite, settings);
        println!("{}: {cases} cases, the rule and the Rust agree", S::NAME);
        return ExitCode::SUCCESS;
    }
    let absent = suite.absent();
    if !absent.is_empty() {
        let list = absent.join(", ");
        eprintln!("{}: the archives lack {list}", S::NAME);
        return ExitCode::from(UNUSABLE);
    }
    match suite::run(suite, settings) {
        Ok(cases) => {
            println!("{}: {cases} cases, 0 differences", S::NAME);
            ExitCode::SUCCESS
        }
        Err(report) => {
            print!("{report}");
            println!("{}: 1 difference", S::NAME);
            ExitCode::from(DIFFERENT)
        }
    }
}

#[cfg(test)]
mod tests {
    use std::process::Command;

    #[test]
    fn the_copy_differs_from_upstream_as_the_diff_says() {
        let folder = env!("CARGO_MANIFEST_DIR");
        let check = |words: &[&str]| {
            let mut command = Command::new("python3");
            command.arg("make_copy.py").args(words).current_dir(folder);
            command.output().expect("python3 runs").status.code()
        };
        assert_eq!(check(&["check"]), Some(0));
        assert_eq!(check(&["nothing"]), Some(2));
    }
}
