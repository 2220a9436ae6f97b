//! The tool, run: golden outputs, every option, every refusal that a text can meet, and what cannot be used.

use assert_cmd::Command;
use hannuvel::MOST_DEPTH;
use serde_json::Value;
use std::fs;
use std::path::PathBuf;
use std::process::Output;

const BLOCK: &str = r"\fs20.5\1c&H0000FF&\t(0,1000,0.5,\fs40\t(\frz-45\clip(1,2,3.25,4)))\fnArial(x)\k50\kf25";

fn tool(arguments: &[&str]) -> Command {
    let mut command = Command::cargo_bin("hannuvel").unwrap();
    command.args(arguments).env_remove("NO_COLOR");
    command
}

/// The exit status, and what was written to both streams.
fn run(arguments: &[&str]) -> String {
    told(&tool(arguments).output().unwrap())
}

fn told(output: &Output) -> String {
    let text = |bytes: &[u8]| String::from_utf8(bytes.to_vec()).unwrap();
    format!("status {}\n{}{}", output.status.code().unwrap(), text(&output.stdout), text(&output.stderr))
}

/// The exit status and the JSON written, which is all that is.
fn json(arguments: &[&str]) -> (i32, Value) {
    let output = tool(arguments).arg("--json").output().unwrap();
    assert!(output.stderr.is_empty(), "{output:?}");
    (output.status.code().unwrap(), serde_json::from_slice(&output.stdout).unwrap())
}

/// A file of this name for one test, in a folder of the build.
fn file(name: &str) -> PathBuf {
    PathBuf::from(env!("CARGO_TARGET_TMPDIR")).join(name)
}

fn written(name: &str, bytes: &[u8]) -> String {
    fs::write(file(name), bytes).unwrap();
    file(name).to_str().unwrap().into()
}

// ---- blocks

#[test]
fn a_block() {
    insta::assert_snapshot!(run(&["block", BLOCK, "--duration", "2000", "--at", "500", "2500"]));
}

#[test]
fn a_block_with_ranges_of_marks() {
    insta::assert_snapshot!(run(&["block", r"\fad(200,300)", "--duration", "1000", "--at", "200", "1000"]));
}

#[test]
fn a_block_without_tags() {
    insta::assert_snapshot!(run(&["block", "no tag", "--at", "0"]));
}

#[test]
fn a_block_with_exponents() {
    insta::assert_snapshot!(run(&["block", r"\fs1e2\pos(1.25e2,2.5E-3)"]));
}

#[test]
fn a_raw_block() {
    insta::assert_snapshot!(run(&["block", r" {\k50\rTop} ", "--raw", "--at=-5,10", "--style", "Default"]));
}

#[test]
fn a_long_walk() {
    insta::assert_snapshot!(run(&["block", r"\t(\fs20)", "--duration", "1000000000"]));
}

#[test]
fn marks_beyond_the_line() {
    insta::assert_snapshot!(run(&["block", r"\t(900,3000,\fs20)", "--duration", "1000"]));
}

// ---- when the picture moves

/// The rows of a block's first lines, from `moves` on: what stands beside `moves` and `next`, and between.
fn moves(arguments: &[&str]) -> Vec<String> {
    let shown = run(&[&["block"], arguments].concat());
    let rows = shown.lines().skip_while(|line| !line.starts_with("moves ")).take_while(|line| !line.is_empty());
    rows.map(|line| line[7..].into()).collect()
}

#[test]
fn syllables_alone_move_the_picture() {
    insta::assert_snapshot!(run(&["block", r"\kf50\k20", "--at", "0", "100", "500", "--duration", "1000"]));
}

#[test]
fn marks_and_syllables_are_told_apart() {
    let text = r"\fad(200,300)\k10\kf20\ko20\k20";
    assert_eq!(
        moves(&[text, "--duration", "1000", "--at=-5,0,150,200,300,700,1000"]),
        [
            "1–300, 500, 701–1000",
            "500 marks in a line of 1,000 ms, at 1–200, 701–1000",
            "4 syllables from 0 to 700 ms, moving at 101–300, 500",
            "after -5: 0, a syllable; next mark 1",
            "after 0: 1, a mark",
            "after 150: 151, a mark",
            "after 200: 201, a syllable; next mark 701",
            "after 300: 500, a syllable; next mark 701",
            "after 700: 701, a mark",
            "after 1000: never in the line",
        ]
    );
}

/// Never is for a line that has neither marks nor syllables; one that begins with the line moves nothing later.
#[test]
fn what_never_moves() {
    assert_eq!(moves(&[r"\fs20\pos(1,2)", "--at", "0"]), ["never", "0 marks in a line of 5,000 ms", "after 0: never"]);
    assert_eq!(
        moves(&[r"\k50", "--at", "0"]),
        [
            "not after the line's start",
            "0 marks in a line of 5,000 ms",
            "1 syllable from 0 to 500 ms, moving nothing after the line's start",
            "after 0: never in the line",
        ]
    );
}

#[test]
fn karaoke_inside_a_transform_makes_no_syllable() {
    let marks = ["1–10", "10 marks in a line of 5,000 ms", "after 5: 6"];
    assert_eq!(moves(&[r"\t(0,10,\kf50\k20)", "--at", "5"]), marks);
    assert_eq!(moves(&[r"\t(0,10,\fs20)", "--at", "5"]), marks);
}

#[test]
fn syllables_beyond_the_line() {
    assert_eq!(
        moves(&[r"\k50\kf100\k10\kf10", "--duration", "1000", "--at", "500", "1000"]),
        [
            "501–1000",
            "0 marks in a line of 1,000 ms",
            "4 syllables from 0 to 1700 ms, moving at 501–1000; 2 begin after the line's end",
            "after 500: 501, a syllable; no later mark",
            "after 1000: never in the line",
        ]
    );
    assert_eq!(
        moves(&[r"\k100\k10", "--duration", "999"])[2],
        "2 syllables from 0 to 1100 ms, moving nothing after the line's start; 1 begins after the line's end"
    );
    assert_eq!(moves(&[r"\k100\k10", "--duration", "1000"])[2], "2 syllables from 0 to 1100 ms, moving at 1000");
}

#[test]
fn marks_after_the_line_are_not_its_own() {
    let rows = moves(&[r"\t(900,3000,\fs20)", "--duration", "1000", "--at", "0", "1000"]);
    assert_eq!(
        rows[2..],
        ["next mark after the line: 1001", "after 0: 901", "after 1000: never in the line; next mark 1001"]
    );
}

/// Every command has the same moves, and the marks of JSON stay those of the state.
#[test]
fn one_answer_for_all_commands() {
    let svg = file("moves.svg");
    let svg = svg.to_str().unwrap();
    for text in [r"\kf50\k20", r"\fad(200,300)", r"\fad(200,300)\k10\kf20\ko20\k20", "no tag"] {
        let line = ["--duration", "1000"];
        let block = json(&[&["block", text, "--at", "0"], &line[..]].concat()).1;
        let timeline = json(&[&["timeline", text, "--svg", svg], &line[..]].concat()).1;
        let redraws = json(&[&["redraws", text, "--rate", "1000"], &line[..]].concat()).1;
        let ranges = &block["moves"]["ranges"];
        assert_eq!(*ranges, timeline["moves"]["ranges"], "{text}");
        assert_eq!(block["marks"]["ranges"], timeline["marks"]["ranges"], "{text}");
        // At a frame a millisecond those redrawn are the first, and the moves before the line's end.
        let count = |ranges: &Value| {
            let length =
                |range: &Value| range["last"].as_i64().unwrap().min(999) - range["first"].as_i64().unwrap() + 1;
            ranges.as_array().unwrap().iter().map(length).sum::<i64>()
        };
        assert_eq!(redraws["frames"]["redrawn"], 1 + count(ranges), "{text}");
        assert_eq!(block["moves"]["next"][0]["move_ms"], ranges[0]["first"], "{text}");
        assert_eq!(block["states"][0]["next_move_ms"], ranges[0]["first"], "{text}");
    }
    let karaoke = json(&["block", r"\kf50\k20", "--at", "0"]).1;
    assert_eq!(karaoke["marks"]["ranges"], Value::Array(vec![]));
    assert_eq!(karaoke["marks"]["next"][0]["mark_ms"], Value::Null);
    assert_eq!(karaoke["states"][0]["next_mark_ms"], Value::Null);
    assert_eq!(karaoke["moves"]["by_syllables"], karaoke["moves"]["ranges"]);
    assert_eq!(karaoke["moves"]["next"][0]["move_ms"], 1);
}

#[test]
fn a_text_with_control_characters() {
    let shown = run(&["block", "\\fnA\x1b[31m\nB\\fs20"]);
    assert!(!shown.contains('\x1b'), "{shown:?}");
}

// ---- where a text comes from

#[test]
fn standard_input() {
    let piped = tool(&["block", "-"]).write_stdin("\\fs20\n").output().unwrap();
    assert_eq!(told(&piped), run(&["block", r"\fs20"]));
}

#[test]
fn a_file() {
    let name = written("block.txt", b"\\fs20\r\n");
    assert_eq!(run(&["block", &name]), run(&["block", r"\fs20"]));
    assert_eq!(run(&["block", "--file", &name]), run(&["block", r"\fs20"]));
}

#[test]
fn a_file_whose_name_looks_like_a_block() {
    let name = written(r"\fs20", b"\\b1");
    assert_eq!(run(&["block", "--file", &name]), run(&["block", r"\b1"]));
}

#[test]
fn a_file_that_is_no_text() {
    let name = written("picture.png", b"\x89PNG\r\n");
    let failed = run(&["block", &name]);
    assert!(failed.starts_with("status 2\nhannuvel: "), "{failed}");
    assert!(failed.ends_with("picture.png is no text: byte 0 is not part of any UTF-8 character\n"), "{failed}");
    let piped = tool(&["block", "-"]).write_stdin(b"ab\xFF".to_vec()).output().unwrap();
    assert_eq!(
        told(&piped),
        "status 2\nhannuvel: standard input is no text: byte 2 is not part of any UTF-8 character\n"
    );
}

#[test]
fn a_file_that_cannot_be_read() {
    let missing = run(&["block", "--file", "no/such/file"]);
    assert_eq!(missing, "status 2\nhannuvel: no/such/file cannot be read: No such file or directory (os error 2)\n");
    let folder = run(&["block", env!("CARGO_TARGET_TMPDIR")]);
    assert!(folder.starts_with("status 2\n") && folder.contains("cannot be read: Is a directory"), "{folder}");
}

// ---- refusals

#[test]
fn ground_1_a_text_too_long() {
    let long = format!("{}\\fs20", " ".repeat(12_284));
    let name = written("long.txt", long.as_bytes());
    insta::assert_snapshot!(run(&["block", &name]).replace(&name, "long.txt"));
}

#[test]
fn ground_2_not_ascii() {
    insta::assert_snapshot!(run(&["block", "\\fs20\\fnMéxico"]));
}

#[test]
fn ground_2_in_a_style() {
    insta::assert_snapshot!(run(&["block", r"\fs20", "--at", "0", "--style", "Señal"]));
}

#[test]
fn ground_3_a_numeral_too_long() {
    insta::assert_snapshot!(run(&["block", r"\b1\pos(x,1e9)"]));
}

#[test]
fn ground_3_in_the_second_line_of_a_file() {
    let name = written("lines.txt", b"\\b1\n\\fs1234567890\\i1\n");
    insta::assert_snapshot!(run(&["block", &name]).replace(&name, "lines.txt"));
}

#[test]
fn ground_3_in_a_drawing() {
    let svg = file("never.svg");
    insta::assert_snapshot!(run(&["drawing", "m 0 0 l 1e9 5", "--svg", svg.to_str().unwrap()]));
    assert!(!svg.exists());
}

#[test]
fn ground_4_a_fade_too_far() {
    insta::assert_snapshot!(run(&["block", r"\i1\fade(255,0,255,0,100,200,2000000000)\b1"]));
}

#[test]
fn ground_6_a_time_out_of_range() {
    insta::assert_snapshot!(run(&["block", r"\fs20", "--duration", "1000000001"]));
    let at = run(&["block", r"\fs20", "--at", "-1000000001"]);
    assert_eq!(at, run(&["block", r"\fs20", "--duration", "1000000001"]));
    let redraws = run(&["redraws", r"\fs20", "--duration", "-1000000001", "--rate", "24"]);
    assert_eq!(at, redraws);
}

#[test]
fn ground_7_a_scale_too_large() {
    insta::assert_snapshot!(run(&["drawing", "m 0 0", "--exponent", "33", "--svg", "never.svg"]));
}

#[test]
fn ground_9_no_room() {
    insta::assert_snapshot!(run(&["block", r"\fs20\b1\i1", "--places", "2"]));
    let (status, json) = json(&["block", r"\fs20\b1\i1", "--places", "2"]);
    assert_eq!((status, &json["fits"]["places_needed"], &json["fits"]["places"]), (1, &3.into(), &2.into()));
}

#[test]
fn ground_9_more_than_count() {
    let many = r"\b1".repeat(1025);
    insta::assert_snapshot!(run(&["block", &many, "--places", "2000"]));
    let drawing = format!("m 0 0 l {}", "1 1 ".repeat(1024));
    insta::assert_snapshot!(run(&["drawing", &drawing, "--svg", "never.svg"]));
}

#[test]
fn a_refusal_as_json() {
    let (status, json) = json(&["block", r"\pos(x,1e9)"]);
    assert_eq!(status, 1);
    let refusal = &json["refusal"];
    assert_eq!((&refusal["ground"], &refusal["place"], &refusal["bytes"]["last"]), (&3.into(), &7.into(), &9.into()));
    assert_eq!(json["tags"], Value::Null);
}

// ---- redraws

#[test]
fn redraws() {
    insta::assert_snapshot!(run(&["redraws", r"\fad(200,300)", "--duration", "5000", "--rate", "24"]));
}

#[test]
fn redraws_with_syllables() {
    let arguments = ["redraws", r"{\k50\kf20\k30}", "--raw", "--duration", "1000", "--rate", "24000/1001"];
    insta::assert_snapshot!(run(&arguments));
}

// ---- JSON

/// The keys of all commands are the same, in one order.
#[test]
fn one_shape_for_all_commands() {
    let svg = file("shape.svg");
    let svg = svg.to_str().unwrap();
    let commands: [&[&str]; 5] = [
        &["block", BLOCK],
        &["block", "é"],
        &["timeline", BLOCK, "--duration", "1000", "--svg", svg],
        &["drawing", "m 0 0 l 1 1", "--svg", svg],
        &["redraws", BLOCK, "--duration", "1000", "--rate", "24"],
    ];
    let keys = |json: &Value| json.as_object().unwrap().keys().cloned().collect::<Vec<_>>();
    let all: Vec<_> = commands.iter().map(|command| keys(&json(command).1)).collect();
    assert!(all.iter().all(|keys| *keys == all[0]), "{all:?}");
}

#[test]
fn a_block_as_json() {
    let (status, json) = json(&["block", BLOCK, "--duration", "2000", "--at", "500", "--style", "Default"]);
    assert_eq!(status, 0);
    insta::assert_snapshot!(serde_json::to_string_pretty(&json).unwrap());
}

/// A tag inside as many \t as may be is told with its bytes.
#[test]
fn a_deep_block_as_json() {
    let text = r"\t(".repeat(MOST_DEPTH) + r"\fs40";
    let (status, json) = json(&["block", &text]);
    let tag = (0..MOST_DEPTH).fold(&json["tags"][0], |tag, _| &tag["inside"][0]);
    let told = (status, &tag["record"], &tag["source"], &tag["bytes"]["first"]);
    assert_eq!(told, (0, &MOST_DEPTH.into(), &r"\fs40".into(), &(3 * MOST_DEPTH).into()));
}

#[test]
fn redraws_as_json() {
    let (_, json) = json(&["redraws", r"\fad(200,300)", "--duration", "1000", "--rate", "25"]);
    insta::assert_snapshot!(serde_json::to_string_pretty(&json["frames"]).unwrap());
}

// ---- pictures

#[test]
fn a_timeline() {
    let svg = file("timeline.svg");
    let arguments = ["timeline", BLOCK, "--duration", "2000", "--svg", svg.to_str().unwrap()];
    let shown = run(&arguments).replace(svg.to_str().unwrap(), "timeline.svg");
    insta::assert_snapshot!(shown);
    let svg = fs::read_to_string(svg).unwrap();
    for name in ["opacity", "font_size", "around z", "syllables", "marks", "Set by no tag: scale, position, alphas"] {
        assert!(svg.contains(name), "{name}");
    }
    assert!(svg.starts_with("<svg width=\"980\""));
}

/// The title says when the picture moves, by marks or syllables.
#[test]
fn a_timeline_of_syllables() {
    let svg = file("syllables.svg");
    let picture = |text: &str| {
        let shown = run(&["timeline", text, "--duration", "1000", "--svg", svg.to_str().unwrap()]);
        assert!(shown.starts_with("status 0\n"), "{shown}");
        fs::read_to_string(&svg).unwrap()
    };
    assert!(picture(r"\kf50\k20").contains("1,000 ms; moves: 1–500; 0 marks, 2 syllables"));
    assert!(picture(r"\fad(200,300)").contains("1,000 ms; moves: 1–200, 701–1000; 500 marks, 0 syllables"));
    assert!(picture(r"\fad(200,300)\k50").contains("1,000 ms; moves: 1–200, 701–1000; 500 marks, 1 syllable"));
    assert!(picture("no tag").contains("1,000 ms; moves: never; 0 marks, 0 syllables"));
}

#[test]
fn a_drawing() {
    let svg = file("drawing.svg");
    let arguments = ["drawing", "m 0 0 l 80 0 b 80 40 0 40 0 0", "--exponent", "4", "--svg", svg.to_str().unwrap()];
    insta::assert_snapshot!(run(&arguments).replace(svg.to_str().unwrap(), "drawing.svg"));
    let shape = fs::read_to_string(svg).unwrap();
    assert!(shape.contains("3 commands, 3 points, 2 control points"));
    assert_eq!(shape.matches("<circle").count(), 3 + 2 + 2);
}

#[test]
fn a_drawing_with_an_exponent() {
    let svg = file("exponent.svg");
    let (status, json) = json(&["drawing", "m 0 0 l 1e2 0", "--svg", svg.to_str().unwrap()]);
    assert_eq!((status, json["path"][1].to_string().as_str()), (0, r#"{"command":"line","points":[[100.0,0.0]]}"#));
}

#[test]
fn pictures_of_nothing() {
    let svg = file("nothing.svg");
    let svg = svg.to_str().unwrap();
    assert!(run(&["timeline", "", "--duration", "-3", "--svg", svg]).starts_with("status 0"));
    assert!(run(&["drawing", "", "--svg", svg]).starts_with("status 0"));
    assert!(run(&["drawing", "c", "--svg", svg]).starts_with("status 0"));
    assert!(run(&["drawing", "m 5 5", "--svg", svg]).starts_with("status 0"));
}

#[test]
fn a_picture_that_cannot_be_written() {
    for arguments in [
        ["drawing", "m 0 0", "--svg", "no/such/folder.svg"].as_slice(),
        &["timeline", "", "--duration", "1", "--svg", "no/such/folder.svg"],
    ] {
        let failed = run(arguments);
        assert!(failed.starts_with("status 2\nhannuvel: no/such/folder.svg cannot be written: "), "{failed}");
    }
}

// ---- arguments, help, colour, pipes

#[test]
fn bad_arguments() {
    let bad: [&[&str]; 16] = [
        &[],
        &["show"],
        &["block"],
        &["block", "a", "b"],
        &["block", "a", "--file", "b"],
        &["block", "a", "--duration", "x"],
        &["block", "a", "--duration", "3000000000"],
        &["block", "a", "--at"],
        &["block", "a", "--at", "1.5"],
        &["block", "a", "--places", "70000"],
        &["block", "a", "--color", "red"],
        &["timeline", "a", "--duration", "1"],
        &["drawing", "a", "--exponent", "-1", "--svg", "b"],
        &["redraws", "a", "--duration", "1", "--rate", "0"],
        &["redraws", "a", "--duration", "1", "--rate", "1/0"],
        &["redraws", "a", "--rate", "24"],
    ];
    for arguments in bad {
        let output = tool(arguments).output().unwrap();
        assert_eq!(output.status.code(), Some(2), "{arguments:?}");
        assert!(output.stdout.is_empty() && !output.stderr.is_empty(), "{arguments:?}");
    }
}

#[test]
fn help_with_an_example() {
    let whole = run(&["--help"]);
    assert!(whole.starts_with("status 0\n") && whole.contains("Usage: hannuvel [OPTIONS] <COMMAND>"), "{whole}");
    assert!(whole.contains("Exit status: 0 answered, 1 refused, 2 "), "{whole}");
    for command in ["block", "timeline", "drawing", "redraws"] {
        let help = run(&[command, "--help"]);
        assert!(help.starts_with("status 0\n"), "{help}");
        assert!(help.contains(&format!("Example:\n  hannuvel {command} ")), "{help}");
        assert!(whole.contains(&format!("\n  hannuvel {command} ")), "{whole}");
    }
    assert_eq!(run(&["--version"]), "status 0\nhannuvel 0.1.0\n");
}

/// The examples that the help shows are answered.
#[test]
fn the_examples_of_the_help_run() {
    let help = run(&["--help"]);
    let examples: Vec<_> = help.lines().filter_map(|line| line.strip_prefix("  hannuvel ")).collect();
    assert_eq!(examples.len(), 4);
    for example in examples {
        let script = format!("\"$0\" {example}");
        let tool = assert_cmd::cargo::cargo_bin("hannuvel");
        let folder = env!("CARGO_TARGET_TMPDIR");
        Command::new("sh").args(["-c", &script]).arg(tool).current_dir(folder).assert().success();
    }
}

/// The examples of this crate's README and of the repository's give what stands there.
#[test]
fn the_examples_of_the_readmes_run() {
    let text = format!("{}\n{}", include_str!("../README.md"), include_str!("../../../README.md"));
    let mut lines = text.lines().peekable();
    let mut run = 0;
    while let Some(line) = lines.next() {
        let prompts = ["    $ hannuvel ", "    $ ./run.sh "];
        let Some(example) = prompts.iter().find_map(|prompt| line.strip_prefix(prompt)) else { continue };
        let mut expected = Vec::new();
        while let Some(line) =
            lines.next_if(|line| line.is_empty() || line.starts_with("    ") && !line.contains("    $"))
        {
            expected.push(line.strip_prefix("    ").unwrap_or(line));
        }
        let shown = shell(&format!("\"$0\" {example} 2>&1"));
        if expected.iter().any(|line| !line.is_empty()) {
            assert_eq!(shown.trim_end(), expected.join("\n").trim_end(), "{example}");
        }
        run += 1;
    }
    assert_eq!(run, 6);
}

/// What a script writes; the tool is its `$0`.
fn shell(script: &str) -> String {
    let mut command = Command::new("sh");
    command.args(["-c", script]).arg(assert_cmd::cargo::cargo_bin("hannuvel")).env_remove("NO_COLOR");
    String::from_utf8(command.current_dir(env!("CARGO_TARGET_TMPDIR")).output().unwrap().stdout).unwrap()
}

#[test]
fn colour_when_asked_for() {
    let always = run(&["block", BLOCK, "--color", "always"]);
    assert!(always.contains("\x1b["));
    assert!(run(&["block", r"\pos(x,1e9)", "--color", "always"]).contains("\x1b["));
    for plain in [run(&["block", BLOCK]), run(&["block", BLOCK, "--color", "never"])] {
        assert!(!plain.contains('\x1b'));
    }
    let stripped = always
        .split('\x1b')
        .map(|part| part.split_once('m').filter(|_| part.starts_with('[')).map_or(part, |(_, text)| text));
    assert_eq!(stripped.collect::<String>(), run(&["block", BLOCK]));
}

/// On a terminal, which `script` lends.
#[test]
fn colour_on_a_terminal() {
    let on_terminal = |no_color: Option<&str>| {
        let tool = assert_cmd::cargo::cargo_bin("hannuvel");
        let line = format!("'{}' block 'no tag'", tool.display());
        let mut command = Command::new("script");
        command.args(["-qec", &line, "/dev/null"]).env_remove("NO_COLOR");
        no_color.map(|value| command.env("NO_COLOR", value));
        String::from_utf8(command.output().unwrap().stdout).unwrap()
    };
    assert!(on_terminal(None).contains("\x1b["));
    assert!(on_terminal(Some("")).contains("\x1b["));
    assert!(!on_terminal(Some("1")).contains("\x1b["));
}

#[test]
fn a_closed_pipe_ends_quietly() {
    let tool = assert_cmd::cargo::cargo_bin("hannuvel");
    let many = r"\b1".repeat(1000);
    for options in ["", "--json"] {
        let script = format!(r#"{{ "$0" block "$1" {options}; echo "status $?" >&2; }} | true"#);
        let output = Command::new("sh").args(["-c", &script]).arg(&tool).arg(&many).output().unwrap();
        assert_eq!(String::from_utf8(output.stderr).unwrap(), "status 0\n");
    }
}

#[test]
fn a_full_disk_is_told() {
    let tool = assert_cmd::cargo::cargo_bin("hannuvel");
    let script = r#""$0" block a >/dev/full"#;
    let output = Command::new("sh").args(["-c", script]).arg(tool).output().unwrap();
    assert_eq!(output.status.code(), Some(2));
    assert!(String::from_utf8(output.stderr).unwrap().starts_with("hannuvel: the answer cannot be written: "));
}
