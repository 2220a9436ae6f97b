//! The stack that each C call uses, and the most that it may; see README.md.

mod inputs;
mod painted;

use crate::library;
use crate::rule::refusal::MOST_DEPTH;
use inputs::{ByDepth, DEPTHS, Inputs, clips, drawings, lines, progress, reading, spans, styles};
use painted::{Arguments, Painted};

/// Evaluation, and the most bytes that each level of \t may add in it.
const EVALUATE: &str = "evaluate_at";
const LEVEL: usize = 1_076;

/// `None`: the archives lack it.
type Function = Option<*const ()>;

/// A call and the inputs that it is measured on.
struct Row {
    name: String,
    function: Function,
    inputs: Vec<Arguments>,
    /// The most bytes of stack.
    most: usize,
}

fn row(name: &str, function: Function, inputs: Vec<Arguments>, most: usize) -> Row {
    Row {
        name: name.to_owned(),
        function,
        inputs,
        most,
    }
}

/// A row for each depth.
fn by_depth(
    call: &str,
    function: Function,
    inputs: &ByDepth<Vec<Arguments>>,
    most: ByDepth<usize>,
) -> impl Iterator<Item = Row> {
    let rows = DEPTHS.iter().zip(inputs).zip(most);
    rows.map(move |(((_, depth), inputs), most)| {
        row(&format!("{call}, {depth}"), function, inputs.clone(), most)
    })
}

/// A further call is a further row; what its arguments point to stands in `Inputs`.
fn rows(inputs: &mut Inputs) -> Vec<Row> {
    let mut rows = text_rows(inputs);
    rows.extend(table_rows(inputs));
    rows
}

fn text_rows(inputs: &mut Inputs) -> Vec<Row> {
    let overrides = library::hannuvel_parse_overrides().map(|call| call as *const ());
    let raw = library::hannuvel_parse_raw_block().map(|call| call as *const ());
    let drawing = library::hannuvel_parse_drawing().map(|call| call as *const ());
    let clip = library::hannuvel_split_clip_arg().map(|call| call as *const ());
    let words = &mut inputs.words;
    let blocks = inputs.blocks.each_ref().map(|texts| reading(texts, words));
    let most = [1_024, 1_344, 3_456, 5_888];
    let mut rows = Vec::new();
    rows.extend(by_depth("parse_overrides", overrides, &blocks, most));
    rows.extend(by_depth("parse_raw_block", raw, &blocks, most));
    let drawings = drawings(&inputs.drawings, words);
    rows.push(row("parse_drawing", drawing, drawings, 896));
    rows.push(row("split_clip_arg", clip, clips(&inputs.clips), 192));
    rows
}

fn table_rows(inputs: &mut Inputs) -> Vec<Row> {
    let evaluate = library::hannuvel_evaluate_at().map(|call| call as *const ());
    let mark = library::hannuvel_next_mark().map(|call| call as *const ());
    let karaoke = library::hannuvel_karaoke_spans().map(|call| call as *const ());
    let passed = library::hannuvel_progress().map(|call| call as *const ());
    let style = library::hannuvel_style_in_force().map(|call| call as *const ());
    let (words, block, own) = (&mut inputs.words, &inputs.block, &inputs.own);
    let lines = inputs.tables.each_ref().map(|tables| lines(tables, words));
    let spans = inputs.tables.each_ref().map(|tables| spans(tables, words));
    let styles = lines.each_ref().map(|lines| styles(lines, block, own));
    let most = [1_472, 2_496, 9_536, 17_600];
    let mut rows = Vec::new();
    rows.extend(by_depth(EVALUATE, evaluate, &lines, most));
    let most = [320, 448, 1_344, 2_368];
    rows.extend(by_depth("next_mark", mark, &lines, most));
    rows.extend(by_depth("style_in_force", style, &styles, most));
    let most = [192, 320, 1_216, 2_240];
    rows.extend(by_depth("karaoke_spans", karaoke, &spans, most));
    rows.push(row("progress", passed, progress(), 64));
    rows
}

/// The most bytes that the call used on any of its inputs.
fn used(row: &Row, stack: &mut Painted) -> Option<usize> {
    let function = row.function?;
    // SAFETY: the inputs are arguments of the call, and what they point to is still in `Inputs`.
    let used = |input| unsafe { stack.measure(function, input) }.0;
    row.inputs.iter().map(used).max()
}

/// Prints what each call uses, and says whether all keep to their bounds.
pub fn run() -> bool {
    let mut inputs = Inputs::new();
    let mut stack = Painted::new();
    let mut kept = true;
    let mut evaluation = Vec::new();
    println!("{:<30} {:>6} {:>6} {:>6}", "call", "inputs", "used", "most");
    for row in rows(&mut inputs) {
        let used = used(&row, &mut stack);
        let shown = used.map_or("absent".to_owned(), |bytes| bytes.to_string());
        let (name, count, most) = (&row.name, row.inputs.len(), row.most);
        println!("{name:<30} {count:>6} {shown:>6} {most:>6}");
        kept &= used.is_none_or(|bytes| bytes <= most);
        evaluation.extend(used.filter(|_| name.starts_with(EVALUATE)));
    }
    let level = a_level(&evaluation);
    println!(
        "{:<30} {:>6} {level:>6} {LEVEL:>6}",
        "evaluate_at, a level of \\t", ""
    );
    kept && level <= LEVEL
}

/// What a level of \t adds, from what is used at each depth.
fn a_level(used: &[usize]) -> usize {
    match used {
        [flat, .., deep] => deep.saturating_sub(*flat).div_ceil(MOST_DEPTH),
        _ => 0,
    }
}

#[cfg(test)]
mod tests {
    use super::*;
    use crate::answer::record::WIDTH;
    use crate::rule::refusal::MOST_PLACES;
    use std::collections::BTreeMap;

    /// What a controller has: text, table, state and stack.
    const MEMORY: usize = 48 * 1_024;
    const STATE_WORDS: usize = 92;
    const WORD: usize = 4;

    /// The most bytes of each call, from no \t on.
    fn bounds() -> BTreeMap<String, Vec<usize>> {
        let mut bounds = BTreeMap::new();
        for row in rows(&mut Inputs::new()) {
            let call = row.name.split(',').next().unwrap_or_default();
            let of_call: &mut Vec<usize> = bounds.entry(call.to_owned()).or_default();
            of_call.push(row.most);
        }
        bounds
    }

    /// How many records there is room for beside a text of so many bytes, by the stack of evaluation.
    fn records(text: usize, stack: &[usize]) -> Vec<usize> {
        let left = |stack| MEMORY - STATE_WORDS * WORD - stack - text;
        let records = stack.iter().map(|&stack| left(stack) / (WORD * WIDTH));
        records.map(|records| records.min(MOST_PLACES)).collect()
    }

    /// Rows of a table in the header or in README.md: a name or a number of bytes, then numbers.
    fn told(file: &str) -> Vec<(String, Vec<usize>)> {
        let path = format!("{}/../{file}", env!("CARGO_MANIFEST_DIR"));
        let text = std::fs::read_to_string(path).expect("the file is there");
        let row = |line: &str| {
            let words = line
                .split([' ', '*', '|', '`', '\n'])
                .filter(|word| !word.is_empty());
            let mut words = words.map(|word| word.replace(',', ""));
            let name = words.next()?;
            let numbers: Result<Vec<usize>, _> = words.map(|word| word.parse()).collect();
            Some((name, numbers.ok().filter(|numbers| !numbers.is_empty())?))
        };
        text.lines().filter_map(row).collect()
    }

    #[test]
    fn every_call_keeps_to_its_stack() {
        assert!(run(), "a call uses more stack than it may");
    }

    #[test]
    fn the_header_and_the_readme_tell_what_a_controller_needs() {
        let bounds = bounds();
        for file in ["include/hannuvel.h", "README.md"] {
            let told = told(file);
            for (call, most) in &bounds {
                assert!(
                    told.contains(&(call.clone(), most.clone())),
                    "{file}: {call} {most:?}"
                );
            }
            for text in [1_024, 4_096, 8_192, 12_288] {
                let records = records(text, &bounds[EVALUATE]);
                let row = (text.to_string(), records);
                assert!(told.contains(&row), "{file}: {row:?}");
            }
        }
    }
}
