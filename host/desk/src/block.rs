//! `hannuvel block`: what a block says.

use crate::arguments::{Block, Reading};
use crate::input::Text;
use crate::karaoke;
use crate::marks::Marks;
use crate::moves::{Line, Next};
use crate::places;
use crate::ranges::Range;
use crate::report::{Fits, Report, StateTold, TagTold};
use crate::state_words::set_fields;
use crate::stop::{Refused, Stop};
use crate::tag_words::says;
use hannuvel::{RECORD_WORDS, Tags, parse_overrides, parse_raw_block};
use std::ops;

pub fn answer(options: &Block, text: &Text) -> Result<Report, Stop> {
    let mut table = table(&options.block);
    let tags = read(&options.block, text, &mut table)?;
    let line = Line::of(tags, options.duration)?;
    let marks = Marks::of(&tags, options.duration, &options.at)?;
    let moves = line.moves(&marks)?;
    let states = moves.next.iter().map(|next| state(options, &line, next));
    Ok(Report {
        fits: Some(Fits::new(tags.places(), options.block.places.into(), text)),
        states: Some(states.collect::<Result<_, Stop>>()?),
        moves: Some(moves),
        marks: Some(marks),
        tags: Some(told(&tags, &places::bytes_of(&tags, places::block_in(&text.text, options.block.raw)))),
        syllables: Some(line.spans.iter().map(karaoke::syllable).collect()),
        ..Report::new("block", text, Some(options.duration))
    })
}

/// The table that a block is read into.
pub fn table(options: &Reading) -> Vec<u32> {
    vec![0; RECORD_WORDS * usize::from(options.places)]
}

/// Reads a block, raw or not.
pub fn read<'t>(options: &Reading, text: &'t Text, table: &'t mut Vec<u32>) -> Result<Tags<'t>, Stop> {
    let read = match options.raw {
        true => parse_raw_block(&text.text, table),
        false => parse_overrides(&text.text, table),
    };
    read.map_err(Refused::lending(options.places.into()))
}

/// The state at an instant, with the next move after it.
fn state(options: &Block, line: &Line, next: &Next) -> Result<StateTold, Stop> {
    let (tags, duration, at_ms) = (line.tags, line.duration, next.after_ms);
    let style = |own: &String| {
        let style = tags.style_in_force(at_ms, duration, own);
        style.map(|style| style.to_string()).map_err(Refused::style(own))
    };
    Ok(StateTold {
        at_ms,
        fields: set_fields(&tags.evaluate_at(at_ms, duration)?),
        next_mark_ms: tags.next_mark(at_ms, duration)?,
        next_move_ms: next.move_ms,
        sung: karaoke::sung(&line.spans, at_ms)?,
        style: options.style.as_ref().map(style).transpose()?,
    })
}

/// Tags in words, with the bytes that they came from by record.
fn told(tags: &Tags, bytes: &[Option<ops::Range<usize>>]) -> Vec<TagTold> {
    let tell = |tag: hannuvel::Tag| {
        let bytes_of = bytes[tag.place()].clone();
        TagTold {
            record: tag.place(),
            kind: tag.kind(),
            name: tag.name(),
            bytes: bytes_of.clone().map(|bytes| Range::new(bytes.start as i64, bytes.end as i64 - 1)),
            source: bytes_of.map(|bytes| tags.text()[bytes].into()),
            says: says(tag.value()),
            words: *tag.words(),
            inside: told(&tag.inner(), bytes),
        }
    };
    tags.iter().map(tell).collect()
}
