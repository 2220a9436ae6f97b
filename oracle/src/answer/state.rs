//! A state as the 92 words of the C interface, and the bytes that its strings name.

use super::decode::parts;
use super::table::named;
use crate::built::animate::{ClipRect, RenderState};
use crate::leaves::canonical;

pub const STATE_WORDS: usize = 92;

/// The words of a state whose strings are spelled by their parts.
pub fn words(state: &RenderState) -> Vec<u32> {
    let mut words = Words(Vec::with_capacity(STATE_WORDS));
    words.floats(&[
        state.alpha_mul,
        state.rotate_radians,
        state.rotate_x_radians,
        state.rotate_y_radians,
    ]);
    words.pair(state.scale);
    words.option_pair(state.translate);
    words.float(state.blur_sigma);
    words.option_rectangle(state.clip_rect);
    words.option_part(&state.clip_drawing);
    words.option_colour(state.primary_color);
    words.option_float(state.font_size);
    words.option_pair(state.pivot);
    words.option_pair(state.border);
    words.option_pair(state.shadow);
    words.number(u32::from(state.be_strength));
    words.pair(state.shear);
    words.option_rectangle(state.iclip_rect);
    words.option_part(&state.iclip_drawing);
    words.option_colour(state.secondary_color);
    words.option_colour(state.outline_color);
    words.option_colour(state.shadow_color);
    words.option_byte(state.primary_alpha);
    words.option_byte(state.secondary_alpha);
    words.option_byte(state.outline_alpha);
    words.option_byte(state.shadow_alpha);
    words.option_float(state.letter_spacing);
    words.option_byte(state.wrap_style);
    words.option_byte(state.alignment);
    words.option_parts(&state.font_name);
    words.option_byte(state.font_encoding);
    words.option_number(state.bold_weight.map(u32::from));
    words.reset(&state.reset_to_style);
    words.option_flag(state.italic);
    words.option_flag(state.underline);
    words.option_flag(state.strikeout);
    words.option_number(state.drawing_baseline_offset.map(|y| y as u32));
    words.option_byte(state.drawing_scale);
    words.0
}

struct Words(Vec<u32>);

impl Words {
    fn number(&mut self, word: u32) {
        self.0.push(word);
    }

    fn float(&mut self, value: f32) {
        self.number(canonical(value));
    }

    fn floats(&mut self, values: &[f32]) {
        values.iter().for_each(|&value| self.float(value));
    }

    fn pair(&mut self, (x, y): (f32, f32)) {
        self.floats(&[x, y]);
    }

    /// A flag and the words, or as many zeros.
    fn option<const N: usize>(&mut self, words: Option<[u32; N]>) {
        self.number(u32::from(words.is_some()));
        self.0.extend(words.unwrap_or([0; N]));
    }

    fn option_number(&mut self, number: Option<u32>) {
        self.option(number.map(|number| [number]));
    }

    fn option_byte(&mut self, byte: Option<u8>) {
        self.option_number(byte.map(u32::from));
    }

    fn option_flag(&mut self, flag: Option<bool>) {
        self.option_number(flag.map(u32::from));
    }

    fn option_float(&mut self, value: Option<f32>) {
        self.option_number(value.map(canonical));
    }

    fn option_pair(&mut self, pair: Option<(f32, f32)>) {
        self.option(pair.map(|(x, y)| [x, y].map(canonical)));
    }

    fn option_rectangle(&mut self, rectangle: Option<ClipRect>) {
        self.option(rectangle.map(|r| [r.x1, r.y1, r.x2, r.y2].map(canonical)));
    }

    fn option_colour(&mut self, colour: Option<(u8, u8, u8)>) {
        self.option(colour.map(|(r, g, b)| [r, g, b].map(u32::from)));
    }

    fn option_part(&mut self, string: &Option<String>) {
        self.option(string.as_deref().map(first_part));
    }

    fn option_parts(&mut self, string: &Option<String>) {
        let words = string.as_deref().map(|string| {
            let [first, second] = parts(string);
            [first.offset, first.length, second.offset, second.length].map(|n| n as u32)
        });
        self.option(words);
    }

    /// 0 none, 1 plain, 2 named, then the part.
    fn reset(&mut self, reset: &Option<Option<String>>) {
        let (flag, part) = match reset {
            None => (0, [0, 0]),
            Some(None) => (1, [0, 0]),
            Some(Some(name)) => (2, first_part(name)),
        };
        self.number(flag);
        self.0.extend(part);
    }
}

fn first_part(string: &str) -> [u32; 2] {
    let [part, _] = parts(string);
    [part.offset as u32, part.length as u32]
}

/// The state with each string spelled by its parts replaced by the bytes that these name in the
/// text, to be held against the state of the tags as the Rust reads them.
pub fn with_named_bytes(state: &RenderState, text: &[u8]) -> RenderState {
    let bytes =
        |string: &String| String::from_utf8(named(text, parts(string))).expect("an ASCII text");
    RenderState {
        clip_drawing: state.clip_drawing.as_ref().map(bytes),
        iclip_drawing: state.iclip_drawing.as_ref().map(bytes),
        font_name: state.font_name.as_ref().map(bytes),
        reset_to_style: state
            .reset_to_style
            .as_ref()
            .map(|name| name.as_ref().map(bytes)),
        ..state.clone()
    }
}

#[cfg(test)]
mod tests {
    use super::*;
    use crate::answer::decode::tags;
    use crate::built::animate::CueAnimation;

    #[test]
    fn a_state_has_92_words() {
        let words = words(&RenderState::identity());
        assert_eq!(words.len(), STATE_WORDS);
        let one = 1f32.to_bits();
        assert_eq!(words[..6], [one, 0, 0, 0, one, one]);
        assert!(words[6..].iter().all(|&word| word == 0));
    }

    #[test]
    fn names_come_as_parts() {
        let table = [[41, 1, 3, 2, 0, 0, 0, 0], [39, 9, 1, 20, 4, 0, 0, 0]].concat();
        let cue = CueAnimation { tags: tags(&table) };
        let words = words(&cue.evaluate_at(0, 0));
        assert_eq!(words[70..75], [1, 9, 1, 20, 4]);
        assert_eq!(words[79..82], [2, 3, 2]);
    }
}
