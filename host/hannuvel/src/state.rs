//! The state of a line at an instant.

use crate::{FontName, Part, STATE_WORDS};

/// What a line looks like at an instant: the fields of the Rust's `RenderState`, by its names and without its
/// transform. A field that is `None` is left to the line's style.
#[derive(Clone, Copy, Debug, PartialEq)]
pub struct RenderState<'t> {
    /// How opaque \fad and \fade leave the line: 1.0 opaque, 0.0 transparent. It is 0.0 to 1.0, no NaN, whatever the tags, and
    /// exactly 1.0 where neither stands at any depth of \t.
    pub alpha_mul: f32,
    /// \frz.
    pub rotate_radians: f32,
    /// \frx.
    pub rotate_x_radians: f32,
    /// \fry.
    pub rotate_y_radians: f32,
    /// \fscx and \fscy, 1.0 for 100%.
    pub scale: (f32, f32),
    /// \pos or \move.
    pub translate: Option<(f32, f32)>,
    /// \blur.
    pub blur_sigma: f32,
    /// \clip of a rectangle.
    pub clip_rect: Option<ClipRect>,
    /// \clip of a drawing.
    pub clip_drawing: Option<Part<'t>>,
    /// \c or \1c: red, green and blue.
    pub primary_color: Option<(u8, u8, u8)>,
    /// \fs.
    pub font_size: Option<f32>,
    /// \org.
    pub pivot: Option<(f32, f32)>,
    /// \bord, \xbord and \ybord.
    pub border: Option<(f32, f32)>,
    /// \shad, \xshad and \yshad.
    pub shadow: Option<(f32, f32)>,
    /// \be.
    pub be_strength: u8,
    /// \fax and \fay.
    pub shear: (f32, f32),
    /// \iclip of a rectangle.
    pub iclip_rect: Option<ClipRect>,
    /// \iclip of a drawing.
    pub iclip_drawing: Option<Part<'t>>,
    /// \2c.
    pub secondary_color: Option<(u8, u8, u8)>,
    /// \3c.
    pub outline_color: Option<(u8, u8, u8)>,
    /// \4c.
    pub shadow_color: Option<(u8, u8, u8)>,
    /// \1a or \alpha: 0 opaque, 255 transparent.
    pub primary_alpha: Option<u8>,
    /// \2a or \alpha.
    pub secondary_alpha: Option<u8>,
    /// \3a or \alpha.
    pub outline_alpha: Option<u8>,
    /// \4a or \alpha.
    pub shadow_alpha: Option<u8>,
    /// \fsp.
    pub letter_spacing: Option<f32>,
    /// \q, 0 to 3.
    pub wrap_style: Option<u8>,
    /// \an, or \a put as \an has it: 1 to 9, as on a keypad.
    pub alignment: Option<u8>,
    /// \fn.
    pub font_name: Option<FontName<'t>>,
    /// \fe.
    pub font_encoding: Option<u8>,
    /// \b, 0 or 100 to 900.
    pub bold_weight: Option<u16>,
    /// \r: to the named style, or inside `None` to the line's own.
    pub reset_to_style: Option<Option<Part<'t>>>,
    /// \i.
    pub italic: Option<bool>,
    /// \u.
    pub underline: Option<bool>,
    /// \s.
    pub strikeout: Option<bool>,
    /// \pbo.
    pub drawing_baseline_offset: Option<i32>,
    /// \p, 0 for off.
    pub drawing_scale: Option<u8>,
}

impl<'t> RenderState<'t> {
    /// The state with no tag.
    ///
    /// ```
    /// use hannuvel::{RenderState, parse_overrides};
    ///
    /// let tags = parse_overrides("", &mut [0; 0])?;
    /// assert_eq!(tags.evaluate_at(0, 1000)?, RenderState::identity());
    /// # Ok::<(), hannuvel::Refusal>(())
    /// ```
    pub fn identity() -> Self {
        let mut words = [0; STATE_WORDS];
        for one in [0, 4, 5] {
            words[one] = 1f32.to_bits();
        }
        RenderState::of(&words, "")
    }

    /// The state of 92 words, whose parts lie in the text.
    pub(crate) fn of(words: &[u32; STATE_WORDS], text: &'t str) -> Self {
        let mut next = Fields { words: words.iter(), text };
        RenderState {
            alpha_mul: next.float(),
            rotate_radians: next.float(),
            rotate_x_radians: next.float(),
            rotate_y_radians: next.float(),
            scale: next.pair(),
            translate: next.option(Fields::pair),
            blur_sigma: next.float(),
            clip_rect: next.option(Fields::rectangle),
            clip_drawing: next.option(Fields::part),
            primary_color: next.option(Fields::colour),
            font_size: next.option(Fields::float),
            pivot: next.option(Fields::pair),
            border: next.option(Fields::pair),
            shadow: next.option(Fields::pair),
            be_strength: next.byte(),
            shear: next.pair(),
            iclip_rect: next.option(Fields::rectangle),
            iclip_drawing: next.option(Fields::part),
            secondary_color: next.option(Fields::colour),
            outline_color: next.option(Fields::colour),
            shadow_color: next.option(Fields::colour),
            primary_alpha: next.option(Fields::byte),
            secondary_alpha: next.option(Fields::byte),
            outline_alpha: next.option(Fields::byte),
            shadow_alpha: next.option(Fields::byte),
            letter_spacing: next.option(Fields::float),
            wrap_style: next.option(Fields::byte),
            alignment: next.option(Fields::byte),
            font_name: next.option(Fields::font_name),
            font_encoding: next.option(Fields::byte),
            bold_weight: next.option(|next| next.word() as u16),
            reset_to_style: next.reset(),
            italic: next.option(Fields::flag),
            underline: next.option(Fields::flag),
            strikeout: next.option(Fields::flag),
            drawing_baseline_offset: next.option(|next| next.word() as i32),
            drawing_scale: next.option(Fields::byte),
        }
    }
}

impl Default for RenderState<'_> {
    fn default() -> Self {
        RenderState::identity()
    }
}

/// A rectangle of a \clip or an \iclip, its corners put in order.
#[derive(Clone, Copy, Debug, Default, PartialEq)]
pub struct ClipRect {
    /// Left.
    pub x1: f32,
    /// Top.
    pub y1: f32,
    /// Right.
    pub x2: f32,
    /// Bottom.
    pub y2: f32,
}

/// The words of a state, taken field by field.
struct Fields<'w, 't> {
    words: std::slice::Iter<'w, u32>,
    text: &'t str,
}

impl<'t> Fields<'_, 't> {
    fn word(&mut self) -> u32 {
        *self.words.next().expect("a state has 92 words")
    }

    fn float(&mut self) -> f32 {
        f32::from_bits(self.word())
    }

    fn pair(&mut self) -> (f32, f32) {
        (self.float(), self.float())
    }

    fn rectangle(&mut self) -> ClipRect {
        let [x1, y1, x2, y2] = [(); 4].map(|()| self.float());
        ClipRect { x1, y1, x2, y2 }
    }

    fn byte(&mut self) -> u8 {
        self.word() as u8
    }

    fn colour(&mut self) -> (u8, u8, u8) {
        (self.byte(), self.byte(), self.byte())
    }

    fn flag(&mut self) -> bool {
        self.word() == 1
    }

    fn part(&mut self) -> Part<'t> {
        let (offset, length) = (self.word(), self.word());
        Part::of(self.text, offset, length)
    }

    fn font_name(&mut self) -> FontName<'t> {
        FontName { letters: self.part(), parameter: self.part() }
    }

    /// A flag and a field, whose words are 0 where it is absent.
    fn option<T>(&mut self, field: impl FnOnce(&mut Self) -> T) -> Option<T> {
        let present = self.flag();
        let value = field(self);
        present.then_some(value)
    }

    /// 0 none, 1 a plain \r, 2 a named one; then the name.
    fn reset(&mut self) -> Option<Option<Part<'t>>> {
        let (flag, name) = (self.word(), self.part());
        match flag {
            0 => None,
            1 => Some(None),
            _ => Some(Some(name)),
        }
    }
}

#[cfg(test)]
mod tests {
    use super::*;

    /// Words that hold their own number as an f32 or as it is, with all flags set: what a field gives then is the
    /// place that include/hannuvel.h has for it.
    #[test]
    fn every_field_is_taken_from_its_words() {
        let floats = [0..10, 11..15, 23..24, 25..27, 28..30, 31..33, 34..36, 37..41, 65..66];
        let flags = [
            6, 10, 15, 18, 22, 24, 27, 30, 36, 41, 44, 48, 52, 56, 58, 60, 62, 64, 66, 68, 70, 75, 77, 82, 84, 86, 88,
            90,
        ];
        let mut words: [u32; STATE_WORDS] = std::array::from_fn(|place| place as u32);
        floats.into_iter().flatten().for_each(|place| words[place] = (place as f32).to_bits());
        flags.into_iter().for_each(|place| words[place] = 1);
        (words[79], words[83], words[85], words[87]) = (2, 1, 0, 1);
        let text = "x".repeat(200);
        let part = |offset: usize, length: usize| Part::get(&text, offset, length).unwrap();
        let rect = |x1, y1, x2, y2| ClipRect { x1, y1, x2, y2 };
        let expected = RenderState {
            alpha_mul: 0.0,
            rotate_radians: 1.0,
            rotate_x_radians: 2.0,
            rotate_y_radians: 3.0,
            scale: (4.0, 5.0),
            translate: Some((7.0, 8.0)),
            blur_sigma: 9.0,
            clip_rect: Some(rect(11.0, 12.0, 13.0, 14.0)),
            clip_drawing: Some(part(16, 17)),
            primary_color: Some((19, 20, 21)),
            font_size: Some(23.0),
            pivot: Some((25.0, 26.0)),
            border: Some((28.0, 29.0)),
            shadow: Some((31.0, 32.0)),
            be_strength: 33,
            shear: (34.0, 35.0),
            iclip_rect: Some(rect(37.0, 38.0, 39.0, 40.0)),
            iclip_drawing: Some(part(42, 43)),
            secondary_color: Some((45, 46, 47)),
            outline_color: Some((49, 50, 51)),
            shadow_color: Some((53, 54, 55)),
            primary_alpha: Some(57),
            secondary_alpha: Some(59),
            outline_alpha: Some(61),
            shadow_alpha: Some(63),
            letter_spacing: Some(65.0),
            wrap_style: Some(67),
            alignment: Some(69),
            font_name: Some(FontName { letters: part(71, 72), parameter: part(73, 74) }),
            font_encoding: Some(76),
            bold_weight: Some(78),
            reset_to_style: Some(Some(part(80, 81))),
            italic: Some(true),
            underline: Some(false),
            strikeout: Some(true),
            drawing_baseline_offset: Some(89),
            drawing_scale: Some(91),
        };
        assert_eq!(RenderState::of(&words, &text), expected);
    }
}
