//! The fields of a state that are set, by their names.

use hannuvel::{ClipRect, RenderState};
use serde::Serialize;
use std::fmt;

/// A field with its value.
#[derive(Debug, PartialEq)]
pub struct Field {
    pub name: &'static str,
    pub value: Value,
}

/// What a field holds.
#[derive(Clone, Debug, PartialEq, Serialize)]
#[serde(untagged)]
pub enum Value {
    Number(f32),
    Pair {
        x: f32,
        y: f32,
    },
    Rectangle {
        x1: f32,
        y1: f32,
        x2: f32,
        y2: f32,
    },
    Colour {
        red: u8,
        green: u8,
        blue: u8,
    },
    Whole(i32),
    Flag(bool),
    Name(String),
    /// The line's own style, for a \r without a name.
    Own(()),
}

impl fmt::Display for Value {
    fn fmt(&self, f: &mut fmt::Formatter) -> fmt::Result {
        match self {
            Value::Number(number) => write!(f, "{number}"),
            Value::Pair { x, y } => write!(f, "{x}, {y}"),
            Value::Rectangle { x1, y1, x2, y2 } => write!(f, "{x1}, {y1} to {x2}, {y2}"),
            Value::Colour { red, green, blue } => write!(f, "red {red} green {green} blue {blue}"),
            Value::Whole(number) => write!(f, "{number}"),
            Value::Flag(on) => f.write_str(if *on { "on" } else { "off" }),
            Value::Name(name) => write!(f, "\"{name}\""),
            Value::Own(()) => f.write_str("the line's own"),
        }
    }
}

impl From<f32> for Value {
    fn from(number: f32) -> Self {
        Value::Number(number)
    }
}

impl From<(f32, f32)> for Value {
    fn from((x, y): (f32, f32)) -> Self {
        Value::Pair { x, y }
    }
}

impl From<ClipRect> for Value {
    fn from(ClipRect { x1, y1, x2, y2 }: ClipRect) -> Self {
        Value::Rectangle { x1, y1, x2, y2 }
    }
}

impl From<(u8, u8, u8)> for Value {
    fn from((red, green, blue): (u8, u8, u8)) -> Self {
        Value::Colour { red, green, blue }
    }
}

impl From<i32> for Value {
    fn from(number: i32) -> Self {
        Value::Whole(number)
    }
}

impl From<u8> for Value {
    fn from(number: u8) -> Self {
        Value::Whole(number.into())
    }
}

impl From<u16> for Value {
    fn from(number: u16) -> Self {
        Value::Whole(number.into())
    }
}

impl From<bool> for Value {
    fn from(on: bool) -> Self {
        Value::Flag(on)
    }
}

impl From<hannuvel::Part<'_>> for Value {
    fn from(part: hannuvel::Part) -> Self {
        Value::Name(part.to_string())
    }
}

impl From<hannuvel::FontName<'_>> for Value {
    fn from(name: hannuvel::FontName) -> Self {
        Value::Name(name.to_string())
    }
}

impl From<Option<hannuvel::Part<'_>>> for Value {
    fn from(name: Option<hannuvel::Part>) -> Self {
        name.map_or(Value::Own(()), Value::from)
    }
}

/// The fields that a tag has set; of those that every state has, the ones that are not as without any tag.
pub fn set_fields(state: &RenderState) -> Vec<Field> {
    let mut set = Vec::new();
    let none = RenderState::identity();
    let mut put = |name, value: Option<Value>| set.extend(value.map(|value| Field { name, value }));
    macro_rules! always {
        ($($name:ident)*) => {
            $(put(stringify!($name), (state.$name != none.$name).then(|| Value::from(state.$name)));)*
        };
    }
    macro_rules! optional {
        ($($name:ident)*) => { $(put(stringify!($name), state.$name.map(Value::from));)* };
    }
    always!(alpha_mul rotate_radians rotate_x_radians rotate_y_radians scale);
    optional!(translate);
    always!(blur_sigma);
    optional!(clip_rect clip_drawing primary_color font_size pivot border shadow);
    always!(be_strength shear);
    optional!(iclip_rect iclip_drawing secondary_color outline_color shadow_color);
    optional!(primary_alpha secondary_alpha outline_alpha shadow_alpha letter_spacing wrap_style alignment font_name);
    optional!(font_encoding bold_weight reset_to_style italic underline strikeout);
    optional!(drawing_baseline_offset drawing_scale);
    set
}

#[cfg(test)]
mod tests {
    use super::*;
    use hannuvel::{Table, parse_overrides};

    fn told(text: &str) -> Vec<String> {
        let mut table = Table::<128>::new();
        let tags = parse_overrides(text, &mut table).unwrap();
        let state = tags.evaluate_at(500, 1000).unwrap();
        set_fields(&state).iter().map(|field| format!("{} {}", field.name, field.value)).collect()
    }

    #[test]
    fn nothing_is_set_without_a_tag() {
        assert_eq!(told(""), [""; 0]);
        assert_eq!(told(r"\fad(100,100)\frz0"), [""; 0]);
    }

    #[test]
    fn every_field_is_told() {
        let all = r"\fad(1000,0)\frz-45\frx10\fry20\fscx150\pos(1,2)\blur2\clip(4,3,2,1)\clip(2,m 0 0)\1c&H0000FF&\fs20
            \org(5,6)\bord2\shad5\be3\fax0.5\iclip(1,2,3,4)\iclip(m 0 0)\2c&H010203&\3c&HFF0000&\4c&H00FF00&\1a&H01&
            \2a&H02&\3a&H03&\4a&H04&\fsp1.5\q2\an7\fnArial(x)\fe1\b1\i1\u0\s1\pbo-7\p3";
        let told = told(all);
        insta::assert_snapshot!(told.join("\n"));
    }

    #[test]
    fn a_reset_is_told() {
        assert_eq!(told(r"\rTop"), [r#"reset_to_style "Top""#]);
        assert_eq!(told(r"\r"), ["reset_to_style the line's own"]);
    }
}
