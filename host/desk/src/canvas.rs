//! Pictures as SVG, by plotters.

use crate::stop::Stop;
use plotters::coord::Shift;
use plotters::prelude::*;
use plotters::style::text_anchor::{HPos, Pos, VPos};
use std::error::Error;
use std::fs;
use std::path::Path;

pub type Area<'c> = DrawingArea<SVGBackend<'c>, Shift>;
pub type Drawn = Result<(), Box<dyn Error>>;

pub const INK: RGBColor = RGBColor(0x26, 0x2B, 0x33);
pub const FAINT: RGBColor = RGBColor(0x6B, 0x72, 0x7D);
pub const GRID: RGBColor = RGBColor(0xCF, 0xD6, 0xDE);

/// Plotters draws at whole points only. It is given so many for each point of the picture, so that curves are smooth.
const FINE: i32 = 8;

/// A length in points of the picture as plotters counts it.
pub fn px(points: i32) -> i32 {
    points * FINE
}

/// Draws a picture of so many points and writes it.
pub fn write(file: &Path, (width, height): (i32, i32), draw: impl FnOnce(&Area) -> Drawn) -> Result<(), Stop> {
    let svg = picture(width, height, draw).map_err(|error| Stop::Failed(format!("the picture fails: {error}")))?;
    fs::write(file, svg).map_err(|error| Stop::Failed(format!("{} cannot be written: {error}", file.display())))
}

fn picture(width: i32, height: i32, draw: impl FnOnce(&Area) -> Drawn) -> Result<String, Box<dyn Error>> {
    let mut svg = String::new();
    let size = |width, height| format!("width=\"{width}\" height=\"{height}\"");
    {
        let root = SVGBackend::with_string(&mut svg, (px(width) as u32, px(height) as u32)).into_drawing_area();
        root.fill(&WHITE)?;
        draw(&root)?;
        root.present()?;
    }
    Ok(svg.replacen(&size(px(width), px(height)), &size(width, height), 1))
}

/// How a word is written.
#[derive(Clone, Copy)]
pub struct Font {
    pub family: &'static str,
    pub size: i32,
    pub colour: RGBColor,
    pub at: HPos,
}

impl Font {
    pub const fn new(size: i32, colour: RGBColor) -> Font {
        Font { family: "sans-serif", size, colour, at: HPos::Left }
    }

    pub fn style(self) -> TextStyle<'static> {
        let font = (self.family, px(self.size)).into_font();
        TextStyle {
            color: self.colour.to_backend_color(),
            ..TextStyle::from(font).pos(Pos::new(self.at, VPos::Center))
        }
    }
}

/// Writes a word at a point of an area, its middle as high as the point.
pub fn word(area: &Area, text: &str, (x, y): (i32, i32), font: Font) -> Drawn {
    Ok(area.draw_text(&plain(text), &font.style(), (px(x), px(y)))?)
}

/// A text without control characters, which XML cannot hold.
pub fn plain(text: &str) -> String {
    text.chars().map(|c| if c.is_control() { ' ' } else { c }).collect()
}

/// The beginning of a text, with dots where it is cut.
pub fn cut(text: &str, most: usize) -> String {
    match text.char_indices().nth(most) {
        Some((place, _)) => format!("{}…", &text[..place]),
        None => text.into(),
    }
}

/// A number of an axis, with no more places than it needs.
pub fn number(value: &f64) -> String {
    let text = format!("{value:.3}");
    let text = text.trim_end_matches('0').trim_end_matches('.');
    if text == "-0" { "0".into() } else { text.into() }
}

/// The span of some numbers with room around it; never empty.
pub fn span(numbers: impl Iterator<Item = f64>) -> std::ops::Range<f64> {
    let (low, high) = numbers.fold((f64::MAX, f64::MIN), |(low, high), number| (low.min(number), high.max(number)));
    match low <= high {
        true => {
            let room = if low < high { 0.08 * (high - low) } else { (0.1 * low.abs()).max(1.0) };
            low - room..high + room
        }
        false => 0.0..1.0,
    }
}

#[cfg(test)]
mod tests {
    use super::*;

    #[test]
    fn numbers_of_an_axis() {
        assert_eq!([0.0, -0.0, 1.5, 100.0, -0.25, 0.0001].map(|n| number(&n)), ["0", "0", "1.5", "100", "-0.25", "0"]);
    }

    #[test]
    fn spans_have_room() {
        assert_eq!(span([0.0, 100.0].into_iter()), -8.0..108.0);
        assert_eq!(span([5.0].into_iter()), 4.0..6.0);
        assert_eq!(span([].into_iter()), 0.0..1.0);
    }

    #[test]
    fn a_picture_has_its_size() {
        let svg = picture(30, 20, |root| word(root, "a\u{1b}<b>", (1, 2), Font::new(9, INK))).unwrap();
        assert!(svg.starts_with("<svg width=\"30\" height=\"20\" viewBox=\"0 0 240 160\""), "{svg}");
        assert!(svg.contains("a &lt;b&gt;"), "{svg}");
    }

    #[test]
    fn a_long_text_is_cut() {
        assert_eq!((cut("abc", 3), cut("abcd", 3)), ("abc".into(), "abc…".into()));
    }
}
