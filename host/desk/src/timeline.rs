//! `hannuvel timeline`: a picture of a line over time.

use crate::arguments::Timeline;
use crate::block;
use crate::canvas::{self, Area, Drawn, FAINT, Font, GRID, INK, number, px, word};
use crate::curves::{self, Panel};
use crate::input::Text;
use crate::karaoke;
use crate::marks::Marks;
use crate::moves::{Line, Moves};
use crate::ranges::{self, Range, grouped};
use crate::report::{Fits, Report};
use crate::stop::Stop;
use hannuvel::{KaraokeKind, KaraokeSpan};
use plotters::coord::types::RangedCoordf64;
use plotters::prelude::*;
use plotters::style::text_anchor::HPos;

type Chart<'a, 'b> = ChartContext<'a, SVGBackend<'b>, Cartesian2d<RangedCoordf64, RangedCoordf64>>;

const WIDTH: i32 = 980;
const LEFT: i32 = 64;
const RIGHT: i32 = 150;
const TITLE: i32 = 64;
const PANEL: i32 = 124;
const SYLLABLES: i32 = 56;
const MARKS: i32 = 64;
const FOOT: i32 = 30;
/// The axis of time below the marks.
const AXIS: i32 = 26;

/// Behind marks, and behind syllables that move; where nothing does, the picture is left pale.
const MARKED: RGBColor = RGBColor(0xE3, 0xEE, 0xF8);
const SINGING: RGBColor = RGBColor(0xFD, 0xF4, 0xE4);
const CURVES: [RGBColor; 4] =
    [RGBColor(0x00, 0x72, 0xB2), RGBColor(0xD5, 0x5E, 0x00), RGBColor(0x00, 0x9E, 0x73), RGBColor(0xA0, 0x4F, 0x88)];
const SUNG: RGBColor = RGBColor(0xE0, 0x8A, 0x00);

pub fn answer(options: &Timeline, text: &Text) -> Result<Report, Stop> {
    let mut table = block::table(&options.block);
    let tags = block::read(&options.block, text, &mut table)?;
    let line = Line::of(tags, options.duration)?;
    let marks = Marks::of(&tags, options.duration, &[])?;
    let moves = line.moves(&marks)?;
    let marked = marks.moving(options.duration);
    let (panels, unset) = curves::panels(&tags, &marked, options.duration)?;
    let picture = Picture {
        text,
        duration: options.duration,
        marks: &marks,
        marked: &marked,
        moves: &moves,
        spans: &line.spans,
        panels: &panels,
        unset: &unset,
    };
    canvas::write(&options.svg, (WIDTH, picture.height()), |root| picture.draw(root))?;
    Ok(Report {
        fits: Some(Fits::new(tags.places(), options.block.places.into(), text)),
        moves: Some(moves),
        marks: Some(marks),
        syllables: Some(line.spans.iter().map(karaoke::syllable).collect()),
        picture: Some(options.svg.display().to_string()),
        ..Report::new("timeline", text, Some(options.duration))
    })
}

/// What the picture shows.
struct Picture<'a> {
    text: &'a Text,
    duration: i32,
    marks: &'a Marks,
    /// Where there may be marks.
    marked: &'a [Range],
    moves: &'a Moves,
    spans: &'a [KaraokeSpan],
    panels: &'a [Panel],
    unset: &'a [&'static str],
}

impl Picture<'_> {
    fn height(&self) -> i32 {
        let panels = PANEL * self.panels.len() as i32;
        TITLE + panels + self.syllables() + MARKS + FOOT
    }

    fn syllables(&self) -> i32 {
        if self.spans.is_empty() { 0 } else { SYLLABLES }
    }

    /// The end of the axis of time.
    fn end(&self) -> f64 {
        f64::from(self.duration.max(1))
    }

    fn draw(&self, root: &Area) -> Drawn {
        let (title, mut rest) = root.split_vertically(px(TITLE));
        self.title(&title)?;
        for panel in self.panels {
            let (area, below) = rest.split_vertically(px(PANEL));
            self.panel(&area, panel)?;
            rest = below;
        }
        let (area, rest) = rest.split_vertically(px(self.syllables()));
        if !self.spans.is_empty() {
            self.bars(&area)?;
        }
        let (area, foot) = rest.split_vertically(px(MARKS));
        self.ticks(&area)?;
        self.foot(&foot)
    }

    fn title(&self, area: &Area) -> Drawn {
        let text = Font { family: "monospace", ..Font::new(15, INK) };
        word(area, &canvas::cut(&self.text.text, 92), (20, 22), text)?;
        let moves = self.moves.told(!self.spans.is_empty(), 8);
        let marks = ranges::counted(ranges::total(&self.marks.ranges), "mark");
        let syllables = ranges::counted(self.spans.len() as i64, "syllable");
        let line = format!("{} ms; moves: {moves}; {marks}, {syllables}", grouped(self.duration));
        word(area, &line, (20, 44), Font::new(12, FAINT))
    }

    fn foot(&self, area: &Area) -> Drawn {
        let unset = match self.unset.is_empty() {
            true => String::new(),
            false => format!(" Set by no tag: {}.", self.unset.join(", ")),
        };
        let sung = if self.spans.is_empty() { "" } else { " Orange: only syllables move." };
        let line = format!("Blue: there are marks.{sung} White: nothing moves.{unset}");
        word(area, &line, (LEFT, 12), Font::new(11, FAINT))
    }

    /// A chart over the whole line, with what moves shaded; its axis of time is so high.
    fn chart<'a, 'b>(
        &self,
        area: &'a Area<'b>,
        scale: std::ops::Range<f64>,
        axis: i32,
    ) -> Result<Chart<'a, 'b>, Box<dyn std::error::Error>> {
        let mut chart = ChartBuilder::on(area)
            .margin_right(px(RIGHT))
            .margin_top(px(6))
            .margin_bottom(px(6))
            .set_label_area_size(LabelAreaPosition::Left, px(LEFT))
            .set_label_area_size(LabelAreaPosition::Bottom, px(axis))
            .build_cartesian_2d(0.0..self.end(), scale.clone())?;
        let shade = |range: &Range, colour: RGBColor| {
            let corners = [(range.first as f64 - 1.0, scale.start), (range.last as f64, scale.end)];
            Rectangle::new(corners, colour.filled())
        };
        chart.draw_series(self.moves.by_syllables.iter().map(|range| shade(range, SINGING)))?;
        chart.draw_series(self.marked.iter().map(|range| shade(range, MARKED)))?;
        Ok(chart)
    }

    fn panel(&self, area: &Area, panel: &Panel) -> Drawn {
        let values = || panel.curves.iter().flat_map(|curve| curve.stretches.iter().flatten()).map(|point| point.1);
        let scale = match panel.scale {
            Some((low, high)) => canvas::span([low, high].into_iter().chain(values())),
            None => canvas::span(values()),
        };
        let mut chart = self.chart(area, scale, 0)?;
        mesh(&mut chart, 4)?;
        let column = WIDTH - RIGHT + 14;
        word(area, panel.name, (column, 16), Font::new(13, INK))?;
        // Curves that lie on one another are one, in one colour.
        let equal = |a: usize, b: usize| panel.curves[a].stretches == panel.curves[b].stretches;
        let same = |place: usize| (0..place).find(|&other| equal(other, place)).unwrap_or(place);
        for (place, curve) in panel.curves.iter().enumerate() {
            let colour = CURVES[same(place)];
            if same(place) == place {
                for stretch in &curve.stretches {
                    let line = LineSeries::new(stretch.iter().copied(), colour.stroke_width(px(2) as u32));
                    chart.draw_series(line)?;
                }
            }
            let height = 38 + 18 * place as i32;
            let swatch = [(px(column), px(height)), (px(column + 16), px(height))];
            area.draw(&PathElement::new(swatch, colour.stroke_width(px(3) as u32)))?;
            word(area, curve.name, (column + 22, height), Font::new(12, FAINT))?;
        }
        Ok(())
    }

    /// The syllables: a fill as a bar, a sweep as the way that its progress goes, an outline as a frame.
    fn bars(&self, area: &Area) -> Drawn {
        let mut chart = self.chart(area, 0.0..1.0, 0)?;
        chart.configure_mesh().disable_mesh().disable_axes().draw()?;
        for (place, span) in self.spans.iter().enumerate() {
            self.bar(&mut chart, place, span)?;
        }
        let column = WIDTH - RIGHT + 14;
        word(area, "syllables", (column, 16), Font::new(13, INK))?;
        word(area, &format!("{} of them", self.spans.len()), (column, 36), Font::new(12, FAINT))
    }

    /// One of them. What lies behind the line is cut off, and the frame left open there.
    fn bar(&self, chart: &mut Chart, place: usize, span: &KaraokeSpan) -> Drawn {
        let (start, end) = (f64::from(span.start_ms), f64::from(span.end_ms));
        let shown = end.min(self.end());
        if start >= self.end() {
            return Ok(());
        }
        let inside = match span.kind {
            KaraokeKind::Fill => SUNG.mix(0.55),
            KaraokeKind::Sweep => SUNG.mix(0.15),
            KaraokeKind::Outline => WHITE.mix(1.0),
        };
        chart.draw_series([Rectangle::new([(start, 0.1), (shown, 0.9)], inside.filled())])?;
        if span.kind == KaraokeKind::Sweep && start < end {
            let height = 0.1 + 0.8 * (shown - start) / (end - start);
            let swept = vec![(start, 0.1), (shown, 0.1), (shown, height)];
            chart.draw_series([Polygon::new(swept, SUNG.mix(0.55))])?;
        }
        let mut frame = vec![(shown, 0.9), (start, 0.9), (start, 0.1), (shown, 0.1)];
        if shown == end {
            frame.push((shown, 0.9));
        }
        chart.draw_series([PathElement::new(frame, SUNG.stroke_width(px(1) as u32))])?;
        let name = (place + 1).to_string();
        if self.points(shown - start) > 8.0 * name.len() as f64 {
            let font = Font { at: HPos::Center, ..Font::new(12, INK) };
            let middle = (start + shown) / 2.0;
            chart.draw_series([plotters::element::Text::new(name, (middle, 0.5), font.style())])?;
        }
        Ok(())
    }

    /// How many points of the picture some milliseconds take.
    fn points(&self, milliseconds: f64) -> f64 {
        milliseconds * f64::from(WIDTH - LEFT - RIGHT) / self.end()
    }

    /// The marks, a tick for each where there is room, and the axis of time.
    fn ticks(&self, area: &Area) -> Drawn {
        let mut chart = self.chart(area, 0.0..1.0, AXIS)?;
        let axis = Font::new(11, FAINT);
        chart
            .configure_mesh()
            .disable_mesh()
            .disable_y_axis()
            .x_labels(12)
            .set_tick_mark_size(LabelAreaPosition::Bottom, px(4))
            .x_label_formatter(&number)
            .x_label_style(Font { at: HPos::Center, ..axis }.style())
            .axis_style(FAINT.stroke_width(px(1) as u32))
            .draw()?;
        let step = (3.0 / self.points(1.0)).ceil().max(1.0) as usize;
        for range in &self.marks.ranges {
            let places = (range.first..range.last).step_by(step).chain([range.last]);
            let tick = |at: i64| PathElement::new([(at as f64, 0.1), (at as f64, 0.9)], INK.stroke_width(px(1) as u32));
            chart.draw_series(places.map(tick))?;
        }
        let column = WIDTH - RIGHT + 14;
        word(area, "marks", (column, 16), Font::new(13, INK))?;
        word(area, "in milliseconds", (column, 33), axis)
    }
}

/// The grid and the numbers of a panel.
fn mesh(chart: &mut Chart, labels: usize) -> Drawn {
    let axis = Font { at: HPos::Right, ..Font::new(11, FAINT) };
    Ok(chart
        .configure_mesh()
        .x_labels(12)
        .y_labels(labels)
        .set_tick_mark_size(LabelAreaPosition::Left, px(4))
        .bold_line_style(GRID.stroke_width(px(1) as u32))
        .light_line_style(TRANSPARENT)
        .axis_style(FAINT.stroke_width(px(1) as u32))
        .y_label_formatter(&number)
        .y_label_style(axis.style())
        .draw()?)
}
