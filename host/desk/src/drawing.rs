//! `hannuvel drawing`: a picture of a drawing's path.

use crate::arguments::Drawing;
use crate::canvas::{self, Area, Drawn, FAINT, Font, GRID, INK, number, px, word};
use crate::input::Text;
use crate::report::{Fits, Report};
use crate::stop::{Refused, Stop};
use hannuvel::{Path, PathCommand, Point, RECORD_WORDS, parse_drawing};
use plotters::prelude::*;
use plotters::style::text_anchor::HPos;
use std::ops::Range;

const WIDTH: i32 = 760;
const HEIGHT: i32 = 640;
const TITLE: i32 = 64;
const AXIS: i32 = 48;
const MARGIN: i32 = 20;

const FILL: RGBColor = RGBColor(0x00, 0x72, 0xB2);
const HANDLE: RGBColor = RGBColor(0xD5, 0x5E, 0x00);

/// A curve is drawn with so many straight lines.
const PIECES: u16 = 48;

type Spot = (f64, f64);

pub fn answer(options: &Drawing, text: &Text) -> Result<Report, Stop> {
    let places = usize::from(options.places);
    let mut table = vec![0; RECORD_WORDS * places];
    let path = parse_drawing(&text.text, options.exponent, &mut table).map_err(Refused::lending(places))?;
    let shape = Shape::of(&path);
    canvas::write(&options.svg, (WIDTH, HEIGHT), |root| draw(root, text, &shape, path.len()))?;
    Ok(Report {
        fits: Some(Fits::new(path.len(), places, text)),
        path: Some(path.iter().map(Into::into).collect()),
        picture: Some(options.svg.display().to_string()),
        ..Report::new("drawing", text, None)
    })
}

/// What is drawn of a path: its subpaths as lines, its points, and its control points with the point each belongs to.
#[derive(Debug, Default, PartialEq)]
struct Shape {
    subpaths: Vec<Vec<Spot>>,
    points: Vec<Spot>,
    handles: Vec<[Spot; 2]>,
}

impl Shape {
    fn of(path: &Path) -> Shape {
        let mut shape = Shape::default();
        path.iter().for_each(|command| shape.add(command));
        shape
    }

    fn add(&mut self, command: PathCommand) {
        match command {
            PathCommand::MoveTo(point) => {
                self.subpaths.push(vec![spot(point)]);
                self.points.push(spot(point));
            }
            PathCommand::LineTo(point) => {
                self.pen().push(spot(point));
                self.points.push(spot(point));
            }
            PathCommand::CubicTo { c1, c2, end } => self.curve([c1, c2, end].map(spot)),
            PathCommand::Close => {
                let begun = self.pen().first().copied();
                self.pen().extend(begun);
            }
        }
    }

    fn curve(&mut self, [c1, c2, end]: [Spot; 3]) {
        let from = self.pen().last().copied().unwrap_or(c1);
        let pieces = (1..=PIECES).map(|piece| bezier([from, c1, c2, end], f64::from(piece) / f64::from(PIECES)));
        self.pen().extend(pieces);
        self.points.push(end);
        self.handles.extend([[from, c1], [end, c2]]);
    }

    /// The subpath that is being drawn.
    fn pen(&mut self) -> &mut Vec<Spot> {
        if self.subpaths.is_empty() {
            self.subpaths.push(Vec::new());
        }
        let last = self.subpaths.len() - 1;
        &mut self.subpaths[last]
    }

    /// All subpaths as one outline, so that one inside another is a hole if it goes the other way round: from each back
    /// to where the first begins, a way that is gone twice and so encloses nothing.
    fn outline(&self) -> Vec<Spot> {
        let Some(&home) = self.subpaths.iter().flatten().next() else { return Vec::new() };
        let closed =
            |subpath: &Vec<Spot>| subpath.iter().chain(subpath.first()).copied().chain([home]).collect::<Vec<_>>();
        self.subpaths.iter().filter(|subpath| !subpath.is_empty()).flat_map(closed).collect()
    }

    /// The ranges of both axes: all points with room around them, to one scale on an area of this size.
    fn frame(&self, (width, height): (i32, i32)) -> (Range<f64>, Range<f64>) {
        let spots = || self.subpaths.iter().flatten().chain(self.handles.iter().flatten());
        let (x, y) = (canvas::span(spots().map(|spot| spot.0)), canvas::span(spots().map(|spot| spot.1)));
        let (width, height) = (f64::from(width), f64::from(height));
        let unit = ((x.end - x.start) / width).max((y.end - y.start) / height);
        let around = |range: Range<f64>, length: f64| {
            let middle = (range.start + range.end) / 2.0;
            middle - unit * length / 2.0..middle + unit * length / 2.0
        };
        (around(x, width), around(y, height))
    }
}

fn spot(point: Point) -> Spot {
    (point.x.into(), point.y.into())
}

/// The point of a cubic Bézier curve at k from 0 to 1.
fn bezier([a, b, c, d]: [Spot; 4], k: f64) -> Spot {
    let weights = [(1.0 - k).powi(3), 3.0 * k * (1.0 - k).powi(2), 3.0 * k * k * (1.0 - k), k.powi(3)];
    let sum = |of: fn(Spot) -> f64| [a, b, c, d].into_iter().zip(weights).map(|(spot, weight)| of(spot) * weight).sum();
    (sum(|spot| spot.0), sum(|spot| spot.1))
}

fn draw(root: &Area, text: &Text, shape: &Shape, commands: usize) -> Drawn {
    let (title, area) = root.split_vertically(px(TITLE));
    word(&title, &canvas::cut(&text.text, 72), (MARGIN, 22), Font { family: "monospace", ..Font::new(15, INK) })?;
    let line = format!("{commands} commands, {} points, {} control points", shape.points.len(), shape.handles.len());
    word(&title, &line, (MARGIN, 44), Font::new(12, FAINT))?;
    key(&title)?;
    let (x, y) = shape.frame((WIDTH - AXIS - 2 * MARGIN, HEIGHT - TITLE - AXIS - MARGIN));
    let mut chart = ChartBuilder::on(&area)
        .margin_left(px(MARGIN))
        .margin_right(px(MARGIN))
        .margin_bottom(px(MARGIN))
        .set_label_area_size(LabelAreaPosition::Left, px(AXIS))
        .set_label_area_size(LabelAreaPosition::Bottom, px(AXIS))
        .build_cartesian_2d(x, y.end..y.start)?;
    let label = |at| Font { at, ..Font::new(11, FAINT) }.style();
    chart
        .configure_mesh()
        .set_all_tick_mark_size(px(4))
        .bold_line_style(GRID.stroke_width(px(1) as u32))
        .light_line_style(TRANSPARENT)
        .axis_style(FAINT.stroke_width(px(1) as u32))
        .x_label_formatter(&number)
        .y_label_formatter(&number)
        .x_label_style(label(HPos::Center))
        .y_label_style(label(HPos::Right))
        .draw()?;
    chart.draw_series([Polygon::new(shape.outline(), FILL.mix(0.25))])?;
    let line = |subpath: &Vec<Spot>| PathElement::new(subpath.clone(), FILL.stroke_width(px(2) as u32));
    chart.draw_series(shape.subpaths.iter().map(line))?;
    let handle = |handle: &[Spot; 2]| PathElement::new(*handle, HANDLE.mix(0.6).stroke_width(px(1) as u32));
    chart.draw_series(shape.handles.iter().map(handle))?;
    let control = |[_, control]: &[Spot; 2]| Circle::new(*control, px(4), HANDLE.stroke_width(px(2) as u32));
    chart.draw_series(shape.handles.iter().map(control))?;
    chart.draw_series(shape.points.iter().map(|point| Circle::new(*point, px(4), FILL.filled())))?;
    Ok(())
}

/// What the dots stand for.
fn key(title: &Area) -> Drawn {
    let (points, controls) = (WIDTH - 230, WIDTH - 140);
    title.draw(&Circle::new((px(points), px(44)), px(4), FILL.filled()))?;
    word(title, "points", (points + 12, 44), Font::new(12, FAINT))?;
    title.draw(&Circle::new((px(controls), px(44)), px(4), HANDLE.stroke_width(px(2) as u32)))?;
    word(title, "control points", (controls + 12, 44), Font::new(12, FAINT))
}

#[cfg(test)]
mod tests {
    use super::*;
    use hannuvel::Table;

    fn shape(text: &str) -> Shape {
        let mut table = Table::<64>::new();
        Shape::of(&parse_drawing(text, 1, &mut table).unwrap())
    }

    #[test]
    fn a_path_becomes_lines_and_points() {
        let square = shape("m 0 0 l 10 0 10 10 c");
        assert_eq!(square.subpaths, [[(0.0, 0.0), (10.0, 0.0), (10.0, 10.0), (0.0, 0.0)]]);
        assert_eq!(square.points.len(), 3);
        let curve = shape("m 0 0 b 0 10 10 10 10 0");
        assert_eq!(curve.handles, [[(0.0, 0.0), (0.0, 10.0)], [(10.0, 0.0), (10.0, 10.0)]]);
        assert_eq!(curve.subpaths[0].len(), 1 + usize::from(PIECES));
        assert_eq!(curve.subpaths[0][usize::from(PIECES) / 2], (5.0, 7.5));
        assert_eq!(shape("c").subpaths, [[]; 1]);
        assert_eq!(shape("").outline(), []);
    }

    #[test]
    fn subpaths_share_one_outline() {
        let two = shape("m 0 0 l 9 0 9 9 m 1 1 l 2 1");
        let home = (0.0, 0.0);
        let first = [home, (9.0, 0.0), (9.0, 9.0), home, home, home];
        let second = [(1.0, 1.0), (2.0, 1.0), (1.0, 1.0), home];
        assert_eq!(two.outline(), [&first[..], &second].concat());
    }

    #[test]
    fn both_axes_have_one_scale() {
        let (x, y) = shape("m 0 0 l 100 10").frame((200, 100));
        assert!(((x.end - x.start) / 200.0 - (y.end - y.start) / 100.0).abs() < 1e-9);
        assert!(x.start < 0.0 && x.end > 100.0 && y.start < 0.0 && y.end > 10.0);
    }
}
