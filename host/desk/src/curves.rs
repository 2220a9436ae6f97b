//! The curves of a line over time: what its state holds, at enough instants to draw it.

use crate::ranges::{self, Range};
use hannuvel::{Refusal, RenderState, Tags};

/// A group of curves on one scale.
pub struct Panel {
    pub name: &'static str,
    /// The scale, where it does not come from the curves.
    pub scale: Option<(f64, f64)>,
    pub curves: Vec<Curve>,
}

/// A curve: its points by stretches, between which the field is not set.
#[derive(Debug)]
pub struct Curve {
    pub name: &'static str,
    pub stretches: Vec<Vec<(f64, f64)>>,
}

/// What a panel shows.
struct Plan {
    name: &'static str,
    scale: Option<(f64, f64)>,
    curves: &'static [Shown],
}

/// What a curve shows: its name, the field, and the number that the field has without any tag, if it has one.
type Shown = (&'static str, fn(&RenderState) -> Option<f64>, Option<f64>);

/// Opacity is shown in any case.
const PLANS: [Plan; 6] = [
    Plan {
        name: "opacity",
        scale: Some((0.0, 1.0)),
        curves: &[("alpha_mul", |state| Some(state.alpha_mul.into()), None)],
    },
    Plan { name: "size", scale: None, curves: &[("font_size", |state| state.font_size.map(f64::from), None)] },
    Plan {
        name: "scale",
        scale: None,
        curves: &[
            ("x", |state| Some(state.scale.0.into()), Some(1.0)),
            ("y", |state| Some(state.scale.1.into()), Some(1.0)),
        ],
    },
    Plan {
        name: "position",
        scale: None,
        curves: &[
            ("x", |state| state.translate.map(|place| place.0.into()), None),
            ("y", |state| state.translate.map(|place| place.1.into()), None),
        ],
    },
    Plan {
        name: "rotation in degrees",
        scale: None,
        curves: &[
            ("around z", |state| Some(f64::from(state.rotate_radians).to_degrees()), Some(0.0)),
            ("around x", |state| Some(f64::from(state.rotate_x_radians).to_degrees()), Some(0.0)),
            ("around y", |state| Some(f64::from(state.rotate_y_radians).to_degrees()), Some(0.0)),
        ],
    },
    Plan {
        name: "alphas",
        scale: Some((0.0, 255.0)),
        curves: &[
            ("primary", |state| state.primary_alpha.map(f64::from), None),
            ("secondary", |state| state.secondary_alpha.map(f64::from), None),
            ("border", |state| state.outline_alpha.map(f64::from), None),
            ("shadow", |state| state.shadow_alpha.map(f64::from), None),
        ],
    },
];

/// So many instants are looked at, beside the two at the ends of each range of marks.
const MOST_INSTANTS: i64 = 600;

/// The panels of a line, less those whose fields no tag sets, and the names of these.
pub fn panels(tags: &Tags, marks: &[Range], duration: i32) -> Result<(Vec<Panel>, Vec<&'static str>), Refusal> {
    let states = instants(marks, duration).into_iter().map(|at| Ok((at, tags.evaluate_at(at, duration)?)));
    let states = states.collect::<Result<Vec<_>, Refusal>>()?;
    let (mut panels, mut unset) = (Vec::new(), Vec::new());
    for Plan { name, scale, curves } in PLANS {
        let curves: Vec<Curve> = curves.iter().filter_map(|shown| curve(shown, &states)).collect();
        match curves.is_empty() {
            true => unset.push(name),
            false => panels.push(Panel { name, scale, curves }),
        }
    }
    Ok((panels, unset))
}

/// The instants to look at: both ends of the line and of each range of marks, the instant before it, and some inside.
/// Where no mark lies between two of them, the state stays there.
fn instants(marks: &[Range], duration: i32) -> Vec<i32> {
    let step = (ranges::total(marks) / MOST_INSTANTS).max(1);
    let mut instants = vec![0, i64::from(duration.max(0))];
    for range in marks {
        instants.push(range.first - 1);
        instants.extend((range.first..range.last).step_by(step as usize));
        instants.push(range.last);
    }
    instants.sort_unstable();
    instants.dedup();
    instants.into_iter().filter_map(|at| i32::try_from(at).ok()).collect()
}

/// A curve, if its field is set at some instant.
fn curve(&(name, field, rest): &Shown, states: &[(i32, RenderState)]) -> Option<Curve> {
    let points: Vec<_> = states.iter().map(|(at, state)| (f64::from(*at), field(state))).collect();
    let set = points.iter().any(|(_, value)| value.is_some() && *value != rest);
    let stretches = points.split(|(_, value)| value.is_none());
    let stretches = stretches.map(|stretch| stretch.iter().filter_map(|(at, value)| Some((*at, (*value)?))).collect());
    set.then(|| Curve { name, stretches: stretches.filter(|stretch: &Vec<_>| !stretch.is_empty()).collect() })
}

#[cfg(test)]
mod tests {
    use super::*;
    use crate::marks::Marks;
    use hannuvel::parse_overrides;

    fn named(text: &str) -> (Vec<String>, Vec<&'static str>) {
        let mut table = [0; 800];
        let tags = parse_overrides(text, &mut table).unwrap();
        let marks = Marks::of(&tags, 1000, &[]).unwrap();
        let (panels, unset) = panels(&tags, &marks.ranges, 1000).unwrap();
        let curves = |panel: &Panel| panel.curves.iter().map(|curve| curve.name).collect::<Vec<_>>().join(" ");
        (panels.iter().map(|panel| format!("{}: {}", panel.name, curves(panel))).collect(), unset)
    }

    #[test]
    fn only_what_is_set_is_shown() {
        let (shown, unset) = named("");
        assert_eq!(shown, ["opacity: alpha_mul"]);
        assert_eq!(unset, ["size", "scale", "position", "rotation in degrees", "alphas"]);
        let (shown, _) = named(r"\fs20\frx10\3a&H80&\t(\fscy200)");
        let panels =
            ["opacity: alpha_mul", "size: font_size", "scale: y", "rotation in degrees: around x", "alphas: border"];
        assert_eq!(shown, panels);
    }

    #[test]
    fn instants_stand_at_every_move() {
        assert_eq!(instants(&[Range::new(500, 500)], 1000), [0, 499, 500, 1000]);
        assert_eq!(instants(&[Range::new(1, 3), Range::new(9, 10)], 10), [0, 1, 2, 3, 8, 9, 10]);
        assert!(instants(&[Range::new(1, 1_000_000)], 1_000_000).len() < 700);
    }

    #[test]
    fn a_curve_ends_where_its_field_does() {
        let state = |font_size| RenderState { font_size, ..RenderState::identity() };
        let states = [(0, state(Some(1.0))), (5, state(None)), (7, state(Some(2.0))), (9, state(Some(3.0)))];
        let size = PLANS[1].curves[0];
        assert_eq!(curve(&size, &states).unwrap().stretches, [vec![(0.0, 1.0)], vec![(7.0, 2.0), (9.0, 3.0)]]);
        assert!(curve(&size, &states[1..2]).is_none());
    }
}
