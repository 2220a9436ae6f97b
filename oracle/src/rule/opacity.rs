//! 02, N8: opacity is from 0 to 1 and no NaN, and exactly 1 where no \fad or \fade stands at any depth.

use crate::built::animate::{AnimatedTag, CueAnimation, RenderState};

/// Holds the opacity of a state of the Rust, at an instant and a duration in range, to the rule.
pub fn check(cue: &CueAnimation, state: &RenderState) {
    let opacity = state.alpha_mul;
    assert!(
        holds(&cue.tags, opacity),
        "opacity {opacity:?}: {:?}",
        cue.tags
    );
}

/// Minus zero is left out too: as a number the bits are at most those of 1.
fn holds(tags: &[AnimatedTag], opacity: f32) -> bool {
    let one = 1f32.to_bits();
    if has_fade(tags) {
        opacity.to_bits() <= one
    } else {
        opacity.to_bits() == one
    }
}

fn has_fade(tags: &[AnimatedTag]) -> bool {
    use AnimatedTag::*;
    tags.iter().any(|tag| match tag {
        Fad { .. } | Fade { .. } => true,
        T { inner, .. } => has_fade(inner),
        _ => false,
    })
}

#[cfg(test)]
mod tests {
    use super::*;
    use crate::built::animate::parse_overrides;

    fn read(text: &str) -> Vec<AnimatedTag> {
        let mut tags = Vec::new();
        parse_overrides(text, &mut tags);
        tags
    }

    #[test]
    fn a_fade_at_any_depth_allows_from_0_to_1() {
        let texts = [
            "\\fad(1,2)",
            "\\fade(1,2,3,4,5,6,7)",
            "\\b1\\t(\\fs9\\t(\\fad(1,2)))",
        ];
        let next = |x: f32| f32::from_bits(x.to_bits() + 1);
        for text in texts {
            let tags = read(text);
            assert!(
                [0.0, f32::MIN_POSITIVE, 0.5, 1.0]
                    .iter()
                    .all(|&x| holds(&tags, x)),
                "{text}"
            );
            let beyond = [
                next(1.0),
                2.0,
                -f32::MIN_POSITIVE,
                -0.0,
                f32::NAN,
                f32::INFINITY,
            ];
            assert!(beyond.iter().all(|&x| !holds(&tags, x)), "{text}");
        }
    }

    #[test]
    fn without_one_it_is_1() {
        let tags = read("\\alpha&HFF&\\t(0,9,\\r\\t(\\1a&H80&))\\k20");
        assert!(holds(&tags, 1.0));
        let below = f32::from_bits(1f32.to_bits() - 1);
        assert!(
            [0.0, 0.5, below, f32::NAN]
                .iter()
                .all(|&x| !holds(&tags, x))
        );
    }
}
