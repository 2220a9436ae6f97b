//! What a tag says, in words.

use hannuvel::{AnimatedTag, KaraokeKind, Tags};

/// The tag in words.
pub fn says(tag: AnimatedTag) -> String {
    use AnimatedTag::*;
    match tag {
        Fad { t1_ms, t2_ms } => format!("fades in over {t1_ms} ms and out over {t2_ms} ms"),
        Fade { a1, a2, a3, t1_ms, t2_ms, t3_ms, t4_ms } => {
            format!("alpha {a1} to {a2} at {t1_ms} to {t2_ms} ms, to {a3} at {t3_ms} to {t4_ms} ms")
        }
        Pos { x, y } => format!("position {x}, {y}"),
        Move { x1, y1, x2, y2, t1_ms, t2_ms } => format!("moves from {x1}, {y1} to {x2}, {y2} {}", over(t1_ms, t2_ms)),
        Frz(degrees) => format!("rotation around z {degrees}°"),
        Frx(degrees) => format!("rotation around x {degrees}°"),
        Fry(degrees) => format!("rotation around y {degrees}°"),
        Blur(blur) => format!("blur {blur}"),
        Fscx(percent) => format!("scale in x {percent} %"),
        Fscy(percent) => format!("scale in y {percent} %"),
        Color1(colour) => coloured("primary", colour),
        Color2(colour) => coloured("secondary", colour),
        Color3(colour) => coloured("border", colour),
        Color4(colour) => coloured("shadow", colour),
        Fs(size) => format!("font size {size}"),
        ClipRect { x1, y1, x2, y2 } => format!("shows only {x1}, {y1} to {x2}, {y2}"),
        IClipRect { x1, y1, x2, y2 } => format!("hides {x1}, {y1} to {x2}, {y2}"),
        ClipDrawing(part) => format!("shows only the drawing \"{part}\""),
        IClipDrawing(part) => format!("hides the drawing \"{part}\""),
        Org { x, y } => format!("rotates about {x}, {y}"),
        Bord(width) => format!("border {width}"),
        Xbord(width) => format!("border in x {width}"),
        Ybord(width) => format!("border in y {width}"),
        Shad(distance) => format!("shadow {distance}"),
        Xshad(distance) => format!("shadow in x {distance}"),
        Yshad(distance) => format!("shadow in y {distance}"),
        Be(strength) => format!("edge blur {strength}"),
        Fax(shear) => format!("shear in x {shear}"),
        Fay(shear) => format!("shear in y {shear}"),
        Alpha(alpha) => format!("all alphas {alpha}"),
        Alpha1(alpha) => format!("primary alpha {alpha}"),
        Alpha2(alpha) => format!("secondary alpha {alpha}"),
        Alpha3(alpha) => format!("border alpha {alpha}"),
        Alpha4(alpha) => format!("shadow alpha {alpha}"),
        Fsp(spacing) => format!("letter spacing {spacing}"),
        Q(style) => format!("wrap style {style}"),
        An(position) => format!("alignment {position}"),
        A(position) => format!("alignment {position}, old numbering"),
        Fn(name) => format!("font \"{name}\""),
        Fe(encoding) => format!("font encoding {encoding}"),
        R(None) => "back to the line's style".into(),
        R(Some(name)) => format!("style \"{name}\""),
        B(weight) => format!("weight {weight}"),
        I(on) => switched("italic", on),
        U(on) => switched("underline", on),
        S(on) => switched("strikeout", on),
        Karaoke { kind, cs } => format!("syllable of {cs} cs, {}", sung(kind)),
        Pbo(offset) => format!("drawing's baseline {offset}"),
        P(0) => "drawing off".into(),
        P(exponent) => format!("drawing, scale exponent {exponent}"),
        T { t1_ms, t2_ms, accel, inner } => transform(t1_ms, t2_ms, accel, inner),
    }
}

fn transform(t1: Option<i32>, t2: Option<i32>, accel: f32, inner: Tags) -> String {
    let accel = if accel == 1.0 { String::new() } else { format!(", acceleration {accel}") };
    format!("transform {}{accel}, {} inside", over(t1, t2), inner.places())
}

fn over(t1: Option<i32>, t2: Option<i32>) -> String {
    match t1.zip(t2) {
        Some((t1, t2)) => format!("from {t1} to {t2} ms"),
        None => "over the whole line".into(),
    }
}

fn coloured(what: &str, (red, green, blue): (u8, u8, u8)) -> String {
    format!("{what} colour red {red} green {green} blue {blue}")
}

fn switched(what: &str, on: bool) -> String {
    format!("{what} {}", if on { "on" } else { "off" })
}

fn sung(kind: KaraokeKind) -> &'static str {
    match kind {
        KaraokeKind::Fill => "filled at its start",
        KaraokeKind::Sweep => "filled from left to right",
        KaraokeKind::Outline => "outlined at its start",
    }
}

#[cfg(test)]
mod tests {
    use super::*;
    use hannuvel::{Table, parse_overrides};

    /// Every kind of tag, in the order of the kinds.
    const ALL: &str = r"\fad(200,300)\fade(255,0,128,1,2,3,4)\pos(1.5,-2)\move(1,2,3,4)\frz-45\blur2\fscx150\fscy50
        \1c&H0000FF&\fs20.5\clip(1,2,3,4)\clip(2,m 0 0 l 1 1)\frx10\fry20\org(5,6)\bord2\xbord3\ybord4\shad5\xshad6
        \yshad7\be3\fax0.5\fay-0.5\iclip(1,2,3,4)\iclip(m 0 0)\2c&H010203&\3c&HFF0000&\4c&H00FF00&\alpha&H80&\1a&H01&
        \2a&H02&\3a&H03&\4a&H04&\fsp1.5\q2\an7\a10\fnArial(x)\fe1\rTop\b1\i1\u0\s1\kf50\pbo-7\p3
        \t(0,1000,0.5,\fs40\r)\ko5\k7\p0\move(1,2,3,4,5,6)\t(\fs1)";

    #[test]
    fn every_kind_is_told() {
        let mut table = Table::<128>::new();
        let tags = parse_overrides(ALL, &mut table).unwrap();
        let mut kinds: Vec<_> = tags.iter().map(|tag| tag.kind()).take(49).collect();
        kinds.dedup();
        assert_eq!(kinds, (1..=49).collect::<Vec<u32>>());
        let said: Vec<String> = tags.iter().map(|tag| format!("{:6} {}", tag.name(), says(tag.value()))).collect();
        insta::assert_snapshot!(said.join("\n"));
    }
}
