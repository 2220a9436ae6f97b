//! A tag, as a view on its record.

use crate::{FontName, KaraokeKind, Part, RECORD_WORDS, Tags};

/// A tag of a block with those inside it, a view on its record.
#[derive(Clone, Copy, Debug)]
pub struct Tag<'t> {
    pub(crate) record: &'t [u32; RECORD_WORDS],
    pub(crate) place: usize,
    pub(crate) inner: Tags<'t>,
}

impl<'t> Tag<'t> {
    /// The place of its record in the table, counted from 0.
    ///
    /// ```
    /// let mut table = [0; 80];
    /// let tags = hannuvel::parse_overrides(r"\b1\t(\fs20)\i1", &mut table)?;
    /// let places: Vec<_> = tags.iter().map(|tag| tag.place()).collect();
    /// assert_eq!(places, [0, 1, 3]);
    /// # Ok::<(), hannuvel::Refusal>(())
    /// ```
    pub fn place(&self) -> usize {
        self.place
    }

    /// The words of its record, the kind first.
    ///
    /// ```
    /// let mut table = [0; 80];
    /// let tags = hannuvel::parse_overrides(r"\b1", &mut table)?;
    /// assert_eq!(tags.iter().next().unwrap().words(), &[42, 700, 0, 0, 0, 0, 0, 0]);
    /// # Ok::<(), hannuvel::Refusal>(())
    /// ```
    pub fn words(&self) -> &'t [u32; RECORD_WORDS] {
        self.record
    }

    /// The number of its kind, 1 to 49: the place of its case in [`AnimatedTag`], counted from 1.
    ///
    /// ```
    /// let mut table = [0; 80];
    /// let tags = hannuvel::parse_overrides(r"\fad(1,2)\t(\i1)", &mut table)?;
    /// assert_eq!(tags.iter().map(|tag| tag.kind()).collect::<Vec<_>>(), [1, 49]);
    /// # Ok::<(), hannuvel::Refusal>(())
    /// ```
    pub fn kind(&self) -> u32 {
        self.record[0]
    }

    /// The tag's name as a text has it, without the backslash; of several the one that says most, as `1c` for \c.
    ///
    /// ```
    /// let mut table = [0; 80];
    /// let tags = hannuvel::parse_overrides(r"\c&HFF&\K20\fr9", &mut table)?;
    /// assert_eq!(tags.iter().map(|tag| tag.name()).collect::<Vec<_>>(), ["1c", "kf", "frz"]);
    /// # Ok::<(), hannuvel::Refusal>(())
    /// ```
    pub fn name(&self) -> &'static str {
        match self.value() {
            AnimatedTag::Karaoke { kind: KaraokeKind::Sweep, .. } => "kf",
            AnimatedTag::Karaoke { kind: KaraokeKind::Outline, .. } => "ko",
            _ => NAMES[self.kind() as usize - 1],
        }
    }

    /// The tags inside it; none if it is no \t.
    ///
    /// ```
    /// let mut table = [0; 80];
    /// let tags = hannuvel::parse_overrides(r"\t(\fs20\fsp3)\b1", &mut table)?;
    /// assert_eq!(tags.iter().map(|tag| tag.inner().places()).collect::<Vec<_>>(), [2, 0]);
    /// # Ok::<(), hannuvel::Refusal>(())
    /// ```
    pub fn inner(&self) -> Tags<'t> {
        self.inner
    }

    /// What the tag says.
    ///
    /// ```
    /// use hannuvel::{AnimatedTag, parse_overrides};
    ///
    /// let mut table = [0; 80];
    /// let tags = parse_overrides(r"\t(0,500,2,\frz90)", &mut table)?;
    /// let Some(AnimatedTag::T { t1_ms, t2_ms, accel, inner }) = tags.iter().next().map(|tag| tag.value()) else {
    ///     panic!("it begins with a \\t")
    /// };
    /// assert_eq!((t1_ms, t2_ms, accel), (Some(0), Some(500), 2.0));
    /// assert_eq!(inner.iter().next().map(|tag| tag.value()), Some(AnimatedTag::Frz(90.0)));
    /// # Ok::<(), hannuvel::Refusal>(())
    /// ```
    pub fn value(&self) -> AnimatedTag<'t> {
        use AnimatedTag::*;
        let [kind, a, b, c, d, e, f, g] = *self.record;
        let [x1, y1, x2, y2] = [a, b, c, d].map(f32::from_bits);
        // In a well-formed record the words of bytes are at most 255, and so on.
        let (byte, flag, colour) = (a as u8, a == 1, (a as u8, b as u8, c as u8));
        let part = |offset, length| Part::of(self.inner.text, offset, length);
        match kind {
            1 => Fad { t1_ms: a, t2_ms: b },
            2 => Fade {
                a1: a as u8,
                a2: b as u8,
                a3: c as u8,
                t1_ms: d as i32,
                t2_ms: e as i32,
                t3_ms: f as i32,
                t4_ms: g as i32,
            },
            3 => Pos { x: x1, y: y1 },
            4 => Move { x1, y1, x2, y2, t1_ms: time(e, f), t2_ms: time(e, g) },
            5 => Frz(x1),
            6 => Blur(x1),
            7 => Fscx(x1),
            8 => Fscy(x1),
            9 => Color1(colour),
            10 => Fs(x1),
            11 => ClipRect { x1, y1, x2, y2 },
            12 => ClipDrawing(part(a, b)),
            13 => Frx(x1),
            14 => Fry(x1),
            15 => Org { x: x1, y: y1 },
            16 => Bord(x1),
            17 => Xbord(x1),
            18 => Ybord(x1),
            19 => Shad(x1),
            20 => Xshad(x1),
            21 => Yshad(x1),
            22 => Be(byte),
            23 => Fax(x1),
            24 => Fay(x1),
            25 => IClipRect { x1, y1, x2, y2 },
            26 => IClipDrawing(part(a, b)),
            27 => Color2(colour),
            28 => Color3(colour),
            29 => Color4(colour),
            30 => Alpha(byte),
            31 => Alpha1(byte),
            32 => Alpha2(byte),
            33 => Alpha3(byte),
            34 => Alpha4(byte),
            35 => Fsp(x1),
            36 => Q(byte),
            37 => An(byte),
            38 => A(byte),
            39 => Fn(FontName { letters: part(a, b), parameter: part(c, d) }),
            40 => Fe(byte),
            41 => R(flag.then(|| part(b, c))),
            42 => B(a as u16),
            43 => I(flag),
            44 => U(flag),
            45 => S(flag),
            46 => Karaoke { kind: KaraokeKind::of(a), cs: b },
            47 => Pbo(a as i32),
            48 => P(byte),
            49 => T { t1_ms: time(a, b), t2_ms: time(a, c), accel: f32::from_bits(d), inner: self.inner },
            _ => unreachable!("a well-formed table has kinds 1 to 49"),
        }
    }
}

fn time(flag: u32, word: u32) -> Option<i32> {
    (flag == 1).then_some(word as i32)
}

/// The names of the kinds from 1 on.
const NAMES: [&str; 49] = [
    "fad", "fade", "pos", "move", "frz", "blur", "fscx", "fscy", "1c", "fs", "clip", "clip", "frx", "fry", "org",
    "bord", "xbord", "ybord", "shad", "xshad", "yshad", "be", "fax", "fay", "iclip", "iclip", "2c", "3c", "4c",
    "alpha", "1a", "2a", "3a", "4a", "fsp", "q", "an", "a", "fn", "fe", "r", "b", "i", "u", "s", "k", "pbo", "p", "t",
];

/// What a tag says: the cases of the Rust's `AnimatedTag`, in its order and by its names. A colour is red, green and
/// blue; an alpha 0 where opaque and 255 where transparent.
#[derive(Clone, Copy, Debug, PartialEq)]
pub enum AnimatedTag<'t> {
    /// \fad: fades in over the first milliseconds of the line and out over the last.
    Fad {
        /// How long it fades in.
        t1_ms: u32,
        /// How long it fades out.
        t2_ms: u32,
    },
    /// \fade: alpha a1 up to t1, to a2 by t2, held to t3, to a3 by t4.
    Fade {
        /// The alpha at first.
        a1: u8,
        /// The alpha in the middle.
        a2: u8,
        /// The alpha at last.
        a3: u8,
        /// Up to here a1 holds.
        t1_ms: i32,
        /// By here it is a2.
        t2_ms: i32,
        /// Up to here a2 holds.
        t3_ms: i32,
        /// By here it is a3.
        t4_ms: i32,
    },
    /// \pos: where the line stands.
    Pos {
        /// To the right.
        x: f32,
        /// Down.
        y: f32,
    },
    /// \move: from one point to another between two times, or over the whole line.
    Move {
        /// To the right, at first.
        x1: f32,
        /// Down, at first.
        y1: f32,
        /// To the right, at last.
        x2: f32,
        /// Down, at last.
        y2: f32,
        /// When it starts; `None`, as the other then is, for the line's start.
        t1_ms: Option<i32>,
        /// When it ends; `None` for the line's end.
        t2_ms: Option<i32>,
    },
    /// \frz and \fr: degrees around z.
    Frz(f32),
    /// \blur: Gaussian blur.
    Blur(f32),
    /// \fscx: scale to the right in percent.
    Fscx(f32),
    /// \fscy: scale down in percent.
    Fscy(f32),
    /// \c and \1c: the primary colour.
    Color1((u8, u8, u8)),
    /// \fs: the font size.
    Fs(f32),
    /// \clip with four numbers: the rectangle that is shown.
    ClipRect {
        /// Left.
        x1: f32,
        /// Top.
        y1: f32,
        /// Right.
        x2: f32,
        /// Bottom.
        y2: f32,
    },
    /// \clip with a drawing, its scale in front: what it covers is shown. To be given to
    /// [`split_clip_arg`](crate::split_clip_arg).
    ClipDrawing(Part<'t>),
    /// \frx: degrees around x.
    Frx(f32),
    /// \fry: degrees around y.
    Fry(f32),
    /// \org: the point that rotations go around.
    Org {
        /// To the right.
        x: f32,
        /// Down.
        y: f32,
    },
    /// \bord: border width.
    Bord(f32),
    /// \xbord: border width to the sides.
    Xbord(f32),
    /// \ybord: border width up and down.
    Ybord(f32),
    /// \shad: shadow distance.
    Shad(f32),
    /// \xshad: shadow distance to the right.
    Xshad(f32),
    /// \yshad: shadow distance down.
    Yshad(f32),
    /// \be: edge blur.
    Be(u8),
    /// \fax: shear to the right.
    Fax(f32),
    /// \fay: shear down.
    Fay(f32),
    /// \iclip with four numbers: the rectangle that is hidden.
    IClipRect {
        /// Left.
        x1: f32,
        /// Top.
        y1: f32,
        /// Right.
        x2: f32,
        /// Bottom.
        y2: f32,
    },
    /// \iclip with a drawing: what it covers is hidden.
    IClipDrawing(Part<'t>),
    /// \2c: the secondary colour.
    Color2((u8, u8, u8)),
    /// \3c: the border's colour.
    Color3((u8, u8, u8)),
    /// \4c: the shadow's colour.
    Color4((u8, u8, u8)),
    /// \alpha: all four alphas.
    Alpha(u8),
    /// \1a: the primary colour's alpha.
    Alpha1(u8),
    /// \2a: the secondary colour's alpha.
    Alpha2(u8),
    /// \3a: the border's alpha.
    Alpha3(u8),
    /// \4a: the shadow's alpha.
    Alpha4(u8),
    /// \fsp: letter spacing.
    Fsp(f32),
    /// \q: wrap style, 0 to 3.
    Q(u8),
    /// \an: alignment as on a keypad, 1 to 9.
    An(u8),
    /// \a: alignment in the old numbering.
    A(u8),
    /// \fn: font name.
    Fn(FontName<'t>),
    /// \fe: font encoding.
    Fe(u8),
    /// \r: back to the named style, or to the line's own.
    R(Option<Part<'t>>),
    /// \b: weight, 0 or 100 to 900.
    B(u16),
    /// \i: italic.
    I(bool),
    /// \u: underline.
    U(bool),
    /// \s: strikeout.
    S(bool),
    /// \k, \kf, \K and \ko: a syllable.
    Karaoke {
        /// Which of them.
        kind: KaraokeKind,
        /// Its length in centiseconds.
        cs: u32,
    },
    /// \pbo: offset of a drawing's baseline.
    Pbo(i32),
    /// \p: drawing mode and its scale exponent, 0 for off.
    P(u8),
    /// \t: the tags inside come in between two times, or over the whole line.
    T {
        /// When it starts; `None`, as the other then is, for the line's start.
        t1_ms: Option<i32>,
        /// When it ends; `None` for the line's end.
        t2_ms: Option<i32>,
        /// The power of the way.
        accel: f32,
        /// The tags inside.
        inner: Tags<'t>,
    },
}
