//! Drawings as paths, and the argument of a \clip.

use crate::{RECORD_WORDS, Refusal, words};
use std::fmt;

/// Reads a drawing and gives its path, written into the path table lent, eight words to a command. Coordinates are
/// divided by 2 to the power `scale_exp` - 1, not at all at 0.
///
/// # Errors
///
/// Grounds 1, 2, 3, 7 and 9.
///
/// ```
/// use hannuvel::{PathCommand, Point, Table, parse_drawing};
///
/// let mut table = Table::<16>::new();
/// let path = parse_drawing("m 0 0 s 6 0 6 6 0 6", 1, &mut table)?;
/// let point = |x, y| Point { x, y };
/// let commands: Vec<_> = path.iter().collect();
/// assert_eq!(commands, [
///     PathCommand::MoveTo(point(0.0, 0.0)),
///     PathCommand::LineTo(point(5.0, 1.0)),
///     PathCommand::CubicTo { c1: point(6.0, 2.0), c2: point(6.0, 4.0), end: point(5.0, 5.0) },
/// ]);
/// # Ok::<(), hannuvel::Refusal>(())
/// ```
pub fn parse_drawing<'p>(
    text: &(impl AsRef<[u8]> + ?Sized),
    scale_exp: u32,
    path: &'p mut (impl AsMut<[u32]> + ?Sized),
) -> Result<Path<'p>, Refusal> {
    let path = path.as_mut();
    let places = words::parse_drawing(text.as_ref(), scale_exp, path)?;
    Ok(Path { commands: &path.as_chunks().0[..places] })
}

/// Splits the argument of a \clip into the scale exponent, at least 1, and the drawing.
///
/// # Errors
///
/// Grounds 1 and 2.
///
/// ```
/// use hannuvel::split_clip_arg;
///
/// assert_eq!(split_clip_arg("2, m 0 0"), Ok((2, "m 0 0")));
/// assert_eq!(split_clip_arg("m 0 0"), Ok((1, "m 0 0")));
/// ```
pub fn split_clip_arg(arg: &(impl AsRef<[u8]> + ?Sized)) -> Result<(u32, &str), Refusal> {
    let arg = arg.as_ref();
    let (scale, rest) = words::split_clip_arg(arg)?;
    let rest = str::from_utf8(&arg[rest..]).expect("an argument that is split is ASCII");
    Ok((scale, rest))
}

/// A point of a path.
#[derive(Clone, Copy, Debug, Default, PartialEq)]
pub struct Point {
    /// To the right.
    pub x: f32,
    /// Down.
    pub y: f32,
}

/// A command of a path.
#[derive(Clone, Copy, Debug, PartialEq)]
pub enum PathCommand {
    /// Begins a subpath at a point.
    MoveTo(Point),
    /// A straight line to a point.
    LineTo(Point),
    /// A cubic Bézier curve.
    CubicTo {
        /// The first control point.
        c1: Point,
        /// The second control point.
        c2: Point,
        /// Where the curve ends.
        end: Point,
    },
    /// Closes the subpath.
    Close,
}

impl PathCommand {
    fn of(&[command, coordinates @ ..]: &[u32; RECORD_WORDS]) -> Self {
        let [x1, y1, x2, y2, x3, y3, _] = coordinates.map(f32::from_bits);
        let point = |x, y| Point { x, y };
        match command {
            1 => PathCommand::MoveTo(point(x1, y1)),
            2 => PathCommand::LineTo(point(x1, y1)),
            3 => PathCommand::CubicTo { c1: point(x1, y1), c2: point(x2, y2), end: point(x3, y3) },
            4 => PathCommand::Close,
            _ => unreachable!("the library has four path commands"),
        }
    }
}

/// The path of a drawing, a view on the path table that it was written to.
#[derive(Clone, Copy, Default)]
pub struct Path<'p> {
    commands: &'p [[u32; RECORD_WORDS]],
}

impl<'p> Path<'p> {
    /// How many commands it has.
    ///
    /// ```
    /// assert_eq!(hannuvel::parse_drawing("m 0 0 l 1 1", 1, &mut [0; 16])?.len(), 2);
    /// # Ok::<(), hannuvel::Refusal>(())
    /// ```
    pub fn len(&self) -> usize {
        self.commands.len()
    }

    /// Whether it has none.
    ///
    /// ```
    /// assert!(hannuvel::parse_drawing("", 1, &mut [0; 0])?.is_empty());
    /// # Ok::<(), hannuvel::Refusal>(())
    /// ```
    pub fn is_empty(&self) -> bool {
        self.commands.is_empty()
    }

    /// Its words, eight to a command.
    ///
    /// ```
    /// assert_eq!(hannuvel::parse_drawing("c", 1, &mut [0; 16])?.words(), [4, 0, 0, 0, 0, 0, 0, 0]);
    /// # Ok::<(), hannuvel::Refusal>(())
    /// ```
    pub fn words(&self) -> &'p [u32] {
        self.commands.as_flattened()
    }

    /// Its commands in their order.
    ///
    /// ```
    /// use hannuvel::PathCommand;
    ///
    /// let mut table = [0; 16];
    /// let path = hannuvel::parse_drawing("m 0 0 c", 1, &mut table)?;
    /// assert_eq!(path.iter().last(), Some(PathCommand::Close));
    /// # Ok::<(), hannuvel::Refusal>(())
    /// ```
    pub fn iter(&self) -> Commands<'p> {
        Commands { commands: self.commands.iter() }
    }
}

/// Paths are alike if their commands are, whatever table they are in.
impl PartialEq for Path<'_> {
    fn eq(&self, other: &Self) -> bool {
        self.iter().eq(other.iter())
    }
}

impl fmt::Debug for Path<'_> {
    fn fmt(&self, f: &mut fmt::Formatter) -> fmt::Result {
        f.debug_list().entries(self.iter()).finish()
    }
}

impl<'p> IntoIterator for Path<'p> {
    type Item = PathCommand;
    type IntoIter = Commands<'p>;

    fn into_iter(self) -> Commands<'p> {
        self.iter()
    }
}

/// The commands of a [`Path`].
#[derive(Clone, Debug)]
pub struct Commands<'p> {
    commands: std::slice::Iter<'p, [u32; RECORD_WORDS]>,
}

impl Iterator for Commands<'_> {
    type Item = PathCommand;

    fn next(&mut self) -> Option<PathCommand> {
        self.commands.next().map(PathCommand::of)
    }

    fn size_hint(&self) -> (usize, Option<usize>) {
        self.commands.size_hint()
    }
}

impl ExactSizeIterator for Commands<'_> {}
