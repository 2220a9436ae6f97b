//! What stands in the built copy for the standard library's inexact functions (01, Evaluation)
//! and for the core crate's `Path` and `Point`.

/// The f32 methods of 01, Evaluation.
pub trait StandIn {
    fn power(self, exponent: f32) -> f32;
    fn radians(self) -> f32;
    fn max_zero(self) -> f32;
}

impl StandIn for f32 {
    /// For an exponent of 0 of either sign 1; below 0, 1 divided by the power of its negative.
    fn power(self, exponent: f32) -> f32 {
        if exponent == 0.0 {
            1.0
        } else if exponent < 0.0 {
            1.0 / positive_power(self, -exponent)
        } else {
            positive_power(self, exponent)
        }
    }

    /// Multiplies by the f32 quotient of the bits 40490FDB by 180.
    fn radians(self) -> f32 {
        self * (f32::from_bits(0x4049_0FDB) / 180.0)
    }

    /// Plus zero unless the value is above zero.
    fn max_zero(self) -> f32 {
        if self > 0.0 { self } else { 0.0 }
    }
}

/// The exponent, above 0, is capped at 64. 1 is multiplied by the base as often as its whole part
/// says; then eight times the square root is taken, starting from the base, and multiplied by if
/// the next binary digit of the fraction is 1. Later digits are dropped.
fn positive_power(base: f32, exponent: f32) -> f32 {
    if base == 0.0 {
        return 0.0;
    }
    let exponent = if exponent > 64.0 { 64.0 } else { exponent };
    let whole = exponent as u32;
    let mut result = 1.0;
    for _ in 0..whole {
        result *= base;
    }
    let mut fraction = exponent - whole as f32;
    let mut root = base;
    for _ in 0..8 {
        root = root.sqrt();
        fraction *= 2.0;
        if fraction >= 1.0 {
            fraction -= 1.0;
            result *= root;
        }
    }
    result
}

#[derive(Clone, Copy)]
pub struct Point {
    pub x: f32,
    pub y: f32,
}

impl Point {
    pub fn new(x: f32, y: f32) -> Self {
        Point { x, y }
    }
}

/// Records the calls as 01's path table: eight words a command.
pub struct Path {
    pub words: Vec<u32>,
}

impl Path {
    pub fn new() -> Self {
        Path { words: Vec::new() }
    }

    pub fn move_to(&mut self, to: Point) {
        self.command(1, &[to]);
    }

    pub fn line_to(&mut self, to: Point) {
        self.command(2, &[to]);
    }

    pub fn cubic_to(&mut self, first: Point, second: Point, to: Point) {
        self.command(3, &[first, second, to]);
    }

    pub fn close(&mut self) {
        self.command(4, &[]);
    }

    fn command(&mut self, kind: u32, points: &[Point]) {
        let mut record = [0; 8];
        record[0] = kind;
        for (place, point) in points.iter().enumerate() {
            record[1 + 2 * place] = point.x.to_bits();
            record[2 + 2 * place] = point.y.to_bits();
        }
        self.words.extend(record);
    }
}

#[cfg(test)]
mod tests {
    use super::*;

    #[test]
    fn power_follows_01() {
        assert_eq!(0.5f32.power(2.0), 0.25);
        assert_eq!(0.25f32.power(0.5), 0.5);
        assert_eq!(0.0f32.power(0.0), 1.0);
        assert_eq!(0.0f32.power(-0.0), 1.0);
        assert_eq!(0.0f32.power(3.0), 0.0);
        assert_eq!(0.0f32.power(-1.0), f32::INFINITY);
        assert_eq!(0.5f32.power(-1.0), 2.0);
        assert_eq!(0.9f32.power(1e9), 0.9f32.power(64.0));
        // A fraction below 1/256 is dropped.
        assert_eq!(0.5f32.power(1.0 / 512.0), 1.0);
        assert_eq!(0.5f32.power(1.0 + 1.0 / 512.0), 0.5);
    }

    #[test]
    fn max_zero_gives_plus_zero() {
        assert_eq!((-0.0f32).max_zero().to_bits(), 0);
        assert_eq!(f32::NAN.max_zero().to_bits(), 0);
        assert_eq!(2.5f32.max_zero(), 2.5);
    }

    #[test]
    fn a_path_is_eight_words_a_command() {
        let mut path = Path::new();
        path.move_to(Point::new(1.0, 2.0));
        path.close();
        let bits = f32::to_bits;
        assert_eq!(path.words[..3], [1, bits(1.0), bits(2.0)]);
        assert_eq!(path.words[3..8], [0; 5]);
        assert_eq!(path.words[8..], [4, 0, 0, 0, 0, 0, 0, 0]);
    }
}
