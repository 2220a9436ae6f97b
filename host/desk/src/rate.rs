//! Frames a second.

use std::str::FromStr;

/// Frames a second, as a fraction.
#[derive(Clone, Copy, Debug, PartialEq)]
pub struct Rate {
    frames: u64,
    seconds: u64,
}

/// Frames a second that are of use where instants are whole milliseconds.
const MOST_RATE: u64 = 1000;

impl Rate {
    /// The instant of a frame, counted from 0, in milliseconds.
    pub fn instant(self, frame: u64) -> u64 {
        frame * 1000 * self.seconds / self.frames
    }

    /// The first frame at an instant or after it.
    pub fn frame_from(self, instant: u64) -> u64 {
        (instant * self.frames).div_ceil(1000 * self.seconds)
    }

    pub fn per_second(self) -> f64 {
        self.frames as f64 / self.seconds as f64
    }
}

impl FromStr for Rate {
    type Err = String;

    fn from_str(text: &str) -> Result<Self, String> {
        let whole = |digits: &str| digits.parse::<u32>().ok().map(u64::from);
        let rate = match text.split_once(['/', '.']) {
            None => whole(text).map(|frames| (frames, 1)),
            Some((a, b)) if text.contains('/') => whole(a).zip(whole(b)),
            Some((a, b)) => decimal(a, b),
        };
        match rate {
            Some((frames, seconds)) if frames > 0 && seconds > 0 && frames <= MOST_RATE * seconds => {
                Ok(Rate { frames, seconds })
            }
            _ => Err(format!("a rate is above 0 and at most {MOST_RATE}, as 24, 23.976 or 24000/1001")),
        }
    }
}

/// The fraction of a number with up to six digits behind its point.
fn decimal(before: &str, behind: &str) -> Option<(u64, u64)> {
    let digits = |text: &str| text.bytes().all(|byte| byte.is_ascii_digit());
    if !digits(before) || !digits(behind) || behind.len() > 6 {
        return None;
    }
    let frames: u32 = format!("{before}{behind}").parse().ok()?;
    Some((frames.into(), 10u64.pow(behind.len() as u32)))
}

#[cfg(test)]
mod tests {
    use super::*;

    #[test]
    fn a_rate_is_a_fraction() {
        let rate = |text: &str| text.parse::<Rate>().map(|rate| (rate.frames, rate.seconds)).ok();
        assert_eq!(rate("24"), Some((24, 1)));
        assert_eq!(rate("23.976"), Some((23_976, 1000)));
        assert_eq!(rate("24000/1001"), Some((24_000, 1001)));
        for wrong in ["", "0", "-1", "x", "1/0", ".", "1/2/3", "1001", "1.1234567", "1.-1", "+.1"] {
            assert_eq!(rate(wrong), None, "{wrong}");
        }
    }

    #[test]
    fn frames_and_instants() {
        let film: Rate = "24".parse().unwrap();
        assert_eq!([0, 1, 2, 24].map(|frame| film.instant(frame)), [0, 41, 83, 1000]);
        assert_eq!([0, 1, 41, 42, 1000].map(|instant| film.frame_from(instant)), [0, 1, 1, 2, 24]);
    }
}
