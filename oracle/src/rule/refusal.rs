//! 01, Grounds for turning a call down, and the packing of results.

pub const MOST_BYTES: usize = 12_288;
pub const MOST_PLACES: usize = 1_024;
/// How deep one \t may stand inside another (02, N7).
pub const MOST_DEPTH: usize = 16;
pub const FARTHEST: i64 = 1_000_000_000;

/// Bits 48 to 63 the refusal's number, bits 32 to 47 an extra, bits 0 to 31 the value.
pub fn answered(extra: usize, value: u32) -> u64 {
    (extra as u64) << 32 | u64::from(value)
}

pub fn refused(number: u64, place: usize) -> u64 {
    number << 48 | place as u64
}

/// Refusals 1 and 2.
pub fn text(text: &[u8]) -> Option<u64> {
    if text.len() > MOST_BYTES {
        return Some(refused(1, 0));
    }
    text.iter()
        .position(|&byte| byte >= 128)
        .map(|place| refused(2, place))
}

/// Refusal 6.
pub fn instants(instants: &[i32]) -> Option<u64> {
    let far = instants.iter().any(|&t| i64::from(t).abs() > FARTHEST);
    far.then(|| refused(6, 0))
}

/// Refusal 9 for `words` lent words with `width` words a place.
pub fn space(needed: usize, words: usize, width: usize) -> Option<u64> {
    (needed > places(words, width)).then(|| refused(9, needed))
}

fn places(words: usize, width: usize) -> usize {
    (words / width).min(MOST_PLACES)
}

#[cfg(test)]
mod tests {
    use super::*;

    #[test]
    fn limits_themselves_are_allowed() {
        assert_eq!(text(&[b'a'; 12_288]), None);
        assert_eq!(text(&[b'a'; 12_289]), Some(1 << 48));
        assert_eq!(text(&[1, 127, 128, 255]), Some(2 << 48 | 2));
        assert_eq!(instants(&[1_000_000_000, -1_000_000_000]), None);
        assert_eq!(instants(&[0, i32::MIN]), Some(6 << 48));
        assert_eq!(space(1_024, 8 * 1_024, 8), None);
        assert_eq!(space(1_025, 8 * 2_000, 8), Some(9 << 48 | 1_025));
        assert_eq!(space(2, 15, 8), Some(9 << 48 | 2));
    }
}
