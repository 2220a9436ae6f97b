//! All short texts over an alphabet of pieces.

/// Every text of at most `most` pieces, short ones first.
pub fn texts(alphabet: &'static [&'static str], most: u32) -> impl Iterator<Item = Vec<u8>> {
    (0..=most).flat_map(move |length| {
        let count = (alphabet.len() as u64).pow(length);
        (0..count).map(move |number| spelled(alphabet, length, number))
    })
}

/// The number's digits in base "size of the alphabet" are the pieces.
fn spelled(alphabet: &[&str], length: u32, mut number: u64) -> Vec<u8> {
    let mut text = Vec::new();
    for _ in 0..length {
        let piece = alphabet[(number % alphabet.len() as u64) as usize];
        text.extend_from_slice(piece.as_bytes());
        number /= alphabet.len() as u64;
    }
    text
}

#[cfg(test)]
mod tests {
    use super::*;
    use std::collections::HashSet;

    #[test]
    fn each_text_comes_once() {
        let all: Vec<_> = texts(&["a", "b", "c"], 3).collect();
        assert_eq!(all.len(), 1 + 3 + 9 + 27);
        assert_eq!(all.iter().collect::<HashSet<_>>().len(), all.len());
    }
}
