//! Greedy shrinking: take any simpler case that still fails, until there is none.

/// Cases made one by one.
pub type Cases<'a, C> = Box<dyn Iterator<Item = C> + 'a>;

/// At most so many cases are tried.
const MOST_TRIES: usize = 200_000;

pub fn shrink<C>(
    start: C,
    simpler: impl for<'a> Fn(&'a C) -> Cases<'a, C>,
    fails: impl Fn(&C) -> bool,
) -> C {
    let mut best = start;
    let mut tries = 0;
    loop {
        let next = simpler(&best).find(|case| {
            tries += 1;
            tries > MOST_TRIES || fails(case)
        });
        match next {
            Some(case) if tries <= MOST_TRIES => best = case,
            _ => return best,
        }
    }
}

/// Simpler texts: large and then small pieces taken out, then single bytes made plain.
pub fn simpler_texts(text: &[u8]) -> impl Iterator<Item = Vec<u8>> + '_ {
    simpler_lists(text).chain(plainer_texts(text))
}

/// Lists with a piece taken out, the largest pieces first.
pub fn simpler_lists<T: Clone>(list: &[T]) -> impl Iterator<Item = Vec<T>> + '_ {
    let half = list.len().div_ceil(2);
    let sizes = std::iter::successors((half > 0).then_some(half), |&size| {
        (size > 1).then_some(size / 2)
    });
    sizes.flat_map(move |size| {
        (0..list.len()).step_by(size).map(move |start| {
            let end = (start + size).min(list.len());
            [&list[..start], &list[end..]].concat()
        })
    })
}

/// Fewer lent words.
pub fn simpler_sizes(words: usize) -> impl Iterator<Item = usize> {
    let sizes = [
        0,
        8,
        16,
        24,
        words / 2,
        words.saturating_sub(8),
        words.saturating_sub(1),
    ];
    sizes.into_iter().filter(move |&size| size < words)
}

fn plainer_texts(text: &[u8]) -> impl Iterator<Item = Vec<u8>> + '_ {
    (0..text.len()).flat_map(move |place| {
        plainer_bytes(text[place]).iter().map(move |&byte| {
            let mut plain = text.to_vec();
            plain[place] = byte;
            plain
        })
    })
}

fn plainer_bytes(byte: u8) -> &'static [u8] {
    match byte {
        b'0' => b"",
        b'a' => b"0",
        _ => b"0a",
    }
}

#[cfg(test)]
mod tests {
    use super::*;

    #[test]
    fn what_does_not_matter_goes() {
        let noisy = b"some (words) 42 before \\t( and behind".to_vec();
        let has = |text: &Vec<u8>| text.windows(2).any(|pair| pair == b"\\t");
        let small = shrink(noisy, |text| Box::new(simpler_texts(text)), has);
        assert_eq!(small, b"\\t");
    }

    #[test]
    fn bytes_become_plain() {
        let long = |text: &Vec<u8>| text.len() >= 3;
        let small = shrink(
            b"x\\9(".to_vec(),
            |text| Box::new(simpler_texts(text)),
            long,
        );
        assert_eq!(small, b"000");
    }

    #[test]
    fn an_empty_list_has_nothing_simpler() {
        assert_eq!(simpler_lists::<u32>(&[]).count(), 0);
        assert_eq!(simpler_texts(b"0").collect::<Vec<_>>(), [b""]);
    }
}
