//! Eight places of the stack. The time of a call depends on where its stack happens to lie.

use std::hint::black_box;

/// A round of the bench: the nanoseconds of both sides.
type Round<'a> = &'a mut dyn FnMut() -> (f64, f64);

/// Each makes the round at a place of its own. A stack lies on a multiple of 16 bytes, and a step is
/// an odd one, so that the places differ within a cache line, and within a page too.
pub const PLACES: [fn(Round) -> (f64, f64); 8] = [
    below::<{ STEP }>,
    below::<{ 2 * STEP }>,
    below::<{ 3 * STEP }>,
    below::<{ 4 * STEP }>,
    below::<{ 5 * STEP }>,
    below::<{ 6 * STEP }>,
    below::<{ 7 * STEP }>,
    below::<{ 8 * STEP }>,
];

const STEP: usize = 512 + 16;

/// Makes the round below so many bytes of stack.
fn below<const BYTES: usize>(round: Round) -> (f64, f64) {
    let bytes = [0u8; BYTES];
    black_box(&bytes);
    let times = round();
    black_box(&bytes);
    times
}

#[cfg(test)]
mod tests {
    use super::*;

    #[test]
    fn the_places_lie_apart_in_a_line_and_in_a_page() {
        let addresses = PLACES.map(|place| {
            let mut address = 0;
            place(&mut || {
                let here = 0u128;
                address = (&raw const *black_box(&here)).addr();
                (0.0, 0.0)
            });
            address
        });
        let mut in_a_line = addresses.map(|address| address % 64 / 16);
        in_a_line.sort_unstable();
        assert_eq!(in_a_line, [0, 0, 1, 1, 2, 2, 3, 3]);
        for pair in addresses.windows(2) {
            assert!((512..576).contains(&(pair[0] - pair[1])));
        }
    }
}
