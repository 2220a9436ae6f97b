//! Drawings and clip arguments.

use super::number::{blanks, exported, numeral, whole};
use crate::random::Random;

const COMMANDS: &[u8] = b"mmnlllbbsspcMNLBSPCxz";

/// Commands with about as many numbers as they want.
pub fn drawing(random: &mut Random, text: &mut Vec<u8>) {
    for _ in 0..random.below(6) {
        gap(random, text);
        text.push(*random.pick(COMMANDS));
        if random.one_in(30) {
            text.push(*random.pick(b"m1,"));
        }
        let pairs = *random.pick(&[0, 1, 1, 2, 3, 3, 4, 6]);
        let numbers = 2 * pairs + usize::from(random.one_in(10));
        for _ in 0..numbers {
            gap(random, text);
            coordinate(random, text);
        }
    }
    blanks(random, text);
}

fn gap(random: &mut Random, text: &mut Vec<u8>) {
    if random.one_in(60) {
        return;
    }
    text.push(b' ');
    blanks(random, text);
}

fn coordinate(random: &mut Random, text: &mut Vec<u8>) {
    if random.one_in(24) {
        numeral(random, text);
        return;
    }
    let number = random.below(2_000) as f32 / *random.pick(&[1.0, 1.0, 2.0, 10.0]) - 300.0;
    exported(random, text, number);
}

/// The argument of a \clip: perhaps a scale and a comma, then a drawing.
pub fn clip_argument(random: &mut Random, text: &mut Vec<u8>) {
    blanks(random, text);
    match random.below(8) {
        0 => {}
        1 => text.push(b','),
        2 => text.extend_from_slice(
            random
                .pick(&["0,", "00,", "1x,", "1e1,", "+1,", "1 2,", "1,2,"])
                .as_bytes(),
        ),
        _ => {
            whole(random, text);
            text.push(b',');
        }
    }
    blanks(random, text);
    drawing(random, text);
}
