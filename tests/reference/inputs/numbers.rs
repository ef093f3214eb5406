//! Dictionary numbers.

use super::{below_the_count_or_not, Rng};
use reference::dictionary::{counted_number, counted_pattern, first_with, with_beginning};
use reference::list::count_of;

/// The first and the last number of the patterns that begin as one of chance does, so many jacks long.
pub fn ends_of_beginning(rng: &mut Rng, n: usize, jacks: usize) -> [u128; 2] {
    let p = counted_pattern(n, rng.below_wide(count_of(n)));
    let first = counted_number(&first_with(n, &p[..jacks]).expect("one begins so"));
    [first, first + with_beginning(n, &p[..jacks]) - 1]
}

/// A number below the count, often at an end of the order or of those with one beginning.
pub fn number(rng: &mut Rng, n: usize) -> u128 {
    let count = count_of(n);
    match rng.below(6) {
        0 => rng.pick(&[0, 1, count - 1, (2 * count - 2) % count]) % count,
        1 | 2 => {
            let jacks = rng.between(1, n - 1);
            let ends = ends_of_beginning(rng, n, jacks);
            (rng.pick(&ends) + count - 1 + rng.below_wide(3)) % count
        }
        _ => rng.below_wide(count),
    }
}

/// A number that need not be one.
pub fn any_number(rng: &mut Rng, n: usize) -> u64 {
    below_the_count_or_not(rng, n, number)
}

/// The pattern of a number.
pub fn numbered(rng: &mut Rng, n: usize) -> Vec<u8> {
    let number = number(rng, n);
    counted_pattern(n, number)
}
