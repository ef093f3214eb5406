//! Numbers, patterns and panels.

use super::Rng;
use reference::list::{at, count_of, place, step_a, step_b};

/// Lengths that are no number of ports; some are one in eight bits.
pub const BAD_LENGTHS: [usize; 10] = [0, 1, 21, 22, 24, 255, 256, 258, 276, 1000];

pub fn ports(rng: &mut Rng) -> usize {
    rng.between(2, 20)
}

/// A number of 64 bits, often one at an edge.
pub fn wide(rng: &mut Rng) -> u64 {
    const EDGES: [u64; 20] = [
        0, 1, 2, 9, 10, 20, 21, 99, 255, 256, 257, 65_535, 65_536, 0xffff_ffff, 0x1_0000_0000, 9_999_999_999_999_999_999, 1 << 63, (1 << 63) - 1,
        u64::MAX - 1, u64::MAX,
    ];
    if rng.chance(50) {
        return rng.pick(&EDGES);
    }
    let shift = rng.below(64);
    rng.next() >> shift
}

/// A rank below the count, often at an end of the list or of a block.
pub fn rank(rng: &mut Rng, n: usize) -> u128 {
    let count = count_of(n);
    match rng.below(6) {
        0 => rng.pick(&[0, 1, count - 1, (2 * count - 2) % count]) % count,
        1 if n > 2 => {
            let (in_a, in_b) = (count_of(n - 1), count_of(n - 2));
            let edge = rng.below_wide(n as u128) * (in_a + in_b) + rng.pick(&[0, in_a, in_b]);
            (edge + count - 2 + rng.below_wide(4)) % count
        }
        2 => place(&pattern(rng, n)),
        _ => rng.below_wide(count),
    }
}

/// A rank that need not be one.
pub fn any_rank(rng: &mut Rng, n: usize) -> u64 {
    below_the_count_or_not(rng, n, rank)
}

/// One below the count, made so, or one that need not be.
pub fn below_the_count_or_not(rng: &mut Rng, n: usize, below: fn(&mut Rng, usize) -> u128) -> u64 {
    let count = if (2..=20).contains(&n) { count_of(n) as u64 } else { 10 };
    match rng.below(10) {
        0 => rng.pick(&[count, count + 1, u64::MAX, 1 << 63]),
        1 => wide(rng),
        _ if (2..=20).contains(&n) => below(rng, n) as u64,
        _ => wide(rng),
    }
}

/// A pattern of n ports. Half of them are the first or last of a shorter list carried up by steps A and B, so that their neighbours are across a step
/// between blocks at any depth.
pub fn pattern(rng: &mut Rng, n: usize) -> Vec<u8> {
    if rng.chance(50) {
        return at(n, rng.below_wide(count_of(n)));
    }
    let short = rng.between(2, n);
    let end = rng.pick(&[0, count_of(short) - 1]);
    lift(rng, at(short, end), n)
}

/// A pattern carried up to n ports by steps A and B.
pub fn lift(rng: &mut Rng, mut p: Vec<u8>, n: usize) -> Vec<u8> {
    while p.len() < n {
        p = if p.len() + 2 <= n && rng.chance(40) { step_b(rng.between(1, p.len() + 1) as u8, &p) } else { step_a(rng.between(1, p.len()) as u8, &p) };
    }
    p
}

/// A permutation of 1 to n.
pub fn permutation(rng: &mut Rng, n: usize) -> Vec<u8> {
    let mut p: Vec<u8> = (1..=n as u8).collect();
    for j in (1..n).rev() {
        p.swap(j, rng.below(j + 1));
    }
    p
}

/// One to three entries changed for the worse, or only exchanged.
pub fn damage_entries(rng: &mut Rng, p: &mut [u8]) {
    let n = p.len();
    for _ in 0..rng.between(1, 3) {
        let (j, other) = (rng.below(n), rng.below(n));
        match rng.below(8) {
            0 => p[j] = 0,
            1 => p[j] = n as u8 + 1,
            2 => p[j] = p[other],
            3 => p[j] = j as u8 + 1,
            4 => p.swap(j, other),
            5 => p[j] = p[j].wrapping_add(n as u8),
            6 => p[j] = rng.byte(),
            _ => p[j] = rng.between(1, n) as u8,
        }
    }
}

/// Bytes that are a pattern, nearly one, or none.
pub fn any_pattern(rng: &mut Rng) -> Vec<u8> {
    let n = ports(rng);
    match rng.below(10) {
        0 => {
            let length = rng.pick(&BAD_LENGTHS);
            (0..length).map(|j| (j + 2) as u8).collect()
        }
        1 => (0..n).map(|_| rng.between(0, n + 1) as u8).collect(),
        2..=4 => {
            let mut p = pattern(rng, n);
            damage_entries(rng, &mut p);
            p
        }
        _ => pattern(rng, n),
    }
}

/// Bytes that are a panel, nearly one, or none.
pub fn any_panel(rng: &mut Rng) -> Vec<u8> {
    let n = ports(rng);
    match rng.below(10) {
        0 => any_pattern(rng),
        1 | 2 => {
            let mut p = permutation(rng, n);
            damage_entries(rng, &mut p);
            p
        }
        3 => (1..=n as u8).collect(),
        _ => permutation(rng, n),
    }
}
