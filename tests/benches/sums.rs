//! The group on counts that are lent: within the shares, at their limits and beyond, of wrong lengths, and with more than one fault. Each is held to the
//! reference and to what is known of it.

use crate::rng::Rng;
use crate::Harness;
use reference::benches::{dealt, MOST_BENCHES};
use reference::list::count_of;

const MOST: u64 = u64::MAX;
const MOST_ERRORS: u64 = 65_535;

/// The shares of all benches, from bench 0 on.
fn shares(ports: u64, benches: u64) -> Vec<u64> {
    dealt(count_of(ports as usize), benches).into_iter().map(|marks| marks as u64).collect()
}

/// Counts by chance within the shares.
fn good(rng: &mut Rng, shares: &[u64]) -> Vec<u64> {
    let mut counts = vec![];
    for &share in shares {
        let closed = if rng.chance(30) { share.into() } else { rng.below_wide(u128::from(share) + 1) };
        let covered = rng.below_wide(closed + 1);
        let errors = if rng.chance(20) { MOST_ERRORS } else { rng.below(MOST_ERRORS as usize + 1) as u64 };
        counts.extend([covered as u64, (closed - covered) as u64, errors]);
    }
    counts
}

/// The plain sums.
fn plain(counts: &[u64]) -> [u64; 3] {
    [0, 1, 2].map(|k| counts.iter().skip(k).step_by(3).sum())
}

/// Counts that no bench with this share can have: above it by one, by more, and by so much that 64 bits do not hold their sum, which is a good one in the
/// lowest 64 or 32 bits; and errors above 65,535, of which some are not in their lowest 16 or 32 bits.
fn bad(share: u64) -> Vec<[u64; 3]> {
    let mut bad = vec![
        [share + 1, 0, 0],
        [0, share + 1, 0],
        [share, 1, 0],
        [1, share, 0],
        [share, share + 1, MOST_ERRORS],
        [MOST, 0, 0],
        [0, MOST, 0],
        [MOST, 1, 0],
        [1, MOST, 0],
        [MOST, MOST, 0],
        [MOST, share + 1, 0],
        [share + 1, MOST, MOST_ERRORS],
        [1 << 63, 1 << 63, 0],
        [(1 << 63) + share, 1 << 63, 0],
        [0, 0, MOST_ERRORS + 1],
        [share, 0, MOST_ERRORS + 1],
        [0, share, MOST],
        [0, 0, 1 << 17],
        [0, 0, 1 << 32],
        [0, share, (1 << 32) + 1],
        [share + 1, 0, MOST_ERRORS + 1],
    ];
    let low = [[1 << 32, 0, 0], [0, 1 << 32, 0], [1 << 31, 1 << 31, 0], [256, 0, 0], [0, 65_536, 0]];
    bad.extend(low.into_iter().filter(|[covered, open, _]| covered + open > share));
    bad
}

/// Accepted: counts by chance, zeros, all covered, all open, half and half, with no errors and with as many as there can be.
fn within(h: &mut Harness, rng: &mut Rng, ports: u64, benches: u64) {
    let (shares, count) = (shares(ports, benches), count_of(ports as usize) as u64);
    for _ in 0..4 {
        let counts = good(rng, &shares);
        h.known("within the shares", ports, benches, &counts, 0, plain(&counts));
    }
    let of_each = |three: fn(u64) -> [u64; 3]| shares.iter().flat_map(|&share| three(share)).collect::<Vec<u64>>();
    h.known("zeros", ports, benches, &of_each(|_| [0; 3]), 0, [0; 3]);
    h.known("all covered", ports, benches, &of_each(|share| [share, 0, 0]), 0, [count, 0, 0]);
    h.known("all open, and all errors", ports, benches, &of_each(|share| [0, share, MOST_ERRORS]), 0, [0, count, MOST_ERRORS * benches]);
    let halves = of_each(|share| [share / 2, share - share / 2, 1]);
    h.known("half and half", ports, benches, &halves, 0, plain(&halves));
    for bench in 0..benches as usize {
        // each of the three by itself, at each bench: errors at a bench without a plan are added like any others
        let mut counts = vec![0; 3 * benches as usize];
        counts[3 * bench + 2] = 7;
        h.known("errors at one bench", ports, benches, &counts, 0, [0, 0, 7]);
        counts[3 * bench] = shares[bench];
        h.known("one bench covered", ports, benches, &counts, 0, [shares[bench], 0, 7]);
        counts.swap(3 * bench, 3 * bench + 1);
        h.known("one bench open", ports, benches, &counts, 0, [0, shares[bench], 7]);
    }
}

/// Refused with 27: a bad three at the first bench, at one in the middle and at the last, and at two and at all benches, where the first is named.
fn beyond(h: &mut Harness, rng: &mut Rng, ports: u64, benches: u64) {
    let (shares, last) = (shares(ports, benches), benches as usize - 1);
    let middle = rng.below(benches as usize);
    for bench in [0, middle, benches as usize / 2, last] {
        for three in bad(shares[bench]) {
            let mut counts = good(rng, &shares);
            counts[3 * bench..3 * bench + 3].copy_from_slice(&three);
            h.known("one bad three", ports, benches, &counts, 27, [bench as u64, 0, 0]);
            let second = rng.between(bench, last);
            if second > bench {
                let another = rng.pick(&bad(shares[second]));
                counts[3 * second..3 * second + 3].copy_from_slice(&another);
                h.known("two bad threes", ports, benches, &counts, 27, [bench as u64, 0, 0]);
            }
        }
    }
    h.known("all bad", ports, benches, &vec![MOST; 3 * benches as usize], 27, [0; 3]);
}

/// Refused with 21: numbers that are not three for each bench, good and bad ones.
fn lengths(h: &mut Harness, ports: u64, benches: u64) {
    let whole = 3 * benches as usize;
    for numbers in [0, 1, 2, 3, whole - 3, whole - 2, whole - 1, whole, whole + 1, whole + 2, whole + 3, 2 * whole, 192, 256 + whole] {
        let [zeros, bad] = if numbers == whole { [0, 27] } else { [21, 21] };
        h.known("so many zeros", ports, benches, &vec![0; numbers], zeros, [0; 3]);
        h.known("so many bad numbers", ports, benches, &vec![MOST; numbers], bad, [0; 3]);
    }
    let found = h.sum_of_nothing(ports, benches);
    h.same(&("no counts", ports, benches), (found.number, found.answer), (21, [0; 5]));
}

/// Refused with 1 and 21, whatever else is lent: 1 before 21, and both before 27.
fn bad_ports_and_benches(h: &mut Harness) {
    let good_bench = |benches: u64| (1..=MOST_BENCHES).contains(&benches);
    // three times the last two is 2 and 1 in its lowest 64 bits
    let large = [127, 255, 256, 257, 260, 320, 1 << 32, (1 << 32) + 4, 1 << 63, MOST - 1, MOST, 6148914691236517206, 12297829382473034411];
    for ports in (0..=25).chain([255, 256, 258, 262, 276, (1 << 32) + 6, (1 << 63) + 6, MOST]) {
        for benches in (0..=70).chain(large) {
            let good_ports = (2..=20).contains(&ports);
            if good_ports && good_bench(benches) {
                continue;
            }
            let number = if good_ports { 21 } else { 1 };
            for numbers in [0, 1, 2, 3, 12, 192, 195, benches.wrapping_mul(3).min(210) as usize] {
                h.known("zeros", ports, benches, &vec![0; numbers], number, [0; 3]);
                h.known("bad numbers", ports, benches, &vec![MOST; numbers], number, [0; 3]);
            }
            h.sum_of_nothing(ports, benches);
        }
    }
}

pub fn sums(h: &mut Harness) {
    for ports in 2..=20 {
        for benches in 1..=MOST_BENCHES {
            let mut rng = h.rng(ports << 8 | benches);
            within(h, &mut rng, ports, benches);
            beyond(h, &mut rng, ports, benches);
            lengths(h, ports, benches);
        }
    }
    bad_ports_and_benches(h);
}
