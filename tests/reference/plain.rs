//! Dictionary numbers, ranks and patterns as one would write them in plain Rust for speed: on arrays and sets of bits, with nothing allocated. The speed table
//! times them; the self test holds them to `dictionary` and `list`. Nothing is checked here: a pattern is one of 2 to 20 ports, and a number or a rank is below
//! the count.

use crate::MOST_PORTS;

/// In how many ways so many jacks take as many ports, where so many of them find their own port among these and may not take it. With one more that may not,
/// the ways in which it did are gone, and in those the other jacks and ports were left.
const WAYS: [[u64; MOST_PORTS + 1]; MOST_PORTS + 1] = {
    let mut ways = [[0; MOST_PORTS + 1]; MOST_PORTS + 1];
    ways[0][0] = 1;
    let mut left = 1;
    while left <= MOST_PORTS {
        ways[left][0] = ways[left - 1][0] * left as u64;
        let mut own = 1;
        while own <= left {
            ways[left][own] = ways[left][own - 1] - ways[left - 1][own - 1];
            own += 1;
        }
        left += 1;
    }
    ways
};

/// How many patterns there are.
pub fn count(n: usize) -> u64 {
    WAYS[n][n]
}

/// A set of ports, by bits: the bit of port 1 is the lowest.
type Ports = u32;

fn bit(port: u8) -> Ports {
    1 << (port - 1)
}

/// The ports below a jack's own, and those above it.
fn sides(free: Ports, jack: u8) -> (Ports, Ports) {
    let below = free & (bit(jack) - 1);
    (below, free & !below & !bit(jack))
}

/// In how many ways the jacks after this one are filled: where it takes a port below its own, so that those above are left, and where it takes one of these.
fn ways_after(n: usize, jack: u8, above: Ports) -> (u64, u64) {
    let (left, own) = (n - usize::from(jack), above.count_ones() as usize);
    (WAYS[left][own], WAYS[left][own.saturating_sub(1)])
}

/// The k-th port of a set, from 0.
fn kth(mut ports: Ports, k: u64) -> u8 {
    for _ in 0..k {
        ports &= ports - 1;
    }
    ports.trailing_zeros() as u8 + 1
}

/// The dictionary number of a pattern.
pub fn number(p: &[u8]) -> u64 {
    let (mut free, mut number) = ((1 << p.len()) - 1, 0);
    for (jack, &port) in (1..).zip(p) {
        let (below, above) = sides(free, jack);
        let (after_below, after_above) = ways_after(p.len(), jack, above);
        let smaller = bit(port) - 1;
        number += u64::from((below & smaller).count_ones()) * after_below + u64::from((above & smaller).count_ones()) * after_above;
        free &= !bit(port);
    }
    number
}

/// The pattern of a dictionary number.
pub fn pattern(mut number: u64, p: &mut [u8]) {
    let n = p.len();
    let mut free: Ports = (1 << n) - 1;
    for (jack, place) in (1..).zip(p) {
        let (below, above) = sides(free, jack);
        let (after_below, after_above) = ways_after(n, jack, above);
        let with_below = u64::from(below.count_ones()) * after_below;
        *place = if number < with_below {
            let k = number / after_below;
            number -= k * after_below;
            kth(below, k)
        } else {
            number -= with_below;
            let k = number / after_above;
            number -= k * after_above;
            kth(above, k)
        };
        free &= !bit(*place);
    }
}

/// The smallest port above `floor` that a jack can take of those that are free: one with which the jacks after it can be filled. Two jacks and more always can,
/// and one can unless its own port is what is left.
fn smallest(n: usize, jack: u8, free: Ports, floor: u8) -> Option<u8> {
    let one_left = usize::from(jack) + 1 == n;
    let mut larger = free & !bit(jack) & !((1 << floor) - 1);
    while larger != 0 {
        let port = kth(larger, 0);
        if !(one_left && free & !bit(port) == bit(n as u8)) {
            return Some(port);
        }
        larger &= larger - 1;
    }
    None
}

/// The pattern becomes the next one in dictionary order.
pub fn next(p: &mut [u8]) {
    let n = p.len();
    let (mut free, mut j) = (0, n);
    let mut port = None;
    while port.is_none() && j > 0 {
        j -= 1;
        free |= bit(p[j]);
        port = smallest(n, j as u8 + 1, free, p[j]);
    }
    // where no jack can have a larger one, all are filled anew
    for k in j..n {
        p[k] = port.take().or_else(|| smallest(n, k as u8 + 1, free, 0)).expect("the jacks can be filled");
        free &= !bit(p[k]);
    }
}

/// The rank of a pattern: level by level what comes before its block, added where the level's list is read forward and taken away where it is read backward.
/// The second sublist of a block is read backward, and so counts from the block's end.
pub fn rank(p: &[u8]) -> u64 {
    let mut n = p.len();
    let mut t = [0; MOST_PORTS];
    t[..n].copy_from_slice(p);
    let (mut rank, mut forward) = (0u64, true);
    while n > 2 {
        let i = t[n - 1];
        let at_i = usize::from(i) - 1;
        let block = count(n - 1) + count(n - 2);
        let by_b = usize::from(t[at_i]) == n;
        let second = by_b == (i % 2 == 1);
        let before = (u64::from(i) - 1) * block + if second { block - 1 } else { 0 };
        rank = if forward { rank.wrapping_add(before) } else { rank.wrapping_sub(before) };
        forward ^= second;
        if by_b {
            t.copy_within(at_i + 1..n - 1, at_i);
            n -= 2;
            for port in &mut t[..n] {
                *port -= u8::from(*port > i);
            }
        } else {
            let at_n = t[..n].iter().position(|&port| usize::from(port) == n).expect("a pattern has port n");
            t[at_n] = i;
            n -= 1;
        }
    }
    rank
}

/// The pattern of a rank: the choices from n down, and then the steps A and B from (2,1) up.
pub fn unrank(mut rank: u64, p: &mut [u8]) {
    let mut n = p.len();
    let (mut chosen, mut levels) = ([(0, false); MOST_PORTS], 0);
    while n > 2 {
        let (in_a, in_b) = (count(n - 1), count(n - 2));
        let block = in_a + in_b;
        let i = (rank / block) as u8 + 1;
        rank %= block;
        let odd = i % 2 == 1;
        let second = rank >= if odd { in_a } else { in_b };
        let by_b = second == odd;
        if second {
            rank = block - 1 - rank;
        }
        chosen[levels] = (i, by_b);
        levels += 1;
        n -= if by_b { 2 } else { 1 };
    }
    p[0] = 2;
    p[1] = 1;
    for &(i, by_b) in chosen[..levels].iter().rev() {
        let at_i = usize::from(i) - 1;
        if by_b {
            for port in &mut p[..n] {
                *port += u8::from(*port >= i);
            }
            p.copy_within(at_i..n, at_i + 1);
            n += 2;
            p[at_i] = n as u8;
        } else {
            let at = p[..n].iter().position(|&port| port == i).expect("a pattern has port i");
            n += 1;
            p[at] = n as u8;
        }
        p[n - 1] = i;
    }
}
