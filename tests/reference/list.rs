//! The list of document 000, as the paper's section 'The list' says it.

use crate::{refusal, refusal_at, repeated, Refusal, MOST_PORTS};

/// 'The count is 0 for n = 1, 1 for n = 2, then (n-1) times the sum of the two before.'
pub fn count_of(n: usize) -> u128 {
    let (mut count, mut next) = (0, 1);
    for longer in 3..n as u128 + 2 {
        (count, next) = (next, (longer - 1) * (count + next));
    }
    count
}

/// The steps that make a pattern from a shorter one.
#[derive(Clone, Copy, Debug, PartialEq, Eq)]
pub enum Way {
    A,
    B,
}

/// A(i): 'put n where t holds i, and put i at jack n.'
pub fn step_a(i: u8, t: &[u8]) -> Vec<u8> {
    let n = t.len() as u8 + 1;
    let mut p: Vec<u8> = t.iter().map(|&port| if port == i { n } else { port }).collect();
    p.push(i);
    p
}

/// B(i): 'add one to entries of i or more, insert n as the entry at jack i, put i at jack n.'
pub fn step_b(i: u8, t: &[u8]) -> Vec<u8> {
    let n = t.len() as u8 + 2;
    let mut p: Vec<u8> = t.iter().map(|&port| if port >= i { port + 1 } else { port }).collect();
    p.insert(i as usize - 1, n);
    p.push(i);
    p
}

/// 'Every pattern of length 4 or more comes from exactly one shorter pattern: with i the entry at n, by B if jack i holds n, else by A.'
/// The two patterns of length 3 come by A.
pub fn origin(p: &[u8]) -> (Way, u8, Vec<u8>) {
    let n = p.len() as u8;
    let i = p[p.len() - 1];
    let mut t = p[..p.len() - 1].to_vec();
    if t[i as usize - 1] == n {
        t.remove(i as usize - 1);
        (Way::B, i, t.iter().map(|&port| if port > i { port - 1 } else { port }).collect())
    } else {
        (Way::A, i, t.iter().map(|&port| if port == n { i } else { port }).collect())
    }
}

/// The place of a pattern in the list. Odd i: A(i), then B(i) reversed. Even i: B(i), then A(i) reversed.
pub fn place(p: &[u8]) -> u128 {
    if p.len() == 2 {
        return 0;
    }
    let (way, i, t) = origin(p);
    let (in_a, in_b) = (count_of(p.len() - 1), count_of(p.len() - 2));
    let before = (i as u128 - 1) * (in_a + in_b);
    match (i % 2, way) {
        (1, Way::A) => before + place(&t),
        (1, Way::B) => before + in_a + place_reversed(&t),
        (_, Way::B) => before + place(&t),
        (_, Way::A) => before + in_b + place_reversed(&t),
    }
}

/// The place of a pattern in the list read backwards: the blocks from i = n-1 down to 1, each read backwards.
pub fn place_reversed(p: &[u8]) -> u128 {
    if p.len() == 2 {
        return 0;
    }
    let (way, i, t) = origin(p);
    let (in_a, in_b) = (count_of(p.len() - 1), count_of(p.len() - 2));
    let before = (p.len() as u128 - 1 - i as u128) * (in_a + in_b);
    match (i % 2, way) {
        (1, Way::B) => before + place(&t),
        (1, Way::A) => before + in_b + place_reversed(&t),
        (_, Way::A) => before + place(&t),
        (_, Way::B) => before + in_a + place_reversed(&t),
    }
}

/// The pattern at a place of the list.
pub fn at(n: usize, place: u128) -> Vec<u8> {
    if n == 2 {
        return vec![2, 1];
    }
    let (in_a, in_b) = (count_of(n - 1), count_of(n - 2));
    let i = (place / (in_a + in_b)) as u8 + 1;
    let inside = place % (in_a + in_b);
    if i % 2 == 1 {
        if inside < in_a {
            step_a(i, &at(n - 1, inside))
        } else {
            step_b(i, &at_reversed(n - 2, inside - in_a))
        }
    } else if inside < in_b {
        step_b(i, &at(n - 2, inside))
    } else {
        step_a(i, &at_reversed(n - 1, inside - in_b))
    }
}

/// The pattern at a place of the list read backwards.
pub fn at_reversed(n: usize, place: u128) -> Vec<u8> {
    if n == 2 {
        return vec![2, 1];
    }
    let (in_a, in_b) = (count_of(n - 1), count_of(n - 2));
    let i = (n - 1) as u8 - (place / (in_a + in_b)) as u8;
    let inside = place % (in_a + in_b);
    if i % 2 == 1 {
        if inside < in_b {
            step_b(i, &at(n - 2, inside))
        } else {
            step_a(i, &at_reversed(n - 1, inside - in_b))
        }
    } else if inside < in_a {
        step_a(i, &at(n - 1, inside))
    } else {
        step_b(i, &at_reversed(n - 2, inside - in_a))
    }
}

/// A move in the paper's form. Jacks count from 1.
#[derive(Clone, Copy, Debug, PartialEq, Eq)]
pub enum Move {
    Nothing,
    Swap(u8, u8),
    Turn(u8, u8, u8),
    TwoSwaps(u8, u8, u8, u8),
}

/// The one move in the paper's form that makes `new` of `old`: 'a swap a,b with a<b; two swaps on four different jacks, smaller first jack first;
/// or a turn a,b,c with a the smallest: jack a gets what b held, b what c held, c what a held.' None where no such move does it.
pub fn difference(old: &[u8], new: &[u8]) -> Option<Move> {
    let differ: Vec<usize> = (0..old.len()).filter(|&j| old[j] != new[j]).collect();
    let source = |j: usize| differ.iter().copied().find(|&k| old[k] == new[j]);
    let found = match differ[..] {
        [] => Move::Nothing,
        [a, b] => Move::Swap(a as u8 + 1, b as u8 + 1),
        [a, ..] if differ.len() == 3 => {
            let b = source(a)?;
            let c = source(b)?;
            Move::Turn(a as u8 + 1, b as u8 + 1, c as u8 + 1)
        }
        [a, ..] if differ.len() == 4 => {
            let b = source(a)?;
            let mut rest = differ.iter().copied().filter(|&j| j != a && j != b);
            let (c, d) = (rest.next()?, rest.next()?);
            Move::TwoSwaps(a as u8 + 1, b as u8 + 1, c as u8 + 1, d as u8 + 1)
        }
        _ => return None,
    };
    let mut made = old.to_vec();
    apply(found, &mut made);
    (made == new).then_some(found)
}

/// What a move does to a panel.
pub fn apply(made: Move, panel: &mut [u8]) {
    let mut swap = |a: u8, b: u8| panel.swap(a as usize - 1, b as usize - 1);
    match made {
        Move::Nothing => {}
        Move::Swap(a, b) => swap(a, b),
        Move::TwoSwaps(a, b, c, d) => {
            swap(a, b);
            swap(c, d);
        }
        Move::Turn(a, b, c) => {
            swap(a, b); // jack a has what b held
            swap(b, c); // jack b has what c held, c what a held
        }
    }
}

/// 1 first; then the jacks from 1, each for 3 and 4, and for 5 unless it is a panel. With 4 the first earlier jack is said whose entry is equal.
fn check_as(p: &[u8], self_joins: bool) -> Result<(), Refusal> {
    if !(2..=MOST_PORTS).contains(&p.len()) {
        return Err(refusal(1));
    }
    for (j, &port) in p.iter().enumerate() {
        let jack = j as u64 + 1;
        if port < 1 || port as usize > p.len() {
            return Err(refusal_at(3, jack));
        }
        if let Some(earlier) = p[..j].iter().position(|&before| before == port) {
            return Err(repeated(jack, earlier as u64 + 1));
        }
        if !self_joins && port as u64 == jack {
            return Err(refusal_at(5, jack));
        }
    }
    Ok(())
}

pub fn check(p: &[u8]) -> Result<(), Refusal> {
    check_as(p, false)
}

/// 'The panel takes any permutation of 1 to n.'
pub fn check_panel(p: &[u8]) -> Result<(), Refusal> {
    check_as(p, true)
}

/// 'Our public count refuses 0 and 1', and whatever is above 20.
pub fn count(ports: usize) -> Result<u128, Refusal> {
    if !(2..=MOST_PORTS).contains(&ports) {
        return Err(refusal(1));
    }
    Ok(count_of(ports))
}

pub fn rank(p: &[u8]) -> Result<u128, Refusal> {
    check(p)?;
    Ok(place(p))
}

pub fn unrank(ports: usize, rank: u128) -> Result<Vec<u8>, Refusal> {
    if rank >= count(ports)? {
        return Err(refusal(6));
    }
    Ok(at(ports, rank))
}

/// 'A signed step takes any signed 64-bit k and answers the rank (rank + k) modulo the count, between 0 and count-1.'
pub fn step(ports: usize, rank: u128, k: i128) -> Result<u128, Refusal> {
    let count = count(ports)?;
    if rank >= count {
        return Err(refusal(6));
    }
    Ok((rank as i128 + k).rem_euclid(count as i128) as u128)
}

/// The pattern k further round the circuit, and the move to it, found from the list itself: the two patterns are looked up and compared.
fn neighbour(p: &[u8], k: i128) -> Result<(Vec<u8>, Move), Refusal> {
    let there = at(p.len(), step(p.len(), rank(p)?, k)?);
    let made = difference(p, &there).expect("neighbours of the list are one move apart");
    Ok((there, made))
}

pub fn next(p: &[u8]) -> Result<(Vec<u8>, Move), Refusal> {
    neighbour(p, 1)
}

pub fn previous(p: &[u8]) -> Result<(Vec<u8>, Move), Refusal> {
    neighbour(p, -1)
}
