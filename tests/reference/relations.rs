//! A neighbour by relations (3) to (9) of document 000 and without walking the list: the pattern is taken apart level by level on arrays, and the
//! first level from below at which its shorter pattern stands at the end of its sublist says the relation. Nothing is allocated. This is how one
//! would write next in plain Rust for speed; `list` finds the same move from the list itself.

use crate::list::{apply, Move};
use crate::MOST_PORTS;

/// A step of a relation on the positions 1..n of one level, as it stands in document 000: in no form yet.
#[derive(Clone, Copy)]
enum Step {
    Swap(usize, usize),
    Swaps(usize, usize, usize, usize),
    Turn(usize, usize, usize),
}

/// A pattern of `n` entries and the jack of the whole panel that each stands for.
#[derive(Clone, Copy)]
struct Level {
    n: usize,
    ports: [u8; MOST_PORTS],
    jacks: [u8; MOST_PORTS],
}

/// The pattern, 2 to 20 ports, becomes the next one round the circuit.
pub fn next(pattern: &mut [u8]) -> Move {
    neighbour(pattern, true)
}

/// The pattern becomes the previous one.
pub fn previous(pattern: &mut [u8]) -> Move {
    neighbour(pattern, false)
}

fn neighbour(pattern: &mut [u8], forward: bool) -> Move {
    let n = pattern.len();
    let mut whole = Level { n, ports: [0; MOST_PORTS], jacks: [0; MOST_PORTS] };
    whole.ports[..n].copy_from_slice(pattern);
    for (j, jack) in whole.jacks.iter_mut().enumerate() {
        *jack = j as u8 + 1;
    }
    let made = move_at(&whole, forward).unwrap_or_else(|| round_the_end(n, forward));
    apply(made, pattern);
    made
}

/// The move along the level's list, forward or backward; none where the pattern is the last that way.
fn move_at(level: &Level, forward: bool) -> Option<Move> {
    let n = level.n;
    if n == 2 {
        return None;
    }
    let i = level.ports[n - 1] as usize;
    if n == 3 {
        // the list 231, 312: gen_up's and gen_down's own case
        return match (i, forward) {
            (1, true) => Some(in_form(Step::Turn(1, 2, 3), &level.jacks)),
            (2, false) => Some(in_form(Step::Turn(1, 3, 2), &level.jacks)),
            _ => None,
        };
    }
    let by_b = level.ports[i - 1] as usize == n;
    // odd i: A forward, B backward; even i: B forward, A backward; all turned round if the level is read backward
    let inner_forward = ((i % 2 == 1) != by_b) == forward;
    if let Some(inner) = move_at(&shorter(level, i, by_b), inner_forward) {
        return Some(inner);
    }
    let step = match (inner_forward, by_b, forward) {
        (true, false, _) => between_a_and_b(n, i),
        (true, true, _) => inverse(between_a_and_b(n, i)),
        (false, true, true) if i < n - 1 => relation_3(n, i),
        (false, true, false) if i > 1 => relation_3(n, i - 1), // relation (4) is (3) for i-1, two swaps being their own inverse
        (false, false, true) if i < n - 1 => relation_5(n, i),
        (false, false, false) if i > 1 => inverse(relation_5(n, i - 1)), // relation (6)
        _ => return None,
    };
    Some(in_form(step, &level.jacks))
}

/// The shorter pattern that a level's pattern comes from.
fn shorter(level: &Level, i: usize, by_b: bool) -> Level {
    let n = level.n;
    let mut inner = Level { n: 0, ports: [0; MOST_PORTS], jacks: [0; MOST_PORTS] };
    for j in 0..n - 1 {
        let port = level.ports[j] as usize;
        if by_b && j == i - 1 {
            continue;
        }
        inner.ports[inner.n] = match by_b {
            true if port > i => port - 1,
            false if port == n => i,
            _ => port,
        } as u8;
        inner.jacks[inner.n] = level.jacks[j];
        inner.n += 1;
    }
    inner
}

fn relation_3(n: usize, i: usize) -> Step {
    match i {
        1 => Step::Swaps(1, 2, n - 1, n),
        _ => Step::Swaps(i - 1, n, i, i + 1),
    }
}

/// Relation (5), for even i: the list comes to no other.
fn relation_5(n: usize, i: usize) -> Step {
    Step::Turn(n, i, i - 1)
}

/// Relations (7) and (8), row i = n-2 as the paper has it.
fn between_a_and_b(n: usize, i: usize) -> Step {
    let even = n % 2 == 0;
    match (n, i) {
        (4, 3) => Step::Swap(1, 3),
        (4, _) => Step::Swap(i, i + 1),
        (_, 1) if even => Step::Turn(n - 2, n - 3, 1),
        (_, 1) => Step::Turn(1, n - 3, n - 2),
        _ if i + 4 <= n => Step::Swaps(i - 1, i, n - 3, n - 2),
        _ if i + 3 == n => Step::Turn(n - 2, n - 3, n - 4),
        _ if i + 2 == n => Step::Turn(n - 4, n - 2, n - 1),
        _ if even => Step::Swaps(n - 4, n - 2, n - 3, n - 1),
        _ => Step::Turn(n - 1, n - 2, n - 4),
    }
}

fn inverse(step: Step) -> Step {
    match step {
        Step::Turn(a, b, c) => Step::Turn(c, b, a),
        swaps => swaps,
    }
}

/// The step on the whole panel's jacks, in the paper's form.
fn in_form(step: Step, jacks: &[u8; MOST_PORTS]) -> Move {
    let jack = |position: usize| jacks[position - 1];
    let pair = |a: usize, b: usize| (jack(a).min(jack(b)), jack(a).max(jack(b)));
    match step {
        Step::Swap(a, b) => Move::Swap(pair(a, b).0, pair(a, b).1),
        Step::Swaps(a, b, c, d) => {
            let (first, second) = (pair(a, b).min(pair(c, d)), pair(a, b).max(pair(c, d)));
            Move::TwoSwaps(first.0, first.1, second.0, second.1)
        }
        Step::Turn(a, b, c) => {
            let (a, b, c) = (jack(a), jack(b), jack(c));
            let first = a.min(b).min(c);
            if first == a {
                Move::Turn(a, b, c)
            } else if first == b {
                Move::Turn(b, c, a)
            } else {
                Move::Turn(c, a, b)
            }
        }
    }
}

/// From the last pattern to the first, by Lemma 3 of document 000, or back.
fn round_the_end(n: usize, forward: bool) -> Move {
    let j = n as u8;
    match (n, n % 2) {
        (2, _) => Move::Nothing,
        (_, 0) => Move::Swap(j - 2, j),
        _ if forward => Move::Turn(j - 2, j, j - 1),
        _ => Move::Turn(j - 2, j - 1, j),
    }
}
