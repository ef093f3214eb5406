//! Plans whose legs meet: they touch, overlap, are equal, leave just one rank between them, run through rank 0 either way, or go all round.

use super::{rank, Rng};
use reference::list::count_of;
use reference::plan::{Leg, Plan};
use reference::MOST_LEGS;

/// So many ranks of the circuit, from a first one on: a leg without its direction. The first is taken round the circuit when the leg is made.
#[derive(Clone, Copy)]
struct Arc {
    first: i128,
    ranks: i128,
}

/// A plan of 6 to 20 ports, half of the time with the most legs. Its legs have one size at most, often a small one, and are more or less of a crowd: so there
/// are plans of every number of gaps.
pub fn meeting_plan(rng: &mut Rng) -> Plan {
    let ports = rng.between(6, 20);
    let count = count_of(ports) as i128;
    let legs = if rng.chance(50) { MOST_LEGS } else { rng.between(1, MOST_LEGS) };
    let most = rng.pick(&[1, 2, 5, count / 60, count / 30, count / 15, count]);
    let crowd = rng.pick(&[0, 5, 30, 60, 90]);
    let mut arcs = vec![alone(rng, ports, most, crowd)];
    while arcs.len() < legs {
        let other = rng.pick(&arcs);
        arcs.push(if rng.chance(crowd) { beside(rng, other, most) } else { alone(rng, ports, most, crowd) });
    }
    if rng.chance(10) {
        let other = rng.pick(&arcs);
        arcs[rng.below(legs)] = nearly_all(rng, other, count);
    }
    Plan { ports, legs: arcs.into_iter().map(|arc| either_way(rng, arc, count)).collect() }
}

fn size(rng: &mut Rng, most: i128) -> i128 {
    let any = 1 + rng.below_wide(most as u128) as i128;
    rng.pick(&[1, 2, most, any]).min(most)
}

/// An arc about rank 0, or anywhere.
fn alone(rng: &mut Rng, ports: usize, most: i128, crowd: usize) -> Arc {
    let about = rng.below(40) as i128 - 20;
    let first = if rng.chance(crowd) { rng.pick(&[-2, -1, 0, 1, about, about]) } else { rank(rng, ports) as i128 };
    Arc { first, ranks: size(rng, most) }
}

/// An arc that begins about the end of another, or ends about its beginning: with two ranks or one in common, touching, with one rank or two between them. Or
/// the same arc, or one that begins with it, or ends with it.
fn beside(rng: &mut Rng, other: Arc, most: i128) -> Arc {
    let ranks = size(rng, most);
    let between = rng.below(5) as i128 - 2;
    let end = other.first + other.ranks;
    match rng.below(7) {
        0 => other,
        1 => Arc { first: other.first, ranks },
        2 => Arc { first: end - ranks, ranks },
        3 | 4 => Arc { first: end + between, ranks },
        _ => Arc { first: other.first - between - ranks, ranks },
    }
}

/// All of the circuit, or all that another arc leaves of it; or all but a rank or two, at its end, at its beginning or at both.
fn nearly_all(rng: &mut Rng, other: Arc, count: i128) -> Arc {
    let left = rng.below(3);
    let skipped = rng.below(left + 1) as i128;
    let taken = if rng.chance(50) { 0 } else { other.ranks };
    Arc { first: other.first + taken + skipped, ranks: (count - taken - left as i128).max(1) }
}

/// The leg that names an arc, forward or backward.
fn either_way(rng: &mut Rng, Arc { first, ranks }: Arc, count: i128) -> Leg {
    let forward = rng.chance(50);
    let (start, run) = if forward { (first, ranks - 1) } else { (first + ranks - 1, 1 - ranks) };
    Leg { start: start.rem_euclid(count) as u128, run }
}
