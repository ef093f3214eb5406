//! What a plan names: how many different ranks, each once, and the gaps, twice over. The walk goes over the plan's list of ranks and marks them, for small
//! counts; the intervals do for any count. The self test holds the second to the first.

use crate::list::count_of;
use crate::plan::{Leg, Plan};

/// One of 'the longest arcs no leg names': its first rank, and how many ranks it has.
#[derive(Clone, Copy, Debug, PartialEq, Eq)]
pub struct Gap {
    pub first: u128,
    pub ranks: u128,
}

/// How many different ranks are named, and the gaps 'in rising order of first rank'.
#[derive(Clone, Debug, PartialEq, Eq)]
pub struct Named {
    pub ranks: u128,
    pub gaps: Vec<Gap>,
}

/// The ranks that a leg names, one at each of its steps.
pub fn ranks_of(plan: &Plan, leg: usize) -> impl Iterator<Item = usize> + '_ {
    (0..=plan.legs[leg].run.unsigned_abs()).map(move |step| plan.rank(leg, step) as usize)
}

/// Ranks from one up to another, the second not among them.
type Interval = (u128, u128);

impl Named {
    /// By a walk of the plan's list of ranks.
    pub fn walked(plan: &Plan) -> Named {
        let mut marked = vec![false; count_of(plan.ports) as usize];
        for leg in 0..plan.legs.len() {
            for rank in ranks_of(plan, leg) {
                marked[rank] = true;
            }
        }
        Named::read_off(marked.len(), |rank| marked[rank])
    }

    /// Off the marks of so many ranks, round the circuit: a gap begins where a rank is not marked and the one before it is, and goes on up to the next mark.
    /// Every plan names a rank, so there is always a mark to begin after.
    pub fn read_off(count: usize, marked: impl Fn(usize) -> bool) -> Named {
        let mut gaps = vec![];
        for first in 0..count {
            let before = (first + count - 1) % count;
            if marked(before) && !marked(first) {
                let ranks = (0..count).take_while(|further| !marked((first + further) % count)).count();
                gaps.push(Gap { first: first as u128, ranks: ranks as u128 });
            }
        }
        Named { ranks: (0..count).filter(|&rank| marked(rank)).count() as u128, gaps }
    }

    /// By intervals: each leg's, split at rank 0; those that overlap or touch made one; then what lies between them, the last and the first as one where
    /// they meet: 'a gap that runs through rank 0 is one arc'.
    pub fn by_intervals(plan: &Plan) -> Named {
        let count = count_of(plan.ports);
        let named = merged(plan.legs.iter().flat_map(|leg| split(leg, count)).collect());
        let ends = [0].into_iter().chain(named.iter().map(|&(_, end)| end));
        let starts = named.iter().map(|&(start, _)| start).chain([count]);
        let between = ends.zip(starts).map(|(first, end)| Gap { first, ranks: end - first });
        let mut gaps: Vec<Gap> = between.filter(|gap| gap.ranks > 0).collect();
        if let [Gap { first: 0, ranks }, .., last] = &mut gaps[..] {
            if last.first + last.ranks == count {
                last.ranks += *ranks;
                gaps.remove(0);
            }
        }
        Named { ranks: named.iter().map(|(start, end)| end - start).sum(), gaps }
    }

    /// The gaps as they stand in the lent slice: 'two for each, first rank and how many'.
    pub fn numbers(&self) -> Vec<u64> {
        self.gaps.iter().flat_map(|gap| [gap.first as u64, gap.ranks as u64]).collect()
    }
}

/// The ranks of a leg as one interval, or as two where it runs through rank 0.
fn split(leg: &Leg, count: u128) -> Vec<Interval> {
    let least = if leg.run < 0 { leg.start + count - leg.run.unsigned_abs() } else { leg.start };
    let start = least % count;
    let end = start + leg.run.unsigned_abs() + 1;
    if end <= count {
        vec![(start, end)]
    } else {
        vec![(start, count), (0, end - count)]
    }
}

/// Intervals in rising order, with a rank between each and the next.
fn merged(mut intervals: Vec<Interval>) -> Vec<Interval> {
    intervals.sort();
    let mut apart: Vec<Interval> = vec![];
    for (start, end) in intervals {
        match apart.last_mut() {
            Some(last) if start <= last.1 => last.1 = last.1.max(end),
            _ => apart.push((start, end)),
        }
    }
    apart
}
