//! The self test's part on what a plan names: cases worked by hand, the slice of the gaps, and the intervals held to the walk over many small plans.

use crate::{Compared, PLAN};
use reference::list::count_of;
use reference::named::Named;
use reference::plan::{read_plan, Leg, Plan};
use reference::told;

/// The last rank of 20 ports, whose count is one more.
const LAST: i128 = 895014631192902120;

/// A plan of legs, each a start and a run.
fn plan(ports: usize, legs: &[(i128, i128)]) -> Plan {
    Plan { ports, legs: legs.iter().map(|&(start, run)| Leg { start: start as u128, run }).collect() }
}

fn text(plan: &Plan) -> Vec<u8> {
    let legs: String = plan.legs.iter().map(|leg| format!("start={}\nrun={}\n", leg.start, leg.run)).collect();
    format!("ports={}\nlegs={}\n{legs}", plan.ports, plan.legs.len()).into_bytes()
}

/// Worked by hand: the ports, the legs, how many ranks they name, and the gaps as they stand in the slice.
type Worked<'a> = (usize, &'a [(i128, i128)], u64, &'a [u64]);

const WORKED: [Worked; 21] = [
    (6, &[(0, 9), (5, 9)], 15, &[15, 250]),
    (4, &[(2, 4)], 5, &[7, 4]),
    (4, &[(3, 1), (4, -2)], 3, &[5, 6]),
    (4, &[(1, -2), (4, 0)], 4, &[2, 2, 5, 3]),
    // a gap through rank 0 comes last, though it has the ranks before those of the other
    (4, &[(2, 1), (6, 0)], 3, &[4, 2, 7, 4]),
    (4, &[(6, 0), (3, -1)], 3, &[4, 2, 7, 4]),
    // gaps that end before rank 0, and begin at it, are not through it
    (4, &[(0, 0), (5, 1)], 3, &[1, 4, 7, 2]),
    (4, &[(8, 0), (5, 1)], 3, &[0, 5, 7, 1]),
    // whole circuits; all but one rank, which may be the first or the last
    (4, &[(5, 8)], 9, &[]),
    (4, &[(5, -8)], 9, &[]),
    (4, &[(0, 3), (8, -4)], 9, &[]),
    (4, &[(1, 7)], 8, &[0, 1]),
    (4, &[(7, -7)], 8, &[8, 1]),
    (3, &[(1, 0)], 1, &[0, 1]),
    (3, &[(0, 0), (0, 0), (0, 0)], 1, &[1, 1]),
    (2, &[(0, 0)], 1, &[]),
    (2, &[(0, 0), (0, 0)], 1, &[]),
    (20, &[(0, 0)], 1, &[1, LAST as u64]),
    (20, &[(LAST, 1 - LAST)], LAST as u64, &[0, 1]),
    (20, &[(LAST, 1), (1, LAST - 2)], LAST as u64 + 1, &[]),
    (20, &[(7, 3), (7, -LAST)], LAST as u64 + 1, &[]),
];

pub fn worked(compared: &mut Compared) {
    for (ports, legs, named, gaps) in WORKED {
        let plan = plan(ports, legs);
        if ports < 8 {
            by_both_ways(&plan, compared);
        }
        told_with(&text(&plan), named, gaps, compared);
    }
    told_with(PLAN, 5, &[3, 4], compared);
    // 16 single ranks of 44, every second one: as many gaps as legs, the last through rank 0
    let apart: Vec<(i128, i128)> = (0..16).map(|leg| (31 - 2 * leg, 0)).collect();
    let mut gaps: Vec<u64> = (1..16).flat_map(|gap| [2 * gap, 1]).collect();
    gaps.extend([32, 13]);
    told_with(&text(&plan(5, &apart)), 16, &gaps, compared);
}

/// The call: with just room, with more, whose numbers stay, and with any less, which is refused and leaves all of them.
fn told_with(text: &[u8], named: u64, gaps: &[u64], compared: &mut Compared) {
    let old: Vec<u64> = (0..40).map(|place| u64::MAX - place).collect();
    for room in 0..=40 {
        let (mut slice, mut answer) = (old[..room].to_vec(), [7; 5]);
        let number = told::named(text, &mut slice, &mut answer);
        if room < gaps.len() {
            compared.same("fewer numbers than two for each gap", (number, answer, &slice[..]), (2, [0; 5], &old[..room]));
        } else {
            let wanted = [gaps, &old[gaps.len()..room]].concat();
            compared.same("what a plan names", (number, answer, slice), (0, [named, gaps.len() as u64 / 2, 0, 0, 0], wanted));
        }
    }
}

/// Texts that are refused, with their lines, whatever the room; nothing is written.
pub fn refusals(compared: &mut Compared) {
    let refusals: [(&[u8], u8, u64); 9] = [
        (b"", 11, 1),
        (b"ports=6\nlegs", 11, 2),
        (b"ports=6\nlegs=1\nstart=0\nrun=9\n\n", 11, 5),
        (b"ports=6\nlegs=1\nrun=9\n", 7, 3),
        (b"ports=6\nlegs=1\nstart=0\nrun=+9\n", 8, 4),
        (b"ports=1\n", 1, 1),
        (b"ports=6\nlegs=17\n", 9, 2),
        (b"ports=6\nlegs=2\nstart=0\nrun=9\nstart=265\n", 6, 5),
        (b"ports=6\nlegs=2\nstart=0\nrun=9\nstart=5\nrun=-265\n", 10, 6),
    ];
    for (text, number, line) in refusals {
        compared.same("a plan that begins no campaign", read_plan(text).map_err(|refusal| (refusal.number, refusal.place)).err(), Some((number, line)));
        for room in [0, 1, 2, 34] {
            let (mut slice, mut answer) = (vec![5; room], [7; 5]);
            let found = told::named(text, &mut slice, &mut answer);
            compared.same("a refused plan", (found, answer, slice), (number, [line, 0, 0, 0, 0], vec![5; room]));
        }
    }
}

/// The intervals beside the walk; and 'named ranks and gap ranks together must be the whole circuit', with at most as many gaps as legs.
fn by_both_ways(plan: &Plan, compared: &mut Compared) {
    let named = Named::by_intervals(plan);
    let whole = named.ranks + named.gaps.iter().map(|gap| gap.ranks).sum::<u128>();
    compared.same("ranks of the whole circuit", (whole, named.gaps.len() <= plan.legs.len()), (count_of(plan.ports), true));
    compared.same("by intervals and by a walk", (plan, named), (plan, Named::walked(plan)));
}

/// Every plan of so many legs, of which each has any start and any run, or any that is not backward.
fn each_plan(ports: usize, legs: usize, backward: bool, compared: &mut Compared) {
    let count = count_of(ports) as i128;
    let least = if backward { 1 - count } else { 0 };
    let every: Vec<(i128, i128)> = (0..count).flat_map(|start| (least..count).map(move |run| (start, run))).collect();
    for number in 0..every.len().pow(legs as u32) {
        let chosen: Vec<(i128, i128)> = (0..legs).map(|leg| every[number / every.len().pow(leg as u32) % every.len()]).collect();
        by_both_ways(&plan(ports, &chosen), compared);
    }
}

/// The intervals held to the walk: every plan of one and two legs of 2 to 4 ports, of one leg of 5 and 6, of three legs of 3 and, forward, of 4; and plans of
/// up to 16 legs of 5 and 6 ports, whose starts go round the circuit by every stride.
pub fn small_plans(compared: &mut Compared) {
    for (ports, legs, backward) in [(2, 1, true), (2, 2, true), (3, 1, true), (3, 2, true), (3, 3, true), (4, 1, true), (4, 2, true), (4, 3, false)] {
        each_plan(ports, legs, backward, compared);
    }
    for ports in [5, 6] {
        each_plan(ports, 1, true, compared);
        let count = count_of(ports) as i128;
        for (stride, run, legs) in (0..count).flat_map(|stride| (-3..=3).flat_map(move |run| (1..=16).map(move |legs| (stride, run, legs)))) {
            let chosen: Vec<(i128, i128)> = (0..legs).map(|leg| (leg * stride % count, run)).collect();
            by_both_ways(&plan(ports, &chosen), compared);
        }
    }
}
