//! Groups on the shares: each beside the reference, all of them beside the list, and each as a plan of the campaign's library.

use crate::calls::{self, Told};
use crate::Harness;
use reference::benches::MOST_BENCHES;
use reference::campaign::{COVERED, ERRORS, LEGS, OPEN, PORTS, RUNS, STARTS, WORDS};
use reference::levels::patterns;
use reference::list::count_of;
use reference::plan::read_plan;

/// Numbers that are good ones where only 8, 16, 32 or 63 bits of them are looked at, and others that are large.
const LARGE: [u64; 18] = [
    127,
    128,
    255,
    256,
    256 + 1,
    256 + 2,
    256 + 6,
    256 + 64,
    (1 << 16) + 6,
    (1 << 32) - 1,
    1 << 32,
    (1 << 32) + 1,
    (1 << 32) + 6,
    1 << 63,
    (1 << 63) + 6,
    u64::MAX - 249, // 6 in its lowest 8 bits
    u64::MAX - 1,
    u64::MAX,
];

fn up_to(most: u64) -> Vec<u64> {
    (0..=most).chain(LARGE).collect()
}

pub fn shares(h: &mut Harness) {
    for ports in up_to(25) {
        for benches in up_to(66) {
            for bench in up_to(66) {
                h.share(ports, benches, bench);
            }
        }
    }
}

/// The plan that a bench is told, as its text; none where it has none.
pub fn plan_of(ports: u64, share: &Told) -> Option<String> {
    let [marks, start, run, ..] = share.answer;
    (marks > 0).then(|| format!("ports={ports}\nlegs=1\nstart={start}\nrun={run}\n"))
}

/// What the plans name, bench after bench, as plans are read: exactly the list in order, each pattern once. The shares differ by one mark at most, none is
/// larger than one before it, and the first starts at rank 0.
pub fn union(h: &mut Harness) {
    for ports in 2..=7 {
        let list = patterns(ports as usize);
        for benches in 1..=MOST_BENCHES {
            let told: Vec<Told> = (0..benches).map(|bench| h.share(ports, benches, bench)).collect();
            h.same(&("the start of bench 0", ports, benches), told[0].answer[1], 0);
            let marks: Vec<u64> = told.iter().map(|share| share.answer[0]).collect();
            let (first, last) = (marks[0], marks[marks.len() - 1]);
            h.same(&("shares differ by one at most", ports, benches, &marks), marks.iter().all(|&share| share <= first && first - share <= 1), true);
            h.same(&("no share is larger than one before it", ports, benches, &marks), marks.is_sorted_by(|before, after| before >= after), true);
            h.same(&("a bench is left over just where there are more than patterns", ports, benches), last == 0, benches as usize > list.len());
            let mut named = vec![];
            for (bench, share) in told.iter().enumerate() {
                let what = (ports, benches, bench);
                let Some(text) = plan_of(ports, share) else {
                    h.same(&("no plan", what), *share, Told::wanted((0, [0; 5])));
                    continue;
                };
                match read_plan(text.as_bytes()) {
                    Ok(plan) => {
                        h.same(&("marks of the plan", what), plan.marks(), share.answer[0].into());
                        named.extend((0..plan.marks()).map(|step| list[plan.rank(0, step) as usize].clone()));
                    }
                    Err(refusal) => {
                        h.same(&("a plan", what, text), Err(refusal), Ok(()));
                    }
                }
            }
            h.same(&("the patterns of all plans are the list", ports, benches), named == list, true);
        }
    }
}

/// Each plan is accepted by the campaign's library, which has its ports, its one leg and no counts in the state, and as many marks as the bench is told.
pub fn plans(h: &mut Harness) {
    for ports in 2..=20 {
        for benches in 1..=MOST_BENCHES {
            let mut marks: u128 = 0;
            for bench in 0..benches {
                let share = h.share(ports, benches, bench);
                let Some(text) = plan_of(ports, &share) else { continue };
                let what = (ports, benches, bench, &text);
                let mut state = [7; WORDS];
                if !h.same(&("begin", what), calls::begin(text.as_bytes(), &mut state), 0) {
                    continue;
                }
                let [of_plan, start, run, ..] = share.answer;
                let found = [PORTS, LEGS, STARTS, RUNS, COVERED, OPEN, ERRORS].map(|word| state[word]);
                h.same(&("the state", what), found, [ports, 1, start, run, 0, 0, 0]);
                h.same(&("the campaign's marks", what), calls::status(&state), Told::wanted((0, [of_plan, 0, start, 0, 0])));
                marks += u128::from(of_plan);
            }
            h.same(&("the marks of all benches", ports, benches), marks, count_of(ports as usize));
        }
    }
}
