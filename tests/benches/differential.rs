//! The library for several benches beside the reference, and beside what the test itself knows: shares, plans that together are the whole list, campaigns on
//! every bench with a history of the test's own, and counts added up, good and bad. Compared are the number, the five words of the answer, the counts that
//! were lent and the guards around both. Any difference fails the test, and so does a refusal of a call that was not met.
//!
//!     differential [SEED]

mod calls;
mod campaigns;
mod face;
#[allow(dead_code)]
#[path = "../reference/inputs/rng.rs"]
mod rng;
mod shares;
mod sums;

use calls::Told;
use reference::benches::{told_share, told_sum, told_version};
use reference::told::Answer;
use rng::Rng;
use std::collections::BTreeMap;
use std::env::args;
use std::fmt::Debug;
use std::process::exit;

const SEED: u64 = 20;
const MOST_DIFFERENCES: usize = 10;

/// The refusals of each call, as the header has them; 0 is accepted.
const REFUSALS: [(&str, &[u8]); 3] = [("version", &[0]), ("share", &[0, 1, 21, 22]), ("sum", &[0, 1, 21, 27])];

pub struct Harness {
    seed: u64,
    group: &'static str,
    compared: usize,
    differences: usize,
    /// How often the library answered each number, call by call.
    met: BTreeMap<(&'static str, u8), usize>,
}

impl Harness {
    /// A generator of numbers for one case of the group.
    pub fn rng(&self, case: u64) -> Rng {
        Rng::of(self.seed, self.group, case)
    }

    /// What was found beside what is wanted; `what` says of which input.
    pub fn same<T: PartialEq + Debug>(&mut self, what: &dyn Debug, found: T, wanted: T) -> bool {
        self.compared += 1;
        let same = found == wanted;
        if !same {
            self.differences += 1;
            println!("difference {} in group {}, seed {}: {what:?}\n  found:  {found:?}\n  wanted: {wanted:?}", self.differences, self.group, self.seed);
            if self.differences == MOST_DIFFERENCES {
                println!("benches: {} comparisons, {} differences, and no more is compared", self.compared, self.differences);
                exit(1);
            }
        }
        same
    }

    fn beside(&mut self, call: &'static str, what: &dyn Debug, found: Told, wanted: (u8, Answer)) -> Told {
        *self.met.entry((call, found.number)).or_default() += 1;
        self.same(what, found, Told::wanted(wanted));
        found
    }

    fn version(&mut self) {
        self.beside("version", &"version", calls::version(), told_version());
    }

    /// A share of the library beside the reference's; answers the library's.
    pub fn share(&mut self, ports: u64, benches: u64, bench: u64) -> Told {
        self.beside("share", &("share", ports, benches, bench), calls::share(ports, benches, bench), told_share(ports, benches, bench))
    }

    /// Counts added up by the library, beside the reference; answers what the library found.
    pub fn sum(&mut self, ports: u64, benches: u64, counts: &[u64]) -> Told {
        self.beside("sum", &("sum", ports, benches, counts), calls::sum(ports, benches, counts), told_sum(ports, benches, counts))
    }

    /// The same with no counts and no pointer to any.
    pub fn sum_of_nothing(&mut self, ports: u64, benches: u64) -> Told {
        self.beside("sum", &("sum of nothing", ports, benches), calls::sum_of_nothing(ports, benches), told_sum(ports, benches, &[]))
    }

    /// Counts added up, beside the reference and beside what is known to come of them.
    pub fn known(&mut self, what: &str, ports: u64, benches: u64, counts: &[u64], number: u8, answer: [u64; 3]) {
        let found = self.sum(ports, benches, counts);
        let [a, b, c] = answer;
        self.same(&(what, ports, benches, counts), found, Told::wanted((number, [a, b, c, 0, 0])));
    }

    /// Every refusal of each call is met; says how often.
    fn refusals(&mut self) {
        let mut said = vec![];
        for (call, numbers) in REFUSALS {
            for &number in numbers {
                let times = self.met.get(&(call, number)).copied().unwrap_or(0);
                self.same(&("met", call, number), times > 0, true);
                let answered = if number == 0 { "accepted".into() } else { format!("refused with {number}") };
                said.push(format!("{call} {answered} {times} times"));
            }
        }
        println!("group refusals: {}", said.join(", "));
    }
}

/// A group: its name, what it is of, and its work.
type Group = (&'static str, &'static str, fn(&mut Harness));

const GROUPS: [Group; 6] = [
    ("version", "the library's is the header's", Harness::version),
    ("shares", "ports, benches and bench numbers, good ones and others", shares::shares),
    ("union", "the plans of 2 to 7 ports over 1 to 64 benches are the list, in order and each pattern once", shares::union),
    ("plans", "every plan of 2 to 20 ports over 1 to 64 benches begins a campaign", shares::plans),
    ("campaigns", "the sums over the histories of 2 to 7 ports, stopped and ended", campaigns::campaigns),
    ("sums", "counts within the shares, at their limits and beyond", sums::sums),
];

fn main() {
    let seed = args().nth(1).map_or(SEED, |word| word.parse().expect("usage: differential [SEED]"));
    let mut h = Harness { seed, group: "", compared: 0, differences: 0, met: BTreeMap::new() };
    for (name, what, work) in GROUPS {
        let (compared, differences) = (h.compared, h.differences);
        h.group = name;
        work(&mut h);
        println!("group {name}: {} comparisons, {} differences: {what}", h.compared - compared, h.differences - differences);
    }
    h.group = "refusals";
    h.refusals();
    println!("benches: {} comparisons, {} differences", h.compared, h.differences);
    exit(i32::from(h.differences > 0));
}
