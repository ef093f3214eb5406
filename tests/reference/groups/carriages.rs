//! Groups on carriages: the orders that the library hands out before a leg's first mark are swaps, as few as `reference::swaps` says, and bring the panel to
//! the pattern of the leg's start. The campaign runs on the library alone; a bench carries its orders out.

use super::seating::permutations;
use crate::calls::{Call, Name, LIBRARY};
use crate::inputs::{self, Rng};
use crate::Harness;
use reference::campaign::WORDS;
use reference::list::{at, count_of};
use reference::plan::{Leg, Plan};
use reference::swaps::fewest;
use reference::text::Line;
use reference::told;

/// The kinds of lines for C.
const SWAP: u64 = 1;
const TURN: u64 = 2;
const MARK: u64 = 3;
const END: u64 = 4;
const SEAT: u64 = 6;

/// More orders than come before any mark: so the test ends, whatever the library hands out.
const MOST_ORDERS: usize = 64;

/// A campaign on the library, and the panel of the bench.
#[derive(Clone)]
struct Bench {
    plan: Plan,
    state: Vec<u64>,
    panel: Vec<u8>,
    /// Whether each call so far was accepted and wrote only what was lent to it.
    accepted: bool,
}

impl Bench {
    /// The first state of a plan, the panel at home.
    fn begun(plan: Plan) -> Bench {
        let (text, home) = (inputs::plan_text(&plan), (2..=plan.ports as u8).chain([1]).collect());
        let mut bench = Bench { plan, state: vec![0; WORDS], panel: home, accepted: true };
        bench.call(Name::Begin, text);
        bench
    }

    /// A call on the state; answers its five words.
    fn call(&mut self, name: Name, bytes: Vec<u8>) -> [u64; 5] {
        let outcome = LIBRARY.run(&Call::on_both(name, bytes, self.state.clone()));
        self.accepted &= outcome.number == 0 && !outcome.spilled;
        self.state = outcome.words;
        outcome.answer
    }

    /// Going on with this panel.
    fn resume(&mut self, panel: Vec<u8>) {
        self.call(Name::Resume, panel.clone());
        self.panel = panel;
    }

    /// The next line, carried out on the bench.
    fn line(&mut self) -> [u64; 4] {
        let [kind, a, b, c, _] = self.call(Name::Request, vec![0; 45]);
        self.accepted &= told::carry(&mut self.panel, &[kind, a, b, c], &mut [0; 5]) == 0;
        [kind, a, b, c]
    }

    /// The orders up to a mark or the end, and the line of that.
    fn orders(&mut self) -> (Vec<[u64; 4]>, [u64; 4]) {
        let mut orders = vec![];
        loop {
            let line = self.line();
            if ![SWAP, TURN, SEAT].contains(&line[0]) || orders.len() == MOST_ORDERS {
                return (orders, line);
            }
            orders.push(line);
        }
    }

    /// The line of a mark.
    fn mark(&self, leg: usize, step: u128) -> [u64; 4] {
        [MARK, self.plan.number(leg, step) as u64, self.plan.rank(leg, step) as u64, 0]
    }

    /// The orders from the panel as it stands to a leg's first mark.
    fn carriage(&mut self, h: &mut Harness, leg: usize) {
        let ports = self.plan.ports;
        let (from, to) = (self.panel.clone(), at(ports, self.plan.legs[leg].start));
        let (orders, line) = self.orders();
        let swaps = orders.iter().all(|&[kind, a, b, _]| kind == SWAP && Line::Swap(a, b).in_shape(ports as u64));
        h.compare_made("how many orders from a panel to a leg's first mark", 0, (&from, &to, orders.len()), (&from, &to, fewest(&from, &to)));
        h.compare_made("all of them swaps, and then the mark", 0, (&from, self.accepted, swaps, line), (&from, true, true, self.mark(leg, 0)));
        h.compare_made("the bench at a leg's first mark", 0, (&from, &self.panel), (&from, &to));
    }

    /// The move to a later mark of a leg.
    fn further(&mut self, h: &mut Harness, leg: usize, step: u128) {
        let (_, line) = self.orders();
        let wanted = (true, self.mark(leg, step), self.plan.pattern(leg, step));
        h.compare_made("the bench at a later mark of a leg", 0, (self.accepted, line, self.panel.clone()), wanted);
    }

    /// Reports of the standing mark by chance: errors, after each of which the seats come and the same mark with no movement; at last ran or gave up.
    fn reports(&mut self, h: &mut Harness, rng: &mut Rng, leg: usize, step: u128) {
        while rng.chance(25) {
            self.call(Name::Report { kind: 1 }, vec![]);
            let seats = (1..=self.plan.ports as u64).map(|jack| [SEAT, jack, 0, 0]).collect();
            let found = (self.orders(), self.accepted);
            h.compare_made("the seats after an error, and the same mark", 0, found, ((seats, self.mark(leg, step)), true));
        }
        self.call(Name::Report { kind: rng.pick(&[0, 2]) }, vec![]);
    }

    /// After the last report comes the end, with no order before it.
    fn end(&mut self, h: &mut Harness) {
        let found = (self.orders(), self.accepted);
        h.compare_made("the end", 0, found, ((vec![], [END, self.plan.marks() as u64, 0, 0]), true));
    }
}

/// From home to each pattern of 2 to 5 ports, and from there to each.
pub fn carriages_of_patterns(h: &mut Harness) {
    for ports in 2..=5 {
        for (a, b) in (0..count_of(ports)).flat_map(|a| (0..count_of(ports)).map(move |b| (a, b))) {
            let legs = [a, b].map(|start| Leg { start, run: 0 }).to_vec();
            let mut bench = Bench::begun(Plan { ports, legs });
            for leg in 0..2 {
                bench.carriage(h, leg);
                bench.call(Name::Report { kind: 0 }, vec![]);
            }
            bench.end(h);
        }
    }
}

/// From each panel of 2 to 5 ports, with self-joins or without, to each pattern.
pub fn carriages_of_panels(h: &mut Harness) {
    for ports in 2..=5 {
        let panels = permutations(ports as u8);
        for start in 0..count_of(ports) {
            let begun = Bench::begun(Plan { ports, legs: vec![Leg { start, run: 0 }] });
            for panel in &panels {
                let mut bench = begun.clone();
                bench.resume(panel.clone());
                bench.carriage(h, 0);
            }
        }
    }
}

/// A plan of 2 to 16 short legs, mostly of 6 ports or more. Some legs start beside the last mark of the one before, so that there is little to carry.
fn short_legs(rng: &mut Rng) -> Plan {
    let ports = if rng.chance(85) { rng.between(6, 20) } else { rng.between(2, 5) };
    let count = count_of(ports);
    let mut plan = Plan { ports, legs: vec![] };
    for leg in 0..rng.between(2, 16) {
        let start = if leg > 0 && rng.chance(20) {
            let last = plan.rank(leg - 1, plan.legs[leg - 1].run.unsigned_abs());
            (last + count - 1 + rng.below_wide(3)) % count
        } else {
            inputs::rank(rng, ports)
        };
        let steps = rng.below_wide(4).min(count - 1) as i128;
        plan.legs.push(Leg { start, run: if rng.chance(50) { -steps } else { steps } });
    }
    plan
}

/// A campaign of such a plan, with errors and give-ups. Before a leg's first mark, and after some of its orders or all, it may go on with any panel.
pub fn carriages_by_chance(h: &mut Harness, rng: &mut Rng) {
    let plan = short_legs(rng);
    let mut bench = Bench::begun(plan.clone());
    for (leg, &Leg { start, run }) in plan.legs.iter().enumerate() {
        if rng.chance(20) {
            let orders = rng.below(fewest(&bench.panel, &at(plan.ports, start)) + 1);
            for _ in 0..orders {
                bench.line();
            }
            bench.resume(inputs::permutation(rng, plan.ports));
        }
        bench.carriage(h, leg);
        bench.reports(h, rng, leg, 0);
        for step in 1..=run.unsigned_abs() {
            bench.further(h, leg, step);
            bench.reports(h, rng, leg, step);
        }
    }
    bench.end(h);
}
