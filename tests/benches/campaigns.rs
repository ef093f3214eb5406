//! The group on campaigns: one on every bench that has a plan, through the campaign's library, with orders carried out on a panel of the test's own. The test
//! keeps a history of each bench, and the sums must be those over the histories.

use crate::calls::{self, Told};
use crate::rng::Rng;
use crate::shares::plan_of;
use crate::Harness;
use reference::campaign::{COVERED, ERRORS, OPEN, WORDS};
use reference::levels::patterns;
use reference::list::at;
use reference::panel::carry;
use reference::text::{read_line, Line};
use reference::MOST_ERRORS;
use std::collections::HashSet;

/// What a bench reports of a mark.
const RAN: u8 = 0;
const ERROR: u8 = 1;
const GAVE_UP: u8 = 2;

/// So many calls bring any of these campaigns to its end.
const MOST_CALLS: usize = 1_000_000;

/// A bench with a plan.
struct Bench {
    state: [u64; WORDS],
    panel: Vec<u8>,
    /// The number of the mark that stands.
    standing: Option<u64>,
    ended: bool,
    /// How many of a hundred reports are errors, and how many of the others give up.
    chances: [usize; 2],
    /// Each report that was taken, from the first on: the pattern on the panel, and how it went.
    history: Vec<(Vec<u8>, u8)>,
}

impl Bench {
    /// The bench at the beginning of its plan, its panel at home; none for a bench without a plan.
    fn begun(h: &mut Harness, rng: &mut Rng, ports: u64, share: &Told) -> Option<Bench> {
        let text = plan_of(ports, share)?;
        let mut state = [0; WORDS];
        h.same(&("begin", &text), calls::begin(text.as_bytes(), &mut state), 0);
        let chances = [rng.pick(&[0, 5, 15, 40]), rng.pick(&[0, 10, 50, 100])];
        Some(Bench { state, panel: at(ports as usize, 0), standing: None, ended: false, chances, history: vec![] })
    }

    /// The orders handed out, one by one, for so many calls or to the end.
    fn run(&mut self, h: &mut Harness, rng: &mut Rng, calls: usize) {
        for _ in 0..calls {
            if self.ended {
                return;
            }
            if rng.chance(4) {
                self.disturbed(h, rng);
            }
            match self.standing {
                Some(mark) => {
                    let kind = self.next_report(rng);
                    self.report(h, mark, kind, rng.chance(50));
                }
                None => self.request(h),
            }
        }
        h.same(&"a campaign comes to its end", self.ended || calls < MOST_CALLS, true);
    }

    fn next_report(&self, rng: &mut Rng) -> u8 {
        let [errors, given_up] = self.chances;
        if rng.chance(errors) {
            ERROR
        } else if rng.chance(given_up) {
            GAVE_UP
        } else {
            RAN
        }
    }

    /// A call that is refused, or going on after a power cut with the panel as it stands: neither is a report, so no count changes.
    fn disturbed(&mut self, h: &mut Harness, rng: &mut Rng) {
        let Bench { state, panel, standing, .. } = self;
        let (found, wanted) = match (rng.below(3), standing) {
            (0, _) => (calls::report(state, rng.pick(&[3, 255])), 14),
            (1, Some(_)) => (calls::request(state, &mut [0; 45]), 13),
            (1, None) => (calls::report(state, rng.pick(&[RAN, ERROR, GAVE_UP])), 12),
            _ => (calls::resume(state, panel), 0),
        };
        h.same(&"a call that reports nothing", found, wanted);
    }

    /// The next order, read from its line and carried out; at a mark the pattern of its rank is on the panel.
    fn request(&mut self, h: &mut Harness) {
        let mut buffer = [0; 45];
        let number = calls::request(&mut self.state, &mut buffer);
        let line = read_line(&buffer, 0).map(|(line, _)| line);
        if !h.same(&("a request, and a line", number, line), number == 0 && line.is_ok(), true) {
            self.ended = true;
            return;
        }
        match line {
            Ok(Line::Mark(mark, rank)) => {
                h.same(&("the panel at a mark", mark, rank), &self.panel, &at(self.panel.len(), rank.into()));
                self.standing = Some(mark);
            }
            Ok(Line::End(_)) => self.ended = true,
            order => {
                let carried = carry(&mut self.panel, order.ok());
                h.same(&("an order carried out", order), carried, Ok(()));
            }
        }
    }

    fn report(&mut self, h: &mut Harness, mark: u64, kind: u8, by_number: bool) {
        let number = if by_number { calls::report_mark(&mut self.state, mark, kind) } else { calls::report(&mut self.state, kind) };
        if !h.same(&("a report", mark, kind), number, 0) {
            self.ended = true;
        }
        self.history.push((self.panel.clone(), kind));
        self.standing = None;
    }

    /// Of the history: how many marks were reported as run, how many given up, and how many errors there were.
    fn counted(&self) -> [u64; 3] {
        [RAN, GAVE_UP, ERROR].map(|wanted| self.history.iter().filter(|(_, kind)| *kind == wanted).count() as u64)
    }

    /// The patterns that were met and closed, in their order: a mark whose try ended in an error comes again.
    fn closed(&self) -> Vec<&Vec<u8>> {
        self.history.iter().filter(|(_, kind)| *kind != ERROR).map(|(pattern, _)| pattern).collect()
    }
}

/// The three words of each state, lent, give the sums over the histories; each three is its own bench's history; no pattern is closed twice, on whichever
/// benches.
fn added_up(h: &mut Harness, ports: u64, benches: u64, all: &[Option<Bench>]) {
    let (mut counts, mut sums, mut met) = (vec![], [0; 3], HashSet::new());
    for bench in all {
        let left = bench.as_ref().map_or([0; 3], |bench| [COVERED, OPEN, ERRORS].map(|word| bench.state[word]));
        let counted = bench.as_ref().map_or([0; 3], Bench::counted);
        h.same(&("what the calls left in a state", ports, benches), left, counted);
        counts.extend(left);
        sums = [0, 1, 2].map(|k| sums[k] + counted[k]);
        for pattern in bench.iter().flat_map(Bench::closed) {
            h.same(&("a pattern is met once", ports, benches, pattern), met.insert(pattern), true);
        }
    }
    h.known("the sums over the histories", ports, benches, &counts, 0, sums);
}

/// Every bench has ended: over all of them, bench after bench, the patterns of the list were met, each once but for errors, after which the same one came
/// again.
fn all_ended(h: &mut Harness, ports: u64, benches: u64, all: &[Option<Bench>]) {
    let list = patterns(ports as usize);
    let met: Vec<&Vec<u8>> = all.iter().flatten().flat_map(Bench::closed).collect();
    h.same(&("the patterns that were met", ports, benches), met == list.iter().collect::<Vec<_>>(), true);
    for Bench { history, ended, .. } in all.iter().flatten() {
        h.same(&("ended", ports, benches), *ended, true);
        let again = history.windows(2).all(|two| two[0].1 != ERROR || two[0].0 == two[1].0);
        h.same(&("the same pattern again after an error", ports, benches), again, true);
    }
    let counted: Vec<[u64; 3]> = all.iter().map(|bench| bench.as_ref().map_or([0; 3], Bench::counted)).collect();
    let told = h.sum(ports, benches, &counted.concat());
    h.same(&("covered and open are all", ports, benches), told.answer[0] + told.answer[1], list.len() as u64);
}

/// Campaigns on all benches: at first some are run to their end, some are not begun and the others stop at a moment by chance; then all are run to their end.
fn on_all_benches(h: &mut Harness, rng: &mut Rng, ports: u64, benches: u64) {
    let mut all = vec![];
    for bench in 0..benches {
        let share = h.share(ports, benches, bench);
        all.push(Bench::begun(h, rng, ports, &share));
    }
    let marks = patterns(ports as usize).len() / benches as usize + 1;
    for bench in all.iter_mut().flatten() {
        let calls = match rng.below(6) {
            0 => 0,
            1 | 2 => MOST_CALLS,
            _ => rng.below(5 * marks + 2 * ports as usize),
        };
        bench.run(h, rng, calls);
    }
    added_up(h, ports, benches, &all);
    for bench in all.iter_mut().flatten() {
        bench.run(h, rng, MOST_CALLS);
    }
    added_up(h, ports, benches, &all);
    all_ended(h, ports, benches, &all);
}

/// One bench of three counts as many errors as there can be, and the next is refused: the sums are those of the history.
fn most_errors(h: &mut Harness, rng: &mut Rng) {
    let mut all = vec![];
    for bench in 0..3 {
        let share = h.share(3, 3, bench);
        all.push(Bench::begun(h, rng, 3, &share));
    }
    let Some(first) = &mut all[0] else { return };
    for error in 0..=MOST_ERRORS {
        while first.standing.is_none() && !first.ended {
            first.request(h);
        }
        if error < MOST_ERRORS {
            first.report(h, 0, ERROR, true);
        }
    }
    h.same(&"one error too many", calls::report(&mut first.state, ERROR), 16);
    added_up(h, 3, 3, &all);
    for bench in all.iter_mut().flatten() {
        bench.chances[0] = 0;
        bench.run(h, rng, MOST_CALLS);
    }
    added_up(h, 3, 3, &all);
    all_ended(h, 3, 3, &all);
}

pub fn campaigns(h: &mut Harness) {
    for ports in 2..=5 {
        for benches in 1..=64 {
            for round in 0..3 {
                let mut rng = h.rng(ports << 16 | benches << 8 | round);
                on_all_benches(h, &mut rng, ports, benches);
            }
        }
    }
    for ports in 6..=7 {
        for benches in [1, 2, 3, 4, 5, 7, 10, 16, 31, 32, 33, 63, 64] {
            let mut rng = h.rng(ports << 16 | benches << 8);
            on_all_benches(h, &mut rng, ports, benches);
        }
    }
    let mut rng = h.rng(0);
    most_errors(h, &mut rng);
}
