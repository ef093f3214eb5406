//! Groups on states with a jack to seat, each over a fixed set: states one field away from seating ones, and every state and every panel of 2 to 4 ports.

use super::repeated::{put, with_pair};
use super::seats::{before_marks, each_call, jacks, plans, resumed};
use crate::calls::{Call, Name};
use crate::inputs::{self, Rng};
use crate::Harness;
use reference::campaign::{State, ENDED, LEG, PANEL, PORTS, RUNS, SEAT, STARTS, WORDS};
use reference::list::{at, count_of};
use reference::plan::{Leg, Plan};
use reference::rehearsal::REHEARSAL_WORDS;

/// The calls on words, whatever they are.
fn on_words(h: &mut Harness, rng: &mut Rng, words: Vec<u64>, panel: &[u8], mark: u64) {
    h.compare(Call::on_both(Name::Request, rng.bytes(45), words.clone()));
    for name in [Name::Report { kind: 1 }, Name::Report { kind: 3 }, Name::ReportMark { mark, kind: 0 }, Name::Status] {
        h.compare(Call::on_both(name, vec![], words.clone()));
    }
    h.compare(Call::on_both(Name::Resume, panel.to_vec(), words));
}

/// A word's neighbours, 0, and the bounds of every field: ports, legs, bytes, ranks and runs, errors, and the words' own.
fn near(old: u64, count: u64) -> Vec<u64> {
    let mut values = vec![old.wrapping_add(1), old.wrapping_sub(1), 0, 1, 2, 16, 17, 20, 21, 255, 256, 257, 65_535, 65_536, 1 << 32, (1 << 32) - 1, 1 << 63];
    values.extend([count - 1, count, (count - 1).wrapping_neg(), count.wrapping_neg(), old ^ (1 << 8), old ^ (1 << 32), u64::MAX]);
    values.sort();
    values.dedup();
    values
}

/// States with a jack to seat, at the first mark of a leg, inside one and at the plan's last mark: each word in turn changed, each two jacks of the panel
/// exchanged, other numbers as the jack to seat, no error counted, and words of other numbers.
pub fn one_field_away(h: &mut Harness) {
    let mut rng = Rng::of(h.seed, "seats, one field away", 0);
    for plan in plans() {
        let befores = before_marks(&plan);
        let count = count_of(plan.ports) as u64;
        let mut marks = vec![0, befores.len() / 2, befores.len() - 1];
        marks.dedup();
        for before in marks.into_iter().map(|at| &befores[at]) {
            let mark = plan.number(before.leg, before.step) as u64;
            let seat = rng.between(1, plan.ports) as u64;
            let state = State { seat, errors: 1, ..before.clone() };
            let words = state.to_words().to_vec();
            for place in 0..WORDS {
                // of the places beyond the legs and the ports a few values are enough
                let unused = words[place] == 0 && (STARTS..LEG).contains(&place) && ![STARTS, RUNS].contains(&place);
                for value in if unused { vec![1, 256, u64::MAX] } else { near(words[place], count) } {
                    let mut changed = words.clone();
                    changed[place] = value;
                    on_words(h, &mut rng, changed, &state.panel, mark);
                }
            }
            for a in 0..plan.ports {
                for b in 0..a {
                    let mut panel = state.panel.clone();
                    panel.swap(a, b);
                    each_call(h, &mut rng, &State { panel, ..state.clone() }, false, &[0, 45]);
                }
            }
            for seat in jacks().into_iter().filter(|&seat| seat != 0) {
                each_call(h, &mut rng, &State { seat, ..state.clone() }, seat <= plan.ports as u64, &[6, 7, 45]);
            }
            each_call(h, &mut rng, &State { errors: 0, ..state.clone() }, true, &[6, 7, 45]);
            for length in [0, PORTS + 1, REHEARSAL_WORDS, ENDED, SEAT, WORDS + 1, 2 * WORDS] {
                let mut other = words.clone();
                other.resize(length, 0);
                for name in [Name::Request, Name::Report { kind: 3 }, Name::ReportMark { mark, kind: 0 }, Name::Status] {
                    h.compare_refused(Call::on_both(name, vec![0; 45], other.clone()), 15, [0; 5]);
                }
                h.compare_refused(Call::on_both(Name::Resume, state.panel.clone(), other.clone()), 15, [0; 5]);
                h.compare_refused(Call::on_both(Name::Begin, inputs::plan_text(&plan), other), 15, [0; 5]);
            }
        }
    }
}

/// The plans of one leg round the whole circuit, forward and backward, from every start.
fn round_the_circuit(ports: usize) -> Vec<Plan> {
    let count = count_of(ports);
    let leg = |start| [count as i128 - 1, 1 - count as i128].map(|run| Plan { ports, legs: vec![Leg { start, run }] });
    (0..count).flat_map(leg).collect()
}

/// Every mark of those plans with each number from 0 to two above the ports as the jack to seat, with the mark standing or not and the end shown or not, and
/// with counts that are as they should be for that.
fn each_state(ports: usize, mut made: impl FnMut(State)) {
    for plan in round_the_circuit(ports) {
        for before in before_marks(&plan) {
            for seat in 0..=ports as u64 + 2 {
                for (standing, ended) in [(false, false), (true, false), (false, true), (true, true)] {
                    let covered = if ended { plan.marks() - before.open } else { before.covered };
                    made(State { seat, standing, ended, covered, ..before.clone() });
                }
            }
        }
    }
}

/// Whether a state with a jack to seat and good counts is fit: 'a seat number above n, or seating while a mark stands, at the end, or with the panel not at the
/// mark's pattern' is not.
fn may_seat(state: &State, panel: &[u8]) -> bool {
    state.seat <= state.plan.ports as u64 && !state.standing && !state.ended && panel == state.plan.pattern(state.leg, state.step)
}

/// Every such state of 2 to 4 ports, with the mark's pattern on the panel, each pattern that is one swap from it, and home.
pub fn small_states(h: &mut Harness) {
    let mut rng = Rng::of(h.seed, "seats, all states of 2 to 4 ports", 0);
    for ports in 2..=4 {
        each_state(ports, |state| {
            let mut panels = vec![state.panel.clone(), at(ports, 0)];
            for a in 0..ports {
                for b in 0..a {
                    let mut panel = state.panel.clone();
                    panel.swap(a, b);
                    panels.push(panel);
                }
            }
            for panel in panels {
                let state = State { panel, ..state.clone() };
                if state.seat == 0 {
                    let mark = state.plan.number(state.leg, state.step) as u64;
                    on_words(h, &mut rng, state.to_words().to_vec(), &state.panel, mark);
                } else {
                    each_call(h, &mut rng, &state, may_seat(&state, &state.panel), &[6, 7]);
                }
            }
        });
    }
}

/// Every permutation of 1 to n.
pub(super) fn permutations(n: u8) -> Vec<Vec<u8>> {
    if n == 0 {
        return vec![vec![]];
    }
    let with_last = |shorter: Vec<u8>| (0..=shorter.len()).map(move |place| [&shorter[..place], &[n], &shorter[place..]].concat());
    permutations(n - 1).into_iter().flat_map(with_last).collect()
}

/// Going on with every such state of 2 to 4 ports and every permutation as the panel that was read back, whatever panel was saved; and with panels of other
/// ports, and with none.
pub fn small_panels(h: &mut Harness) {
    let mut rng = Rng::of(h.seed, "seats, all panels of 2 to 4 ports", 0);
    for ports in 2..=4 {
        let panels = permutations(ports as u8);
        each_state(ports, |state| {
            let mut saved = state.to_words().to_vec();
            if rng.chance(50) {
                saved[PANEL..LEG].fill_with(|| rng.byte().into());
            }
            for panel in &panels {
                if state.seat == 0 {
                    h.compare(Call::on_both(Name::Resume, panel.clone(), saved.clone()));
                } else {
                    resumed(h, saved.clone(), panel, if may_seat(&state, panel) { 0 } else { 15 });
                }
            }
            let resume = |panel: Vec<u8>| Call::on_both(Name::Resume, panel, saved.clone());
            h.compare_refused(resume(at(ports + 1, 0)), 15, [0; 5]);
            h.compare_refused(resume((1..ports as u8).collect()), if ports == 2 { 1 } else { 15 }, [0; 5]);
            h.compare_refused(resume(vec![]), 1, [0; 5]);
            h.compare_refused(resume(put(&state.panel, 2, 0)), 3, [2, 0, 0, 0, 0]);
            h.compare_refused(resume(with_pair(&state.panel, 1, 2)), 4, [2, 1, 0, 0, 0]);
        });
    }
}
