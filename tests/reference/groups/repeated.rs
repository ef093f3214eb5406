//! Groups over a fixed set of faulty patterns and panels: both jacks of a repeated entry, for every pair of jacks of 2 to 20 ports and through every call that
//! takes a pattern or a panel; and of the same cases the number and the place alone. Each case is built around its fault, so that what is wanted is known.

use crate::calls::{Call, Name, LIBRARY};
use crate::inputs::{self, Rng};
use crate::Harness;
use reference::campaign::{State, COVERED, PANEL, STANDING, WORDS};
use reference::list::{at, count_of};
use reference::plan::{Leg, Plan};
use std::mem::discriminant;

/// A fault as it was built: the number, the jack at fault and the earlier one, 0 unless the number is 4.
#[derive(Clone, Copy)]
struct Fault {
    number: u8,
    jack: u8,
    earlier: u8,
}

fn outside(jack: u8) -> Fault {
    Fault { number: 3, jack, earlier: 0 }
}

fn own_jack(jack: u8) -> Fault {
    Fault { number: 5, jack, earlier: 0 }
}

/// Entries with the fault that they have as a pattern and the one that they have as a panel.
struct Faulty {
    entries: Vec<u8>,
    as_pattern: Fault,
    as_panel: Fault,
}

pub fn put(entries: &[u8], jack: u8, entry: u8) -> Vec<u8> {
    let mut changed = entries.to_vec();
    changed[usize::from(jack) - 1] = entry;
    changed
}

fn entry(entries: &[u8], jack: u8) -> u8 {
    entries[usize::from(jack) - 1]
}

/// The entries with the one at jack j made equal to the one at jack i.
pub fn with_pair(entries: &[u8], i: u8, j: u8) -> Vec<u8> {
    put(entries, j, entry(entries, i))
}

/// A panel of 3 ports and more with one self-join alone, at jack k: the home of the other jacks, round which the ports go.
pub fn one_self_join(n: u8, k: u8) -> Vec<u8> {
    let others: Vec<u8> = (1..=n).filter(|&jack| jack != k).collect();
    let mut entries = vec![k; n.into()];
    for (place, &jack) in others.iter().enumerate() {
        entries[usize::from(jack) - 1] = others[(place + 1) % others.len()];
    }
    entries
}

/// The cases of one pair of jacks i < j of n ports.
fn of_pair(rng: &mut Rng, n: u8, i: u8, j: u8) -> Vec<Faulty> {
    let ports = usize::from(n);
    let pair = Fault { number: 4, jack: j, earlier: i };
    let both = |entries| Faulty { entries, as_pattern: pair, as_panel: pair };
    let home = at(ports, 0);
    let mut cases = vec![];
    // the pair is the first fault of a pattern: in the first of the list, the last, and one of chance
    for pattern in [home.clone(), at(ports, count_of(ports) - 1), at(ports, rng.below_wide(count_of(ports)))] {
        cases.push(both(with_pair(&pattern, i, j)));
    }
    // at j the entry is j as well: 4 is tried before 5
    let holds_j = (0..).map(|_| at(ports, rng.below_wide(count_of(ports)))).find(|pattern| entry(pattern, i) == j).expect("one of many");
    cases.push(both(with_pair(&holds_j, i, j)));
    // whatever comes after j does not matter: outside, equal to both, and anything
    let paired = with_pair(&home, i, j);
    let equal = entry(&paired, i);
    for after in [vec![0; ports], vec![equal; ports], rng.bytes(ports)] {
        cases.push(both([&paired[..j.into()], &after[j.into()..]].concat()));
    }
    // self-joins: every port at its own jack, so that the first decides of a pattern
    let all_own: Vec<u8> = (1..=n).collect();
    cases.push(Faulty { entries: with_pair(&all_own, i, j), as_pattern: own_jack(1), as_panel: pair });
    // and a permutation of chance, whose first self-join before j decides of a pattern
    let chance = inputs::permutation(rng, ports);
    let first_own = (1..j).find(|&jack| entry(&chance, jack) == jack);
    cases.push(Faulty { entries: with_pair(&chance, i, j), as_pattern: first_own.map_or(pair, own_jack), as_panel: pair });
    // another fault at k, before j or after it
    let mut others = vec![1, i, i + 1, j - 1, j + 1, n];
    others.retain(|&k| k <= n && k != j);
    others.sort();
    others.dedup();
    for k in others {
        let wrong = rng.pick(&[0, n + 1, 255]);
        let first = if k < j { outside(k) } else { pair };
        cases.push(Faulty { entries: put(&paired, k, wrong), as_pattern: first, as_panel: first });
        // the entry outside stands at j too
        let first = outside(k.min(j));
        cases.push(Faulty { entries: put(&put(&paired, k, wrong), j, wrong), as_pattern: first, as_panel: first });
        if n > 2 {
            let as_pattern = if k < j { own_jack(k) } else { pair };
            cases.push(Faulty { entries: with_pair(&one_self_join(n, k), i, j), as_pattern, as_panel: pair });
        }
        if k != i {
            // three equal entries, those of home at i: the second of them is at fault and names the first
            let mut three = [i, j, k];
            three.sort();
            let [earlier, jack, _] = three;
            let second = Fault { number: 4, jack, earlier };
            cases.push(Faulty { entries: put(&paired, k, equal), as_pattern: second, as_panel: second });
        }
    }
    cases
}

/// The calls that take a pattern; the others here take a panel.
const ON_PATTERN: [Name; 6] = [Name::Check, Name::Rank, Name::Next, Name::Previous, Name::DictionaryNumber, Name::DictionaryNext];

/// The calls on a case, each with the fault that it is wanted to say. Jacks, ports, lines and words that would be refused as well come after the panel.
fn calls_on(rng: &mut Rng, case: &Faulty, words: &[Vec<u64>]) -> Vec<(Call, Fault)> {
    let n = case.entries.len() as u64;
    let on = |name| Call::on_bytes(name, case.entries.clone());
    let with = |name, words: &[u64]| Call::on_both(name, case.entries.clone(), words.to_vec());
    let mut calls: Vec<(Call, Fault)> = ON_PATTERN.map(|name| (on(name), case.as_pattern)).into();
    let any = rng.between(1, case.entries.len()) as u8;
    let mut of_panel = vec![on(Name::CheckPanel)];
    for one in [any, 0] {
        of_panel.extend([on(Name::PortAt { jack: one }), on(Name::JackOf { port: one })]);
    }
    // a swap, a mark, a line whose jacks are no panel's, and one of no line's kind
    for line in [[1, 1, n, 0], [3, 5, 7, 0], [2, 1, 21, 300], [rng.next(), 0, 0, 0]] {
        of_panel.push(with(Name::Carry, &line));
    }
    of_panel.extend(words.iter().map(|state| with(Name::Resume, state)));
    calls.extend(of_panel.into_iter().map(|call| (call, case.as_panel)));
    calls
}

/// A fit state of so many ports, one at which a mark stands, an unfit one, and words that are no state.
fn states(ports: usize) -> Vec<Vec<u64>> {
    let first = State::first(Plan { ports, legs: vec![Leg { start: 0, run: 0 }] }).to_words();
    let (mut standing, mut unfit) = (first, first);
    standing[STANDING] = 1;
    unfit[COVERED] = 1;
    unfit[PANEL] = 0;
    vec![first.to_vec(), standing.to_vec(), unfit.to_vec(), vec![u64::MAX; WORDS - 1]]
}

/// Every case of every pair, call by call.
fn each(seed: u64, mut made: impl FnMut(Call, Fault)) {
    let mut rng = Rng::of(seed, "both jacks", 0);
    for n in 2..=20 {
        let words = states(n.into());
        for j in 2..=n {
            for i in 1..j {
                for case in of_pair(&mut rng, n, i, j) {
                    for (call, fault) in calls_on(&mut rng, &case, &words) {
                        made(call, fault);
                    }
                }
            }
        }
    }
}

/// Library and reference agree, and both say the jacks that the case was built with.
pub fn both_jacks(h: &mut Harness) {
    each(h.seed, |call, Fault { number, jack, earlier }| h.compare_refused(call, number, [jack.into(), earlier.into(), 0, 0, 0]));
}

/// The paper's order and nothing else: 'jacks are tried from 1, each for 3, 4, 5; the first position at fault decides'. A panel is not tried for 5.
fn first_at_fault(entries: &[u8], panel: bool) -> (u8, u64) {
    let ports = 1..=entries.len() as u8;
    let mut met = [false; 256];
    for (jack, &port) in ports.clone().zip(entries) {
        let tried = [(3, !ports.contains(&port)), (4, met[usize::from(port)]), (5, !panel && port == jack)];
        if let Some((number, _)) = tried.into_iter().find(|(_, at_fault)| *at_fault) {
            return (number, jack.into());
        }
        met[usize::from(port)] = true;
    }
    (0, 0)
}

/// The number and the place of the library alone, beside the paper's order: whatever its second number, these are as they were before there was one.
pub fn numbers_and_places(h: &mut Harness) {
    each(h.seed, |call, _| {
        let panel = !ON_PATTERN.iter().any(|name| discriminant(name) == discriminant(&call.name));
        let wanted = first_at_fault(&call.bytes, panel);
        let found = LIBRARY.run(&call);
        h.compare_made(&format!("number and place: {call:?}"), wanted.0, (found.number, found.answer[0]), wanted);
    });
}
