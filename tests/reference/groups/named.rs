//! Groups on what a plan names: every small plan beside a walk of its ranks; plans of chance whose legs meet, and damaged ones, beside the intervals; and each
//! refusal, at each line that it can be said of, with slices of every length.

use crate::calls::{Call, Name, Outcome};
use crate::inputs::{self, Rng};
use crate::Harness;
use face::raw;
use reference::list::count_of;
use reference::named::{ranks_of, Named};
use reference::plan::{Leg, Plan};
use reference::{MOST_LEGS, MOST_PORTS};
use std::ptr::{null, null_mut};

/// The header's JIDROFEX_GAP_NUMBERS.
const ENOUGH: usize = 34;

/// A call on a text, with a slice of so many numbers that hold anything.
fn call(rng: &mut Rng, text: Vec<u8>, numbers: usize) -> Call {
    Call::on_both(Name::Named, text, (0..numbers).map(|_| rng.next()).collect())
}

/// A plan whose legs meet, with a slice that just does or just does not do, that is always enough, that is none, or another.
pub fn named(h: &mut Harness, rng: &mut Rng) {
    let plan = inputs::meeting_plan(rng);
    let just = 2 * Named::by_intervals(&plan).gaps.len();
    let other = rng.below(ENOUGH + 6);
    let numbers = rng.pick(&[just, just, just.saturating_sub(1), just + 1, ENOUGH, ENOUGH, 0, other]);
    let made = call(rng, inputs::plan_text(&plan), numbers);
    h.compare(made);
}

/// A damaged text, mostly of a plan that has gaps: with a short slice too it is refused for the text.
pub fn damaged_named(h: &mut Harness, rng: &mut Rng) {
    let text = inputs::damaged_plan_text(rng);
    let other = rng.below(ENOUGH + 6);
    let numbers = rng.pick(&[0, 1, 2, ENOUGH, ENOUGH, other]);
    let made = call(rng, text, numbers);
    h.compare(made);
}

/// A leg as it stands in a text, and the ranks that it names as bits.
struct Written {
    text: String,
    marks: u64,
}

/// Every leg of so many ports: every start, with every run of either sign. Each is walked here, step by step.
fn every_leg(ports: usize) -> Vec<Written> {
    let count = count_of(ports) as i128;
    let written = |start: i128, run: i128| {
        let alone = Plan { ports, legs: vec![Leg { start: start as u128, run }] };
        Written { text: format!("start={start}\nrun={run}\n"), marks: ranks_of(&alone, 0).fold(0, |marks, rank| marks | 1 << rank) }
    };
    (0..count).flat_map(|start| (1 - count..count).map(move |run| written(start, run))).collect()
}

/// Every plan of one leg and of two legs of 2 to 5 ports, whose 44 ranks are bits of a word, beside the walk of its legs. The slice is twice the gaps, or one
/// number or two longer, in turn.
pub fn small_plans(h: &mut Harness) {
    for ports in 2..=5 {
        let count = count_of(ports) as usize;
        let legs = every_leg(ports);
        let none = [Written { text: String::new(), marks: 0 }];
        for (many, seconds) in [(1, &none[..]), (2, &legs[..])] {
            for first in &legs {
                let head = format!("ports={ports}\nlegs={many}\n{}", first.text);
                for (turn, second) in seconds.iter().enumerate() {
                    let marks = first.marks | second.marks;
                    let walked = Named::read_off(count, |rank| marks >> rank & 1 == 1);
                    beside_walk(h, [head.as_bytes(), second.text.as_bytes()].concat(), &walked, turn % 3);
                }
            }
        }
    }
}

/// The library alone beside what a walk found, with so many numbers more than it needs.
fn beside_walk(h: &mut Harness, text: Vec<u8>, walked: &Named, more: usize) {
    let gaps = walked.numbers();
    let old: Vec<u64> = (0..gaps.len() + more).map(|place| !(place as u64)).collect();
    let words = [&gaps, &old[gaps.len()..]].concat();
    let answer = [walked.ranks as u64, walked.gaps.len() as u64, 0, 0, 0];
    let known = Outcome { number: 0, answer, bytes: text.clone(), words, spilled: false };
    h.compare_known(&Call::on_both(Name::Named, text, old), &known);
}

/// The lines of a plan of 9 ports, whose count is 133,496, with so many legs and as many gaps.
fn lines(legs: usize) -> Vec<String> {
    let mut lines = vec!["ports=9\n".into(), format!("legs={legs}\n")];
    for leg in 0..legs {
        let sign = if leg % 2 == 1 { "-" } else { "" };
        lines.extend([format!("start={}\n", 3 + 100 * leg), format!("run={sign}{leg}\n")]);
    }
    lines
}

/// A line in each way at fault, with the number of the refusal. After one that has no newline, the text is at its end.
fn at_fault(line: &str) -> Vec<(u8, String)> {
    let (key, value) = line.trim_end().split_once('=').expect("a key and a value");
    let (number, beyond) = match key {
        "ports" => (1, ["1", "21"]),
        "legs" => (9, ["0", "17"]),
        "start" => (6, ["133496", "18446744073709551615"]),
        _ => (10, ["133496", "-133496"]),
    };
    let mut faults = vec![(11, String::new()), (11, key.into()), (11, line.trim_end().into())];
    faults.extend(["\n", "no=0\n", &format!("{key}\n"), &format!(" {line}")].map(|other| (7, other.into())));
    faults.extend(["", "x", "-0", "+1", "1\r", "18446744073709551616", &format!("0{value}")].map(|other| (8, format!("{key}={other}\n"))));
    faults.extend(beyond.map(|other| (number, format!("{key}={other}\n"))));
    faults
}

/// Of 1 to 16 legs: each line in each way at fault, and text after the last, refused at that line with no number changed, whatever the slice; and the plan
/// as it is, refused at no place with every slice that is too short.
pub fn named_refusals(h: &mut Harness) {
    let mut rng = Rng::of(h.seed, "named, refusals", 0);
    for legs in 1..=MOST_LEGS {
        let lines = lines(legs);
        let mut texts = vec![];
        for (line, good) in lines.iter().enumerate() {
            for (number, fault) in at_fault(good) {
                let after = if number == 11 { "".into() } else { lines[line + 1..].concat() };
                texts.push((number, line + 1, [&lines[..line].concat(), &fault, &after[..]].concat()));
            }
        }
        texts.extend(["\n", "\0", "r", "run=0\n"].map(|more| (11, lines.len() + 1, lines.concat() + more)));
        for (number, line, text) in texts {
            for numbers in [0, 1, 2 * legs - 1, 2 * legs, ENOUGH] {
                let made = call(&mut rng, text.clone().into_bytes(), numbers);
                h.compare_refused(made, number, [line as u64, 0, 0, 0, 0]);
            }
        }
        for numbers in 0..=ENOUGH + 2 {
            let made = call(&mut rng, lines.concat().into_bytes(), numbers);
            if numbers < 2 * legs {
                h.compare_refused(made, 2, [0; 5]);
            } else {
                let named = (0..legs as u64).map(|leg| leg + 1).sum();
                let found = h.compare(made);
                h.compare_made("named and gaps, counted by hand", 0, (found.number, found.answer), (0, [named, legs as u64, 0, 0, 0]));
            }
        }
    }
    null_slices(h);
}

/// 'With length 0 a pointer may be null': a whole circuit needs no slice, a plan with a gap is refused, and a text that is none leaves the slice.
fn null_slices(h: &mut Harness) {
    for ports in 2..=MOST_PORTS {
        let count = count_of(ports) as u64;
        let run = |run: u64| format!("ports={ports}\nlegs=1\nstart=0\nrun={run}\n");
        let mut asked = vec![(run(count - 1), 0, [count, 0, 0, 0, 0])];
        if ports > 2 {
            asked.push((run(count - 2), 2, [0; 5]));
        }
        for (text, number, wanted) in asked {
            let mut answer = [u64::MAX; 5];
            let found = unsafe { raw::jidrofex_named(text.as_ptr(), text.len(), null_mut(), 0, answer.as_mut_ptr()) };
            h.compare_made("named with a null slice", number, (&text, found, answer), (&text, number, wanted));
        }
    }
    let (mut slice, mut answer) = ([7; ENOUGH], [u64::MAX; 5]);
    let found = unsafe { raw::jidrofex_named(null(), 0, slice.as_mut_ptr(), ENOUGH, answer.as_mut_ptr()) };
    h.compare_made("named with a null text", 11, (found, answer, slice), (11, [1, 0, 0, 0, 0], [7; ENOUGH]));
}
