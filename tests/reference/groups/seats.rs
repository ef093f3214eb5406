//! Groups on the seats after an error, each over a fixed set: the lines, campaigns with an error at every mark, and errors at their limit. Wherever a jack is to
//! be seated what comes of a call is known without the reference, and both sides are held to it.

use super::repeated::{put, with_pair};
use crate::calls::{Call, Name, Outcome};
use crate::inputs::{self, Rng};
use crate::Harness;
use reference::campaign::{State, ENDED, LEG, PANEL, SEAT, WORDS};
use reference::list::{at, count_of};
use reference::plan::{Leg, Plan};

/// The kind of a seat for C.
const KIND: u64 = 6;

/// Numbers where a jack stands: those about 1 to 20, and others that are such a jack in 8 or 32 bits.
pub(super) fn jacks() -> Vec<u64> {
    (0..=22).chain([255, 256, 257, 276, 277, 65_537, 1 << 32, (1 << 32) + 1, (1 << 32) + 20, 1 << 63, u64::MAX]).collect()
}

/// What comes of a call that is accepted: its answer, a text at the front of the bytes, and these words.
fn accepted(call: &Call, answer: [u64; 5], text: &[u8], words: Vec<u64>) -> Outcome {
    let bytes = [text, &call.bytes[text.len()..]].concat();
    Outcome { number: 0, answer, bytes, words, spilled: false }
}

/// A call with what is known of it: accepted with this answer and nothing changed, or refused at no place.
fn known(h: &mut Harness, call: Call, number: u8, answer: [u64; 5]) {
    if number != 0 {
        return h.compare_refused(call, number, [0; 5]);
    }
    let wanted = accepted(&call, answer, &[], call.words.clone());
    h.compare_as(call, wanted);
}

pub fn seat_lines(h: &mut Harness) {
    let mut rng = Rng::of(h.seed, "seat lines", 0);
    written(h, &mut rng);
    read(h, &mut rng);
    carried(h, &mut rng);
}

/// Seats written: every number with every buffer about as long as the line; and the kinds beside theirs.
fn written(h: &mut Harness, rng: &mut Rng) {
    for j in jacks() {
        let text = format!("seat={j}\n").into_bytes();
        for room in 0..=10 {
            let call = Call::on_both(Name::WriteLine, rng.bytes(room), vec![KIND, j, rng.next(), rng.next()]);
            if !(1..=20).contains(&j) {
                h.compare_refused(call, 17, [0; 5]);
            } else if room < text.len() {
                h.compare_refused(call, 2, [0; 5]);
            } else {
                let wanted = accepted(&call, [text.len() as u64, 0, 0, 0, 0], &text, call.words.clone());
                h.compare_as(call, wanted);
            }
        }
        for kind in [0, 5, 7, KIND + 256, KIND + (1 << 32), u64::MAX] {
            let words = vec![kind, j, 0, 0];
            h.compare_refused(Call::on_both(Name::WriteLine, rng.bytes(10), words.clone()), 17, [0; 5]);
            h.compare_refused(Call::on_both(Name::Carry, at(20, 0), words), 17, [0; 5]);
        }
    }
}

/// Seats read: every number, alone and between other lines; seats with each byte changed, taken out or put in, and cut at each place; and with other numbers
/// than one jack.
fn read(h: &mut Harness, rng: &mut Rng) {
    for j in jacks() {
        let text = format!("seat={j}\n");
        for (before, after) in [("", ""), ("mark=0,0\n", "seat=1\n"), ("seat=20\n", "\n"), ("\n", "seat=")] {
            let place = before.len();
            let call = Call::on_bytes(Name::ReadLine { place }, format!("{before}{text}{after}").into_bytes());
            known(h, call, if (1..=20).contains(&j) { 0 } else { 17 }, [KIND, j, 0, 0, (place + text.len()) as u64]);
        }
    }
    for text in [&b"seat=1\n"[..], b"seat=9\n", b"seat=20\n", b"seat=0\n", b"seat=21\n"] {
        for place in 0..=text.len() {
            let (before, after) = text.split_at(place);
            let mut changed = vec![before.to_vec()];
            for byte in 0..=255 {
                changed.push([before, &[byte], after].concat());
                changed.push([before, &[byte], after.get(1..).unwrap_or(&[])].concat());
            }
            changed.push([before, after.get(1..).unwrap_or(&[])].concat());
            for text in changed {
                h.compare(Call::on_bytes(Name::ReadLine { place: 0 }, text));
            }
            h.compare(Call::on_bytes(Name::ReadLine { place }, text.to_vec()));
        }
    }
    for _ in 0..4000 {
        let key = rng.pick(&["seat=", "seat=", "seat=", "seat", "seat =", "Seat=", "seats=", "sea="]);
        let numbers: Vec<String> = (0..rng.pick(&[1, 1, 1, 1, 0, 2, 3])).map(|_| inputs::number_text(rng)).collect();
        let newline = rng.pick(&["\n", "\n", "\r\n", ""]);
        let text = format!("{key}{}{newline}", numbers.join(","));
        h.compare(Call::on_bytes(Name::ReadLine { place: 0 }, text.into_bytes()));
    }
}

/// Seats on panels of every port count, which they leave as they are; the refusals of a panel come before that of the seat.
fn carried(h: &mut Harness, rng: &mut Rng) {
    for n in 2..=20 {
        let home = at(n, 0);
        for panel in [home.clone(), (1..=n as u8).collect(), inputs::permutation(rng, n)] {
            for j in jacks() {
                let line = vec![KIND, j, rng.next(), rng.next()];
                known(h, Call::on_both(Name::Carry, panel.clone(), line), if (1..=n as u64).contains(&j) { 0 } else { 17 }, [0; 5]);
            }
        }
        for j in [0, 1, n as u64, n as u64 + 1] {
            let line = vec![KIND, j, 0, 0];
            let jack = rng.between(2, n) as u8;
            let outside = put(&home, jack, rng.pick(&[0, n as u8 + 1, 255]));
            h.compare_refused(Call::on_both(Name::Carry, outside, line.clone()), 3, [jack.into(), 0, 0, 0, 0]);
            h.compare_refused(Call::on_both(Name::Carry, with_pair(&home, jack - 1, jack), line), 4, [jack.into(), u64::from(jack) - 1, 0, 0, 0]);
        }
    }
    for length in inputs::BAD_LENGTHS {
        for j in [0, 1, 20, 21] {
            h.compare_refused(Call::on_both(Name::Carry, rng.bytes(length), vec![KIND, j, 0, 0]), 1, [0; 5]);
        }
    }
}

/// Plans with few marks: of 2 ports, where all marks have one pattern; round the circuits of 3 and 4 ports, forward and backward; the paper's; and of more
/// ports, with two swaps among the moves, up to 20.
pub(super) fn plans() -> Vec<Plan> {
    let of = |ports: usize, legs: &[(u128, i128)]| Plan { ports, legs: legs.iter().map(|&(start, run)| Leg { start, run }).collect() };
    let mut plans = vec![
        of(2, &[(0, 0)]),
        of(2, &[(0, 0), (0, 0), (0, 0)]),
        of(3, &[(0, 1)]),
        of(3, &[(1, -1), (0, 0)]),
        of(4, &[(0, 2), (8, -1)]),
        of(4, &[(0, 8)]),
        of(4, &[(5, 8)]),
        of(4, &[(2, -8)]),
        of(5, &[(7, -3), (43, 4), (20, 0), (20, 2)]),
    ];
    for ports in [6, 9, 10, 11, 20] {
        let count = count_of(ports);
        plans.push(of(ports, &[(count - 2, 3), (count / 3, -2)]));
    }
    plans
}

/// The state before a mark is handed out, with its pattern on the panel.
fn before_mark(plan: &Plan, leg: usize, step: u128) -> State {
    let closed = plan.number(leg, step);
    State { panel: plan.pattern(leg, step), leg, step, covered: closed - closed / 3, open: closed / 3, ..State::first(plan.clone()) }
}

/// Such a state for every mark of a plan.
pub(super) fn before_marks(plan: &Plan) -> Vec<State> {
    let steps = |leg: usize| (0..=plan.legs[leg].run.unsigned_abs()).map(move |step| (leg, step));
    (0..plan.legs.len()).flat_map(steps).map(|(leg, step)| before_mark(plan, leg, step)).collect()
}

/// Every call on a state with a jack to seat, each with what is known to come of it: where the state is unfit, 15.
pub(super) fn each_call(h: &mut Harness, rng: &mut Rng, state: &State, fit: bool, rooms: &[usize]) {
    let State { plan, leg, step, seat, .. } = state;
    let words = state.to_words().to_vec();
    let seated = |next: u64| {
        let mut after = words.clone();
        after[SEAT] = next;
        after
    };
    let mark = plan.number(*leg, *step) as u64;
    let text = format!("seat={seat}\n").into_bytes();
    for &room in rooms {
        let call = Call::on_both(Name::Request, rng.bytes(room), words.clone());
        if !fit {
            h.compare_refused(call, 15, [0; 5]);
        } else if room < text.len() {
            h.compare_refused(call, 2, [0; 5]);
        } else {
            let next = if *seat == plan.ports as u64 { 0 } else { seat + 1 };
            let wanted = accepted(&call, [KIND, *seat, 0, 0, text.len() as u64], &text, seated(next));
            h.compare_as(call, wanted);
        }
    }
    for kind in [0, 1, 2, 3] {
        let number = if !fit { 15 } else if kind > 2 { 14 } else { 12 };
        for name in [Name::Report { kind }, Name::ReportMark { mark, kind }] {
            h.compare_refused(Call::on_both(name, vec![], words.clone()), number, [0; 5]);
        }
    }
    let number = if fit { 0 } else { 15 };
    let status = [plan.marks() as u64, mark, plan.rank(*leg, *step) as u64, 0, 0];
    known(h, Call::on_both(Name::Status, vec![], words.clone()), number, status);
    resumed(h, words, &state.panel, number);
}

/// Going on with words that have a jack to seat: the panel is put in and the seats start anew; or it is refused at no place.
pub(super) fn resumed(h: &mut Harness, saved: Vec<u64>, panel: &[u8], number: u8) {
    let call = Call::on_both(Name::Resume, panel.to_vec(), saved);
    if number != 0 {
        return h.compare_refused(call, number, [0; 5]);
    }
    let mut after = call.words.clone();
    after[PANEL..LEG].fill(0);
    for (word, &port) in after[PANEL..].iter_mut().zip(panel) {
        *word = port.into();
    }
    after[SEAT] = 1;
    let wanted = accepted(&call, [0; 5], &[], after);
    h.compare_as(call, wanted);
}

/// An error of the standing mark, plain and by number, all that may be called at each seat after it, and the mark again. Answers the state at that mark.
fn error_and_seats(h: &mut Harness, rng: &mut Rng, standing: &State) -> State {
    let (leg, step, plan) = (standing.leg, standing.step, &standing.plan);
    let (mark, rank) = (plan.number(leg, step) as u64, plan.rank(leg, step) as u64);
    let error = State { errors: standing.errors + 1, standing: false, seat: 1, ..standing.clone() };
    for name in [Name::Report { kind: 1 }, Name::ReportMark { mark, kind: 1 }] {
        let call = Call::on_both(name, vec![], standing.to_words().to_vec());
        let wanted = accepted(&call, [0; 5], &[], error.to_words().to_vec());
        h.compare_as(call, wanted);
    }
    for seat in 1..=plan.ports as u64 {
        let state = State { seat, ..error.clone() };
        each_call(h, rng, &state, true, &[0, 5, 6, 7, 8, 45]);
        let words = state.to_words().to_vec();
        for other in [mark.wrapping_add(1), mark.wrapping_sub(1), u64::MAX] {
            h.compare_refused(Call::on_both(Name::ReportMark { mark: other, kind: 1 }, vec![], words.clone()), 12, [0; 5]);
        }
        for kind in [4, 128, 255] {
            for name in [Name::Report { kind }, Name::ReportMark { mark, kind }] {
                h.compare_refused(Call::on_both(name, vec![], words.clone()), 14, [0; 5]);
            }
        }
        h.compare_refused(Call::on_both(Name::Orders, vec![0; 45], words), 15, [0; 5]);
    }
    let seated = State { seat: 0, ..error };
    let again = State { standing: true, ..seated.clone() };
    let text = format!("mark={mark},{rank}\n").into_bytes();
    let call = Call::on_both(Name::Request, rng.bytes(45), seated.to_words().to_vec());
    let wanted = accepted(&call, [3, mark, rank, 0, text.len() as u64], &text, again.to_words().to_vec());
    h.compare_as(call, wanted);
    for room in [0, 7, 45] {
        h.compare_refused(Call::on_both(Name::Request, rng.bytes(room), again.to_words().to_vec()), 13, [0; 5]);
    }
    again
}

/// A campaign from its plan to the end, with so many errors at each mark before it is run or given up.
fn with_errors(h: &mut Harness, rng: &mut Rng, plan: &Plan, errors: impl Fn(u128) -> u128) {
    let mut words = h.compare(Call::on_both(Name::Begin, inputs::plan_text(plan), vec![0; WORDS])).words;
    while words[ENDED] == 0 {
        let asked = h.compare(Call::on_both(Name::Request, rng.bytes(45), words));
        words = asked.words;
        if asked.answer[0] != 3 {
            continue;
        }
        let mark = asked.answer[1];
        let mut standing = State::from_words(&words).expect("a fit state");
        let counted = standing.errors;
        for _ in 0..errors(mark.into()) {
            standing = error_and_seats(h, rng, &standing);
        }
        h.compare_made("the errors counted", 0, standing.errors - counted, errors(mark.into()));
        words = h.compare(Call::on_both(Name::ReportMark { mark, kind: rng.pick(&[0, 2]) }, vec![], standing.to_words().to_vec())).words;
    }
    for _ in 0..2 {
        words = h.compare(Call::on_both(Name::Request, rng.bytes(45), words)).words;
    }
}

/// Each plan with one error and with two in a row at each of its marks, and with errors at all of them by turns.
pub fn campaigns_with_errors(h: &mut Harness) {
    let mut rng = Rng::of(h.seed, "seats, campaigns", 0);
    for plan in plans() {
        for at in 0..plan.marks() {
            for times in [1, 2] {
                with_errors(h, &mut rng, &plan, |mark| if mark == at { times } else { 0 });
            }
        }
        with_errors(h, &mut rng, &plan, |mark| (mark + 1) % 3);
    }
}

/// Errors up to the last that is counted, at every mark: it is followed by seats, and the one after it is refused and leaves the mark standing. With more
/// counted a state with a jack to seat is unfit, as any other is.
pub fn last_errors(h: &mut Harness) {
    let mut rng = Rng::of(h.seed, "seats, errors at their limit", 0);
    for plan in plans() {
        for before in before_marks(&plan) {
            let mark = plan.number(before.leg, before.step) as u64;
            for errors in [65_533, 65_534, 65_535] {
                let mut state = State { errors, standing: true, ..before.clone() };
                while state.errors < 65_535 {
                    state = error_and_seats(h, &mut rng, &state);
                }
                let words = state.to_words().to_vec();
                let report = |name| Call::on_both(name, vec![], words.clone());
                h.compare_refused(report(Name::Report { kind: 1 }), 16, [0; 5]);
                h.compare_refused(report(Name::ReportMark { mark, kind: 1 }), 16, [0; 5]);
                h.compare_refused(report(Name::ReportMark { mark: mark + 1, kind: 1 }), 12, [0; 5]);
                h.compare_refused(report(Name::Report { kind: 3 }), 14, [0; 5]);
                for kind in [0, 2] {
                    let closed = h.compare(report(Name::Report { kind })).words;
                    h.compare_made("no jack to seat after a mark is closed", 0, closed[SEAT], 0);
                    h.compare(Call::on_both(Name::Request, rng.bytes(45), closed));
                }
            }
            for errors in [65_536, 65_537, 131_071, 1 << 32, u64::MAX.into()] {
                let seat = rng.between(1, plan.ports) as u64;
                each_call(h, &mut rng, &State { errors, seat, ..before.clone() }, false, &[0, 45]);
            }
        }
    }
}
