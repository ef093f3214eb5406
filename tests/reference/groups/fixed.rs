//! Groups that go over a fixed set of cases.

use super::campaigns::{begin_on, on_state};
use super::rehearsals::on_rehearsal;
use crate::calls::{Call, Name, Outcome};
use crate::inputs::{self, Rng};
use crate::Harness;
use face::raw;
use reference::campaign::{COVERED, ENDED, ERRORS, OPEN, STANDING, WORDS};
use reference::list::{at, count_of};
use reference::plan::{Leg, Plan};
use reference::rehearsal::REHEARSAL_WORDS;
use reference::told;
use std::ptr::{null, null_mut};

/// The version; and every byte as the number of a refusal, with every buffer about as long as its words.
pub fn library(h: &mut Harness) {
    let mut rng = Rng::of(h.seed, "library", 0);
    h.compare(Call::plain(Name::Version));
    for number in 0..=255 {
        for bytes in 0..=60 {
            h.compare(Call::on_bytes(Name::RefusalWords { number }, rng.bytes(bytes)));
        }
    }
}

/// Every byte as a number of ports.
pub fn count(h: &mut Harness) {
    for ports in 0..=255 {
        h.compare(Call::plain(Name::Count { ports }));
    }
}

/// Every pattern of 2 to 8 ports: check, rank, unrank, next and previous.
pub fn circuits(h: &mut Harness) {
    for n in 2..=8 {
        for rank in 0..count_of(n) {
            let pattern = at(n, rank);
            for name in [Name::Check, Name::Rank, Name::Next, Name::Previous] {
                h.compare(Call::on_bytes(name, pattern.clone()));
            }
            h.compare(Call::on_bytes(Name::Unrank { rank: rank as u64 }, vec![0; n]));
        }
    }
}

/// Every step between blocks of every list of 3 to 20 ports, both ways, by itself and at every depth below a longer pattern.
pub fn joins(h: &mut Harness) {
    let mut rng = Rng::of(h.seed, "joins", 0);
    for short in 3..=20 {
        let (count, in_a, in_b) = (count_of(short), count_of(short - 1), count_of(short - 2));
        for block in 0..short as u128 {
            for edge in [0, in_a, in_b] {
                for beside in 0..2 {
                    let place = (block * (in_a + in_b) + edge + count - beside) % count;
                    for n in short..=20 {
                        let pattern = inputs::lift(&mut rng, at(short, place), n);
                        for name in [Name::Next, Name::Previous, Name::Rank] {
                            h.compare(Call::on_bytes(name, pattern.clone()));
                        }
                    }
                }
            }
        }
    }
}

/// Texts about and past the 1,024 bytes that the printer judges: `begin` and `named` judge all of a text, however long.
pub fn long_texts(h: &mut Harness) {
    let mut rng = Rng::of(h.seed, "long texts", 0);
    for bytes in [801, 802, 1023, 1024, 1025, 4096, 65_536] {
        let one_line = [b"ports=".as_slice(), &vec![b'1'; bytes - 7], b"\n"].concat();
        let no_newline = vec![b'p'; bytes];
        let plan = b"ports=4\nlegs=1\nstart=0\nrun=0\n";
        let and_more = [plan.as_slice(), &vec![b'\n'; bytes - plan.len()]].concat();
        for text in [one_line, no_newline, and_more] {
            begin_on(h, &mut rng, text.clone(), WORDS);
            h.compare(Call::on_both(Name::Named, text, vec![7; 2]));
        }
    }
}

/// 'With length 0 a pointer may be null.' Each call that takes a slice, with null for it.
pub fn null_pointers(h: &mut Harness) {
    type Made = fn(&mut [u64; 5]) -> u8;
    fn told_of(call: Made) -> (u8, [u64; 5]) {
        let mut answer = [u64::MAX; 5];
        (call(&mut answer), answer)
    }
    const LINE: [u64; 4] = [4, 5, 0, 0];
    const PANEL: [u8; 2] = [2, 1];
    const REFUSED: [u64; 5] = [5, 2, 0, 0, 0];
    let calls: [(&str, Made, Made); 27] = [
        ("refusal_words", |a| unsafe { raw::jidrofex_refusal_words(0, null_mut(), 0, a.as_mut_ptr()) }, |a| told::refusal_words(0, &mut [], a)),
        (
            "refusal_sentence",
            |a| unsafe { raw::jidrofex_refusal_sentence(4, REFUSED.as_ptr(), null_mut(), 0, a.as_mut_ptr()) },
            |a| told::refusal_sentence(4, &REFUSED, &mut [], a),
        ),
        ("check", |a| unsafe { raw::jidrofex_check(null(), 0, a.as_mut_ptr()) }, |a| told::check(&[], a)),
        ("check_panel", |a| unsafe { raw::jidrofex_check_panel(null(), 0, a.as_mut_ptr()) }, |a| told::check_panel(&[], a)),
        ("rank", |a| unsafe { raw::jidrofex_rank(null(), 0, a.as_mut_ptr()) }, |a| told::rank(&[], a)),
        ("unrank", |a| unsafe { raw::jidrofex_unrank(0, null_mut(), 0, a.as_mut_ptr()) }, |a| told::unrank(0, &mut [], a)),
        ("next", |a| unsafe { raw::jidrofex_next(null_mut(), 0, a.as_mut_ptr()) }, |a| told::next(&mut [], a)),
        ("previous", |a| unsafe { raw::jidrofex_previous(null_mut(), 0, a.as_mut_ptr()) }, |a| told::previous(&mut [], a)),
        ("dictionary_number", |a| unsafe { raw::jidrofex_dictionary_number(null(), 0, a.as_mut_ptr()) }, |a| told::dictionary_number(&[], a)),
        ("dictionary_pattern", |a| unsafe { raw::jidrofex_dictionary_pattern(0, null_mut(), 0, a.as_mut_ptr()) }, |a| told::dictionary_pattern(0, &mut [], a)),
        ("dictionary_next", |a| unsafe { raw::jidrofex_dictionary_next(null_mut(), 0, a.as_mut_ptr()) }, |a| told::dictionary_next(&mut [], a)),
        ("port_at", |a| unsafe { raw::jidrofex_port_at(null(), 0, 1, a.as_mut_ptr()) }, |a| told::port_at(&[], 1, a)),
        ("jack_of", |a| unsafe { raw::jidrofex_jack_of(null(), 0, 1, a.as_mut_ptr()) }, |a| told::jack_of(&[], 1, a)),
        ("carry", |a| unsafe { raw::jidrofex_carry(null_mut(), 0, LINE.as_ptr(), a.as_mut_ptr()) }, |a| told::carry(&mut [], &LINE, a)),
        ("write_line", |a| unsafe { raw::jidrofex_write_line(LINE.as_ptr(), null_mut(), 0, a.as_mut_ptr()) }, |a| told::write_line(&LINE, &mut [], a)),
        ("read_line", |a| unsafe { raw::jidrofex_read_line(null(), 0, 0, a.as_mut_ptr()) }, |a| told::read_line(&[], 0, a)),
        ("read_line", |a| unsafe { raw::jidrofex_read_line(null(), 0, usize::MAX, a.as_mut_ptr()) }, |a| told::read_line(&[], usize::MAX, a)),
        ("named", |a| unsafe { raw::jidrofex_named(null(), 0, null_mut(), 0, a.as_mut_ptr()) }, |a| told::named(&[], &mut [], a)),
        ("begin", |a| unsafe { raw::jidrofex_begin(null(), 0, null_mut(), 0, a.as_mut_ptr()) }, |a| told::begin(&[], &mut [], a)),
        ("rehearse", |a| unsafe { raw::jidrofex_rehearse(null(), 0, null_mut(), 0, a.as_mut_ptr()) }, |a| told::rehearse(&[], &mut [], a)),
        ("status", |a| unsafe { raw::jidrofex_status(null(), 0, a.as_mut_ptr()) }, |a| told::status(&[], a)),
        ("report", |a| unsafe { raw::jidrofex_report(null_mut(), 0, 0, a.as_mut_ptr()) }, |a| told::report(&mut [], 0, a)),
        ("report_mark", |a| unsafe { raw::jidrofex_report_mark(null_mut(), 0, 0, 0, a.as_mut_ptr()) }, |a| told::report_mark(&mut [], 0, 0, a)),
        ("report_mark", |a| unsafe { raw::jidrofex_report_mark(null_mut(), 0, 0, 3, a.as_mut_ptr()) }, |a| told::report_mark(&mut [], 0, 3, a)),
        ("request", |a| unsafe { raw::jidrofex_request(null_mut(), 0, null_mut(), 0, a.as_mut_ptr()) }, |a| told::request(&mut [], &mut [], a)),
        ("resume", |a| unsafe { raw::jidrofex_resume(null_mut(), 0, null(), 0, a.as_mut_ptr()) }, |a| told::resume(&mut [], &[], a)),
        ("resume", |a| unsafe { raw::jidrofex_resume(null_mut(), 0, PANEL.as_ptr(), 2, a.as_mut_ptr()) }, |a| told::resume(&mut [], &PANEL, a)),
    ];
    for (name, library, reference) in calls {
        let wanted = told_of(reference);
        h.compare_made(&format!("{name} with null pointers"), wanted.0, told_of(library), wanted);
    }
    let plan = b"ports=2\nlegs=1\nstart=0\nrun=0\n".to_vec();
    let state = h.compare(Call::on_both(Name::Begin, plan.clone(), vec![0; WORDS])).words;
    let rehearsal = h.compare(Call::on_both(Name::Rehearse, plan, vec![0; REHEARSAL_WORDS])).words;
    type OnWords = unsafe extern "C" fn(*mut u64, usize, *mut u8, usize, *mut u64) -> u8;
    let on_words: [(&str, OnWords, &Vec<u64>); 2] = [("request", raw::jidrofex_request, &state), ("orders", raw::jidrofex_orders, &rehearsal)];
    for (name, call, first) in on_words {
        for (words, wanted) in [(first.len(), 2), (0, 15)] {
            let (mut left, mut answer) = (first.clone(), [u64::MAX; 5]);
            let lent = if words == 0 { null_mut() } else { left.as_mut_ptr() };
            let number = unsafe { call(lent, words, null_mut(), 0, answer.as_mut_ptr()) };
            h.compare_made(&format!("{name} on {words} words with a null buffer"), wanted, (number, answer, &left), (wanted, [0; 5], first));
        }
    }
    type OnText = unsafe extern "C" fn(*const u8, usize, *mut u64, usize, *mut u64) -> u8;
    let on_text: [(&str, OnText, Vec<u64>); 2] = [("begin", raw::jidrofex_begin, state), ("rehearse", raw::jidrofex_rehearse, rehearsal)];
    for (name, call, mut words) in on_text {
        let (many, mut answer) = (words.len(), [u64::MAX; 5]);
        let number = unsafe { call(null(), 0, words.as_mut_ptr(), many, answer.as_mut_ptr()) };
        h.compare_made(&format!("{name} with a null text"), 11, (number, answer, words), (11, [1, 0, 0, 0, 0], vec![0; many]));
    }
}

/// Requests up to the next mark or the end, or until one is refused.
fn to_mark(h: &mut Harness, mut state: Vec<u64>) -> Vec<u64> {
    loop {
        let Outcome { number, words, .. } = h.compare(Call::on_both(Name::Request, vec![0; 45], state));
        state = words;
        if number != 0 || state[STANDING] == 1 || state[ENDED] == 1 {
            return state;
        }
    }
}

/// Errors at their limit: a standing mark with 65,533 errors and up, each report twice over, plain and by number, and the requests between.
pub fn errors(h: &mut Harness) {
    let plan = Plan { ports: 5, legs: vec![Leg { start: 7, run: -3 }] };
    let first = h.compare(Call::on_both(Name::Begin, inputs::plan_text(&plan), vec![0; WORDS])).words;
    let standing = to_mark(h, first);
    for errors in [0, 1, 65_533, 65_534, 65_535, 65_536, 65_537, 131_071, 1 << 32, u64::MAX] {
        for kinds in [[1, 1], [1, 0], [1, 2], [0, 1], [2, 1]] {
            for by_number in [false, true] {
                let mut state = standing.clone();
                state[ERRORS] = errors;
                for kind in kinds {
                    let mark = state[COVERED] + state[OPEN];
                    let name = if by_number { Name::ReportMark { mark, kind } } else { Name::Report { kind } };
                    state = h.compare(Call::on_both(name, vec![], state)).words;
                    state = to_mark(h, state);
                }
            }
        }
    }
}

/// Reports by number with every byte as the kind: of the standing or next mark, of those beside it, of the first, and of none.
pub fn kinds(h: &mut Harness) {
    let mut rng = Rng::of(h.seed, "kinds", 0);
    for standing in [true, false] {
        for _ in 0..6 {
            let state = (0..).map(|_| inputs::reached(&mut rng)).find(|state| state.standing == standing).expect("one of many").to_words();
            let number = state[COVERED] + state[OPEN];
            for mark in [number, number.wrapping_add(1), number.wrapping_sub(1), 0, u64::MAX] {
                for kind in 0..=255 {
                    h.compare(Call::on_both(Name::ReportMark { mark, kind }, vec![], state.to_vec()));
                }
            }
        }
    }
}

/// Each of the 62 words of several states, at its moments, with each of a list of values; and states of other lengths.
pub fn words(h: &mut Harness) {
    let mut rng = Rng::of(h.seed, "words", 0);
    for _ in 0..30 {
        let reached = inputs::reached(&mut rng);
        let state = reached.to_words();
        for place in 0..WORDS {
            let old = state[place];
            for value in [old, old.wrapping_add(1), old.wrapping_sub(1), 0, 256, old.wrapping_add(256), old ^ (1 << 32), old ^ (1 << 63), u64::MAX] {
                let mut changed = state.to_vec();
                changed[place] = value;
                h.compare(Call::on_both(Name::Resume, reached.panel.clone(), changed.clone()));
                h.compare(Call::on_both(Name::Status, vec![], changed.clone()));
                on_state(h, &mut rng, changed);
            }
        }
        for length in [0, 1, 61, 63, 124, 317] {
            let mut other = state.to_vec();
            other.resize(length, 0);
            h.compare(Call::on_both(Name::Resume, reached.panel.clone(), other.clone()));
            for name in [Name::Request, Name::Report { kind: 0 }, Name::ReportMark { mark: 0, kind: 0 }, Name::Status, Name::Begin] {
                h.compare(Call::on_both(name, b"ports=2\nlegs=1\nstart=0\nrun=0\n".to_vec(), other.clone()));
            }
        }
        for name in [Name::Request, Name::Report { kind: 3 }, Name::Report { kind: 0 }] {
            h.compare(Call::on_both(name, vec![0; 45], state.to_vec()));
        }
    }
}

/// The same of the 57 words of rehearsals; and the calls of a campaign on them, and those of a rehearsal on a state's.
pub fn rehearsal_words(h: &mut Harness) {
    let mut rng = Rng::of(h.seed, "words of rehearsals", 0);
    for _ in 0..30 {
        let rehearsal = inputs::rehearsed(&mut rng).to_words();
        for place in 0..REHEARSAL_WORDS {
            let old = rehearsal[place];
            for value in [old, old.wrapping_add(1), old.wrapping_sub(1), 0, 256, old.wrapping_add(256), old ^ (1 << 32), old ^ (1 << 63), u64::MAX] {
                let mut changed = rehearsal.to_vec();
                changed[place] = value;
                on_rehearsal(h, &mut rng, changed);
            }
        }
        for length in [0, 1, 56, 58, WORDS, 317] {
            let mut other = rehearsal.to_vec();
            other.resize(length, 0);
            for name in [Name::Orders, Name::Rehearse] {
                h.compare(Call::on_both(name, b"ports=2\nlegs=1\nstart=0\nrun=0\n".to_vec(), other.clone()));
            }
        }
        let state = inputs::reached(&mut rng);
        h.compare(Call::on_both(Name::Orders, vec![0; 90], state.to_words().to_vec()));
        h.compare(Call::on_both(Name::Resume, state.panel, rehearsal.to_vec()));
        for name in [Name::Request, Name::Report { kind: 0 }, Name::Report { kind: 3 }, Name::ReportMark { mark: 0, kind: 0 }, Name::Status] {
            h.compare(Call::on_both(name, vec![0; 45], rehearsal.to_vec()));
        }
    }
}
