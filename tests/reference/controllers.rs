//! The self test's part on what a controller asks beside its orders: the version, a refusal in words and as a sentence, where a campaign is, a report that
//! names its mark.

use crate::rules::at_mark;
use crate::{Compared, PLAN};
use reference::campaign::{State, COVERED, ERRORS};
use reference::plan::read_plan;
use reference::told;
use std::collections::HashSet;

/// The words of a refusal, from a buffer with room for them.
fn words_of(number: u8) -> Vec<u8> {
    let (mut buffer, mut answer) = ([b'.'; 60], [7; 5]);
    told::refusal_words(number, &mut buffer, &mut answer);
    buffer[..answer[0] as usize].to_vec()
}

/// The version and the words of refusals, as the header has them.
pub fn library(compared: &mut Compared) {
    let mut answer = [7; 5];
    compared.same("the version", (told::version(&mut answer), answer), (0, [5, 0, 0, 0, 0]));
    let said: [(u8, &[u8]); 6] = [
        (0, b"accepted"),
        (2, b"does not fit the buffer"),
        (12, b"report of a mark that does not stand"),
        (17, b"jack or port off the panel, or order out of shape"),
        (18, b"no refusal has this number"),
        (255, b"no refusal has this number"),
    ];
    for (number, words) in said {
        compared.same("the words of a refusal", &words_of(number)[..], words);
        let bytes = words.len();
        let mut buffer = [b'.'; 60];
        compared.same("one byte short", (told::refusal_words(number, &mut buffer[..bytes - 1], &mut answer), answer, buffer), (2, [0; 5], [b'.'; 60]));
        compared.same("just room", (told::refusal_words(number, &mut buffer[..bytes], &mut answer), answer), (0, [bytes as u64, 0, 0, 0, 0]));
        compared.same("the bytes after them", &buffer[bytes..], &[b'.'; 60][bytes..]);
    }
    let all: Vec<Vec<u8>> = (0..=255).map(words_of).collect();
    compared.same("17 refusals, 0, and no refusal: each its own words", all.iter().collect::<HashSet<_>>().len(), 19);
    compared.same("no refusal has a number above 17", all[18..].iter().all(|words| *words == all[18]), true);
    compared.same("the bytes of the longest", all.iter().map(Vec::len).max(), Some(49));
    compared.same("plain letters alone", all.concat().iter().all(|byte| (b' '..=b'~').contains(byte)), true);
}

/// Refusals as sentences: those of the header, each rule of it, and that a sentence is the words with something before and after them.
pub fn sentences(compared: &mut Compared) {
    let said: [(u8, [u64; 5], &str); 22] = [
        (4, [5, 2, 0, 0, 0], "jack 5: entry equal to an earlier one, at jack 2"),
        (4, [20, 19, 0, 0, 0], "jack 20: entry equal to an earlier one, at jack 19"),
        (4, [5, 0, 0, 0, 0], "jack 5: entry equal to an earlier one"),
        (4, [0, 2, 0, 0, 0], "entry equal to an earlier one, at jack 2"),
        (4, [0; 5], "entry equal to an earlier one"),
        (4, [5, 2, 7, 8, 9], "jack 5: entry equal to an earlier one, at jack 2"),
        (4, [u64::MAX; 5], "jack 18446744073709551615: entry equal to an earlier one, at jack 18446744073709551615"),
        (3, [3, 0, 0, 0, 0], "jack 3: entry outside the panel's ports"),
        (3, [3, 2, 0, 0, 0], "jack 3: entry outside the panel's ports"),
        (5, [1, 0, 0, 0, 0], "jack 1: entry equal to its own jack"),
        (5, [0, 1, 0, 0, 0], "entry equal to its own jack"),
        (9, [2, 0, 0, 0, 0], "line 2: legs not 1 to 16"),
        (11, [7, 0, 0, 0, 0], "line 7: text ended early or went on"),
        (6, [0; 5], "rank not below the count"),
        (2, [0, 4, 0, 0, 0], "does not fit the buffer"),
        (1, [1, 1, 0, 0, 0], "line 1: ports or length not 2 to 20"),
        (15, [0; 5], "state unfit"),
        (17, [u64::MAX; 5], "line 18446744073709551615: jack or port off the panel, or order out of shape"),
        (0, [0; 5], "accepted"),
        (0, [5, 2, 0, 0, 0], "accepted"),
        (18, [5, 2, 0, 0, 0], "no refusal has this number"),
        (255, [u64::MAX; 5], "no refusal has this number"),
    ];
    for (number, refused, sentence) in said {
        let (mut buffer, mut answer, bytes) = ([b'.'; 90], [7; 5], sentence.len());
        let short = told::refusal_sentence(number, &refused, &mut buffer[..bytes - 1], &mut answer);
        compared.same("one byte short", (short, answer, buffer), (2, [0; 5], [b'.'; 90]));
        let just = told::refusal_sentence(number, &refused, &mut buffer[..bytes], &mut answer);
        compared.same("just room", (just, answer), (0, [bytes as u64, 0, 0, 0, 0]));
        compared.same("the sentence", &buffer[..bytes], sentence.as_bytes());
        compared.same("the bytes after it", &buffer[bytes..], &[b'.'; 90][bytes..]);
    }
    let mut longest = 0;
    for number in 0..=255 {
        for place in [0, 1, u64::MAX] {
            for earlier in [0, 1, u64::MAX] {
                let (mut buffer, mut answer) = ([b'.'; 90], [7; 5]);
                told::refusal_sentence(number, &[place, earlier, 0, 0, 0], &mut buffer, &mut answer);
                let (sentence, words) = (&buffer[..answer[0] as usize], words_of(number));
                longest = longest.max(sentence.len());
                let at = sentence.windows(words.len()).position(|part| part == words);
                compared.same("the words stand in it", at.is_some(), true);
                let (before, after) = (at.unwrap_or(0), sentence.len() - at.unwrap_or(0) - words.len());
                compared.same("something before them", before > 0, place != 0 && (1..=17).contains(&number));
                compared.same("something after them", after > 0, earlier != 0 && number == 4);
            }
        }
    }
    compared.same("the bytes of the longest sentence", longest, 86);
}

/// One call on the words of a state that must take it: a request, or a report of a kind.
fn call(state: &mut [u64], report: Option<u8>) {
    let number = match report {
        None => told::request(state, &mut [0; 45], &mut [0; 5]),
        Some(kind) => told::report(state, kind, &mut [0; 5]),
    };
    assert_eq!(number, 0, "the call is accepted");
}

fn first(text: &[u8]) -> Vec<u64> {
    State::first(read_plan(text).expect("a plan")).to_words().to_vec()
}

/// Where the paper's plan is after each call: the marks 0 to 4 of the ranks 0, 1, 2, 8 and 7, with an error at mark 1 and mark 2 given up.
pub fn status(compared: &mut Compared) {
    let mut asked = |what: &str, state: &[u64], number: u8, wanted: [u64; 5]| {
        let mut answer = [7; 5];
        compared.same(what, (told::status(state, &mut answer), answer), (number, wanted));
    };
    let mut state = first(PLAN);
    asked("the first state", &state, 0, [5, 0, 0, 0, 0]);
    let (request, ran, error, gave_up) = (None, Some(0), Some(1), Some(2));
    let along = [
        (request, [5, 0, 0, 1, 0]), // mark=0,0
        (ran, [5, 1, 1, 0, 0]),
        (request, [5, 1, 1, 0, 0]), // turn=1,2,3
        (request, [5, 1, 1, 1, 0]), // mark=1,1
        (error, [5, 1, 1, 0, 0]),
        (request, [5, 1, 1, 0, 0]), // seat=1
        (request, [5, 1, 1, 0, 0]), // seat=2
        (request, [5, 1, 1, 0, 0]), // seat=3
        (request, [5, 1, 1, 0, 0]), // seat=4
        (request, [5, 1, 1, 1, 0]), // mark=1,1
        (ran, [5, 2, 2, 0, 0]),
        (request, [5, 2, 2, 0, 0]), // swap=1,2
        (request, [5, 2, 2, 1, 0]), // mark=2,2
        (gave_up, [5, 3, 8, 0, 0]),
        (request, [5, 3, 8, 0, 0]), // swap=1,3
        (request, [5, 3, 8, 0, 0]), // swap=2,4
        (request, [5, 3, 8, 1, 0]), // mark=3,8
        (ran, [5, 4, 7, 0, 0]),
        (request, [5, 4, 7, 0, 0]), // swap=1,3
        (request, [5, 4, 7, 1, 0]), // mark=4,7
        (ran, [5, 4, 7, 0, 1]),
        (request, [5, 4, 7, 0, 1]), // end=5
    ];
    for (made, wanted) in along {
        call(&mut state, made);
        asked("along the way", &state, 0, wanted);
    }
    asked("61 words", &state[..61], 15, [0; 5]);
    asked("no words", &[], 15, [0; 5]);
    state[COVERED] += 1;
    asked("a count that is not so", &state, 15, [0; 5]);
    // backward past the list's first pattern
    let mut state = first(b"ports=4\nlegs=1\nstart=0\nrun=-1\n");
    call(&mut state, None);
    call(&mut state, Some(0));
    asked("one back from rank 0", &state, 0, [2, 1, 8, 0, 0]);
    // 'there are at most 14320234099086433936': the last of them, with every mark before it given up
    let longest = format!("ports=20\nlegs=16\n{}", "start=1\nrun=895014631192902120\n".repeat(16));
    let plan = read_plan(longest.as_bytes()).expect("a plan");
    let panel = plan.pattern(15, 895014631192902120);
    let last = State { leg: 15, step: 895014631192902120, open: 14320234099086433935, standing: true, panel, ..State::first(plan) };
    asked("the last of the most marks", &last.to_words(), 0, [14320234099086433936, 14320234099086433935, 0, 1, 0]);
}

/// A report by number, on the words of a state; answers what it leaves. Refused it leaves the state, accepted it is the plain report.
fn reported(compared: &mut Compared, what: &str, state: &[u64], (mark, kind): (u64, u8), number: u8) -> Vec<u64> {
    let (mut found, mut wanted, mut answer) = (state.to_vec(), state.to_vec(), [7; 5]);
    if number == 0 {
        call(&mut wanted, Some(kind));
    }
    compared.same(what, (told::report_mark(&mut found, mark, kind, &mut answer), answer, &found), (number, [0; 5], &wanted));
    found
}

/// The refusals of a report by number, in their order.
pub fn report_refusals(compared: &mut Compared) {
    let none = first(PLAN);
    reported(compared, "no mark stands yet", &none, (0, 0), 12);
    reported(compared, "a kind above 2, with no mark standing", &none, (0, 3), 14);
    let mut standing = none;
    call(&mut standing, None);
    for kind in 0..=2 {
        reported(compared, "the mark that stands", &standing, (0, kind), 0);
        reported(compared, "the mark after it", &standing, (1, kind), 12);
        reported(compared, "no mark of the plan", &standing, (u64::MAX, kind), 12);
    }
    let mut unfit = standing.clone();
    unfit[COVERED] = 1;
    for mark in [0, 1] {
        reported(compared, "a kind above 2", &standing, (mark, 3), 14);
        reported(compared, "the last kind of a byte", &standing, (mark, 255), 14);
        reported(compared, "61 words", &standing[..61], (mark, 3), 15);
        reported(compared, "an unfit state", &unfit, (mark, 3), 15);
    }
    let mut limit = standing;
    limit[ERRORS] = 65_535;
    reported(compared, "an error at the limit", &limit, (0, 1), 16);
    reported(compared, "an error at the limit, of another mark", &limit, (1, 1), 12);
    reported(compared, "closed at the limit", &limit, (0, 2), 0);
}

/// The paper's plan with reports by number, and the report of mark 0 sent twice: mark 0 ran, mark 1 stands, and the report of mark 0 comes again.
pub fn sent_twice(compared: &mut Compared) {
    let mut state = first(PLAN);
    call(&mut state, None);
    let mut state = reported(compared, "mark 0 ran", &state, (0, 0), 0);
    reported(compared, "again at once", &state, (0, 0), 12);
    call(&mut state, None);
    call(&mut state, None);
    let again = reported(compared, "again at mark 1", &state, (0, 0), 12);
    let mut plain = state.clone();
    call(&mut plain, Some(0));
    compared.same("covered after the report again: by its number, and by a plain report", (again[COVERED], plain[COVERED]), (1, 2));
    let error = reported(compared, "an error at mark 1", &state, (1, 1), 0);
    reported(compared, "none stands after an error", &error, (1, 1), 12);
    let mut seating = error;
    for kind in [0, 1, 2, 3] {
        call(&mut seating, None);
        reported(compared, "nor after a seat", &seating, (1, kind), if kind > 2 { 14 } else { 12 });
    }
    call(&mut seating, None);
    reported(compared, "the same mark, after the seats", &seating, (1, 0), 0);
    // marks are numbered over the whole plan: at step 0 of the second leg stands mark 3
    let next_mark = |closed: &[u64]| at_mark(&State::from_words(closed).expect("a fit state"));
    let state = reported(compared, "mark 1 ran", &state, (1, 0), 0);
    let state = reported(compared, "mark 2 given up", &next_mark(&state).to_words(), (2, 2), 0);
    let second_leg = next_mark(&state);
    compared.same("leg and step", (second_leg.leg, second_leg.step), (1, 0));
    reported(compared, "by the number in its leg", &second_leg.to_words(), (0, 0), 12);
    let state = reported(compared, "by the number in the plan", &second_leg.to_words(), (3, 0), 0);
    let ended = reported(compared, "the last mark", &next_mark(&state).to_words(), (4, 0), 0);
    reported(compared, "the last mark after the end", &ended, (4, 0), 12);
}
