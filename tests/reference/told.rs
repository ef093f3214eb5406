//! The reference as the calls of include/jidrofex.h: numbers and lent slices in, a number and the five words of the answer out.

use crate::campaign::{State, Status, WORDS};
use crate::list::Move;
use crate::named::Named;
use crate::plan::read_plan;
use crate::rehearsal::{Rehearsal, REHEARSAL_WORDS};
use crate::text::Line;
use crate::{dictionary, list, panel, refusal, text, Refusal, VERSION};

pub type Answer = [u64; 5];

/// 'Accepted: the values that the call names, then zeros. Refused: the place, then a second number: for 4 the jack of the earlier equal entry, for every
/// other refusal 0; then zeros.'
fn tell(told: Result<Answer, Refusal>, answer: &mut Answer) -> u8 {
    match told {
        Ok(values) => {
            *answer = values;
            0
        }
        Err(Refusal { number, place, earlier }) => {
            *answer = [place, earlier, 0, 0, 0];
            number
        }
    }
}

fn one(value: u64) -> Answer {
    [value, 0, 0, 0, 0]
}

const NOTHING: Answer = [0; 5];

fn move_words(made: Move) -> Answer {
    let words: [u8; 5] = match made {
        Move::Nothing => [0, 0, 0, 0, 0],
        Move::Swap(a, b) => [1, a, b, 0, 0],
        Move::Turn(a, b, c) => [2, a, b, c, 0],
        Move::TwoSwaps(a, b, c, d) => [5, a, b, c, d],
    };
    words.map(u64::from)
}

/// The line's four words and one number more.
fn line_words(line: Line, last: usize) -> Answer {
    let last = last as u64;
    match line {
        Line::Swap(a, b) => [1, a, b, 0, last],
        Line::Turn(a, b, c) => [2, a, b, c, last],
        Line::Mark(number, rank) => [3, number, rank, 0, last],
        Line::End(marks) => [4, marks, 0, 0, last],
        Line::Seat(j) => [6, j, 0, 0, last],
    }
}

/// 'Words of the line that its kind has no use for are not looked at.' None for a kind that is no line's.
fn line_of(words: &[u64; 4]) -> Option<Line> {
    let [kind, a, b, c] = *words;
    match kind {
        1 => Some(Line::Swap(a, b)),
        2 => Some(Line::Turn(a, b, c)),
        3 => Some(Line::Mark(a, b)),
        4 => Some(Line::End(a)),
        6 => Some(Line::Seat(a)),
        _ => None,
    }
}

pub fn version(answer: &mut Answer) -> u8 {
    tell(Ok(one(VERSION)), answer)
}

pub fn refusal_words(number: u8, buffer: &mut [u8], answer: &mut Answer) -> u8 {
    tell(text::refusal_words(number, buffer).map(|bytes| one(bytes as u64)), answer)
}

/// 'The answer of the call that was refused, of which the first two words are looked at.'
pub fn refusal_sentence(number: u8, refused: &Answer, buffer: &mut [u8], answer: &mut Answer) -> u8 {
    let [place, earlier, ..] = *refused;
    tell(text::refusal_sentence(Refusal { number, place, earlier }, buffer).map(|bytes| one(bytes as u64)), answer)
}

pub fn check(pattern: &[u8], answer: &mut Answer) -> u8 {
    tell(list::check(pattern).map(|()| NOTHING), answer)
}

pub fn check_panel(panel: &[u8], answer: &mut Answer) -> u8 {
    tell(list::check_panel(panel).map(|()| NOTHING), answer)
}

pub fn count(ports: u8, answer: &mut Answer) -> u8 {
    tell(list::count(ports.into()).map(|count| one(count as u64)), answer)
}

pub fn rank(pattern: &[u8], answer: &mut Answer) -> u8 {
    tell(list::rank(pattern).map(|rank| one(rank as u64)), answer)
}

/// A call that gives nothing but the pattern that it found, written over the lent one.
fn put(found: Result<Vec<u8>, Refusal>, pattern: &mut [u8], answer: &mut Answer) -> u8 {
    tell(
        found.map(|there| {
            pattern.copy_from_slice(&there);
            NOTHING
        }),
        answer,
    )
}

pub fn unrank(rank: u64, pattern: &mut [u8], answer: &mut Answer) -> u8 {
    put(list::unrank(pattern.len(), rank.into()), pattern, answer)
}

fn beside(found: Result<(Vec<u8>, Move), Refusal>, pattern: &mut [u8], answer: &mut Answer) -> u8 {
    tell(
        found.map(|(there, made)| {
            pattern.copy_from_slice(&there);
            move_words(made)
        }),
        answer,
    )
}

pub fn next(pattern: &mut [u8], answer: &mut Answer) -> u8 {
    beside(list::next(pattern), pattern, answer)
}

pub fn previous(pattern: &mut [u8], answer: &mut Answer) -> u8 {
    beside(list::previous(pattern), pattern, answer)
}

pub fn step(ports: u8, rank: u64, k: i64, answer: &mut Answer) -> u8 {
    tell(list::step(ports.into(), rank.into(), k.into()).map(|rank| one(rank as u64)), answer)
}

pub fn dictionary_number(pattern: &[u8], answer: &mut Answer) -> u8 {
    tell(dictionary::number(pattern).map(|number| one(number as u64)), answer)
}

pub fn dictionary_pattern(number: u64, pattern: &mut [u8], answer: &mut Answer) -> u8 {
    put(dictionary::pattern(pattern.len(), number.into()), pattern, answer)
}

pub fn dictionary_next(pattern: &mut [u8], answer: &mut Answer) -> u8 {
    put(dictionary::next(pattern), pattern, answer)
}

pub fn number_to_rank(ports: u8, number: u64, answer: &mut Answer) -> u8 {
    tell(dictionary::number_to_rank(ports.into(), number.into()).map(|rank| one(rank as u64)), answer)
}

pub fn rank_to_number(ports: u8, rank: u64, answer: &mut Answer) -> u8 {
    tell(dictionary::rank_to_number(ports.into(), rank.into()).map(|number| one(number as u64)), answer)
}

pub fn port_at(panel: &[u8], jack: u8, answer: &mut Answer) -> u8 {
    tell(panel::port_at(panel, jack).map(|port| one(port.into())), answer)
}

pub fn jack_of(panel: &[u8], port: u8, answer: &mut Answer) -> u8 {
    tell(panel::jack_of(panel, port).map(|jack| one(jack.into())), answer)
}

pub fn carry(panel: &mut [u8], line: &[u64; 4], answer: &mut Answer) -> u8 {
    tell(panel::carry(panel, line_of(line)).map(|()| NOTHING), answer)
}

pub fn write_line(line: &[u64; 4], buffer: &mut [u8], answer: &mut Answer) -> u8 {
    tell(text::write_line(line_of(line), buffer).map(|bytes| one(bytes as u64)), answer)
}

pub fn read_line(text: &[u8], place: usize, answer: &mut Answer) -> u8 {
    tell(text::read_line(text, place).map(|(line, after)| line_words(line, after)), answer)
}

/// '2 also when the slice is shorter than twice the number of gaps, after all plan refusals'; 'the slice beyond the gaps keeps its numbers'.
pub fn named(text: &[u8], gaps: &mut [u64], answer: &mut Answer) -> u8 {
    let found = read_plan(text).map(|plan| Named::by_intervals(&plan));
    let put = found.and_then(|named| {
        let numbers = named.numbers();
        gaps.get_mut(..numbers.len()).ok_or(refusal(2))?.copy_from_slice(&numbers);
        Ok([named.ranks as u64, named.gaps.len() as u64, 0, 0, 0])
    });
    tell(put, answer)
}

/// 'A refused text leaves a state all zeros, unless the state's length is wrong (15).'
pub fn begin(text: &[u8], state: &mut [u64], answer: &mut Answer) -> u8 {
    if state.len() != WORDS {
        return tell(Err(refusal(15)), answer);
    }
    let begun = read_plan(text);
    let first = begun.clone().map_or([0; WORDS], |plan| State::first(plan).to_words());
    state.copy_from_slice(&first);
    tell(begun.map(|_| NOTHING), answer)
}

pub fn status(state: &[u64], answer: &mut Answer) -> u8 {
    let words = |Status { marks, number, rank, standing, ended }| [marks as u64, number as u64, rank as u64, u64::from(standing), u64::from(ended)];
    tell(State::from_words(state).map(|fit| words(fit.status())), answer)
}

pub fn request(state: &mut [u64], buffer: &mut [u8], answer: &mut Answer) -> u8 {
    let requested = State::from_words(state).and_then(|fit| fit.request(buffer.len()));
    tell(
        requested.map(|(line, after)| {
            let text = line.text();
            buffer[..text.len()].copy_from_slice(&text);
            state.copy_from_slice(&after.to_words());
            line_words(line, text.len())
        }),
        answer,
    )
}

/// A call that gives nothing but the state after it.
fn leave(after: Result<State, Refusal>, state: &mut [u64], answer: &mut Answer) -> u8 {
    tell(
        after.map(|after| {
            state.copy_from_slice(&after.to_words());
            NOTHING
        }),
        answer,
    )
}

pub fn report(state: &mut [u64], kind: u8, answer: &mut Answer) -> u8 {
    leave(State::from_words(state).and_then(|fit| fit.report(kind)), state, answer)
}

pub fn report_mark(state: &mut [u64], mark: u64, kind: u8, answer: &mut Answer) -> u8 {
    leave(State::from_words(state).and_then(|fit| fit.report_mark(mark, kind)), state, answer)
}

/// 'Refused with the panel's own numbers (1, 3, 4), then with 15.'
pub fn resume(state: &mut [u64], panel: &[u8], answer: &mut Answer) -> u8 {
    leave(list::check_panel(panel).and_then(|()| State::saved(state)).and_then(|saved| saved.resume(panel)), state, answer)
}

/// 'A refused text leaves it all zeros; words of the wrong number are refused (15) before the text is looked at.'
pub fn rehearse(text: &[u8], rehearsal: &mut [u64], answer: &mut Answer) -> u8 {
    if rehearsal.len() != REHEARSAL_WORDS {
        return tell(Err(refusal(15)), answer);
    }
    let read = read_plan(text);
    let first = read.clone().map_or([0; REHEARSAL_WORDS], |plan| Rehearsal::first(plan).to_words());
    rehearsal.copy_from_slice(&first);
    tell(read.map(|_| NOTHING), answer)
}

pub fn orders(rehearsal: &mut [u64], buffer: &mut [u8], answer: &mut Answer) -> u8 {
    let printed = Rehearsal::from_words(rehearsal).and_then(|fit| fit.orders(buffer.len()));
    tell(
        printed.map(|(text, ended, left)| {
            buffer[..text.len()].copy_from_slice(&text);
            rehearsal.copy_from_slice(&left.to_words());
            [text.len() as u64, ended.into(), 0, 0, 0]
        }),
        answer,
    )
}
