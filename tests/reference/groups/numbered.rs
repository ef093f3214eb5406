//! Groups whose cases are made one by one: where a campaign is, and reports that name their mark.

use super::campaigns::begin_on;
use crate::calls::{Call, Name};
use crate::inputs::{self, Rng};
use crate::Harness;
use reference::campaign::{COVERED, ENDED, ERRORS, OPEN, WORDS};
use reference::plan::Plan;

pub fn status(h: &mut Harness, rng: &mut Rng) {
    h.compare(Call::on_both(Name::Status, vec![], inputs::any_state(rng)));
}

pub fn report_mark(h: &mut Harness, rng: &mut Rng) {
    let state = inputs::any_state(rng);
    let mark = inputs::mark_near(rng, &state);
    let kind = if rng.chance(10) { rng.byte() } else { rng.pick(&[0, 1, 1, 2]) };
    h.compare(Call::on_both(Name::ReportMark { mark, kind }, vec![], state));
}

/// The bench's own book of a campaign: what it was handed, and which of its reports were taken. Nothing of it is read from a state.
struct Book {
    plan: Plan,
    /// The number and rank of the mark that was handed out last, until a report of it is taken.
    standing: Option<(u64, u64)>,
    ran: u64,
    gave_up: u64,
    errors: u64,
    /// The jack that the next request is to seat, 0 for none.
    seat: u64,
    /// Every report that was taken: the mark's number, and the kind.
    taken: Vec<(u64, u8)>,
}

impl Book {
    fn closed(&self) -> u64 {
        self.ran + self.gave_up
    }

    /// A report is written down; answers the number that it should have: 0 only of the mark that was handed out last.
    fn report(&mut self, mark: u64, kind: u8) -> u8 {
        if kind > 2 {
            return 14;
        }
        if self.standing.map(|(number, _)| number) != Some(mark) {
            return 12;
        }
        self.standing = None;
        self.taken.push((mark, kind));
        *[&mut self.ran, &mut self.errors, &mut self.gave_up][usize::from(kind)] += 1;
        self.seat = u64::from(kind == 1);
        0
    }

    /// The jack that is due to be seated, if one is; the one after it is due next.
    fn seat_due(&mut self) -> Option<u64> {
        let due = self.seat;
        self.seat = if due == 0 || due == self.plan.ports as u64 { 0 } else { due + 1 };
        (due != 0).then_some(due)
    }

    /// What a status says of it, but for the rank where no mark stands.
    fn status(&self) -> (u64, u64, Option<u64>, u64, u64) {
        let marks = self.plan.marks() as u64;
        let next = self.closed().min(marks - 1);
        (marks, next, self.standing.map(|(_, rank)| rank), self.standing.is_some().into(), (self.closed() == marks).into())
    }
}

/// A long campaign with reports by number, over a line that sends some of them twice: a report that was taken comes again at any later time, and is never
/// taken for another mark. Number, counts and seats are held to the bench's own book.
pub fn sent_twice(h: &mut Harness, rng: &mut Rng) {
    let plan = if rng.chance(85) { inputs::short_plan(rng, 60) } else { inputs::plan(rng) };
    let mut state = begin_on(h, rng, inputs::plan_text(&plan), WORDS).words;
    let mut book = Book { plan, standing: None, ran: 0, gave_up: 0, errors: 0, seat: 0, taken: vec![] };
    let mut after_end = 0;
    for _ in 0..rng.between(100, 600) {
        let again = if book.taken.is_empty() || rng.chance(70) { None } else { Some(rng.pick(&book.taken)) };
        let fresh = book.standing.map(|(mark, _)| (mark, rng.pick(&[0, 0, 0, 0, 0, 1, 1, 2, 3])));
        state = if rng.chance(5) {
            let outcome = h.compare(Call::on_both(Name::Status, vec![], state));
            let [marks, number, rank, standing, ended] = outcome.answer;
            let told = (marks, number, book.standing.map(|_| rank), standing, ended);
            h.compare_made("where the campaign is, beside the book", outcome.number, told, book.status());
            outcome.words
        } else if let Some((mark, kind)) = again.or(fresh) {
            let outcome = h.compare(Call::on_both(Name::ReportMark { mark, kind }, vec![], state));
            let wanted = book.report(mark, kind);
            let counted = [COVERED, OPEN, ERRORS].map(|place| outcome.words[place]);
            h.compare_made("a report and the counts, beside the book", wanted, (outcome.number, counted), (wanted, [book.ran, book.gave_up, book.errors]));
            outcome.words
        } else {
            let outcome = h.compare(Call::on_both(Name::Request, rng.bytes(45), state));
            let seated = (outcome.answer[0] == 6).then_some(outcome.answer[1]);
            h.compare_made("the jack to seat, beside the book", outcome.number, seated, book.seat_due());
            if let [3, number, rank, ..] = outcome.answer {
                h.compare_made("a mark's number, beside the marks closed", outcome.number, number, book.closed());
                book.standing = Some((number, rank));
            }
            outcome.words
        };
        after_end += state[ENDED];
        if after_end > 12 {
            return;
        }
    }
}
