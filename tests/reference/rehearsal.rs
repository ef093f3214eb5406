//! A rehearsal: every line of a plan by buffers, every mark taken as run. It has no counts, and no report is made.

use crate::campaign::{flag, may_stand, order_towards, put_places, read_places, within_rules, State, LEG, STEP};
use crate::list::check_panel;
use crate::panel::obey;
use crate::plan::Plan;
use crate::text::Line;
use crate::{refusal, Refusal};

#[derive(Clone, Debug, PartialEq, Eq)]
pub struct Rehearsal {
    pub plan: Plan,
    pub panel: Vec<u8>,
    /// The leg and step of the next mark.
    pub leg: usize,
    pub step: u128,
    pub ended: bool,
}

/// The places of the header's words that a state does not have too.
pub const REHEARSAL_ENDED: usize = 56;
pub const REHEARSAL_WORDS: usize = 57;

impl Rehearsal {
    /// The first moment of a plan: panel at home, leg and step 0, end not shown.
    pub fn first(plan: Plan) -> Rehearsal {
        let panel = State::first(plan.clone()).panel;
        Rehearsal { plan, panel, leg: 0, step: 0, ended: false }
    }

    pub fn to_words(&self) -> [u64; REHEARSAL_WORDS] {
        let mut words = [0; REHEARSAL_WORDS];
        put_places(&mut words, &self.plan, &self.panel);
        words[LEG] = self.leg as u64;
        words[STEP] = self.step as u64;
        words[REHEARSAL_ENDED] = self.ended.into();
        words
    }

    /// The fit rehearsal that the words are, or 15.
    pub fn from_words(words: &[u64]) -> Result<Rehearsal, Refusal> {
        Rehearsal::read(words).filter(Rehearsal::is_fit).ok_or(refusal(15))
    }

    /// The words as a rehearsal: none where there are not 57 of them, a word is one that its field cannot hold, or an unused place is not 0.
    fn read(words: &[u64]) -> Option<Rehearsal> {
        if words.len() != REHEARSAL_WORDS {
            return None;
        }
        let (plan, panel) = read_places(words)?;
        let (leg, step) = (usize::try_from(words[LEG]).ok()?, words[STEP].into());
        Some(Rehearsal { plan, panel, leg, step, ended: flag(words[REHEARSAL_ENDED])? })
    }

    /// What row 15 of the paper's table says of a plan, a panel, a leg, a step and the end, with no mark standing.
    fn is_fit(&self) -> bool {
        let Rehearsal { plan, panel, leg, step, ended } = self;
        if !within_rules(plan, *leg, *step) || check_panel(panel).is_err() {
            return false;
        }
        if *ended {
            return plan.is_last(*leg, *step) && *panel == plan.pattern(*leg, *step);
        }
        may_stand(plan, panel, *leg, *step)
    }

    /// The next line: the end once it is shown, an order towards the next mark, or that mark.
    fn next_line(&self) -> Line {
        let Rehearsal { plan, panel, leg, step, ended } = self;
        if *ended {
            return Line::End(plan.marks() as u64);
        }
        let mark = || Line::Mark(plan.number(*leg, *step) as u64, plan.rank(*leg, *step) as u64);
        order_towards(plan, panel, *leg, *step).unwrap_or_else(mark)
    }

    /// After a mark: the next step, step 0 of the next leg, or the end.
    fn mark_ran(&mut self) {
        if self.plan.is_last(self.leg, self.step) {
            self.ended = true;
        } else if self.step == self.plan.legs[self.leg].run.unsigned_abs() {
            (self.leg, self.step) = (self.leg + 1, 0);
        } else {
            self.step += 1;
        }
    }

    /// As many whole lines as fit the room: their text, whether the end is among them, and the rehearsal that is left; 2 where not even one fits.
    pub fn orders(&self, room: usize) -> Result<(Vec<u8>, bool, Rehearsal), Refusal> {
        let (mut left, mut text) = (self.clone(), vec![]);
        loop {
            let line = left.next_line();
            let bytes = line.text();
            if text.len() + bytes.len() > room {
                return if text.is_empty() { Err(refusal(2)) } else { Ok((text, false, left)) };
            }
            text.extend(bytes);
            match line {
                Line::End(_) => return Ok((text, true, left)),
                Line::Mark(..) => left.mark_ran(),
                order => obey(&mut left.panel, order),
            }
        }
    }
}
