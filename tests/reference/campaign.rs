//! The campaign: its state, what makes a state fit (15), where it is, request, report, a report by number, and going on after a power cut.

use crate::list::{check_panel, count_of, difference};
use crate::panel::{carriage, obey, orders};
use crate::plan::{Leg, Plan};
use crate::text::Line;
use crate::{refusal, Refusal, MOST_ERRORS, MOST_LEGS, MOST_PORTS};

#[derive(Clone, Debug, PartialEq, Eq)]
pub struct State {
    pub plan: Plan,
    pub panel: Vec<u8>,
    /// The leg and step of the standing or next mark.
    pub leg: usize,
    pub step: u128,
    pub covered: u128,
    pub open: u128,
    pub errors: u128,
    pub standing: bool,
    pub ended: bool,
    /// The next jack to seat, 0 for none.
    pub seat: u64,
}

/// Where a campaign is.
#[derive(Clone, Copy, Debug, PartialEq, Eq)]
pub struct Status {
    /// The plan's marks.
    pub marks: u128,
    /// The number, from 0 over the whole plan, and the rank of the standing mark, else of the next, after the end of the last. While jacks are seated the next
    /// is the one that comes again.
    pub number: u128,
    pub rank: u128,
    pub standing: bool,
    pub ended: bool,
}

/// The places of the header's words.
pub const PORTS: usize = 0;
pub const LEGS: usize = 1;
pub const STARTS: usize = 2;
pub const RUNS: usize = 18;
pub const PANEL: usize = 34;
pub const LEG: usize = 54;
pub const STEP: usize = 55;
pub const COVERED: usize = 56;
pub const OPEN: usize = 57;
pub const ERRORS: usize = 58;
pub const STANDING: usize = 59;
pub const ENDED: usize = 60;
pub const SEAT: usize = 61;
pub const WORDS: usize = 62;

impl State {
    /// 'Panel at home, leg, step and counts 0, no mark standing, end not shown', and no jack to seat. Home is (2,3,..,n,1).
    pub fn first(plan: Plan) -> State {
        let mut panel: Vec<u8> = (2..=plan.ports as u8).collect();
        panel.push(1);
        State { plan, panel, leg: 0, step: 0, covered: 0, open: 0, errors: 0, standing: false, ended: false, seat: 0 }
    }

    pub fn to_words(&self) -> [u64; WORDS] {
        let mut words = [0; WORDS];
        put_places(&mut words, &self.plan, &self.panel);
        words[LEG] = self.leg as u64;
        words[STEP] = self.step as u64;
        words[COVERED] = self.covered as u64;
        words[OPEN] = self.open as u64;
        words[ERRORS] = self.errors as u64;
        words[STANDING] = self.standing.into();
        words[ENDED] = self.ended.into();
        words[SEAT] = self.seat;
        words
    }

    /// The fit state that the words are, or 15.
    pub fn from_words(words: &[u64]) -> Result<State, Refusal> {
        State::read(words).filter(State::is_fit).ok_or(refusal(15))
    }

    /// The words as a state: none where there are not 62 of them, a word is one that its field cannot hold, or an unused place is not 0.
    fn read(words: &[u64]) -> Option<State> {
        if words.len() != WORDS {
            return None;
        }
        let (plan, panel) = read_places(words)?;
        Some(State {
            plan,
            panel,
            leg: usize::try_from(words[LEG]).ok()?,
            step: words[STEP].into(),
            covered: words[COVERED].into(),
            open: words[OPEN].into(),
            errors: words[ERRORS].into(),
            standing: flag(words[STANDING])?,
            ended: flag(words[ENDED])?,
            seat: u8::try_from(words[SEAT]).ok()?.into(),
        })
    }

    /// The state that the words are but for its panel, or 15. The saved panel is not looked at and is read as zeros; but a word of it that is no byte is one
    /// that its field cannot hold.
    pub fn saved(words: &[u64]) -> Result<State, Refusal> {
        if words.len() != WORDS || words[PANEL..LEG].iter().any(|&word| u8::try_from(word).is_err()) {
            return Err(refusal(15));
        }
        let mut bare = words.to_vec();
        bare[PANEL..LEG].fill(0);
        State::read(&bare).ok_or(refusal(15))
    }

    /// Row 15 of the paper's table, in its order, and what the jacks to seat add to it: 'a seat number above n, or seating while a mark stands, at the end'.
    fn is_fit(&self) -> bool {
        let State { plan, leg, step, .. } = self;
        if !within_rules(plan, *leg, *step) || check_panel(&self.panel).is_err() || !self.panel_as_said() {
            return false;
        }
        if self.ended && (self.standing || !plan.is_last(*leg, *step)) {
            return false;
        }
        if self.seat > plan.ports as u64 || (self.seating() && (self.standing || self.ended)) {
            return false;
        }
        let closed = if self.ended { plan.marks() } else { plan.number(*leg, *step) };
        self.covered + self.open == closed && self.errors <= MOST_ERRORS
    }

    fn seating(&self) -> bool {
        self.seat != 0
    }

    /// 'For 15 the panel must be: the mark's pattern while a mark stands; .. after the end, the last mark's pattern.' While seating it is the mark's too.
    fn panel_as_said(&self) -> bool {
        if self.standing || self.ended || self.seating() {
            return self.panel == self.plan.pattern(self.leg, self.step);
        }
        may_stand(&self.plan, &self.panel, self.leg, self.step)
    }

    /// What a fit state with no mark standing hands out next.
    fn next_line(&self) -> Line {
        if self.ended {
            return Line::End(self.plan.marks() as u64);
        }
        if self.seating() {
            return Line::Seat(self.seat);
        }
        let mark = || Line::Mark(self.plan.number(self.leg, self.step) as u64, self.plan.rank(self.leg, self.step) as u64);
        order_towards(&self.plan, &self.panel, self.leg, self.step).unwrap_or_else(mark)
    }

    /// Where a fit state is. At the plan's last mark leg and step stay, so after the end they name that mark.
    pub fn status(&self) -> Status {
        let State { plan, leg, step, standing, ended, .. } = self;
        Status { marks: plan.marks(), number: plan.number(*leg, *step), rank: plan.rank(*leg, *step), standing: *standing, ended: *ended }
    }

    /// A request on a fit state, with so much room for the line: the line and the new state. 'A movement order handed out counts as carried out in
    /// the state's panel.'
    pub fn request(&self, room: usize) -> Result<(Line, State), Refusal> {
        if self.standing {
            return Err(refusal(13));
        }
        let line = self.next_line();
        if line.text().len() > room {
            return Err(refusal(2));
        }
        let mut after = self.clone();
        obey(&mut after.panel, line);
        match line {
            Line::Mark(..) => after.standing = true,
            Line::Seat(j) => after.seat = if j == self.plan.ports as u64 { 0 } else { j + 1 },
            _ => {}
        }
        Ok((line, after))
    }

    /// A report on a fit state: the new state.
    pub fn report(&self, kind: u8) -> Result<State, Refusal> {
        if kind > 2 {
            return Err(refusal(14));
        }
        if !self.standing {
            return Err(refusal(12));
        }
        let mut after = self.clone();
        after.standing = false;
        match kind {
            0 => after.covered += 1,
            1 if self.errors == MOST_ERRORS => return Err(refusal(16)),
            1 => {
                after.errors += 1;
                after.seat = 1;
                return Ok(after); // leg and step stay: after the seats the same mark comes again
            }
            _ => after.open += 1,
        }
        // 'Closing goes on to the next step, or to step 0 of the next leg; at the plan's last mark leg and step stay and the end is shown from then.'
        if self.plan.is_last(self.leg, self.step) {
            after.ended = true;
        } else if self.step == self.plan.legs[self.leg].run.unsigned_abs() {
            after.leg += 1;
            after.step = 0;
        } else {
            after.step += 1;
        }
        Ok(after)
    }

    /// A report on a fit state of the mark with this number: the report if that mark stands, else 12.
    pub fn report_mark(&self, mark: u64, kind: u8) -> Result<State, Refusal> {
        if kind > 2 {
            return Err(refusal(14));
        }
        if !self.standing || self.plan.number(self.leg, self.step) != u128::from(mark) {
            return Err(refusal(12));
        }
        self.report(kind)
    }

    /// Going on after a power cut: the state with the panel as it was read back put in. The panel's own refusals first; then 15 for a panel of other ports than
    /// the state's, and for a state that is unfit with that panel. No panel shows which jacks were seated, so the seats start anew.
    pub fn resume(&self, panel: &[u8]) -> Result<State, Refusal> {
        check_panel(panel)?;
        let after = State { panel: panel.to_vec(), ..self.clone() };
        if panel.len() != self.plan.ports || !after.is_fit() {
            return Err(refusal(15));
        }
        Ok(State { seat: self.seat.min(1), ..after })
    }
}

/// Plan and panel at their places of the words of a state or a rehearsal.
pub fn put_places(words: &mut [u64], plan: &Plan, panel: &[u8]) {
    words[PORTS] = plan.ports as u64;
    words[LEGS] = plan.legs.len() as u64;
    for (l, leg) in plan.legs.iter().enumerate() {
        words[STARTS + l] = leg.start as u64;
        words[RUNS + l] = leg.run as i64 as u64;
    }
    for (j, &port) in panel.iter().enumerate() {
        words[PANEL + j] = port.into();
    }
}

/// Plan and panel from there: none where a word is one that its field cannot hold, or an unused place is not 0.
pub fn read_places(words: &[u64]) -> Option<(Plan, Vec<u8>)> {
    let ports = usize::try_from(words[PORTS]).ok().filter(|&ports| ports <= MOST_PORTS)?;
    let legs = usize::try_from(words[LEGS]).ok().filter(|&legs| legs <= MOST_LEGS)?;
    let unused = [&words[STARTS + legs..RUNS], &words[RUNS + legs..PANEL], &words[PANEL + ports..LEG]];
    if unused.concat().iter().any(|&word| word != 0) {
        return None;
    }
    let leg = |l: usize| Leg { start: words[STARTS + l].into(), run: i128::from(words[RUNS + l] as i64) };
    let panel = words[PANEL..PANEL + ports].iter().map(|&port| u8::try_from(port).ok()).collect::<Option<_>>()?;
    Some((Plan { ports, legs: (0..legs).map(leg).collect() }, panel))
}

/// A word that is 0 or 1.
pub fn flag(word: u64) -> Option<bool> {
    [false, true].get(usize::try_from(word).ok()?).copied()
}

/// 'Ports, legs, start or run outside the rules, leg not below legs, step above |run|': none of these.
pub fn within_rules(plan: &Plan, leg: usize, step: u128) -> bool {
    if plan.ports < 2 || plan.legs.is_empty() {
        return false;
    }
    let count = count_of(plan.ports);
    plan.legs.iter().all(|leg| leg.start < count && leg.run.unsigned_abs() < count)
        && leg < plan.legs.len()
        && step <= plan.legs[leg].run.unsigned_abs()
}

/// 'Any permutation before a leg's first mark; later in a leg, with none standing, the last mark's pattern, that pattern after the first of two
/// swaps, or the wanted one.'
pub fn may_stand(plan: &Plan, panel: &[u8], leg: usize, step: u128) -> bool {
    if step == 0 {
        return true;
    }
    let mut on_the_way = plan.pattern(leg, step - 1);
    let moves = difference(&on_the_way, &plan.pattern(leg, step)).map(orders).unwrap_or_default();
    let mut met = panel == on_the_way;
    for order in moves {
        obey(&mut on_the_way, order);
        met |= panel == on_the_way;
    }
    met
}

/// The next order on the way to a mark; none where the panel has its pattern. 'Before a leg's first mark the panel is carried there'; 'inside a leg, the
/// orders are the one move to the neighbour, two swaps being two orders.'
pub fn order_towards(plan: &Plan, panel: &[u8], leg: usize, step: u128) -> Option<Line> {
    let wanted = plan.pattern(leg, step);
    if panel == wanted {
        return None;
    }
    if step == 0 {
        return carriage(panel, &wanted);
    }
    let last = plan.pattern(leg, step - 1);
    let moves = orders(difference(&last, &wanted).expect("neighbours of the list are one move apart"));
    Some(if panel == last { moves[0] } else { moves[1] })
}
