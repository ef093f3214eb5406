//! Plans: their text, and the marks that they name.

use crate::list::{at, count_of};
use crate::text::{number, signed};
use crate::{refusal_at, Refusal, MOST_LEGS, MOST_PORTS};

#[derive(Clone, Copy, Debug, PartialEq, Eq)]
pub struct Leg {
    pub start: u128,
    pub run: i128,
}

#[derive(Clone, Debug, PartialEq, Eq)]
pub struct Plan {
    pub ports: usize,
    pub legs: Vec<Leg>,
}

impl Plan {
    /// 'In all |run|+1 marks' a leg.
    pub fn marks(&self) -> u128 {
        self.legs.iter().map(|leg| leg.run.unsigned_abs() + 1).sum()
    }

    /// 'Marks are numbered from 0 over the whole plan.'
    pub fn number(&self, leg: usize, step: u128) -> u128 {
        self.legs[..leg].iter().map(|before| before.run.unsigned_abs() + 1).sum::<u128>() + step
    }

    /// 'The ranks start, then one further each time round the circuit (backward if run is negative).'
    pub fn rank(&self, leg: usize, step: u128) -> u128 {
        let Leg { start, run } = self.legs[leg];
        (start as i128 + run.signum() * step as i128).rem_euclid(count_of(self.ports) as i128) as u128
    }

    pub fn pattern(&self, leg: usize, step: u128) -> Vec<u8> {
        at(self.ports, self.rank(leg, step))
    }

    pub fn is_last(&self, leg: usize, step: u128) -> bool {
        leg + 1 == self.legs.len() && step == self.legs[leg].run.unsigned_abs()
    }
}

/// What is left of a plan's text, and the number of the line that it begins with.
struct Lines<'a> {
    rest: &'a [u8],
    line: u64,
}

impl Lines<'_> {
    /// One line: 'newline present (11), key with its `=` (7), number (8), value (1, 9, 6 or 10)'. The last is `refusal`, where `good` says no.
    fn field<T: Copy>(&mut self, key: &[u8], read: fn(&[u8]) -> Option<T>, good: impl Fn(T) -> bool, refusal: u8) -> Result<T, Refusal> {
        let end = self.rest.iter().position(|&byte| byte == b'\n').ok_or(refusal_at(11, self.line))?;
        let text = self.rest[..end].strip_prefix(key).ok_or(refusal_at(7, self.line))?;
        let value = read(text).ok_or(refusal_at(8, self.line))?;
        if !good(value) {
            return Err(refusal_at(refusal, self.line));
        }
        self.rest = &self.rest[end + 1..];
        self.line += 1;
        Ok(value)
    }
}

/// The plan that a text is, or the refusal with its line.
pub fn read_plan(text: &[u8]) -> Result<Plan, Refusal> {
    let mut lines = Lines { rest: text, line: 1 };
    let ports = lines.field(b"ports=", number, |ports| (2..=MOST_PORTS as u64).contains(&ports), 1)? as usize;
    let legs = lines.field(b"legs=", number, |legs| (1..=MOST_LEGS as u64).contains(&legs), 9)?;
    let count = count_of(ports);
    let mut plan = Plan { ports, legs: vec![] };
    for _ in 0..legs {
        let start = lines.field(b"start=", number, |start| u128::from(start) < count, 6)?;
        let run = lines.field(b"run=", signed, |run| run.unsigned_abs() < count, 10)?;
        plan.legs.push(Leg { start: start.into(), run });
    }
    if !lines.rest.is_empty() {
        return Err(refusal_at(11, lines.line));
    }
    Ok(plan)
}
