//! The order printer: every order of a plan, or its refusal, as text.

use crate::campaign::State;
use crate::list::difference;
use crate::panel::{carriage, obey, orders};
use crate::plan::{read_plan, Plan};
use crate::text::Line;
use crate::Refusal;

/// The order printer: 'judges the first 1,024 bytes as a plan, takes every mark as run and prints every order. For a refusal it prints only
/// `refused=` with the number, a newline, `at=` with the place, a newline.'
pub fn print(input: &[u8]) -> Vec<u8> {
    match read_plan(&input[..input.len().min(1024)]) {
        Err(Refusal { number, place, .. }) => format!("refused={number}\nat={place}\n").into_bytes(),
        Ok(plan) => print_plan(plan),
    }
}

/// Every order of a plan, written leg by leg and mark by mark, with no state: the carriage, and then the moves from mark to mark.
fn print_plan(plan: Plan) -> Vec<u8> {
    let mut text = vec![];
    let mut panel = State::first(plan.clone()).panel;
    for (l, leg) in plan.legs.iter().enumerate() {
        while let Some(order) = carriage(&panel, &plan.pattern(l, 0)) {
            obey(&mut panel, order);
            text.extend(order.text());
        }
        for step in 0..=leg.run.unsigned_abs() {
            let wanted = plan.pattern(l, step);
            for order in orders(difference(&panel, &wanted).expect("neighbours of the list are one move apart")) {
                text.extend(order.text());
            }
            panel = wanted;
            text.extend(Line::Mark(plan.number(l, step) as u64, plan.rank(l, step) as u64).text());
        }
    }
    text.extend(Line::End(plan.marks() as u64).text());
    text
}
