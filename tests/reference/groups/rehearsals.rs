//! Groups whose cases are made one by one: rehearsals.

use crate::calls::{Call, Name, Outcome};
use crate::inputs::{self, Rng};
use crate::Harness;
use reference::campaign::{PANEL, WORDS};
use reference::printer::print;
use reference::rehearsal::REHEARSAL_WORDS;

pub fn rehearse_on(h: &mut Harness, rng: &mut Rng, text: Vec<u8>, words: usize) -> Outcome {
    let rehearsal = (0..words).map(|_| rng.next()).collect();
    h.compare(Call::on_both(Name::Rehearse, text, rehearsal))
}

pub fn rehearse(h: &mut Harness, rng: &mut Rng) {
    let text = if rng.chance(50) { inputs::plan_text(&inputs::plan(rng)) } else { inputs::damaged_plan_text(rng) };
    let words = if rng.chance(5) { rng.pick(&[0, 1, 56, 58, WORDS]) } else { REHEARSAL_WORDS };
    rehearse_on(h, rng, text, words);
}

/// One buffer from a rehearsal, and one from what it left; or a call of the campaign, which refuses its words.
pub fn on_rehearsal(h: &mut Harness, rng: &mut Rng, rehearsal: Vec<u64>) {
    let mut left = rehearsal;
    for _ in 0..2 {
        let bytes = rng.below(120);
        let of_campaign = rng.pick(&[Name::Request, Name::Report { kind: 0 }, Name::ReportMark { mark: 0, kind: 0 }, Name::Status]);
        let name = if rng.chance(75) { Name::Orders } else { of_campaign };
        left = h.compare(Call::on_both(name, rng.bytes(bytes), left)).words;
    }
}

pub fn rehearsals(h: &mut Harness, rng: &mut Rng) {
    let rehearsal = inputs::rehearsed(rng).to_words().to_vec();
    on_rehearsal(h, rng, rehearsal);
}

pub fn damaged_rehearsals(h: &mut Harness, rng: &mut Rng) {
    let mut rehearsal = inputs::rehearsed(rng).to_words().to_vec();
    match rng.below(6) {
        0 => rehearsal.swap(PANEL + rng.below(20), PANEL + rng.below(20)),
        1 => {
            let length = rng.pick(&[0, 1, 56, 58, WORDS]);
            rehearsal.resize(length, 0);
        }
        _ => {
            let place = rng.below(REHEARSAL_WORDS);
            inputs::damage_word(rng, &mut rehearsal, place);
        }
    }
    on_rehearsal(h, rng, rehearsal);
}

pub fn random_rehearsals(h: &mut Harness, rng: &mut Rng) {
    let rehearsal = inputs::random_rehearsal(rng);
    on_rehearsal(h, rng, rehearsal);
}

/// A plan's orders, taken by buffers of many sizes; put together they are what the reference's printer prints. Or a few buffers of a long plan's.
pub fn orders(h: &mut Harness, rng: &mut Rng) {
    let short = rng.chance(70);
    let plan = if short { inputs::short_plan(rng, 40) } else { inputs::plan(rng) };
    let text = inputs::plan_text(&plan);
    let mut rehearsal = rehearse_on(h, rng, text.clone(), REHEARSAL_WORDS).words;
    let largest = rng.pick(&[12, 45, 100, 500, 5000]);
    let mut printed = vec![];
    for _ in 0..if short { usize::MAX } else { 3 } {
        let bytes = if rng.chance(5) { rng.below(8) } else { rng.between(8, largest).max(if rng.chance(50) { 45 } else { 0 }) };
        let outcome = h.compare(Call::on_both(Name::Orders, rng.bytes(bytes), rehearsal));
        if outcome.number == 0 {
            printed.extend(&outcome.bytes[..outcome.answer[0] as usize]);
        }
        rehearsal = outcome.words;
        if outcome.number == 0 && outcome.answer[1] == 1 {
            let [found, wanted] = [printed, print(&text)].map(|shown| shown.escape_ascii().to_string());
            h.compare_made("the orders put together, beside the printer's text", 0, found, wanted);
            return;
        }
    }
}
