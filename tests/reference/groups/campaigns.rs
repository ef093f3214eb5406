//! Groups whose cases are made one by one: plans and campaigns.

use crate::calls::{Call, Name, Outcome};
use crate::inputs::{self, Rng};
use crate::Harness;
use reference::campaign::{State, ENDED, PANEL, PORTS, SEAT, STANDING, WORDS};
use reference::list::at;
use reference::told;

pub fn begin_on(h: &mut Harness, rng: &mut Rng, text: Vec<u8>, words: usize) -> Outcome {
    let state = (0..words).map(|_| rng.next()).collect();
    h.compare(Call::on_both(Name::Begin, text, state))
}

pub fn begin(h: &mut Harness, rng: &mut Rng) {
    let text = inputs::plan_text(&inputs::plan(rng));
    let words = if rng.chance(5) { rng.pick(&[0, 1, 61, 63, 100]) } else { WORDS };
    begin_on(h, rng, text, words);
}

pub fn damaged_plans(h: &mut Harness, rng: &mut Rng) {
    let text = if rng.chance(3) {
        let length = rng.below(60);
        rng.bytes(length)
    } else {
        inputs::damaged_plan_text(rng)
    };
    let words = if rng.chance(3) { rng.pick(&[0, 61, 63]) } else { WORDS };
    begin_on(h, rng, text, words);
}

/// How much room a request gets: mostly enough, often just not.
pub fn room(rng: &mut Rng) -> usize {
    match rng.below(10) {
        0 => rng.below(6),
        1 => rng.between(6, 14),
        2 => rng.between(14, 50),
        3 => 45,
        _ => rng.between(46, 64),
    }
}

/// A request or a report, plain or by number, on a state, mostly in step with the bench.
fn in_campaign(rng: &mut Rng, state: Vec<u64>) -> Call {
    let standing = state[STANDING] == 1;
    if standing == rng.chance(92) {
        let kind = rng.pick(&[0, 0, 0, 0, 0, 0, 1, 1, 2, 2, 3, 255]);
        let name = if rng.chance(40) { Name::ReportMark { mark: inputs::mark_near(rng, &state), kind } } else { Name::Report { kind } };
        return Call::on_both(name, vec![], state);
    }
    let bytes = room(rng);
    Call::on_both(Name::Request, rng.bytes(bytes), state)
}

/// A campaign from its plan on: requests and reports in any order, each on the state that the last call left, mostly in step with the bench.
pub fn campaigns(h: &mut Harness, rng: &mut Rng) {
    let plan = if rng.chance(85) { inputs::short_plan(rng, 10) } else { inputs::plan(rng) };
    let mut state = begin_on(h, rng, inputs::plan_text(&plan), WORDS).words;
    let mut after_end = 0;
    for _ in 0..rng.between(20, 140) {
        let call = if rng.chance(1) {
            // a state is no rehearsal: 15
            let bytes = rng.below(100);
            Call::on_both(Name::Orders, rng.bytes(bytes), state)
        } else if rng.chance(5) {
            Call::on_both(Name::Status, vec![], state)
        } else {
            in_campaign(rng, state)
        };
        state = h.compare(call).words;
        after_end += state[ENDED];
        if after_end > 4 {
            return;
        }
    }
}

/// One call on a state, and one on what it left.
pub fn on_state(h: &mut Harness, rng: &mut Rng, state: Vec<u64>) {
    let mut left = state;
    for _ in 0..2 {
        let kind = rng.pick(&[0, 0, 1, 1, 2, 3, 255]);
        let name = match rng.below(10) {
            0..=4 => Name::Request,
            5..=7 => Name::Report { kind },
            8 => Name::ReportMark { mark: inputs::mark_near(rng, &left), kind },
            _ => Name::Status,
        };
        let bytes = if matches!(name, Name::Request) { room(rng) } else { 0 };
        left = h.compare(Call::on_both(name, rng.bytes(bytes), left)).words;
    }
}

pub fn reached_states(h: &mut Harness, rng: &mut Rng) {
    let state = inputs::reached(rng).to_words().to_vec();
    on_state(h, rng, state);
}

pub fn damaged_states(h: &mut Harness, rng: &mut Rng) {
    let state = inputs::damaged_state(rng);
    on_state(h, rng, state);
}

pub fn random_states(h: &mut Harness, rng: &mut Rng) {
    let state = inputs::random_state(rng);
    on_state(h, rng, state);
}

/// Going on with a panel that was read back, from words that were saved: of a state that calls leave, mostly, or of a random one.
pub fn resume(h: &mut Harness, rng: &mut Rng) {
    let (words, panel) = if rng.chance(10) {
        let words = inputs::random_state(rng);
        let ports = words[PORTS].clamp(2, 20) as usize;
        let own = words[PANEL..PANEL + ports].iter().map(|&port| port as u8).collect();
        (words, if rng.chance(60) { own } else { inputs::any_panel(rng) })
    } else {
        let state = inputs::reached(rng);
        (inputs::saved(rng, &state), inputs::read_back(rng, &state))
    };
    h.compare(Call::on_both(Name::Resume, panel, words));
}

/// A campaign with power cuts. A cut comes in a call: the state before it or the one after it was saved, and the order was obeyed or was not. Going on is
/// accepted and gives the state before that call or after it, with the panel that is on the bench and the seats begun anew; and each mark, before a cut and
/// after it, meets the pattern of its rank on the bench.
pub fn cuts(h: &mut Harness, rng: &mut Rng) {
    let plan = if rng.chance(70) { inputs::short_plan(rng, 10) } else { inputs::plan(rng) };
    let mut state = begin_on(h, rng, inputs::plan_text(&plan), WORDS).words;
    let mut bench = State::first(plan).panel;
    let mut after_end = 0;
    for _ in 0..rng.between(10, 80) {
        let call = in_campaign(rng, state.clone());
        let requested = matches!(call.name, Name::Request);
        let outcome = h.compare(call);
        let after = outcome.words;
        let mut obeyed = bench.clone();
        if requested && outcome.number == 0 {
            let [kind, a, b, c, _] = outcome.answer;
            let carried = told::carry(&mut obeyed, &[kind, a, b, c], &mut [0; 5]);
            h.compare_made("the order carried out on the bench", carried, carried, 0);
            if kind == 3 {
                h.compare_made("the bench at a mark, beside the pattern of its rank", 0, &obeyed, &at(bench.len(), b.into()));
            }
        }
        // fewer cuts while jacks are seated, so that the last jack is come to
        if rng.chance(if after[SEAT] == 0 { 20 } else { 8 }) {
            let saved = rng.pick(&[&state, &after]);
            let stands = rng.pick(&[&bench, &obeyed]);
            let resumed = h.compare(Call::on_both(Name::Resume, stands.clone(), saved.clone()));
            // a call that moves no cord leaves the saved state; of one that does, the panel says whether it was carried out
            let wanted = if bench == obeyed { saved } else if *stands == bench { &state } else { &after };
            let mut wanted = wanted.clone();
            wanted[SEAT] = wanted[SEAT].min(1);
            h.compare_made("the state after a cut", resumed.number, (resumed.number, &resumed.words), (0, &wanted));
            (state, bench) = (resumed.words, stands.clone());
        } else {
            (state, bench) = (after, obeyed);
        }
        after_end += state[ENDED];
        if after_end > 4 {
            return;
        }
    }
}
