//! States and rehearsals: reached by calls, one step away from those, and by chance.

use super::{any_panel, damage_entries, pattern, permutation, plan, ports, rank, run, short_plan, wide, Rng, BAD_LENGTHS};
use reference::campaign::{State, COVERED, ENDED, ERRORS, LEG, LEGS, OPEN, PANEL, PORTS, RUNS, SEAT, STANDING, STARTS, STEP, WORDS};
use reference::rehearsal::{Rehearsal, REHEARSAL_ENDED, REHEARSAL_WORDS};
use reference::list::{apply, place, count_of, difference, Move};

/// A state that calls on an accepted plan leave: at any leg and step, with any reports before it, at each of the moments that there are.
pub fn reached(rng: &mut Rng) -> State {
    let mut plan = if rng.chance(50) { plan(rng) } else { short_plan(rng, 12) };
    let leg = if rng.chance(30) { plan.legs.len() - 1 } else { rng.below(plan.legs.len()) };
    let run = plan.legs[leg].run;
    let magnitude = run.unsigned_abs();
    let step = rng.below_wide(magnitude + 1).max(rng.pick(&[0, 0, 1.min(magnitude), magnitude]));
    if rng.chance(50) {
        // the mark's pattern beside a step between blocks
        let aim = place(&pattern(rng, plan.ports)) as i128;
        plan.legs[leg].start = (aim - run.signum() * step as i128).rem_euclid(count_of(plan.ports) as i128) as u128;
    }
    let mut state = State::first(plan);
    let plan = &state.plan;
    let wanted = plan.pattern(leg, step);
    let moment = rng.below(8);
    let seating = moment > 5;
    state.ended = moment == 0 && plan.is_last(leg, step);
    state.standing = !state.ended && moment <= 2;
    state.panel = wanted.clone();
    if moment == 4 || moment == 5 {
        if step == 0 {
            state.panel = permutation(rng, plan.ports);
        } else {
            state.panel = plan.pattern(leg, step - 1);
            if let (4, Some(Move::TwoSwaps(a, b, _, _))) = (moment, difference(&state.panel, &wanted)) {
                apply(Move::Swap(a, b), &mut state.panel);
            }
        }
    }
    let closed = if state.ended { plan.marks() } else { plan.number(leg, step) };
    state.covered = rng.below_wide(closed + 1);
    state.open = closed - state.covered;
    state.errors = rng.pick(&[0, 1, 2, 65_534, 65_535]);
    if seating {
        let any = rng.between(1, plan.ports);
        state.seat = rng.pick(&[1, any, plan.ports]) as u64;
        state.errors = state.errors.max(1);
    }
    (state.leg, state.step) = (leg, step);
    state
}

/// One word changed.
pub fn damage_word(rng: &mut Rng, words: &mut [u64], place: usize) {
    let old = words[place];
    words[place] = match rng.below(12) {
        0 => old.wrapping_add(1),
        1 => old.wrapping_sub(1),
        2 => 0,
        3 => 1,
        4 => rng.next(),
        5 => u64::MAX,
        6 => 256,
        7 => old.wrapping_add(256),
        8 => old.wrapping_add(1 << 32),
        9 => old ^ (1 << 63),
        10 => old.wrapping_neg(),
        _ => wide(rng),
    };
}

/// Two words changed so that what they say together stays near the rules.
pub fn damage_pair(rng: &mut Rng, words: &mut [u64]) {
    match rng.below(7) {
        0 => words.swap(PANEL + rng.below(20), PANEL + rng.below(20)),
        1 => {
            words[COVERED] = words[COVERED].wrapping_add(1);
            words[OPEN] = words[OPEN].wrapping_sub(1);
        }
        2 => {
            words[COVERED] = words[COVERED].wrapping_add(1 << 63);
            words[OPEN] = words[OPEN].wrapping_add(1 << 63);
        }
        3 => {
            words[STANDING] ^= 1;
            words[ENDED] ^= 1;
        }
        4 => {
            words[STANDING] ^= 1;
            words[SEAT] ^= 1;
        }
        5 => {
            words[ERRORS] = 0;
            words[SEAT] = rng.between(0, 21) as u64;
        }
        _ => {
            words[STEP] = words[STEP].wrapping_add(1);
            words[COVERED] = words[COVERED].wrapping_add(1);
        }
    }
}

/// A reached state with one word or two changed, or words of another number.
pub fn damaged_state(rng: &mut Rng) -> Vec<u64> {
    let mut words = reached(rng).to_words().to_vec();
    match rng.below(6) {
        0 => damage_pair(rng, &mut words),
        1 => words.resize(rng.pick(&[0, 1, REHEARSAL_WORDS, 61, 63, 124]), 0),
        _ => {
            let place = rng.below(WORDS);
            damage_word(rng, &mut words, place);
        }
    }
    words
}

/// Words that are a state that calls leave, a damaged one, or one taken by chance.
pub fn any_state(rng: &mut Rng) -> Vec<u64> {
    match rng.below(10) {
        0 => random_state(rng),
        1..=3 => damaged_state(rng),
        _ => reached(rng).to_words().to_vec(),
    }
}

/// The number of a mark: mostly that of the standing or next one, which is as many as are closed; beside it; its step in the leg; or any.
pub fn mark_near(rng: &mut Rng, words: &[u64]) -> u64 {
    if words.len() != WORDS {
        return wide(rng);
    }
    let number = words[COVERED].wrapping_add(words[OPEN]);
    match rng.below(12) {
        0 => number.wrapping_add(1),
        1 => number.wrapping_sub(1),
        2 => rng.pick(&[0, words[STEP], words[COVERED], number ^ (1 << 32), number ^ (1 << 63), number.wrapping_add(256), u64::MAX]),
        3 => wide(rng),
        _ => number,
    }
}

/// A state of words taken by chance, each mostly within its own range.
pub fn random_state(rng: &mut Rng) -> Vec<u64> {
    if rng.chance(10) {
        return rng.pick(&[[0; WORDS], [1; WORDS], [u64::MAX; WORDS]]).to_vec();
    }
    if rng.chance(10) {
        return (0..WORDS).map(|_| rng.next()).collect();
    }
    let mut words = vec![0; WORDS];
    let n = ports(rng);
    let legs = rng.between(1, 16);
    words[PORTS] = if rng.chance(95) { n as u64 } else { wide(rng) };
    words[LEGS] = if rng.chance(95) { legs as u64 } else { wide(rng) };
    for l in 0..legs {
        words[STARTS + l] = rank(rng, n) as u64;
        words[RUNS + l] = run(rng, count_of(n)) as i64 as u64;
    }
    for (j, port) in permutation(rng, n).into_iter().enumerate() {
        words[PANEL + j] = port.into();
    }
    words[LEG] = if rng.chance(60) { 0 } else { rng.below(legs) as u64 };
    words[STEP] = if rng.chance(60) { 0 } else { rng.below(3) as u64 };
    words[COVERED] = if rng.chance(60) { 0 } else { wide(rng) };
    words[OPEN] = if rng.chance(80) { 0 } else { wide(rng) };
    words[ERRORS] = rng.pick(&[0, 1, 65_534, 65_535, 65_536, 131_071, u64::MAX]);
    words[STANDING] = rng.pick(&[0, 0, 0, 1, 2]);
    words[ENDED] = rng.pick(&[0, 0, 0, 1, 256]);
    words[SEAT] = rng.pick(&[0, 0, 0, 0, 1, n as u64, n as u64 + 1, 256]);
    words
}

/// A panel as it may be read back beside a state: one that stands on the way to its mark, nearly one, one of other ports, or none.
pub fn read_back(rng: &mut Rng, state: &State) -> Vec<u8> {
    let State { plan, leg, step, .. } = state;
    let wanted = plan.pattern(*leg, *step);
    let last = plan.pattern(*leg, step.saturating_sub(1));
    match rng.below(12) {
        0 | 1 => state.panel.clone(),
        2 | 3 => wanted,
        4 => last,
        5 => plan.pattern(*leg, step + 1),
        6 | 7 => {
            // a part of the move to the mark: of two swaps the first alone may stand
            let mut panel = last.clone();
            match difference(&last, &wanted) {
                Some(Move::TwoSwaps(a, b, _, _)) if rng.chance(70) => apply(Move::Swap(a, b), &mut panel),
                Some(Move::TwoSwaps(_, _, a, b) | Move::Turn(a, b, _)) => apply(Move::Swap(a, b), &mut panel),
                _ => {}
            }
            panel
        }
        8 => permutation(rng, plan.ports),
        9 => {
            let other = ports(rng);
            permutation(rng, other)
        }
        10 if rng.chance(25) => (0..rng.pick(&BAD_LENGTHS)).map(|j| (j + 1) as u8).collect(),
        10 => any_panel(rng),
        _ => {
            let mut panel = state.panel.clone();
            damage_entries(rng, &mut panel);
            panel
        }
    }
}

/// The words of a state as they may have been saved: as they are, with another panel in them, or damaged.
pub fn saved(rng: &mut Rng, state: &State) -> Vec<u64> {
    let mut words = state.to_words().to_vec();
    match rng.below(12) {
        0 => damage_pair(rng, &mut words),
        1 => words.resize(rng.pick(&[0, 1, 61, 63, 124, REHEARSAL_WORDS]), 0),
        2 => {
            let place = rng.below(WORDS);
            damage_word(rng, &mut words, place);
        }
        3 => {
            let place = rng.between(PANEL, LEG - 1);
            damage_word(rng, &mut words, place);
        }
        4 | 5 => words[PANEL..LEG].fill_with(|| rng.byte().into()),
        _ => {}
    }
    words
}

/// The rehearsal at the moment of a reached state: one that calls leave, but for the way there.
pub fn rehearsed(rng: &mut Rng) -> Rehearsal {
    let State { plan, panel, leg, step, ended, .. } = reached(rng);
    Rehearsal { plan, panel, leg, step, ended }
}

/// A rehearsal of words taken by chance: those of such a state without its counts, its standing mark and its jack to seat.
pub fn random_rehearsal(rng: &mut Rng) -> Vec<u64> {
    let state = random_state(rng);
    let mut words = state[..REHEARSAL_WORDS].to_vec();
    words[REHEARSAL_ENDED] = state[ENDED];
    words
}
