//! The self test's part on the rules of a campaign, and on going on after a power cut.

use crate::{pattern, refused, refused_both, Compared, PLAN};
use reference::campaign::State;
use reference::plan::read_plan;
use reference::text::Line;
use reference::told;

/// A state after requests with room enough, up to and with the next mark.
pub fn at_mark(state: &State) -> State {
    let (_, after) = state.request(45).expect("an order");
    if after.standing {
        after
    } else {
        at_mark(&after)
    }
}

/// The campaign's rules on the paper's plan, one sentence after another.
pub fn campaign(compared: &mut Compared) {
    let first = State::first(read_plan(PLAN).expect("the paper's plan is accepted"));
    let mark = at_mark(&first);
    compared.same("a request while a mark stands", mark.request(45), refused(13, 0));
    compared.same("a request while a mark stands, without room", mark.request(0), refused(13, 0));
    compared.same("a report with no mark standing", first.report(0), refused(12, 0));
    compared.same("a report kind above 2, with no mark standing", first.report(3), refused(14, 0));
    let counts = |state: &State| (state.covered, state.open, state.errors, state.leg, state.step, state.standing);
    let [ran, error, gave_up] = [0, 1, 2].map(|kind| mark.report(kind).expect("a report"));
    compared.same("ran", counts(&ran), (1, 0, 0, 0, 1, false));
    compared.same("error", counts(&error), (0, 0, 1, 0, 0, false));
    compared.same("gave up", counts(&gave_up), (0, 1, 0, 0, 1, false));
    compared.same("the next jack to seat", [&first, &mark, &ran, &error, &gave_up].map(|state| state.seat), [0, 0, 0, 1, 0]);
    let limit = State { errors: 65_535, ..mark.clone() };
    compared.same("an error at the limit", limit.report(1), refused(16, 0));
    compared.same("closed at the limit", limit.report(2).map(|after| counts(&after)), Ok((0, 1, 65_535, 0, 1, false)));
    let mut state = first.clone();
    for _ in 0..5 {
        state = at_mark(&state).report(0).expect("a report");
    }
    compared.same("the end is shown from the last report", (state.ended, counts(&state)), (true, (5, 0, 0, 1, 1, false)));
    compared.same("room for the end's line", state.request(5), refused(2, 0));
    compared.same("the end again and again", state.request(6), Ok((Line::End(5), state.clone())));
    compared.same("a report after the end", state.report(0), refused(12, 0));

    // the first state in words, typed from the paper and the header, and one word away from it
    let mut words = [0; 62];
    for (place, word) in [(0, 4), (1, 2), (3, 8), (18, 2), (19, u64::MAX), (34, 2), (35, 3), (36, 4), (37, 1)] {
        words[place] = word;
    }
    compared.same("the first state in words", first.to_words(), words);
    let unfit = [
        (0, 1), (0, 21), (1, 0), (1, 17), (2, 9), (4, 1), (18, 9), (20, 1), (34, 3), (38, 1), (54, 2), (54, 1), (55, 3), (55, 1), (56, 1), (57, 1),
        (58, 65_536), (59, 2), (60, 1), (61, 5), (61, 256),
    ];
    for (place, word) in unfit {
        let mut changed = words;
        changed[place] = word;
        compared.same("an unfit state", State::from_words(&changed), refused(15, 0));
    }
    for (place, word) in [(2, 8), (18, -8i64 as u64), (58, 65_535), (59, 1), (61, 1), (61, 4)] {
        let mut changed = words;
        changed[place] = word;
        compared.same("a fit state", State::from_words(&changed).map(|_| ()), Ok(()));
    }
    compared.same("61 words", State::from_words(&words[..61]), refused(15, 0));
    compared.same("63 words", State::from_words(&[&words[..], &[0]].concat()), refused(15, 0));
}

/// Going on after a power cut, on the paper's plan: what the panel may be at each moment, and the refusals in their order.
pub fn power_cuts(compared: &mut Compared) {
    let first = State::first(read_plan(PLAN).expect("the paper's plan is accepted"));
    let mark = at_mark(&first);
    // the first turn, from 2341 to 3421: handed out or not, obeyed or not
    let before = mark.report(0).expect("a report");
    let (order, after) = before.request(45).expect("an order");
    compared.same("the first turn", (order, &before.panel, &after.panel), (Line::Turn(1, 2, 3), &pattern("2341"), &pattern("3421")));
    for saved in [&before, &after] {
        compared.same("a turn that was not obeyed", saved.resume(&pattern("2341")), Ok(before.clone()));
        compared.same("a turn that was obeyed", saved.resume(&pattern("3421")), Ok(after.clone()));
        for other in ["3241", "4321", "2143", "1234"] {
            compared.same("a panel that is not on the way", saved.resume(&pattern(other)), refused(15, 0));
        }
    }
    // 4321 to 3412 is two swaps: 1,2 and then 3,4
    let two_swaps = State::first(read_plan(b"ports=4\nlegs=1\nstart=2\nrun=1\n").expect("a plan"));
    let closed = at_mark(&two_swaps).report(2).expect("a report");
    for (row, fit) in [("4321", true), ("3421", true), ("3412", true), ("4312", false), ("3142", false)] {
        let wanted = if fit { Ok(State { panel: pattern(row), ..closed.clone() }) } else { refused(15, 0) };
        compared.same("between the two swaps of a move", closed.resume(&pattern(row)), wanted);
    }
    // before a leg's first mark any permutation, self-joins too; at a mark and after the end one pattern alone
    let mut ended = first.clone();
    let mut firsts = vec![first.clone()];
    for number in 0..5 {
        let standing = at_mark(&ended);
        compared.same("the mark's pattern", standing.resume(&standing.panel), Ok(standing.clone()));
        compared.same("another pattern at a mark", standing.resume(&pattern("3142")), refused(15, 0));
        ended = standing.report(0).expect("a report");
        if number == 2 {
            firsts.push(ended.clone());
        }
    }
    for state in firsts {
        for row in ["1234", "1342", "2143", "4321"] {
            compared.same("before a leg's first mark", state.resume(&pattern(row)), Ok(State { panel: pattern(row), ..state.clone() }));
        }
    }
    compared.same("after the end", ended.resume(&pattern("4123")), Ok(ended.clone()));
    compared.same("after the end, another pattern", ended.resume(&pattern("2143")), refused(15, 0));
    let refusals: [(&[u8], u8, u64); 5] = [(&[2, 3, 4, 5, 1], 15, 0), (&[2, 3, 1], 15, 0), (&[2, 0, 1, 3], 3, 2), (&[2, 3, 5, 1], 3, 3), (&[2], 1, 0)];
    for (panel, number, place) in refusals {
        compared.same("a panel that is refused", first.resume(panel), refused(number, place));
    }
    compared.same("a panel with a port twice", first.resume(&[1, 1, 3, 4]), refused_both(2, 1));
    resumed_words(&after, compared);
    let (mut words, mut answer) = (first.to_words(), [7; 5]);
    compared.same("a self-join by words", (told::resume(&mut words, &[1, 2, 3, 4], &mut answer), answer, &words[34..39]), (0, [0; 5], &[1, 2, 3, 4, 0][..]));
}

/// The same call on words: the saved panel is replaced, with 0 beyond the ports, and nothing of it is looked at but that its words are bytes.
fn resumed_words(state: &State, compared: &mut Compared) {
    let words = state.to_words();
    let not_obeyed = pattern("2341");
    let mut resume = |what: &str, saved: &[u64], panel: &[u8], wanted: (u8, [u64; 2]), left: &[u64]| {
        let (mut found, mut answer) = (saved.to_vec(), [7; 5]);
        let number = told::resume(&mut found, panel, &mut answer);
        compared.same(what, (number, answer, &found[..]), (wanted.0, [wanted.1[0], wanted.1[1], 0, 0, 0], left));
    };
    const NOWHERE: [u64; 2] = [0, 0];
    let changed = |changes: &[(usize, u64)]| {
        let mut changed = words;
        changes.iter().for_each(|&(place, word)| changed[place] = word);
        changed
    };
    let back = changed(&[(34, 2), (35, 3), (36, 4), (37, 1)]);
    resume("the turn taken back", &words, &not_obeyed, (0, NOWHERE), &back);
    let lost = changed(&[(34, 0), (35, 255), (36, 1), (37, 1), (38, 5), (53, 20)]);
    resume("a saved panel that is none", &lost, &not_obeyed, (0, NOWHERE), &back);
    resume("a saved panel that is none, another panel", &lost, &pattern("2143"), (15, NOWHERE), &lost);
    // ports, legs, a start, a run, a place beyond the legs, a word of the panel above a byte, leg, step, each count, standing, the end, a seat off the mark's
    // pattern, above the ports and above a byte
    let changes = [
        (0, 5), (1, 1 << 32), (2, 9), (18, 9), (20, 1), (34, 256), (53, 256), (54, 2), (55, 2), (56, 2), (57, 1), (58, 65_536), (59, 2), (60, 1), (61, 1),
        (61, 5), (61, 256),
    ];
    for change in changes {
        let unfit = changed(&[change]);
        resume("an unfit state", &unfit, &not_obeyed, (15, NOWHERE), &unfit);
        resume("the panel before the state", &unfit, &[4, 4, 2, 1], (4, [2, 1]), &unfit);
    }
    resume("61 words", &words[..61], &not_obeyed, (15, NOWHERE), &words[..61]);
    resume("no words", &[], &not_obeyed, (15, NOWHERE), &[]);
    resume("no words and no panel", &[], &[], (1, NOWHERE), &[]);
    resume("21 ports", &words, &[1; 21], (1, NOWHERE), &words);
}
