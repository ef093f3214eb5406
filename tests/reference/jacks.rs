//! The self test's part on both jacks of a repeated entry: each pair is built, so that what is wanted is known without looking for it.

use crate::{refused, refused_both, Compared};
use reference::campaign::State;
use reference::list::{check, check_panel};
use reference::plan::read_plan;
use reference::told;

/// Home of n ports: (2,3,..,n,1).
fn home(n: u8) -> Vec<u8> {
    (2..=n).chain([1]).collect()
}

/// Every port at its own jack.
fn self_joins(n: u8) -> Vec<u8> {
    (1..=n).collect()
}

/// The entries with the one at jack j made equal to the one at jack i.
fn with_pair(mut entries: Vec<u8>, i: u8, j: u8) -> Vec<u8> {
    entries[usize::from(j) - 1] = entries[usize::from(i) - 1];
    entries
}

/// A call on entries is refused with 4, its two jacks stand in the answer before zeros, and nothing that was lent is changed.
fn names_both(compared: &mut Compared, what: &str, entries: &[u8], (i, j): (u8, u8), call: impl Fn(&mut [u8], &mut told::Answer) -> u8) {
    let (mut lent, mut answer) = (entries.to_vec(), [7; 5]);
    let number = call(&mut lent, &mut answer);
    compared.same(what, (number, answer, &lent[..]), (4, [j.into(), i.into(), 0, 0, 0], entries));
}

fn names_both_on_panel(compared: &mut Compared, panel: &[u8], pair: (u8, u8)) {
    names_both(compared, "check_panel", panel, pair, |p, a| told::check_panel(p, a));
    // the jack, the port, the line and the words are not looked at before the panel
    for one in [0, 1, 2, 21] {
        names_both(compared, "port_at", panel, pair, |p, a| told::port_at(p, one, a));
        names_both(compared, "jack_of", panel, pair, |p, a| told::jack_of(p, one, a));
    }
    for line in [[1, 1, 2, 0], [1, 2, 1, 0], [3, 0, 0, 0], [9, 9, 9, 9]] {
        names_both(compared, "carry", panel, pair, |p, a| told::carry(p, &line, a));
    }
    let first = State::first(read_plan(format!("ports={}\nlegs=1\nstart=0\nrun=0\n", panel.len()).as_bytes()).expect("a plan")).to_words();
    names_both(compared, "resume", panel, pair, |p, a| told::resume(&mut first.clone(), p, a));
    names_both(compared, "resume of no words", panel, pair, |p, a| told::resume(&mut [], p, a));
}

/// Every pair of jacks i < j of 2 to 20 ports: the entry at j is equal to the one at i, and all before it are good.
pub fn pairs(compared: &mut Compared) {
    for n in 2..=20 {
        for j in 2..=n {
            for i in 1..j {
                let pattern = with_pair(home(n), i, j);
                compared.same("both jacks of a pattern", check(&pattern), refused_both(j.into(), i.into()));
                names_both(compared, "check", &pattern, (i, j), |p, a| told::check(p, a));
                names_both(compared, "rank", &pattern, (i, j), |p, a| told::rank(p, a));
                names_both(compared, "next", &pattern, (i, j), |p, a| told::next(p, a));
                names_both(compared, "previous", &pattern, (i, j), |p, a| told::previous(p, a));
                names_both(compared, "dictionary_number", &pattern, (i, j), |p, a| told::dictionary_number(p, a));
                names_both(compared, "dictionary_next", &pattern, (i, j), |p, a| told::dictionary_next(p, a));
                names_both_on_panel(compared, &pattern, (i, j));
                let panel = with_pair(self_joins(n), i, j);
                compared.same("both jacks of a panel", check_panel(&panel), refused_both(j.into(), i.into()));
                names_both_on_panel(compared, &panel, (i, j));
                compared.same("its self-join first, as a pattern", check(&panel), refused(5, 1));
            }
        }
    }
}

/// Faults of more than one kind, and more than two equal entries, for every pair again.
pub fn other_faults(compared: &mut Compared) {
    for n in 3..=20 {
        for j in 2..=n {
            for i in 1..j {
                let pattern = with_pair(home(n), i, j);
                for k in 1..=n {
                    let [outside, equal] = [0, pattern[usize::from(i) - 1]].map(|entry| {
                        let mut changed = pattern.clone();
                        changed[usize::from(k) - 1] = entry;
                        changed
                    });
                    let (first, both) = (refused(3, k.into()), refused_both(j.into(), i.into()));
                    compared.same("an entry outside before the second of the pair, or after it", check_panel(&outside), if k <= j { first } else { both });
                    compared.same("the same as a pattern", check(&outside), if k <= j { first } else { both });
                    // three equal entries: the second of them is at fault, and names the first
                    let mut three = [i, j, k];
                    three.sort();
                    let [earlier, jack] = if k == i || k == j { [i, j] } else { [three[0], three[1]] };
                    compared.same("three equal entries", check_panel(&equal), refused_both(jack.into(), earlier.into()));
                }
            }
        }
    }
    compared.same("4 before 5 at one jack", check(&[2, 2, 1]), refused_both(2, 1));
    compared.same("5 before a later 4", check(&[3, 2, 2]), refused(5, 2));
    compared.same("the same as a panel", check_panel(&[3, 2, 2]), refused_both(3, 2));
    compared.same("3 before a later 4", check(&[2, 4, 2]), refused(3, 2));
    compared.same("two pairs", check(&[2, 3, 3, 2]), refused_both(3, 2));
    compared.same("an entry outside twice", check(&[2, 0, 0]), refused(3, 2));
    compared.same("the header's", check(&[2, 3, 4, 5, 3]), refused_both(5, 2));
}
