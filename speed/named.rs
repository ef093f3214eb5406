//! The times of what a plan names.

use super::{keep, time, Took};
use face::Answer;
use reference::campaign::WORDS;
use reference::list::count_of;
use reference::told;

const LEGS: [u128; 5] = [1, 2, 4, 8, 16];

type Named = fn(&[u8], &mut [u64], &mut Answer) -> u8;

/// A plan for 20 ports whose legs lie apart, every second one backward: each takes half of its share of the circuit, so there are as many gaps as legs.
pub fn apart(legs: u128) -> Vec<u8> {
    let share = count_of(20) / legs;
    let leg = |k: u128| if k % 2 == 0 { format!("start={}\nrun={}\n", k * share, share / 2) } else { format!("start={}\nrun=-{}\n", k * share + share / 2, share / 2) };
    format!("ports=20\nlegs={legs}\n{}", (0..legs).map(leg).collect::<String>()).into_bytes()
}

fn time_named(plan: &[u8], legs: u128, named: Named) -> Took {
    let (mut gaps, mut answer) = ([0; 34], [0; 5]);
    assert_eq!(named(plan, &mut gaps, &mut answer), 0, "the plan is accepted");
    assert_eq!(u128::from(answer[1]), legs, "as many gaps as legs");
    time(|| {
        keep(named(plan, &mut gaps, &mut answer));
        1
    })
}

/// Reading the same plan, with nothing found out.
fn time_begin(plan: &[u8]) -> Took {
    let (mut state, mut answer) = ([0; WORDS], [0; 5]);
    time(|| {
        keep(face::begin(plan, &mut state, &mut answer));
        1
    })
}

pub fn named_table() {
    println!("\n## What a plan names\n");
    println!("Nanoseconds a call for 20 ports, of plans whose legs lie apart, so that there are as many gaps as legs. The text is read in that time too; begin reads the");
    println!("same text and finds nothing out. The reference sorts and merges intervals.\n");
    println!("| legs | library | reference | library begin |\n|---|---|---|---|");
    for legs in LEGS {
        let plan = apart(legs);
        let (library, reference) = (time_named(&plan, legs, face::named), time_named(&plan, legs, told::named));
        println!("| {legs} | {} | {} | {} |", library.shown(), reference.shown(), time_begin(&plan).shown());
    }
}
