//! The times of the calls on dictionary numbers.

use super::{keep, patterns, ranks, time, time_neighbour, time_on_pattern, time_unrank, Neighbour, OnPattern, OnRank, Took, PORTS};
use face::Answer;
use reference::{plain, told, MOST_PORTS};

type Translated = fn(u8, u64, &mut Answer) -> u8;

/// A call in each of the columns: the library, the reference, and plain Rust.
type Sides<T> = [T; 3];

/// The plain Rust as calls: the pattern is checked, or the ports and the number are.
fn plain_number(pattern: &[u8], answer: &mut Answer) -> u8 {
    let refused = told::check(pattern, answer);
    if refused == 0 {
        answer[0] = plain::number(pattern);
    }
    refused
}

fn plain_next(pattern: &mut [u8], answer: &mut Answer) -> u8 {
    let refused = told::check(pattern, answer);
    if refused == 0 {
        plain::next(pattern);
    }
    refused
}

fn refused_number(ports: usize, number: u64, answer: &mut Answer) -> u8 {
    *answer = [0; 5];
    if !(2..=MOST_PORTS).contains(&ports) {
        1
    } else if number >= plain::count(ports) {
        6
    } else {
        0
    }
}

fn plain_pattern(number: u64, pattern: &mut [u8], answer: &mut Answer) -> u8 {
    let refused = refused_number(pattern.len(), number, answer);
    if refused == 0 {
        plain::pattern(number, pattern);
    }
    refused
}

fn plain_to_rank(ports: u8, number: u64, answer: &mut Answer) -> u8 {
    plain_translated(ports, number, answer, plain::pattern, plain::rank)
}

fn plain_to_number(ports: u8, rank: u64, answer: &mut Answer) -> u8 {
    plain_translated(ports, rank, answer, plain::unrank, plain::number)
}

fn plain_translated(ports: u8, number: u64, answer: &mut Answer, there: fn(u64, &mut [u8]), back: fn(&[u8]) -> u64) -> u8 {
    let refused = refused_number(ports.into(), number, answer);
    if refused == 0 {
        let mut array = [0; MOST_PORTS];
        let pattern = &mut array[..ports.into()];
        there(number, pattern);
        answer[0] = back(pattern);
    }
    refused
}

fn time_translated(n: usize, call: Translated) -> Took {
    let (numbers, mut answer) = (ranks(n), [0; 5]);
    time(|| {
        for &number in &numbers {
            keep(call(n as u8, number, &mut answer));
        }
        numbers.len()
    })
}

/// The sides find the same, on all that is timed.
fn agree<T: Copy>(sides: Sides<T>, n: usize, made: impl Fn(T, u64, &mut [u8], &mut Answer) -> u8) {
    for (number, pattern) in ranks(n).into_iter().zip(patterns(n)) {
        let [library, reference, plain] = sides.map(|call| {
            let (mut lent, mut answer) = (pattern.clone(), [7; 5]);
            (made(call, number, &mut lent, &mut answer), answer, lent)
        });
        assert_eq!(library, reference, "the library finds what the reference does");
        assert_eq!(plain, reference, "plain Rust finds what the reference does");
    }
}

fn show(name: &str, n: usize, times: Sides<Took>) {
    let [library, reference, plain] = times.map(|took| took.shown());
    println!("| {name} | {n} | {library} | {reference} | {plain} |");
}

pub fn dictionary_table() {
    println!("\n## Dictionary numbers\n");
    println!("Nanoseconds a call. The reference looks patterns of 8 ports up in a list, and of more it counts those with a beginning, allocating as it likes.");
    println!("'Plain Rust' is the check and then arrays and sets of bits, with a table for the counting and with nothing allocated.\n");
    println!("| call | ports | library | reference | plain Rust |\n|---|---|---|---|---|");
    let number: Sides<OnPattern> = [face::dictionary_number, told::dictionary_number, plain_number];
    let pattern: Sides<OnRank> = [face::dictionary_pattern, told::dictionary_pattern, plain_pattern];
    let next: Sides<Neighbour> = [face::dictionary_next, told::dictionary_next, plain_next];
    let to_rank: Sides<Translated> = [face::number_to_rank, told::number_to_rank, plain_to_rank];
    let to_number: Sides<Translated> = [face::rank_to_number, told::rank_to_number, plain_to_number];
    for n in PORTS {
        agree(number, n, |call, _, lent, answer| call(lent, answer));
        show("dictionary_number", n, number.map(|call| time_on_pattern(n, call)));
    }
    for n in PORTS {
        agree(pattern, n, |call, number, lent, answer| call(number, lent, answer));
        show("dictionary_pattern", n, pattern.map(|call| time_unrank(n, call)));
    }
    for n in PORTS {
        agree(next, n, |call, _, lent, answer| call(lent, answer));
        show("dictionary_next", n, next.map(|call| time_neighbour(n, call)));
    }
    for (name, sides) in [("number_to_rank", to_rank), ("rank_to_number", to_number)] {
        for n in PORTS {
            agree(sides, n, |call, number, _, answer| call(n as u8, number, answer));
            show(name, n, sides.map(|call| time_translated(n, call)));
        }
    }
}
