//! The times of the calls on several benches: the most ports over the most benches.

use super::{keep, time, Took};
use face::Answer;
use reference::benches::{told_share, told_sum, MOST_BENCHES};
use reference::{plain, MOST_ERRORS, MOST_PORTS};

#[path = "../tests/benches/face.rs"]
mod declared;

pub const PORTS: u64 = MOST_PORTS as u64;

type Share = fn(u64, u64, u64, &mut Answer) -> u8;
type Sum = fn(u64, u64, &[u64], &mut Answer) -> u8;

// ---- the library

pub fn version(answer: &mut Answer) -> u8 {
    unsafe { declared::jidrofex_benches_version(answer.as_mut_ptr()) }
}

pub fn share(ports: u64, benches: u64, bench: u64, answer: &mut Answer) -> u8 {
    unsafe { declared::jidrofex_benches_share(ports, benches, bench, answer.as_mut_ptr()) }
}

pub fn sum(ports: u64, benches: u64, counts: &[u64], answer: &mut Answer) -> u8 {
    unsafe { declared::jidrofex_benches_sum(ports, benches, counts.as_ptr(), counts.len(), answer.as_mut_ptr()) }
}

// ---- the reference, as such calls

fn reference_share(ports: u64, benches: u64, bench: u64, answer: &mut Answer) -> u8 {
    let (number, words) = told_share(ports, benches, bench);
    *answer = words;
    number
}

fn reference_sum(ports: u64, benches: u64, counts: &[u64], answer: &mut Answer) -> u8 {
    let (number, words) = told_sum(ports, benches, counts);
    *answer = words;
    number
}

// ---- plain Rust

/// The refusal of ports and benches, 0 for none.
fn refused(ports: u64, benches: u64) -> u8 {
    if !(2..=PORTS).contains(&ports) {
        1
    } else if !(1..=MOST_BENCHES).contains(&benches) {
        21
    } else {
        0
    }
}

fn plain_share(ports: u64, benches: u64, bench: u64, answer: &mut Answer) -> u8 {
    *answer = [0; 5];
    let number = refused(ports, benches);
    if number != 0 {
        return number;
    }
    if bench >= benches {
        return 22;
    }
    let count = plain::count(ports as usize);
    let (each, over) = (count / benches, count % benches);
    let marks = each + u64::from(bench < over);
    if marks > 0 {
        *answer = [marks, bench * each + bench.min(over), marks - 1, 0, 0];
    }
    0
}

fn plain_sum(ports: u64, benches: u64, counts: &[u64], answer: &mut Answer) -> u8 {
    *answer = [0; 5];
    let number = refused(ports, benches);
    if number != 0 {
        return number;
    }
    if counts.len() as u64 != 3 * benches {
        return 21;
    }
    let count = plain::count(ports as usize);
    let (each, over) = (count / benches, count % benches);
    let mut sums = [0; 3];
    for (bench, three) in counts.chunks_exact(3).enumerate() {
        let marks = each + u64::from((bench as u64) < over);
        if !three[0].checked_add(three[1]).is_some_and(|closed| closed <= marks) || u128::from(three[2]) > MOST_ERRORS {
            answer[0] = bench as u64;
            return 27;
        }
        for (sum, one) in sums.iter_mut().zip(three) {
            *sum += one;
        }
    }
    answer[..3].copy_from_slice(&sums);
    0
}

// ---- what is timed

/// Counts of every bench: its share but 2 marks covered, one open, some errors.
pub fn counts() -> Vec<u64> {
    let mut answer = [0; 5];
    let mut three = |bench: u64| {
        reference_share(PORTS, MOST_BENCHES, bench, &mut answer);
        [answer[0] - 2, 1, 1000 + bench]
    };
    (0..MOST_BENCHES).flat_map(&mut three).collect()
}

fn time_share(call: Share) -> Took {
    let mut answer = [0; 5];
    time(|| {
        for bench in 0..MOST_BENCHES {
            keep(call(PORTS, MOST_BENCHES, bench, &mut answer));
        }
        MOST_BENCHES as usize
    })
}

fn time_sum(call: Sum) -> Took {
    let (counts, mut answer) = (counts(), [0; 5]);
    time(|| {
        keep(call(PORTS, MOST_BENCHES, &counts, &mut answer));
        1
    })
}

/// The sides find the same, on all that is timed.
fn agree<T: Copy>(sides: [T; 3], made: impl Fn(T, &mut Answer) -> u8) {
    let [library, reference, plain] = sides.map(|call| {
        let mut answer = [7; 5];
        (made(call, &mut answer), answer)
    });
    assert_eq!(library, reference, "the library finds what the reference does");
    assert_eq!(plain, reference, "plain Rust finds what the reference does");
    assert_eq!(library.0, 0, "the call is accepted");
}

fn show(name: &str, times: [Took; 3]) {
    let [library, reference, plain] = times.map(|took| took.shown());
    println!("| {name} | {PORTS} | {MOST_BENCHES} | {library} | {reference} | {plain} |");
}

pub fn benches_table() {
    println!("\n## Several benches\n");
    println!("Nanoseconds a call: the share of one bench, and the counts of all benches added up. The reference deals the marks out to all benches each time.");
    println!("'Plain Rust' divides once, with nothing allocated.\n");
    println!("| call | ports | benches | library | reference | plain Rust |\n|---|---|---|---|---|---|");
    let shares: [Share; 3] = [share, reference_share, plain_share];
    let sums: [Sum; 3] = [sum, reference_sum, plain_sum];
    let counts = counts();
    for bench in 0..MOST_BENCHES {
        agree(shares, |call, answer| call(PORTS, MOST_BENCHES, bench, answer));
    }
    agree(sums, |call, answer| call(PORTS, MOST_BENCHES, &counts, answer));
    show("benches_share", shares.map(time_share));
    show("benches_sum", sums.map(time_sum));
}
