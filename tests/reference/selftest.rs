//! The reference held to what is printed: document 000's tables for 4 and 5 ports, the paper's 'Cases to prove' and 'To run', the paper's example;
//! to the rules of a campaign, the seats after an error, the header's words for controllers, both jacks of a repeated entry for every pair of jacks, and
//! demand three on full circuits; to what plans name, worked by hand, to dictionary numbers counted by hand, to the shares and sums of several benches, and to
//! the fewest swaps between two panels, worked by hand;
//! and to itself: three ways to the list (the definition, the procedures, the relations) over every circuit of 2 to 8 ports, two ways to the gaps of a plan,
//! dictionary numbers by counting and by a list, the levels of a pattern looked up and by its place, shares by division and dealt one by one, and the fewest
//! swaps by cycles, by a search over all panels, with turns and without, and by the carriage.
//! Ends in a line with the number of comparisons, or in the first one that does not hold.

mod controllers;
mod gaps;
mod jacks;
mod numbers;
mod parts;
mod rules;
mod seats;
mod shares;
mod tables;
mod ways;

use reference::campaign::State;
use reference::list::{at, check, check_panel, count, count_of, rank, step, unrank};
use reference::panel::carry;
use reference::plan::read_plan;
use reference::printer::print;
use reference::rehearsal::Rehearsal;
use reference::text::{read_line, write_line, Line};
use reference::Refusal;
use std::collections::HashSet;
use std::fmt::Debug;
use std::process::exit;

const PLAN: &[u8] = b"ports=4\nlegs=2\nstart=0\nrun=2\nstart=8\nrun=-1\n";
const OUTPUT: &[u8] = b"mark=0,0\nturn=1,2,3\nmark=1,1\nswap=1,2\nmark=2,2\nswap=1,3\nswap=2,4\nmark=3,8\nswap=1,3\nmark=4,7\nend=5\n";

/// Comparisons made so far.
struct Compared(u64);

impl Compared {
    fn same<T: PartialEq + Debug>(&mut self, what: &str, found: T, wanted: T) {
        self.0 += 1;
        if found != wanted {
            println!("selftest: {what}: found {found:?}, wanted {wanted:?}");
            exit(1);
        }
    }
}

fn pattern(row: &str) -> Vec<u8> {
    row.bytes().map(|digit| digit - b'0').collect()
}

fn refused<T>(number: u8, place: u64) -> Result<T, Refusal> {
    Err(Refusal { number, place, earlier: 0 })
}

/// Refused as repeated, with both jacks.
fn refused_both<T>(jack: u64, earlier: u64) -> Result<T, Refusal> {
    Err(Refusal { number: 4, place: jack, earlier })
}

fn cases_to_prove(compared: &mut Compared) {
    for (n, wanted) in [(3, 2), (4, 9), (5, 44), (20, 895014631192902121)] {
        compared.same("count", count(n), Ok(wanted));
    }
    compared.same("the count of 21 passes 64 bits", count_of(21) > u64::MAX.into(), true);
    compared.same("the most marks", 16 * count_of(20), 14320234099086433936);
    let ranks = [(3, 1, "312"), (4, 0, "2341"), (4, 3, "3412"), (4, 8, "2143"), (5, 9, "54231"), (5, 31, "41523"), (5, 43, "23514")];
    for (n, place, row) in ranks {
        compared.same("unrank", unrank(n, place), Ok(pattern(row)));
        compared.same("rank", rank(&pattern(row)), Ok(place));
    }
    for (from, k, to) in [(0, -1, 8), (8, 1, 0), (0, i64::MIN, 1)] {
        compared.same("signed step", step(4, from, k.into()), Ok(to));
    }
}

fn to_run(compared: &mut Compared) {
    compared.same("(1,1)", check(&[1, 1]), refused(5, 1));
    compared.same("(2,2)", check(&[2, 2]), refused_both(2, 1));
    compared.same("(3,1)", check(&[3, 1]), refused(3, 1));
    compared.same("20 ports", check(&at(20, 0)), Ok(()));
    compared.same("21 ports", check(&[1; 21]), refused(1, 0));
    compared.same("a self-join on a panel", check_panel(&[1, 2]), Ok(()));
    compared.same("the count of 0", count(0), refused(1, 0));
    compared.same("the count of 1", count(1), refused(1, 0));
    compared.same("the rank past the end", unrank(4, 9), refused(6, 0));
    for (run, accepted) in [("8", true), ("-8", true), ("9", false), ("-9", false), ("-18446744073709551615", false)] {
        let read = read_plan(format!("ports=4\nlegs=1\nstart=0\nrun={run}\n").as_bytes());
        compared.same("a run for 4 ports", read.map(|_| ()), if accepted { Ok(()) } else { refused(10, 4) });
    }
    let refusals: [(&[u8], u8, u64); 14] = [
        (b"", 11, 1),
        (b"\n", 7, 1),
        (b"ports=21\n", 1, 1),
        (b"ports=276\n", 1, 1),
        (b"ports=04\n", 8, 1),
        (b"ports=+4\n", 8, 1),
        (b"ports=18446744073709551616\n", 8, 1),
        (b"ports=4\nlegs=0\n", 9, 2),
        (b"ports=4\nlegs=17\n", 9, 2),
        (b"ports=4\nlegs=1\nstart=9\n", 6, 3),
        (b"ports=4\nlegs=1\nstart=8\nrun=-0\n", 8, 4),
        (b"ports=4\nlegs=1\nstart=8\nrun=1", 11, 4),
        (b"ports=4\nlegs=1\nstart=8\nrun=1\n\n", 11, 5),
        (b"ports=2\nlegs=1\nstart=0\nrun=1\n", 10, 4),
    ];
    for (text, number, line) in refusals {
        compared.same("a refused plan", read_plan(text).map(|_| ()), refused(number, line));
        compared.same("what the printer says of it", print(text), format!("refused={number}\nat={line}\n").into_bytes());
    }
    let longest = format!("ports=20\nlegs=16\n{}", "start=895014631192902120\nrun=-895014631192902120\n".repeat(16));
    compared.same("the longest plan's bytes", longest.len(), 801);
    let plan = read_plan(longest.as_bytes()).expect("the longest plan is accepted");
    compared.same("the longest line's bytes", Line::Mark(plan.number(15, 0) as u64, plan.rank(15, 0) as u64).text().len(), 45);
    compared.same("home", State::first(plan).panel, at(20, 0));
}

fn order_lines(compared: &mut Compared) {
    let refusals: [(&[u8], u8); 22] = [
        (b"\n", 7),
        (b"swap\n", 7),
        (b"swap =1,2\n", 7),
        (b"swap=\n", 8),
        (b"swap=1,2\r\n", 8),
        (b"swap=1\n", 8),
        (b"swap=0,1,2\n", 8),
        (b"swap=1,18446744073709551616\n", 8),
        (b"end=1,\n", 8),
        (b"end=-1\n", 8),
        (b"mark=01,1\n", 8),
        (b"swap=1,300\n", 17),
        (b"swap=0,1\n", 17),
        (b"swap=2,1\n", 17),
        (b"swap=1,1\n", 17),
        (b"swap=1,21\n", 17),
        (b"turn=2,1,3\n", 17),
        (b"turn=2,3,1\n", 17),
        (b"turn=1,2,2\n", 17),
        (b"turn=1,1,2\n", 17),
        (b"turn=1,21,2\n", 17),
        (b"swap=1,2", 11),
    ];
    for (text, number) in refusals {
        compared.same("a refused line", read_line(text, 0), refused(number, 0));
    }
    compared.same("a place past the end", read_line(b"end=5\n", usize::MAX), refused(11, 0));
    compared.same("a place at the end", read_line(b"end=5\n", 6), refused(11, 0));
    let lines = [Line::Swap(1, 20), Line::Turn(1, 3, 2), Line::Mark(u64::MAX, 0), Line::End(u64::MAX), Line::Seat(1), Line::Seat(20)];
    for line in lines {
        let mut buffer = [7; 60];
        let bytes = write_line(Some(line), &mut buffer).expect("the line fits");
        compared.same("a line read back", read_line(&buffer, 0), Ok((line, bytes)));
        compared.same("bytes after the line", buffer[bytes..].iter().all(|&byte| byte == 7), true);
        compared.same("a buffer one short", write_line(Some(line), &mut buffer[..bytes - 1]), refused(2, 0));
    }
    compared.same("17 before 2", write_line(Some(Line::Swap(2, 1)), &mut []), refused(17, 0));
}

/// A full circuit as a plan, forward or backward from any start, carried out by a robot that reads the lines: demand three, a to f.
fn full_circuit(n: usize, start: u128, backward: bool, compared: &mut Compared) {
    let count = count_of(n);
    let run = if backward { 1 - count as i128 } else { count as i128 - 1 };
    let mut state = State::first(read_plan(format!("ports={n}\nlegs=1\nstart={start}\nrun={run}\n").as_bytes()).expect("a plan"));
    let (mut robot, mut last, mut moved, mut met) = (at(n, 0), vec![], 0, HashSet::new());
    loop {
        let (given, mut after) = state.request(45).expect("an order");
        let (line, _) = read_line(&given.text(), 0).expect("the line is read back");
        carry(&mut robot, Some(line)).expect("the robot takes it");
        match line {
            Line::End(marks) => {
                compared.same("marks at the end", (u128::from(marks), met.len() as u128, state.covered), (count, count, count));
                return;
            }
            Line::Mark(number, rank) => {
                compared.same(
                    "a mark's number and rank",
                    (u128::from(number), u128::from(rank)),
                    (met.len() as u128, (start as i128 + run.signum() * number as i128).rem_euclid(count as i128) as u128),
                );
                compared.same("a mark meets its pattern", &robot, &at(n, rank.into()));
                compared.same("at most ports less one movements", moved < n, true);
                let cords = robot.iter().zip(&last).filter(|(here, there)| here != there).count();
                compared.same("at most four cords inside a leg", cords <= 4, true);
                compared.same("a pattern met once", met.insert(robot.clone()), true);
                (last, moved) = (robot.clone(), 0);
                after = after.report(0).expect("a report");
            }
            _ => moved += 1,
        }
        state = after;
    }
}

/// Every line of a campaign whose marks are all reported as run.
fn all_run(first: State) -> Vec<u8> {
    let (mut state, mut text) = (first, vec![]);
    loop {
        let (line, after) = state.request(45).expect("a line has 45 bytes at most");
        text.extend(line.text());
        state = match line {
            Line::Mark(..) => after.report(0).expect("a mark stands"),
            Line::End(_) => return text,
            _ => after,
        };
    }
}

fn main() {
    let mut compared = Compared(0);
    tables::tables(&mut compared);
    cases_to_prove(&mut compared);
    to_run(&mut compared);
    jacks::pairs(&mut compared);
    jacks::other_faults(&mut compared);
    order_lines(&mut compared);
    rules::campaign(&mut compared);
    rules::power_cuts(&mut compared);
    seats::lines(&mut compared);
    seats::after_errors(&mut compared);
    seats::refusals(&mut compared);
    seats::fitness(&mut compared);
    seats::resumed(&mut compared);
    seats::circuits_with_errors(&mut compared);
    controllers::library(&mut compared);
    controllers::sentences(&mut compared);
    controllers::status(&mut compared);
    controllers::report_refusals(&mut compared);
    controllers::sent_twice(&mut compared);
    gaps::worked(&mut compared);
    gaps::refusals(&mut compared);
    gaps::small_plans(&mut compared);
    numbers::counted_by_hand(&mut compared);
    numbers::refusals(&mut compared);
    parts::by_hand(&mut compared);
    parts::refusals(&mut compared);
    shares::by_hand(&mut compared);
    shares::refusals(&mut compared);
    shares::small_lists(&mut compared);
    shares::texts(&mut compared);
    ways::by_hand(&mut compared);
    ways::known(&mut compared);
    ways::searched(&mut compared);
    ways::carried(&mut compared);
    ways::with_turns(&mut compared);
    compared.same("the paper's example", print(PLAN), OUTPUT.to_vec());
    let plan = read_plan(PLAN).expect("the paper's plan is accepted");
    let (text, ended, _) = Rehearsal::first(plan.clone()).orders(1024).expect("its orders fit");
    compared.same("the paper's example by a rehearsal", (text, ended), (OUTPUT.to_vec(), true));
    compared.same("the paper's example by requests and reports", all_run(State::first(plan)), OUTPUT.to_vec());
    // the printer judges the first 1,024 bytes, `begin` the whole text: one line of 1,025 bytes has no newline for the one and a bad number for the other
    let long = [b"ports=".as_slice(), &[b'1'; 1018], b"\n"].concat();
    compared.same("a long line, printed", print(&long), b"refused=11\nat=1\n".to_vec());
    compared.same("a long line, read", read_plan(&long).map_err(|f| (f.number, f.place)).err(), Some((8, 1)));
    for n in 2..=8 {
        tables::circuit(n, &mut compared);
        numbers::whole(n, &mut compared);
        parts::whole(n, &mut compared);
    }
    for n in 9..=20 {
        tables::joins(n, &mut compared);
        numbers::spread(n, &mut compared);
        parts::spread(n, &mut compared);
    }
    for n in 2..=6 {
        for start in [0, count_of(n) / 2, count_of(n) - 1] {
            full_circuit(n, start, false, &mut compared);
            full_circuit(n, start, true, &mut compared);
        }
    }
    println!("selftest: {} comparisons, all hold", compared.0);
}
