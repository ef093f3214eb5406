//! The times of a campaign's calls.

use super::{begun, keep, time, Took, PORTS};
use face::Answer;
use reference::campaign::{COVERED, OPEN};
use reference::told;

type Status = fn(&[u64], &mut Answer) -> u8;
type Request = fn(&mut [u64], &mut [u8], &mut Answer) -> u8;
type Report = fn(&mut [u64], u8, &mut Answer) -> u8;
type ReportMark = fn(&mut [u64], u64, u8, &mut Answer) -> u8;

/// The number of the mark that stands: as many as are closed.
pub fn standing_mark(state: &[u64]) -> u64 {
    state[COVERED] + state[OPEN]
}

/// 256 marks of a leg, each with the orders that lead to it and its report. From the leg's start each time.
fn marks(first: &[u64], request: Request, ran: impl Fn(&mut [u64], &mut Answer) -> u8) -> usize {
    let (mut state, mut line, mut answer) = (first.to_vec(), [0; 45], [0; 5]);
    let mut met = 0;
    while met < 256 {
        assert_eq!(request(&mut state, &mut line, &mut answer), 0);
        if answer[0] == 3 {
            assert_eq!(ran(&mut state, &mut answer), 0);
            met += 1;
        }
    }
    met
}

fn time_report(first: &[u64], request: Request, report: Report) -> Took {
    time(|| marks(first, request, |state, answer| report(state, 0, answer)))
}

fn time_report_mark(first: &[u64], request: Request, report_mark: ReportMark) -> Took {
    time(|| marks(first, request, |state, answer| report_mark(state, standing_mark(state), 0, answer)))
}

/// The states of that leg at each of its first 256 marks.
fn at_marks(first: &[u64]) -> Vec<Vec<u64>> {
    let (mut state, mut answer, mut standing) = (first.to_vec(), [0; 5], vec![]);
    while standing.len() < 256 {
        assert_eq!(told::request(&mut state, &mut [0; 45], &mut answer), 0);
        if answer[0] == 3 {
            standing.push(state.clone());
            assert_eq!(told::report(&mut state, 0, &mut answer), 0);
        }
    }
    standing
}

/// 64 errors on the leg's first mark: each report, the seats, and the request for the mark again. From the leg's start each time.
fn errors(first: &[u64], request: Request, report: Report) -> usize {
    let (mut state, mut line, mut answer) = (first.to_vec(), [0; 45], [0; 5]);
    let mut to_mark = |state: &mut [u64], answer: &mut Answer| {
        answer[0] = 0;
        while answer[0] != 3 {
            assert_eq!(request(state, &mut line, answer), 0);
        }
    };
    to_mark(&mut state, &mut answer);
    for _ in 0..64 {
        assert_eq!(report(&mut state, 1, &mut answer), 0);
        to_mark(&mut state, &mut answer);
    }
    64
}

fn time_errors(first: &[u64], request: Request, report: Report) -> Took {
    time(|| errors(first, request, report))
}

fn time_status(states: &[Vec<u64>], status: Status) -> Took {
    let mut answer = [0; 5];
    time(|| {
        for state in states {
            keep(status(state, &mut answer));
        }
        states.len()
    })
}

pub fn campaign_table() {
    println!("\n## Request and report inside a leg\n");
    println!("Nanoseconds a mark: the requests for its orders (one or two), the request for the mark, and the report, plain or with the mark's number. For status");
    println!("nanoseconds a call, on states at which a mark stands.\n");
    println!("| call | ports | library | reference |\n|---|---|---|---|");
    let show = |name: &str, n: usize, library: Took, reference: Took| println!("| {name} | {n} | {} | {} |", library.shown(), reference.shown());
    for n in PORTS {
        let first = begun(n).1;
        show("report", n, time_report(&first, face::request, face::report), time_report(&first, told::request, told::report));
    }
    for n in PORTS {
        let first = begun(n).1;
        show("report_mark", n, time_report_mark(&first, face::request, face::report_mark), time_report_mark(&first, told::request, told::report_mark));
    }
    for n in PORTS {
        let states = at_marks(&begun(n).1);
        show("status", n, time_status(&states, face::status), time_status(&states, told::status));
    }
}

pub fn errors_table() {
    println!("\n## After an error\n");
    println!("Nanoseconds an error: its report, a seat for each jack, and the request for the mark again; ports plus two calls.\n");
    println!("| ports | library | reference |\n|---|---|---|");
    for n in PORTS {
        let first = begun(n).1;
        let (library, reference) = (time_errors(&first, face::request, face::report), time_errors(&first, told::request, told::report));
        println!("| {n} | {} | {} |", library.shown(), reference.shown());
    }
}
