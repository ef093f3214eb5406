//! The self test's part on several benches: shares and sums counted by hand, what is refused, and the shares of small lists held to the marks dealt one by one
//! and to the list itself.

use crate::Compared;
use reference::benches::{dealt, plan_text, printed_plan, printed_shares, printed_sums, share, sums, told_share, told_sum};
use reference::list::{at, count_of};
use reference::plan::read_plan;

/// What a bench is told: accepted, with its marks, its start and its run.
fn marks(marks: u64, start: u64, run: u64) -> (u8, [u64; 5]) {
    (0, [marks, start, run, 0, 0])
}

fn refused_at(number: u8, place: u64) -> (u8, [u64; 5]) {
    (number, [place, 0, 0, 0, 0])
}

/// 265 = 67 + 3 * 66; one pattern for three benches; 44 patterns for 64; and 895014631192902121 = 64 * 13984603612389095 + 41.
pub fn by_hand(compared: &mut Compared) {
    let six = [marks(67, 0, 66), marks(66, 67, 65), marks(66, 133, 65), marks(66, 199, 65)];
    for (bench, wanted) in six.into_iter().enumerate() {
        compared.same("6 ports over 4 benches", told_share(6, 4, bench as u64), wanted);
    }
    for (bench, wanted) in [marks(1, 0, 0), marks(0, 0, 0), marks(0, 0, 0)].into_iter().enumerate() {
        compared.same("2 ports over 3 benches", told_share(2, 3, bench as u64), wanted);
    }
    for bench in 0..64 {
        compared.same("5 ports over 64 benches", told_share(5, 64, bench), if bench < 44 { marks(1, bench, 0) } else { marks(0, 0, 0) });
    }
    let (larger, smaller) = (13984603612389096, 13984603612389095);
    for bench in 0..64 {
        let wanted = if bench < 41 { marks(larger, bench * larger, larger - 1) } else { marks(smaller, 41 + bench * smaller, smaller - 1) };
        compared.same("20 ports over 64 benches", told_share(20, 64, bench), wanted);
    }
    compared.same("20 ports over one bench", told_share(20, 1, 0), marks(895014631192902121, 0, 895014631192902120));
}

/// The refusals of both calls, in their order.
pub fn refusals(compared: &mut Compared) {
    let by_ports = [(1, 0, 9, 1), (21, 65, 99, 1), (258, 4, 1, 1), (0, 1, 0, 1)];
    let by_benches = [(6, 0, 0, 21), (6, 65, 70, 21), (6, 256 + 4, 1, 21), (6, 4, 4, 22), (20, 64, 64, 22)];
    for (ports, benches, bench, number) in by_ports.into_iter().chain(by_benches) {
        compared.same("a refused share", told_share(ports, benches, bench), refused_at(number, 0));
    }
    let most = u64::MAX;
    let added: [(u64, u64, &[u64], u8, u64); 12] = [
        (1, 0, &[], 1, 0),
        (21, 1, &[1, 2, 3], 1, 0),
        (2, 0, &[], 21, 0),
        (2, 65, &[0; 195], 21, 0),
        (2, 1, &[9, 9], 21, 0),
        (2, 1, &[9, 9, 9, 9], 21, 0),
        (2, 1, &[1, 1, 0], 27, 0),
        (2, 3, &[1, 0, 0, 1, 0, 0, 1, 0, 0], 27, 1),
        (6, 4, &[67, 0, 0, 66, 0, 0, 66, 0, 65_536, 67, 0, 0], 27, 2),
        (6, 4, &[0, 0, 0, 0, 0, 0, 0, 0, 0, 67, 0, 0], 27, 3),
        (6, 1, &[most, 1, 0], 27, 0),
        (6, 1, &[1 << 63, 1 << 63, 0], 27, 0),
    ];
    for (ports, benches, counts, number, place) in added {
        compared.same("refused sums", told_sum(ports, benches, counts), refused_at(number, place));
    }
    compared.same("sums by hand", told_sum(6, 4, &[60, 7, 1, 66, 0, 0, 0, 66, 65_535, 5, 6, 7]), (0, [131, 79, 65_543, 0, 0]));
    compared.same("errors on a bench without a plan", told_sum(2, 2, &[0, 1, 2, 0, 0, 3]), (0, [0, 1, 5, 0, 0]));
}

/// The marks of small lists dealt one by one to the benches in turn; and the plans, bench after bench, as plans are read: the list from its first to its last.
pub fn small_lists(compared: &mut Compared) {
    for n in 2..=7 {
        for benches in 1..=64 {
            let mut one_by_one = vec![0; benches as usize];
            (0..count_of(n)).for_each(|mark| one_by_one[(mark % u128::from(benches)) as usize] += 1);
            compared.same("marks dealt one by one", &dealt(count_of(n), benches), &one_by_one);
            let mut named = vec![];
            for bench in 0..benches {
                let Some(plan) = share(n as u64, benches, bench).expect("a share") else { continue };
                compared.same("the text of a plan", read_plan(plan_text(&plan).as_bytes()), Ok(plan.clone()));
                named.extend((0..plan.marks()).map(|step| plan.pattern(0, step)));
            }
            compared.same("the patterns of all plans", named, (0..count_of(n)).map(|rank| at(n, rank)).collect());
            let full: Vec<u64> = one_by_one.iter().flat_map(|&share| [share as u64, 0, 1]).collect();
            compared.same("all covered", sums(n as u64, benches, &full), Ok([count_of(n), 0, benches.into()]));
        }
    }
}

/// What the command prints of each form, and of refusals in their order.
pub fn texts(compared: &mut Compared) {
    let as_text = |(text, status): (Vec<u8>, i32)| (String::from_utf8(text).expect("what is printed is text"), status);
    let lines = "bench=0 start=0 run=66\nbench=1 start=67 run=65\nbench=2 start=133 run=65\nbench=3 start=199 run=65\n";
    compared.same("shares", as_text(printed_shares(6, 4)), (lines.into(), 0));
    compared.same("too many benches", as_text(printed_shares(2, 2)), ("bench=0 start=0 run=0\nbench=1 none\n".into(), 0));
    compared.same("a plan", as_text(printed_plan(6, 4, 1)), ("ports=6\nlegs=1\nstart=67\nrun=65\n".into(), 0));
    compared.same("no plan", as_text(printed_plan(2, 10, 9)), ("bench=9 none\n".into(), 0));
    let good = "1,2,3\n4,5,6\n";
    compared.same("sums", as_text(printed_sums(6, 2, good.as_bytes())), ("covered=5\nopen=7\nerrors=9\nof=265\n".into(), 0));
    let refused = |number: u8, place: u64| (format!("refused={number}\nat={place}\n"), 65);
    compared.same("no ports", as_text(printed_shares(0, 0)), refused(1, 0));
    compared.same("no benches", as_text(printed_shares(2, 0)), refused(21, 0));
    compared.same("no such bench", as_text(printed_plan(2, 3, 3)), refused(22, 0));
    let long = "0,0,0\n".repeat(682);
    let faults: [(u64, u64, &str, u8, u64); 17] = [
        (1, 0, "", 1, 0),
        (2, 65, "x", 21, 0),
        (6, 2, "", 21, 0),
        (6, 2, "1,2,3\n", 21, 0),
        (6, 1, "999,2,3\n0,0,0\n", 21, 0),
        (6, 2, "1,2,3\n4,5,6", 11, 2),
        (6, 2, "1,2,3\n4", 11, 2),
        (6, 2, "x\n4", 8, 1),
        (6, 2, "1,2,3\n4,5\n6", 8, 2),
        (6, 2, "1,2,3,\n4,5,6\n", 8, 1),
        (6, 2, "1,2,3\r\n4,5,6\n", 8, 1),
        (6, 2, "\n", 8, 1),
        (6, 2, "0,0,0\n133,0,0\n", 27, 1),
        (6, 2, "0,0,65536\n133,0,0\n", 27, 0),
        // 682 lines have 4,092 bytes: of the next, four are judged
        (6, 1, &format!("{long}0,0\n"), 8, 683),
        (6, 1, &format!("{long}0,0,0\n"), 11, 683),
        (6, 1, &format!("{long}0,0\n{long}"), 8, 683),
    ];
    for (ports, benches, file, number, place) in faults {
        compared.same("a refused file", as_text(printed_sums(ports, benches, file.as_bytes())), refused(number, place));
    }
}
