//! The self test's part on the levels of a pattern: some worked by hand; every pattern of 2 to 8 ports looked up and by its place; patterns of more ports
//! rebuilt from their levels; and what is printed of inputs that are refused.

use crate::{pattern, Compared};
use reference::levels::{self, by_place, looked_up, parts, patterns, Level, Read};
use reference::list::{at, count_of, origin, place};

fn explained(input: &str) -> (String, i32) {
    let (printed, status) = levels::explained(input.as_bytes());
    (String::from_utf8(printed).expect("what is printed is text"), status)
}

fn printed(text: &str) -> (String, i32) {
    (text.to_string(), 0)
}

/// Worked by hand on the table of document 000 for 4 and 5 ports, of which row 10 is 54231.
pub fn by_hand(compared: &mut Compared) {
    compared.same("2 ports", explained("2,1\n"), printed("rank=0\n"));
    // the list for 3 is A(1) of 21, and A(2) of 21 read backward
    compared.same("3 ports, first", explained("2,3,1\n"), printed("level=3 last=1 by=A read=forward over=0\nrank=0\n"));
    compared.same("3 ports, last", explained("3,1,2\n"), printed("level=3 last=2 by=A read=backward over=1\nrank=1\n"));
    // rows 3 and 4 of the list for 4: after A(1) of 231 and 312 come B(1) of 21 read backward, and B(2) of it
    compared.same("4 ports, row 3", explained("4,3,2,1\n"), printed("level=4 last=1 by=B read=backward over=2\nrank=2\n"));
    compared.same("4 ports, row 4", explained("3,4,1,2\n"), printed("level=4 last=2 by=B read=forward over=3\nrank=3\n"));
    // A(2) is over 231 and 312 read backward: 312 is the first of them, and its own part, A(2) of 21 read backward, is now read forward
    let row_5 = "level=4 last=2 by=A read=backward over=4\nlevel=3 last=2 by=A read=forward over=0\nrank=4\n";
    compared.same("4 ports, row 5", explained("3,1,4,2\n"), printed(row_5));
    let row_6 = "level=4 last=2 by=A read=backward over=4\nlevel=3 last=1 by=A read=backward over=1\nrank=5\n";
    compared.same("4 ports, row 6", explained("4,3,1,2\n"), printed(row_6));
    // the nine of A(1) come before B(1), which is over 231 and 312 read backward, 312 first
    let row_10 = "level=5 last=1 by=B read=backward over=9\nlevel=3 last=2 by=A read=forward over=0\nrank=9\n";
    compared.same("5 ports, row 10", explained("5,4,2,3,1\n"), printed(row_10));
    // A(2) has rows 14 to 22, over the list for 4 read backward, in which 3412 is the sixth: B(3), of one, A(3), of two, and A(2), of two, come before B(2)
    let row_19 = "level=5 last=2 by=A read=backward over=13\nlevel=4 last=2 by=B read=backward over=5\nrank=18\n";
    compared.same("the shorter pattern of row 19", origin(&pattern("34152")).2, pattern("3412"));
    compared.same("5 ports, row 19", explained("3,4,1,5,2\n"), printed(row_19));
    for n in 3..=20 {
        compared.same("two parts for each block", parts(n, Read::Forward).len(), 2 * (n - 1));
        for read in [Read::Forward, Read::Backward] {
            compared.same("all patterns are in the parts", parts(n, read).iter().map(|part| count_of(part.shorter(n))).sum(), count_of(n));
        }
    }
}

/// The levels of a pattern beside what else is known of them: with i the entry at the last jack n, by B if jack i holds port n, else by A; the shortest
/// pattern, from which the parts make this one; and the rank, to which the numbers passed over add up.
fn holds(compared: &mut Compared, p: &[u8], levels: &[Level]) {
    let mut shorter = p.to_vec();
    for level in levels {
        let (way, i, t) = origin(&shorter);
        compared.same("the step and the entry at the last jack", (level.ports, level.part.way, level.part.i), (shorter.len(), way, i));
        shorter = t;
    }
    compared.same("down to the shortest", &shorter[..], &[2, 1]);
    compared.same("rebuilt from the shortest", &levels.iter().rev().fold(shorter, |t, level| level.part.made_of(&t))[..], p);
    compared.same("the patterns passed over", levels.iter().map(|level| level.over).sum(), place(p));
}

/// A pattern and the next one of the list: while they are in the same parts, the shorter pattern goes one further in its list where this is read forward, and
/// one back where it is read backward.
fn read_on(compared: &mut Compared, here: &[u8], next: &[u8]) {
    let (mut here, mut next) = (here.to_vec(), next.to_vec());
    for (level, beside) in by_place(&here).iter().zip(by_place(&next)) {
        if *level != beside {
            return;
        }
        (here, next) = (origin(&here).2, origin(&next).2);
        let (from, to) = if level.part.read == Read::Forward { (&here, &next) } else { (&next, &here) };
        compared.same("the next in the shorter list", place(from) + 1, place(to));
    }
}

/// Every pattern of n ports, 2 to 8, both ways; the list is as the definition has it, place by place.
pub fn whole(n: usize, compared: &mut Compared) {
    let list = patterns(n);
    compared.same("the patterns in the parts of relation (2)", &list, &(0..count_of(n)).map(|r| at(n, r)).collect());
    for p in &list {
        let levels = looked_up(p);
        compared.same("looked up and by the place", &levels, &by_place(p));
        holds(compared, p, &levels);
    }
    for beside in list.windows(2) {
        read_on(compared, &beside[0], &beside[1]);
    }
}

/// Patterns of n ports, 9 to 20: about the ends of every part of the list, and spread over it.
pub fn spread(n: usize, compared: &mut Compared) {
    let count = count_of(n);
    let mut ranks: Vec<u128> = (1..100).map(|k| (k * 0x9e37_79b9_7f4a_7c15) % count).collect();
    let mut over = 0;
    for part in parts(n, Read::Forward) {
        for (rank, inside) in [(over, 0), (over + count_of(part.shorter(n)) - 1, count_of(part.shorter(n)) - 1)] {
            let top = by_place(&at(n, rank))[0];
            compared.same("an end of a part", (top, rank - top.over), (Level { ports: n, part, over }, inside));
            ranks.push(rank);
        }
        over += count_of(part.shorter(n));
    }
    for rank in ranks {
        let p = at(n, rank);
        holds(compared, &p, &by_place(&p));
        if rank + 1 < count {
            read_on(compared, &p, &at(n, rank + 1));
        }
    }
}

/// The six refusals and the order in which they are judged, in their own words.
pub fn refusals(compared: &mut Compared) {
    let newline = "refused=11\nat=0\nthe newline is missing or not last\n";
    let plain = |jack: u64| format!("refused=8\nat=0\njack {jack}: not a plain decimal number of at most 64 bits\n");
    let entries = "refused=1\nat=0\na pattern has 2 to 20 entries\n";
    let none = |jack: u64, n: u64| format!("refused=3\nat={jack}\njack {jack}: its entry is none of the ports 1 to {n}\n");
    let twice = |jack: u64, port: u64, earlier: u64| format!("refused=4\nat={jack}\njack {jack}: port {port} is already at jack {earlier}\n");
    let own = |jack: u64| format!("refused=5\nat={jack}\njack {jack}: port {jack} has the jack's own number\n");
    let filled = |front: &str, after: &str| [&front.repeat(1023 / front.len())[..], "1\n", after].concat();
    let faults: [(&str, String); 27] = [
        ("", newline.into()),
        ("2,1", newline.into()),
        ("2,1\n\n", newline.into()),
        ("x\n\0", newline.into()),
        (&filled("1", ""), newline.into()),
        (&filled("1,", ""), entries.into()),
        (&filled("1,", "x"), entries.into()),
        (&filled(",", "\n"), newline.into()),
        ("\n", plain(1)),
        ("x\n", plain(1)),
        ("2,1,\n", plain(3)),
        ("9,9,01\n", plain(3)),
        ("2, 1\n", plain(2)),
        ("2,1\r\n", plain(2)),
        ("-2,+1\n", plain(1)),
        ("2,18446744073709551616\n", plain(2)),
        ("9\n", entries.into()),
        ("2,1,1,1,1,1,1,1,1,1,1,1,1,1,1,1,1,1,1,1,1\n", entries.into()),
        ("2,18446744073709551615\n", none(2, 2)),
        ("2,3,258,3\n", none(3, 4)),
        ("2,0,2,2\n", none(2, 4)),
        ("2,2\n", twice(2, 2, 1)),
        ("2,3,4,5,3\n", twice(5, 3, 2)),
        ("2,1,2,9\n", twice(3, 2, 1)),
        ("1,1\n", own(1)),
        ("2,3,1,4,9\n", own(4)),
        ("3,2,2\n", own(2)),
    ];
    for (input, wanted) in faults {
        compared.same("a refused input", explained(input), (wanted, 65));
    }
}
