//! The self test's part on the list: document 000's tables for 4 and 5 ports, and three ways to the list (the definition, the procedures, the relations)
//! over whole circuits and between blocks.

use crate::{pattern, refused, Compared};
use reference::circuit::each_pattern;
use reference::list::{apply, at, at_reversed, check, count_of, difference, next, place, place_reversed, previous, rank, Move};
use reference::relations;
use std::collections::HashSet;

/// Table 1 of document 000, row by row from number 1.
const FOUR: [&str; 9] = ["2341", "3421", "4321", "3412", "3142", "4312", "2413", "4123", "2143"];
const FIVE: [&str; 44] = [
    "23451", "34251", "43251", "34521", "35421", "43521", "24531", "45231", "25431", "54231", "53421", // 1 to 11
    "35412", "45132", "51432", "41532", "54132", "43152", "31452", "34152", "43512", "34512", "53412", // 12 to 22
    "25413", "54213", "45213", "54123", "51423", "45123", "24153", "41253", "21453", "41523", "24513", // 23 to 33
    "23154", "31254", "21534", "51234", "25134", "53124", "31524", "35124", "53214", "35214", "23514", // 34 to 44
];

/// Table 2 of document 000: the list for 4, and B = A(2) of its patterns read backwards.
const B_OF_TABLE_2: [&str; 9] = ["51432", "41532", "54132", "43152", "31452", "34152", "43512", "34512", "53412"];

pub fn tables(compared: &mut Compared) {
    for (rows, n) in [(&FOUR[..], 4), (&FIVE[..], 5)] {
        let table: Vec<Vec<u8>> = rows.iter().map(|row| pattern(row)).collect();
        compared.same("rows of the table", count_of(n), table.len() as u128);
        let mut generated = vec![];
        each_pattern(n, |p| generated.push(p.to_vec()));
        for (row, p) in table.iter().enumerate() {
            compared.same("a row by the definition", &at(n, row as u128), p);
            compared.same("a row by the procedures", &generated[row], p);
            compared.same("the rank of a row", rank(p), Ok(row as u128));
        }
    }
    // the paper's slip: row i = n-2 of relation (8) as printed 'leads from 21453 to a pattern with port 1 on jack 1'
    let mut printed = pattern("21453");
    apply(Move::Turn(1, 2, 4), &mut printed);
    compared.same("the row as printed", check(&printed), refused(5, 1));
    for (row, shown) in B_OF_TABLE_2.iter().enumerate() {
        compared.same("a row of table 2", pattern(shown), at(5, 13 + row as u128));
    }
}

/// 'Every pattern once, and neighbours one move of the paper's form apart', by each of the three ways to the list.
pub fn circuit(n: usize, compared: &mut Compared) {
    let mut all: Vec<Vec<u8>> = vec![];
    each_pattern(n, |p| all.push(p.to_vec()));
    let count = all.len();
    compared.same("the circuit's length", count as u128, count_of(n));
    compared.same("patterns met once", all.iter().collect::<HashSet<_>>().len(), count);
    for r in 0..count {
        let (here, there) = (&all[r], &all[(r + 1) % count]);
        compared.same("a pattern", check(here), Ok(()));
        compared.same("its place", place(here), r as u128);
        compared.same("its place in the reversed list", place_reversed(here), (count - 1 - r) as u128);
        compared.same("the pattern at the place", &at(n, r as u128), here);
        compared.same("the pattern at the reversed place", &at_reversed(n, (count - 1 - r) as u128), here);
        let made = difference(here, there).expect("one move in the paper's form");
        let undone = difference(there, here).expect("one move in the paper's form");
        compared.same("no move for 2 ports alone", made == Move::Nothing, n == 2);
        compared.same("next", next(here), Ok((there.clone(), made)));
        compared.same("previous", previous(there), Ok((here.clone(), undone)));
        let mut moved = here.clone();
        compared.same("the move by the relations", relations::next(&mut moved), made);
        compared.same("the next pattern by the relations", &moved, there);
        compared.same("the move back by the relations", relations::previous(&mut moved), undone);
        compared.same("the previous pattern by the relations", &moved, here);
    }
}

/// Every step between blocks of 9 to 20 ports: the relations agree with the list there, both ways.
pub fn joins(n: usize, compared: &mut Compared) {
    let (count, in_a, in_b) = (count_of(n), count_of(n - 1), count_of(n - 2));
    for i in 1..n as u128 {
        let block = (i - 1) * (in_a + in_b);
        let inside = if i % 2 == 1 { in_a } else { in_b };
        for r in [block, block + inside] {
            let (here, there) = (at(n, (r + count - 1) % count), at(n, r));
            let made = difference(&here, &there).expect("one move in the paper's form");
            let mut moved = here.clone();
            compared.same("the move between blocks", relations::next(&mut moved), made);
            compared.same("the pattern after it", &moved, &there);
            relations::previous(&mut moved);
            compared.same("the pattern before it", &moved, &here);
        }
    }
}
