//! The self test's part on dictionary numbers: facts that can be counted by hand, what is refused, and the ways to them held to each other: the lists, the
//! counting, the search for the next, and plain Rust on arrays.

use crate::{pattern, refused, refused_both, Compared};
use reference::dictionary::{self, counted_number, counted_pattern, first_with, listed, searched_next, with_beginning};
use reference::list::{check, count_of, rank, unrank};
use reference::{plain, told, Refusal};

/// The nine patterns of 4 ports in dictionary order, each with its rank: the row of document 000's table, less one.
const FOUR: [(&str, u64); 9] = [("2143", 8), ("2341", 0), ("2413", 6), ("3142", 4), ("3412", 3), ("3421", 1), ("4123", 7), ("4312", 5), ("4321", 2)];

/// Of 5 ports eleven patterns have each first port: some numbers counted by hand, with ranks from the paper's cases.
const FIVE: [(&str, u64, u64); 4] = [("23451", 3, 0), ("23514", 4, 43), ("41523", 23, 31), ("54231", 43, 9)];

/// The five calls on a pattern whose number, rank and next are known, with the lent bytes afterwards.
fn calls(compared: &mut Compared, p: &[u8], number: u64, rank: u64, next: &[u8]) {
    let (n, ports) = (p.len(), p.len() as u8);
    let (gives, nothing) = (|value: u64| (0, [value, 0, 0, 0, 0]), (0, [0; 5]));
    let mut answer = [7; 5];
    compared.same("the number of a pattern", (told::dictionary_number(p, &mut answer), answer), gives(number));
    let (mut lent, mut answer) = (vec![77; n], [7; 5]);
    compared.same("the pattern of a number", (told::dictionary_pattern(number, &mut lent, &mut answer), answer), nothing);
    compared.same("the pattern as it was lent", &lent[..], p);
    let mut answer = [7; 5];
    compared.same("the next", (told::dictionary_next(&mut lent, &mut answer), answer), nothing);
    compared.same("the next as it was lent", &lent[..], next);
    let mut answer = [7; 5];
    compared.same("a number to a rank", (told::number_to_rank(ports, number, &mut answer), answer), gives(rank));
    let mut answer = [7; 5];
    compared.same("a rank to a number", (told::rank_to_number(ports, rank, &mut answer), answer), gives(number));
}

/// Pairs of neighbours exchanged: 2143.. for even n; for odd n the last three jacks go round, 2 1 .. n-1 n n-2.
fn first(n: u8) -> Vec<u8> {
    let pairs = if n % 2 == 0 { n } else { n - 3 };
    let mut p: Vec<u8> = (1..=pairs).map(|jack| if jack % 2 == 1 { jack + 1 } else { jack - 1 }).collect();
    p.extend([n - 1, n, n - 2].iter().filter(|_| n % 2 == 1));
    p
}

/// n, n-1, .., 1 for even n; for odd n the jack in the middle would have its own port, so it has that of the jack after it, which gets the middle one.
fn last(n: u8) -> Vec<u8> {
    let mut p: Vec<u8> = (1..=n).rev().collect();
    if n % 2 == 1 {
        p.swap(usize::from(n) / 2, usize::from(n) / 2 + 1);
    }
    p
}

pub fn counted_by_hand(compared: &mut Compared) {
    calls(compared, &[2, 1], 0, 0, &[2, 1]);
    calls(compared, &[2, 3, 1], 0, 0, &[3, 1, 2]);
    calls(compared, &[3, 1, 2], 1, 1, &[2, 3, 1]);
    for (number, (row, rank)) in FOUR.iter().enumerate() {
        calls(compared, &pattern(row), number as u64, *rank, &pattern(FOUR[(number + 1) % 9].0));
    }
    compared.same("44 patterns of 5 ports", listed(5, &[]).len(), 44);
    for port in 2..=5 {
        compared.same("eleven of them with each first port", (listed(5, &[port]).len(), with_beginning(5, &[port])), (11, 11));
    }
    for (row, number, rank) in FIVE {
        calls(compared, &pattern(row), number, rank, &listed(5, &[])[(number as usize + 1) % 44]);
    }
    compared.same("the first of 5 ports", first(5), pattern("21453"));
    for n in 2..=20 {
        let (ports, count) = (usize::from(n), count_of(n.into()));
        compared.same("the first pattern", dictionary::pattern(ports, 0), Ok(first(n)));
        compared.same("the last pattern", dictionary::pattern(ports, count - 1), Ok(last(n)));
        compared.same("last to first", dictionary::next(&last(n)), Ok(first(n)));
        // home before which come, for each jack from 2 on, those that begin as it does and then have port 1 there: the other jacks have their own ports left
        let home: Vec<u8> = (2..=n).chain([1]).collect();
        compared.same("the number of home", dictionary::number(&home), Ok((1..ports - 1).map(count_of).sum()));
        compared.same("rank 0 is home", dictionary::rank_to_number(ports, 0), dictionary::number(&home));
        // as many patterns have each first port but 1
        let block = count / (n as u128 - 1);
        for port in 2..=n {
            let (start, begins) = (block * (port as u128 - 2), |p: Vec<u8>| p[0]);
            compared.same("the first with a first port", dictionary::pattern(ports, start), Ok(first_with(ports, &[port]).expect("one is there")));
            compared.same("the last with it", dictionary::pattern(ports, start + block - 1).map(begins), Ok(port));
        }
    }
}

/// A refused call leaves the lent slice as it was, and its answer says the place and the second number.
fn leaves(compared: &mut Compared, p: &[u8], wanted: Refusal, call: impl Fn(&mut [u8], &mut told::Answer) -> u8) {
    let (mut lent, mut answer) = (p.to_vec(), [7; 5]);
    let number = call(&mut lent, &mut answer);
    compared.same("refused", (number, answer, &lent[..]), (wanted.number, [wanted.place, wanted.earlier, 0, 0, 0], p));
}

/// 'Refusals: 1, 3 to 6 as today, in the same order.'
pub fn refusals(compared: &mut Compared) {
    let [bad_ports, too_large] = [1, 6].map(|number| Refusal { number, place: 0, earlier: 0 });
    let faults: [(&[u8], Result<(), Refusal>); 9] = [
        (&[], refused(1, 0)),
        (&[1], refused(1, 0)),
        (&[9; 21], refused(1, 0)),
        (&[3, 1], refused(3, 1)),
        (&[2, 0, 0, 2], refused(3, 2)),
        (&[2, 2], refused_both(2, 1)),
        (&[2, 3, 4, 5, 3], refused_both(5, 2)),
        (&[1, 1], refused(5, 1)),
        (&[2, 1, 3, 3], refused(5, 3)),
    ];
    for (p, fault) in faults {
        let wanted = fault.expect_err("each is at fault");
        compared.same("as the check refuses", check(p), Err(wanted));
        leaves(compared, p, wanted, |p, a| told::dictionary_number(p, a));
        leaves(compared, p, wanted, |p, a| told::dictionary_next(p, a));
    }
    for n in 0..=255 {
        let p = vec![9; n.into()];
        let number = if (2..=20).contains(&n) { count_of(n.into()) as u64 } else { 0 };
        for number in [number, number + 1, u64::MAX] {
            let wanted = if (2..=20).contains(&n) { too_large } else { bad_ports };
            leaves(compared, &p, wanted, |p, a| told::dictionary_pattern(number, p, a));
            leaves(compared, &[], wanted, |_, a| told::number_to_rank(n, number, a));
            leaves(compared, &[], wanted, |_, a| told::rank_to_number(n, number, a));
        }
    }
}

/// A pattern with its number and the next one: by counting, by the search and in plain Rust; and 'translating there and back must return the number'.
fn every_way(compared: &mut Compared, p: &[u8], number: u128, next: &[u8]) {
    let n = p.len();
    compared.same("the number by counting", counted_number(p), number);
    compared.same("the pattern by counting", &counted_pattern(n, number)[..], p);
    compared.same("the next by the search", &searched_next(p)[..], next);
    compared.same("the calls", (dictionary::number(p), dictionary::pattern(n, number), dictionary::next(p)), (Ok(number), Ok(p.to_vec()), Ok(next.to_vec())));
    let ranked = dictionary::number_to_rank(n, number).expect("the number is below the count");
    compared.same("the rank of the same pattern", Ok(ranked), rank(p));
    compared.same("there and back", dictionary::rank_to_number(n, ranked), Ok(number));
    let mut array = vec![0; n];
    plain::pattern(number as u64, &mut array);
    compared.same("the pattern in plain Rust", &array[..], p);
    compared.same("the number in plain Rust", u128::from(plain::number(p)), number);
    compared.same("the rank in plain Rust", u128::from(plain::rank(p)), ranked);
    plain::next(&mut array);
    compared.same("the next in plain Rust", &array[..], next);
    plain::unrank(ranked as u64, &mut array);
    compared.same("the pattern of a rank in plain Rust", &array[..], p);
}

/// Every pattern of n ports, 2 to 8, beside the list, which has each pattern once and in order.
pub fn whole(n: usize, compared: &mut Compared) {
    let list = listed(n, &[]);
    compared.same("as many as there are patterns", (list.len() as u128, u128::from(plain::count(n))), (count_of(n), count_of(n)));
    compared.same("each after the one before it", list.windows(2).all(|two| two[0] < two[1]), true);
    for (number, p) in list.iter().enumerate() {
        compared.same("a pattern", check(p), Ok(()));
        every_way(compared, p, number as u128, &list[(number + 1) % list.len()]);
    }
    beginnings(n, &mut vec![], compared);
}

/// How many patterns begin so, and which is the first of them, beside those that are listed, of which there may be none; and so on with each port more.
fn beginnings(n: usize, beginning: &mut Vec<u8>, compared: &mut Compared) {
    let list = listed(n, beginning);
    compared.same("how many begin so", with_beginning(n, beginning), list.len() as u128);
    compared.same("the first that begins so", first_with(n, beginning).as_ref(), list.first());
    for port in 1..=n as u8 {
        if beginning.len() < n && usize::from(port) != beginning.len() + 1 && !beginning.contains(&port) {
            beginning.push(port);
            beginnings(n, beginning, compared);
            beginning.pop();
        }
    }
}

/// Patterns of n ports, 9 to 20: at the ends, about the first of each first port, about the first of each beginning of some, and spread over the numbers.
pub fn spread(n: usize, compared: &mut Compared) {
    let count = count_of(n);
    let mut about: Vec<u128> = (0..n as u128).map(|block| block * (count / (n as u128 - 1))).collect();
    for k in 1..40 {
        let number = (k * 0x9e37_79b9_7f4a_7c15) % count;
        about.push(number);
        let p = counted_pattern(n, number);
        about.extend((1..n).map(|jacks| counted_number(&first_with(n, &p[..jacks]).expect("one is there"))));
    }
    about.sort();
    about.dedup();
    for number in about.iter().flat_map(|number| [number + count - 1, *number]).map(|number| number % count) {
        let p = counted_pattern(n, number);
        compared.same("a pattern", check(&p), Ok(()));
        every_way(compared, &p, number, &counted_pattern(n, (number + 1) % count));
        compared.same("a rank there and back", unrank(n, number).map(|p| plain::rank(&p).into()), Ok(number));
    }
}
