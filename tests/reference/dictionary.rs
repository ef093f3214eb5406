//! Dictionary numbers: 'A partner lab numbers the same patterns in dictionary order, first jack first.' For 2 to 8 ports all patterns stand in a list and are
//! looked up in it. For 9 to 20 ports it is counted how many patterns have a given beginning, and the next one is searched from the last jack back, with
//! nothing counted. The self test holds the counting and the search to the lists.

use crate::list::{check, count, rank, unrank};
use crate::{refusal, Refusal, MOST_PORTS};

/// Up to so many ports the patterns are listed.
pub const MOST_LISTED: usize = 8;

/// The ports that the jack after a beginning may have, in rising order: not its own, and none that the beginning has.
fn choices(n: usize, beginning: &[u8]) -> impl Iterator<Item = u8> + '_ {
    let jack = beginning.len() as u8 + 1;
    (1..=n as u8).filter(move |&port| port != jack && !beginning.contains(&port))
}

/// A beginning, and one port more.
fn and(beginning: &[u8], port: u8) -> Vec<u8> {
    [beginning, &[port]].concat()
}

// ---- the lists

/// All patterns of n ports with a beginning, in dictionary order: the smallest port is tried first.
pub fn listed(n: usize, beginning: &[u8]) -> Vec<Vec<u8>> {
    if beginning.len() == n {
        return vec![beginning.to_vec()];
    }
    choices(n, beginning).flat_map(|port| listed(n, &and(beginning, port))).collect()
}

thread_local! {
    /// The list of each number of ports, made once.
    static LISTS: Vec<Vec<Vec<u8>>> = (0..=MOST_LISTED).map(|n| listed(n, &[])).collect();
}

/// What is found in the list of n ports.
fn in_list<T>(n: usize, look: impl FnOnce(&[Vec<u8>]) -> T) -> T {
    LISTS.with(|lists| look(&lists[n]))
}

/// The place of a pattern in the list, found as one finds a word in a dictionary.
fn place(list: &[Vec<u8>], p: &[u8]) -> usize {
    list.binary_search_by(|word| word[..].cmp(p)).expect("every pattern is listed")
}

// ---- how many have a beginning

fn factorial(n: usize) -> i128 {
    (1..=n as i128).product()
}

/// In how many ways so many jacks that are left take as many ports, where `own` of these jacks find their own port among them and may not take it. By inclusion
/// and exclusion: all ways, less those in which one of these jacks has its own port, more those in which two have, and so on.
fn ways(left: usize, own: usize) -> i128 {
    let with_own = |chosen: usize| factorial(own) / factorial(chosen) / factorial(own - chosen) * factorial(left - chosen);
    (0..=own).map(|chosen| if chosen % 2 == 0 { with_own(chosen) } else { -with_own(chosen) }).sum()
}

thread_local! {
    /// The ways by jacks left and own ports among theirs, worked out once.
    static WAYS: Vec<Vec<u128>> = (0..=MOST_PORTS).map(|left| (0..=left).map(|own| ways(left, own) as u128).collect()).collect();
}

/// How many patterns of n ports have a beginning.
pub fn with_beginning(n: usize, beginning: &[u8]) -> u128 {
    let taken = beginning.len();
    let own = (taken + 1..=n).filter(|&jack| !beginning.contains(&(jack as u8))).count();
    WAYS.with(|ways| ways[n - taken][own])
}

/// The number of a pattern: those before it begin as it does up to some jack, and have a smaller port there.
pub fn counted_number(p: &[u8]) -> u128 {
    let n = p.len();
    let smaller_at = |j: usize| choices(n, &p[..j]).filter(move |&port| port < p[j]).map(move |port| with_beginning(n, &and(&p[..j], port)));
    (0..n).flat_map(smaller_at).sum()
}

/// The pattern with a number among those with a beginning: whole groups with a longer beginning are passed over until the one that has it.
fn counted_from(n: usize, beginning: &[u8], number: u128) -> Vec<u8> {
    if beginning.len() == n {
        return beginning.to_vec();
    }
    let mut passed = 0;
    for port in choices(n, beginning) {
        let longer = and(beginning, port);
        let there = with_beginning(n, &longer);
        if number < passed + there {
            return counted_from(n, &longer, number - passed);
        }
        passed += there;
    }
    panic!("no pattern of {n} ports that begins with {beginning:?} has the number {number}");
}

/// The pattern of a number.
pub fn counted_pattern(n: usize, number: u128) -> Vec<u8> {
    counted_from(n, &[], number)
}

// ---- the search for the next

/// The first pattern with a beginning, if there is one: the smallest port is tried first.
pub fn first_with(n: usize, beginning: &[u8]) -> Option<Vec<u8>> {
    if beginning.len() == n {
        return Some(beginning.to_vec());
    }
    choices(n, beginning).find_map(|port| first_with(n, &and(beginning, port)))
}

/// The next pattern: from the last jack back the first jack that can have a larger port, the smallest such port, and the first pattern that begins so; 'last to
/// first' where no jack can.
pub fn searched_next(p: &[u8]) -> Vec<u8> {
    let n = p.len();
    let larger_at = |j: usize| choices(n, &p[..j]).filter(|&port| port > p[j]).find_map(|port| first_with(n, &and(&p[..j], port)));
    (0..n).rev().find_map(larger_at).or_else(|| first_with(n, &[])).expect("there is a pattern of 2 ports and more")
}

// ---- the calls

/// 'Pattern to dictionary number (from 0)'.
pub fn number(p: &[u8]) -> Result<u128, Refusal> {
    check(p)?;
    Ok(if p.len() <= MOST_LISTED { in_list(p.len(), |list| place(list, p) as u128) } else { counted_number(p) })
}

/// 'Number to pattern'.
pub fn pattern(ports: usize, number: u128) -> Result<Vec<u8>, Refusal> {
    if number >= count(ports)? {
        return Err(refusal(6));
    }
    Ok(if ports <= MOST_LISTED { in_list(ports, |list| list[number as usize].clone()) } else { counted_pattern(ports, number) })
}

/// 'Next in that order, last to first'.
pub fn next(p: &[u8]) -> Result<Vec<u8>, Refusal> {
    check(p)?;
    let in_order = |list: &[Vec<u8>]| list[(place(list, p) + 1) % list.len()].clone();
    Ok(if p.len() <= MOST_LISTED { in_list(p.len(), in_order) } else { searched_next(p) })
}

/// 'Translation of a number to our rank': the rank of the number's pattern.
pub fn number_to_rank(ports: usize, number: u128) -> Result<u128, Refusal> {
    rank(&pattern(ports, number)?)
}

/// 'And back': the number of the rank's pattern.
pub fn rank_to_number(ports: usize, rank: u128) -> Result<u128, Refusal> {
    number(&unrank(ports, rank)?)
}
