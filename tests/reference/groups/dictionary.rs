//! Groups on dictionary numbers: every pattern of 2 to 8 ports through all five calls; for 8 to 20 ports the ends of the order and of those with one beginning;
//! numbers, ranks and patterns of chance, walks, translations there and back; and what is refused, at each length, port count and jack.

use super::repeated::{one_self_join, put, with_pair};
use crate::calls::{Call, Name, Outcome};
use crate::inputs::{self, Rng};
use crate::Harness;
use reference::dictionary::counted_pattern;
use reference::list::{at, count_of};

/// A call was accepted and gives this number alone.
fn gives(h: &mut Harness, what: &str, found: Outcome, value: u64) {
    h.compare_made(what, 0, (found.number, found.answer), (0, [value, 0, 0, 0, 0]));
}

/// 'Translating there and back must return the number.' Answers the rank of the number.
fn number_and_back(h: &mut Harness, ports: u8, number: u64) -> u64 {
    let rank = h.compare(Call::plain(Name::NumberToRank { ports, number })).answer[0];
    let back = h.compare(Call::plain(Name::RankToNumber { ports, rank }));
    gives(h, "a number there and back", back, number);
    rank
}

fn rank_and_back(h: &mut Harness, ports: u8, rank: u64) {
    let number = h.compare(Call::plain(Name::RankToNumber { ports, rank })).answer[0];
    let back = h.compare(Call::plain(Name::NumberToRank { ports, number }));
    gives(h, "a rank there and back", back, rank);
}

/// A step of a walk in dictionary order: the next pattern, whose number is one more, or 0 after the last.
fn step(h: &mut Harness, pattern: Vec<u8>, number: u64) -> (Vec<u8>, u64) {
    let next = (number + 1) % count_of(pattern.len()) as u64;
    let there = h.compare(Call::on_bytes(Name::DictionaryNext, pattern)).bytes;
    let found = h.compare(Call::on_bytes(Name::DictionaryNumber, there.clone()));
    gives(h, "the number of the next", found, next);
    (there, next)
}

/// A number below the count through all five calls: its pattern, of which it is the number; the next; and the rank of the same pattern, there and back.
fn through_all(h: &mut Harness, rng: &mut Rng, n: usize, number: u64) {
    let pattern = h.compare(Call::on_bytes(Name::DictionaryPattern { number }, rng.bytes(n))).bytes;
    let found = h.compare(Call::on_bytes(Name::DictionaryNumber, pattern.clone()));
    gives(h, "the number of a number's pattern", found, number);
    let rank = number_and_back(h, n as u8, number);
    let found = h.compare(Call::on_bytes(Name::Rank, pattern.clone()));
    gives(h, "the rank of the same pattern", found, rank);
    step(h, pattern, number);
}

/// Every number and every rank of 2 to 8 ports.
pub fn small_dictionaries(h: &mut Harness) {
    let mut rng = Rng::of(h.seed, "dictionary, all patterns of 2 to 8 ports", 0);
    for n in 2..=8 {
        for number in 0..count_of(n) as u64 {
            through_all(h, &mut rng, n, number);
            rank_and_back(h, n as u8, number);
        }
    }
}

/// The numbers of 8 to 20 ports about the ends of the order, about the first with each first port, and about the ends of those with a beginning of each length;
/// and numbers that are not below the count.
pub fn dictionary_ends(h: &mut Harness) {
    let mut rng = Rng::of(h.seed, "dictionary, ends", 0);
    for n in 8..=20 {
        let count = count_of(n);
        let mut ends: Vec<u128> = (0..n as u128).map(|port| port * (count / (n as u128 - 1))).collect();
        for jacks in 1..n {
            for _ in 0..20 {
                ends.extend(inputs::ends_of_beginning(&mut rng, n, jacks));
            }
        }
        for end in ends {
            for beside in [count - 1, 0, 1] {
                through_all(h, &mut rng, n, ((end + beside) % count) as u64);
            }
        }
        for beyond in [count, count + 1, 2 * count, 1 << 63, u64::MAX.into()] {
            on_number(h, &mut rng, n, beyond as u64);
        }
    }
}

/// The number that a call on so many ports and a number is refused with, 0 where it is accepted.
fn refused_with(ports: usize, number: u64) -> u8 {
    match ports {
        2..=20 if u128::from(number) < count_of(ports) => 0,
        2..=20 => 6,
        _ => 1,
    }
}

/// A call on so many ports and a number, which is refused for these at no place, or accepted.
fn on_ports(h: &mut Harness, call: Call, ports: usize, number: u64) {
    match refused_with(ports, number) {
        0 => drop(h.compare(call)),
        refusal => h.compare_refused(call, refusal, [0; 5]),
    }
}

/// The calls that take a number or a rank, on so many ports.
fn on_number(h: &mut Harness, rng: &mut Rng, n: usize, number: u64) {
    on_ports(h, Call::on_bytes(Name::DictionaryPattern { number }, rng.bytes(n)), n, number);
    if let Ok(ports) = n.try_into() {
        on_ports(h, Call::plain(Name::NumberToRank { ports, number }), n, number);
        on_ports(h, Call::plain(Name::RankToNumber { ports, rank: number }), n, number);
    }
}

/// Slices of every length up to 25 and of long ones, some of which are a length of 2 to 20 in eight bits or in sixteen; every byte as a number of ports.
pub fn lengths_and_ports(h: &mut Harness) {
    let mut rng = Rng::of(h.seed, "dictionary, lengths and ports", 0);
    for length in (0..=255).chain([256, 258, 276, 1000, 65_538, 65_556, 70_000]) {
        let count = if (2..=20).contains(&length) { count_of(length) as u64 } else { 9 };
        for number in [0, 1, 8, count - 1, count, count + 1, 1 << 32, 1 << 63, u64::MAX] {
            on_number(h, &mut rng, length, number);
        }
        if (26..255).contains(&length) {
            continue;
        }
        let home: Vec<u8> = (1..=length).map(|jack| (jack % length + 1) as u8).collect();
        for slice in [home, vec![0; length], vec![1; length], vec![2; length], rng.bytes(length)] {
            for name in [Name::DictionaryNumber, Name::DictionaryNext] {
                let call = Call::on_bytes(name, slice.clone());
                if (2..=20).contains(&length) {
                    h.compare(call);
                } else {
                    h.compare_refused(call, 1, [0; 5]);
                }
            }
        }
    }
}

/// Both calls that take a pattern are refused so, and leave it.
fn faulty(h: &mut Harness, entries: Vec<u8>, number: u8, jack: u8, earlier: u8) {
    for name in [Name::DictionaryNumber, Name::DictionaryNext] {
        h.compare_refused(Call::on_bytes(name, entries.clone()), number, [jack.into(), earlier.into(), 0, 0, 0]);
    }
}

/// Each of 3, 4 and 5 at every jack of 2 to 20 ports, 4 with every earlier jack: in the first pattern in dictionary order, the last, home, and some of chance.
pub fn dictionary_faults(h: &mut Harness) {
    let mut rng = Rng::of(h.seed, "dictionary, faults", 0);
    for n in 2..=20 {
        let (ports, count) = (usize::from(n), count_of(n.into()));
        let mut patterns = vec![counted_pattern(ports, 0), counted_pattern(ports, count - 1), at(ports, 0)];
        patterns.extend((0..5).map(|_| inputs::numbered(&mut rng, ports)));
        for pattern in patterns {
            for jack in 1..=n {
                for wrong in [0, n + 1, 128, 128 + jack, 255] {
                    faulty(h, put(&pattern, jack, wrong), 3, jack, 0);
                }
                for earlier in 1..jack {
                    faulty(h, with_pair(&pattern, earlier, jack), 4, jack, earlier);
                }
            }
        }
        for jack in 1..=n {
            if n > 2 {
                faulty(h, one_self_join(n, jack), 5, jack, 0);
            }
            // every jack from this one on has its own port, and those before it are a home by themselves, which one jack alone cannot be
            if jack != 2 {
                let own = (2..jack).chain([1]).take(usize::from(jack) - 1).chain(jack..=n).collect();
                faulty(h, own, 5, jack, 0);
            }
        }
    }
}

/// Bytes that are a pattern, nearly one, or none; half of the time the pattern of a number.
pub fn on_numbered(h: &mut Harness, rng: &mut Rng, name: Name) {
    let n = inputs::ports(rng);
    let bytes = if rng.chance(50) { inputs::any_pattern(rng) } else { inputs::numbered(rng, n) };
    h.compare(Call::on_bytes(name, bytes));
}

pub fn dictionary_pattern(h: &mut Harness, rng: &mut Rng) {
    let length = if rng.chance(10) { rng.pick(&inputs::BAD_LENGTHS) } else { inputs::ports(rng) };
    let number = inputs::any_number(rng, length);
    h.compare(Call::on_bytes(Name::DictionaryPattern { number }, rng.bytes(length)));
}

/// A number of ports that is mostly one.
fn ports(rng: &mut Rng) -> u8 {
    if rng.chance(10) {
        rng.byte()
    } else {
        inputs::ports(rng) as u8
    }
}

pub fn number_to_rank(h: &mut Harness, rng: &mut Rng) {
    let ports = ports(rng);
    let number = inputs::any_number(rng, ports.into());
    h.compare(Call::plain(Name::NumberToRank { ports, number }));
}

pub fn rank_to_number(h: &mut Harness, rng: &mut Rng) {
    let ports = ports(rng);
    let rank = inputs::any_rank(rng, ports.into());
    h.compare(Call::plain(Name::RankToNumber { ports, rank }));
}

/// Some steps in dictionary order, from a place of chance, or over the last to the first.
pub fn dictionary_walks(h: &mut Harness, rng: &mut Rng) {
    let (n, steps) = (inputs::ports(rng), rng.between(2, 30));
    let count = count_of(n);
    let start = if rng.chance(30) { (2 * count - 1 - rng.below_wide(steps as u128)) % count } else { inputs::number(rng, n) };
    let mut place = (counted_pattern(n, start), start as u64);
    for _ in 0..steps {
        place = step(h, place.0, place.1);
    }
}

/// A number and a rank of the same ports, each translated and back.
pub fn there_and_back(h: &mut Harness, rng: &mut Rng) {
    let n = inputs::ports(rng);
    let (number, rank) = (inputs::number(rng, n), inputs::rank(rng, n));
    number_and_back(h, n as u8, number as u64);
    rank_and_back(h, n as u8, rank as u64);
}
