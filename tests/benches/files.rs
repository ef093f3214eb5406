//! Files to add up: good ones, and such with each fault at each place that it can have.

use crate::rng::Rng;
use crate::{add, Case, MOST};
use reference::benches::dealt;
use reference::list::count_of;

fn line(three: [u64; 3]) -> String {
    format!("{},{},{}\n", three[0], three[1], three[2])
}

/// Counts by chance within the shares, one line for each bench.
fn good(rng: &mut Rng, ports: u64, benches: u64) -> Vec<String> {
    let mut three = |share: u128| {
        let closed = rng.below_wide(share + 1);
        let covered = rng.below_wide(closed + 1);
        line([covered as u64, (closed - covered) as u64, rng.below(65_536) as u64])
    };
    dealt(count_of(ports as usize), benches).into_iter().map(&mut three).collect()
}

/// Each share made into a line.
fn of_each(ports: u64, benches: u64, three: impl Fn(u64) -> [u64; 3]) -> String {
    dealt(count_of(ports as usize), benches).into_iter().map(|share| line(three(share as u64))).collect()
}

fn good_files(rng: &mut Rng) -> Vec<Case> {
    let mut cases = vec![];
    for ports in 2..=20 {
        for benches in [1, 2, 3, 4, 10, 44, 63, 64] {
            let mut file = |text: String| cases.push(add("add", ports, benches, text, None));
            file(good(rng, ports, benches).concat());
            file(of_each(ports, benches, |_| [0, 0, 0]));
            file(of_each(ports, benches, |share| [share, 0, 65_535]));
            file(of_each(ports, benches, |share| [share / 2, share - share / 2, 1]));
        }
    }
    cases
}

/// Numbers of benches and lines to put a fault in, each with its word: the first, one in the middle and the last.
const PLACES: [(u64, usize, &str); 5] = [(1, 1, "first"), (5, 1, "first"), (5, 3, "middle"), (5, 5, "last"), (64, 64, "last")];

/// A good file but for one line.
fn with_line(rng: &mut Rng, number: u8, at_bench: bool, bad: impl Fn(u64) -> Vec<u8>) -> Vec<Case> {
    let mut cases = vec![];
    for (benches, at, word) in PLACES {
        let mut lines: Vec<Vec<u8>> = good(rng, 6, benches).into_iter().map(String::into_bytes).collect();
        lines[at - 1] = bad(dealt(265, benches)[at - 1] as u64);
        let place = if at_bench { at - 1 } else { at } as u64;
        cases.push(add(&format!("add-{number}-{word}"), 6, benches, lines.concat(), Some((number, place))));
    }
    cases
}

/// Lines that are not exactly three plain decimals of at most 64 bits.
fn not_three(rng: &mut Rng) -> Vec<Case> {
    const LINES: [&str; 62] = [
        "", ",", ",,", ",,,", "1", "1,2", "1,2,", ",1,2", "1,,2", ",1,2,3", "1,2,3,", "1,2,,3", "1,2,3,4", "1,2,3,4,5,6", "x", "x,2,3", "1,x,3", "1,2,x",
        "1,2,3x", "1a,2,3", "0x1,2,3", "1e1,2,3", "1.0,2,3", "one,2,3", "01,2,3", "1,02,3", "1,2,03", "00,0,0", "0,00,0", "0,0,00", "+1,2,3", "1,+2,3",
        "1,2,+3", "-1,2,3", "1,-2,3", "1,2,-0", " 1,2,3", "1 ,2,3", "1, 2,3", "1,2, 3", "1,2,3 ", " ", "1 2 3", "1;2;3", "1,2;3", "\t1,2,3", "1,2,3\t", "\r",
        "1,2,3\r", "1,2\r,3", "1\0,2,3", "1,2,3\0", "18446744073709551616,0,0", "0,18446744073709551616,0", "0,0,18446744073709551616",
        "18446744073709551617,0,0", "0,0,36893488147419103232", "99999999999999999999,0,0", "0,340282366920938463463374607431768211456,0", "covered=1,2,3",
        "\u{661},2,3", "\u{feff}1,2,3",
    ];
    let mut cases: Vec<Case> = LINES.iter().flat_map(|text| with_line(rng, 8, false, |_| format!("{text}\n").into_bytes())).collect();
    cases.extend(with_line(rng, 8, false, |_| b"1,2,\xff\n".to_vec()));
    cases.extend(with_line(rng, 8, false, |_| b"\xb2,2,3\n".to_vec()));
    cases
}

/// Counts that no bench with such a share has: some are good ones in their lowest 64, 32 or 16 bits.
fn above_the_share(rng: &mut Rng) -> Vec<Case> {
    let bad: [fn(u64) -> [u64; 3]; 16] = [
        |share| [share + 1, 0, 0],
        |share| [0, share + 1, 0],
        |share| [share, 1, 0],
        |share| [1, share, 65_535],
        |_| [MOST, 0, 0],
        |_| [0, MOST, 0],
        |_| [MOST, 1, 0],
        |_| [1, MOST, 0],
        |share| [MOST, share + 1, 0],
        |_| [1 << 63, 1 << 63, 0],
        |_| [1 << 32, 0, 0],
        |share| [share, 0, 65_536],
        |_| [0, 0, 1 << 17],
        |_| [0, 0, 1 << 32],
        |_| [0, 0, MOST],
        |_| [MOST, MOST, MOST],
    ];
    let mut cases: Vec<Case> = bad.iter().flat_map(|three| with_line(rng, 27, true, |share| line(three(share)).into_bytes())).collect();
    // two ports have one pattern: no other bench has a plan
    cases.push(add("add-27-middle", 2, 3, "1,0,0\n0,1,0\n0,0,0\n", Some((27, 1))));
    cases.push(add("add-27-last", 2, 3, "0,1,9\n0,0,9\n1,0,0\n", Some((27, 2))));
    cases
}

/// The last line has no newline, whatever is in it.
fn unended(rng: &mut Rng) -> Vec<Case> {
    let mut cases = vec![];
    for last in ["0,0,0", "0,0,", "0,0", "0", ",", "x", " ", "\r", "\0", "0,0,0\r", "0,0,0\\n", "01,2,3", "18446744073709551616,0,0", "999,0,0", "1,2,3,4"] {
        for (benches, lines, word) in PLACES.into_iter().chain([(5, 6, "after"), (64, 65, "after")]) {
            let before = good(rng, 6, benches).into_iter().cycle().take(lines - 1).collect::<String>();
            cases.push(add(&format!("add-11-{word}"), 6, benches, before + last, Some((11, lines as u64))));
        }
    }
    cases.push(add("add-11-first", 6, 2, "0,0,0\r0,0,0\r", Some((11, 1))));
    cases
}

/// Good lines, but not one for each bench.
fn too_few_or_many(rng: &mut Rng) -> Vec<Case> {
    let mut cases = vec![];
    for (ports, benches) in [(2, 1), (2, 3), (6, 1), (6, 4), (6, 5), (20, 63), (20, 64)] {
        let lines = good(rng, ports, benches);
        let whole = lines.len();
        let mut file = |word: &str, text: String| cases.push(add(&format!("add-21-{word}"), ports, benches, text, Some((21, 0))));
        file("none", String::new());
        if whole > 1 {
            file("few", lines[0].clone());
            file("few", lines[..whole - 1].concat());
            file("few", lines[1..].concat());
        }
        file("many", lines.concat() + &lines[0]);
        file("many", "0,0,0\n".repeat(2 * whole));
        file("many", "0,0,0\n".repeat(256 + whole));
    }
    cases
}

/// More than one fault: the earlier in the order is the refusal.
fn two_faults() -> Vec<Case> {
    let files: [(u64, &str, u8, u64); 24] = [
        (3, "0,0,0\nx\n0,0,0", 8, 2),
        (3, "0,0,0\n0,0,0\nx", 11, 3),
        (3, "x\ny\nz\n", 8, 1),
        (3, "0,0,0\nx\n\n", 8, 2),
        (3, "x", 11, 1),
        (3, "x\n", 8, 1),
        (3, "0,0,0\n0", 11, 2),
        (3, "\n\n\n\n\n", 8, 1),
        (3, "0,0,0\n0,0,0\n0,0,0\n\n", 8, 4),
        (3, "0,0,0\n0,0,0\n0,0,0\n ", 11, 4),
        (3, "0,0,0\n0,0,0\n0,0,0\n0,0,0\n0", 11, 5),
        (3, "999,0,0\n0,0,0\n", 21, 0),
        (3, "999,0,0\n0,0,0\n0,0,0\n0,0,0\n", 21, 0),
        (3, "999,0,0\n0,0,0\nx\n", 8, 3),
        (3, "999,0,0\n0,0,0\n0,0,0", 11, 3),
        (3, "999,0,0\n0,0,0,0\n0,0,0", 8, 2),
        (3, "999,0,0\n0,999,0\n0,0,99999\n", 27, 0),
        (3, "0,0,0\n0,999,0\n0,0,99999\n", 27, 1),
        (3, "0,0,0\n0,0,65536\n999,0,0\n", 27, 1),
        (3, "0,0,65536\n999,0,0\n0,0,0\n", 27, 0),
        (1, "0,0,0\n999,0,0\n", 21, 0),
        (1, "999,0,0", 11, 1),
        (1, "999,0,99999\n", 27, 0),
        (64, "18446744073709551616,0,0\n999,0,0\n", 8, 1),
    ];
    files.into_iter().map(|(benches, text, number, place)| add("add-two", 6, benches, text, Some((number, place)))).collect()
}

/// Files about 4,096 bytes long, of which no more are judged. Good lines for 64 benches have 4,032 bytes at most, so none of these is accepted.
fn of_4096_bytes() -> Vec<Case> {
    // the second has 4,086 bytes
    let (ones, zeros) = ("1".repeat(4095), "0,0,0\n".repeat(681));
    let longest = line([MOST; 3]).repeat(64);
    let long = |after: &str| format!("{}{after}", of_each(20, 64, |share| [share, 0, 65_535]));
    let mut cases = vec![
        add("add-4096", 6, 1, format!("{ones}\n"), Some((8, 1))),
        add("add-4096", 6, 1, format!("{ones}1\n"), Some((11, 1))),
        add("add-4096", 6, 1, format!("{ones}\n0,0,0"), Some((8, 1))),
        add("add-4096", 6, 1, ones.repeat(25), Some((11, 1))),
        add("add-4096", 6, 1, format!("{ones}1\n{zeros}"), Some((11, 1))),
        add("add-4096", 6, 1, "\n".repeat(5000), Some((8, 1))),
        add("add-4096", 6, 64, zeros.repeat(25), Some((11, 683))),
        add("add-4096", 20, 64, &longest, Some((27, 0))),
        add("add-4096", 20, 64, long(""), None),
        add("add-4096", 20, 64, long(&"1".repeat(5000)), Some((11, 65))),
        add("add-4096", 20, 64, long("\n"), Some((8, 65))),
        add("add-4096", 20, 64, format!("{longest}{}\n", "1".repeat(63)), Some((8, 65))),
        add("add-4096", 20, 64, format!("{longest}{}\n", "1".repeat(64)), Some((11, 65))),
    ];
    for after in ["", "x", "\n", "0", "0,0,0", "0,0,0\n", "x\n", &ones] {
        // the newline is the last byte that is judged, and then the first that is not
        cases.push(add("add-4096", 6, 64, format!("{zeros}100,10,10\n{after}"), Some((21, 0))));
        cases.push(add("add-4096", 6, 64, format!("{zeros}100,100,10\n{after}"), Some((11, 682))));
        cases.push(add("add-4096", 6, 64, format!("{zeros}100,10,,\n\n{after}"), Some((8, 682))));
    }
    // one byte of a last line is judged
    for (after, number, line) in [("", 21, 0), ("\n", 8, 683), ("\n0", 8, 683), ("0", 11, 683), ("0,0,0\n", 11, 683), ("x\n", 11, 683)] {
        cases.push(add("add-4096", 6, 64, format!("{zeros}100,10,1\n{after}"), Some((number, line))));
    }
    cases
}

/// One to three bytes of a good file exchanged, taken out or put in; or a whole line taken out, put in twice or exchanged.
fn damaged(rng: &mut Rng) -> Case {
    let (ports, benches) = (rng.between(2, 20) as u64, rng.pick(&[1, 2, 3, 4, 5, 64]));
    let mut lines = good(rng, ports, benches);
    let at = rng.below(lines.len());
    match rng.below(4) {
        0 => drop(lines.remove(at)),
        1 => lines.insert(at, lines[at].clone()),
        2 => lines[at] = line([0, 1, 2].map(|_| rng.next() >> rng.below(64))),
        _ => {}
    }
    let mut bytes = lines.concat().into_bytes();
    for _ in 0..rng.below(3) {
        let (place, byte) = (rng.below(bytes.len() + 1), rng.pick(b"00112239,,,\n\n\r \0-+x/:\xff"));
        match rng.below(3) {
            0 if place < bytes.len() => bytes[place] = byte,
            1 if place < bytes.len() => drop(bytes.remove(place)),
            _ => bytes.insert(place, byte),
        }
    }
    add("add-damaged", ports, benches, bytes, None)
}

pub fn files(rng: &mut Rng) -> Vec<Case> {
    let mut cases = good_files(rng);
    for some in [unended(rng), not_three(rng), too_few_or_many(rng), above_the_share(rng), two_faults(), of_4096_bytes()] {
        cases.extend(some);
    }
    cases.extend((0..400).map(|_| damaged(rng)));
    cases
}
