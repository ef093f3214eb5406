//! Inputs for `bin/explain`, written into a folder, and what the reference prints of them:
//!
//!     texts FOLDER
//!
//! - `texts/0`, `texts/1`, ..: the inputs
//! - `wanted/0`, `wanted/1`, ..: what is to be printed of each, and the status on a last line
//! - `list`: of each input its name; its group: for patterns `every`, `ends`, `parts` or `chance`, for a fault the number of the refusal, for inputs that were
//!   damaged by chance `damaged`; where the fault is, in a word; the jack that the refusal must name, 0 for none; and what is in it

#[allow(dead_code)]
#[path = "../reference/inputs/patterns.rs"]
mod patterns;
#[allow(dead_code)]
#[path = "../reference/inputs/rng.rs"]
mod rng;

use reference::levels::{explained, parts, Read};
use reference::list::{at, count_of};
use rng::Rng;
use std::env::args;
use std::fs;
use std::io;

/// An input. It is held to its group and its jack; the places of the faults, each in a word, are counted by the test.
struct Input {
    group: String,
    place: &'static str,
    jack: usize,
    bytes: Vec<u8>,
}

/// The entries with commas between them.
fn entries(p: &[impl ToString]) -> String {
    p.iter().map(|entry| entry.to_string()).collect::<Vec<_>>().join(",")
}

// ---- patterns

fn good(group: &str, p: &[u8]) -> Input {
    Input { group: group.into(), place: "-", jack: 0, bytes: format!("{}\n", entries(p)).into() }
}

fn every() -> impl Iterator<Item = Input> {
    (2..=6).flat_map(|n| (0..count_of(n)).map(move |rank| good("every", &at(n, rank))))
}

/// Of each number of ports from 7 to 20: the first two and the last two ranks; the first and the last of half of the parts of relation (2); and some by chance,
/// of which many are made of the first or the last of a shorter list.
fn spread(rng: &mut Rng) -> Vec<Input> {
    let mut inputs = vec![];
    for n in 7..=20 {
        let count = count_of(n);
        inputs.extend([0, 1, count - 2, count - 1].map(|rank| good("ends", &at(n, rank))));
        let mut over = 0;
        for (k, part) in parts(n, Read::Forward).iter().enumerate() {
            let there = count_of(part.shorter(n));
            // of the two parts of each block the first for even n, the second for odd n: so A and B by turns, from either
            if k % 2 == n % 2 {
                inputs.extend([over, over + there - 1].map(|rank| good("parts", &at(n, rank))));
            }
            over += there;
        }
        inputs.extend((0..24).map(|_| good("chance", &patterns::pattern(rng, n))));
    }
    inputs
}

// ---- faults

/// A line with a fault: the number that it must meet, and the jack that the words must name.
fn fault(number: u8, jack: usize, line: impl AsRef<[u8]>) -> Input {
    let line = line.as_ref();
    let jacks = line.iter().filter(|&&byte| byte == b',').count() + 1;
    // no jack is before the first, so the first that can be equal to an earlier one is the second
    let first = if number == 4 { 2 } else { 1 };
    let place = match (number, jack) {
        (1, _) if jacks < 2 => "few",
        (1, _) => "many",
        (_, jack) if jack == jacks => "last",
        (_, jack) if jack == first => "first",
        _ => "middle",
    };
    Input { group: number.to_string(), place, jack, bytes: [line, b"\n"].concat() }
}

fn faults(number: u8, lines: &[(usize, &str)]) -> Vec<Input> {
    lines.iter().map(|(jack, line)| fault(number, *jack, line)).collect()
}

/// A good pattern, but for the entry at one jack: a text made of the port that is there.
fn with_entry(number: u8, p: &[u8], jack: usize, entry: impl Fn(u8) -> String) -> Input {
    let mut line: Vec<String> = p.iter().map(u8::to_string).collect();
    line[jack - 1] = entry(p[jack - 1]);
    fault(number, jack, entries(&line))
}

/// Such a fault at the first jack, at one in the middle and at the last, of 3, 5 and 20 ports by turns.
fn at_three_jacks(number: u8, bad: &[impl Fn(u8) -> String]) -> Vec<Input> {
    let mut inputs = vec![];
    for (k, entry) in bad.iter().enumerate() {
        let n = [3, 5, 20][k % 3];
        for jack in [1, 2 + k % (n - 2), n] {
            inputs.push(with_entry(number, &at(n, (k as u128 * 7) % count_of(n)), jack, entry));
        }
    }
    inputs
}

/// Entries that are no plain decimal numbers of at most 64 bits; the last ones leave what a good one does where higher digits are lost.
fn not_plain() -> Vec<Input> {
    const TEXTS: [&str; 43] = [
        "", " ", "x", "A", "00", "+0", "-0", "-1", "+", "-", "\t", "\r", "\0", "/", ":", "0x1", "1.0", "1e0", "1;2", "1 2", "1_0", "1/", ":1", "1\0", "\u{1}1",
        "1\u{b}", "\u{661}", "\u{ff11}", "\u{feff}1", "\u{b2}", "one", "18446744073709551616", "18446744073709551617", "18446744073709551625",
        "19446744073709551615", "28446744073709551615", "99999999999999999999", "100000000000000000000", "184467440737095516150", "00000000000000000000",
        "000000000000000000001", "340282366920938463463374607431768211456", "1111111111111111111111111111111111111111111111111111111111111111111111111",
    ];
    let before = |front: &'static str| move |port: u8| format!("{front}{port}");
    let after = |back: &'static str| move |port: u8| format!("{port}{back}");
    let above = |high: u128| move |port: u8| (high + u128::from(port)).to_string();
    let mut inputs = at_three_jacks(8, &TEXTS.map(|text| move |_: u8| text.to_string()));
    inputs.extend(at_three_jacks(8, &["0", "00", "+", "-", " ", "\t", "\0"].map(before)));
    inputs.extend(at_three_jacks(8, &[" ", "\t", "\r", "\0", "x", "-", "."].map(after)));
    inputs.extend(at_three_jacks(8, &[1 << 64, 10 << 64, 1 << 65, 1 << 72, 1 << 96].map(above)));
    let lines: [(usize, &[u8]); 5] = [(1, b"\xff\xfe2\x00,\x001\x00"), (2, b"2,\xff"), (1, b"\xef\xbb\xbf2,1"), (2, b"2,1\x80"), (1, b"\xb2,1")];
    inputs.extend(lines.map(|(jack, line)| fault(8, jack, line)));
    inputs.extend(faults(8, &[(2, "2,1\r"), (5, "5,4,2,3,1\r"), (5, "5,4,2,3,1 "), (5, "5,4,2,3,1\0")]));
    inputs
}

/// Entries that are no ports; the last ones leave the port that is there where only some of their bits are looked at.
fn none_of_the_ports() -> Vec<Input> {
    const TEXTS: [&str; 14] = [
        "0", "21", "22", "99", "255", "256", "300", "512", "65536", "4294967296", "9223372036854775808", "10000000000000000000", "18446744073709551614",
        "18446744073709551615",
    ];
    let above = |high: u64| move |port: u8| (high + u64::from(port)).to_string();
    let mut inputs = at_three_jacks(3, &TEXTS.map(|text| move |_: u8| text.to_string()));
    inputs.extend(at_three_jacks(3, &[1 << 8, 1 << 9, 1 << 16, 1 << 32, 1 << 63].map(above)));
    for n in 2..=20 {
        let p = at(n, count_of(n) / 2);
        inputs.extend([1, n].map(|jack| with_entry(3, &p, jack, |_| (n + 1).to_string())));
    }
    inputs
}

/// Home of n ports, 2, 3, .., n, 1, with the entry at one jack made equal to that of an earlier jack; at the very next jack it is also the jack's own number.
fn repeated(n: usize, earlier: usize, jack: usize) -> Input {
    let p = at(n, 0);
    with_entry(4, &p, jack, |_| p[earlier - 1].to_string())
}

fn with_pairs() -> Vec<Input> {
    let mut inputs = vec![];
    for n in 2..=5 {
        inputs.extend((2..=n).flat_map(|jack| (1..jack).map(move |earlier| repeated(n, earlier, jack))));
    }
    inputs.extend([(1, 2), (1, 3), (1, 11), (1, 20), (9, 10), (9, 11), (10, 20), (18, 19), (18, 20), (19, 20)].map(|(i, j)| repeated(20, i, j)));
    inputs
}

/// A pattern of n ports but for one jack with its own number: the jacks before it and those after it are patterns among themselves, as home is.
fn with_own(n: usize, jack: usize) -> Input {
    let round = |from: usize, to: usize| (from + 1..=to).chain((from..=to).take(1));
    let p: Vec<usize> = round(1, jack - 1).chain([jack]).chain(round(jack + 1, n)).collect();
    fault(5, jack, entries(&p))
}

fn with_own_numbers() -> Vec<Input> {
    let mut inputs = faults(5, &[(1, "1,2"), (1, "1,1"), (1, "1,3,2"), (2, "3,2,1"), (3, "2,1,3"), (2, "4,2,1,3"), (2, "5,2,1,3,4")]);
    for n in 4..=20 {
        inputs.extend([1, n / 2 + 1, n].map(|jack| with_own(n, jack)));
    }
    inputs
}

/// So many entries, each the same.
fn of_length(jacks: usize, entry: &str) -> String {
    entries(&vec![entry; jacks])
}

fn of_other_lengths() -> Vec<Input> {
    let mut inputs = faults(1, &["0", "1", "2", "20", "21", "255", "256", "258", "300", "18446744073709551615"].map(|entry| (0, entry)));
    // good but for their length, which is a good one where only eight bits of it are looked at
    for jacks in [21, 22, 23, 32, 40, 255, 256, 257, 258, 259, 276] {
        inputs.push(fault(1, 0, entries(&(2..=jacks).chain([1]).collect::<Vec<_>>())));
    }
    inputs.extend(["0", "1", "2", "9", "21", "300", "18446744073709551615"].map(|entry| fault(1, 0, of_length(21, entry))));
    inputs.extend([24, 128, 300, 511, 512].map(|jacks| fault(1, 0, of_length(jacks, "2"))));
    inputs
}

/// More than one fault, so that the order shows.
fn of_two_faults() -> Vec<Input> {
    let mut inputs = vec![];
    inputs.extend(faults(8, &[(1, ""), (1, "x"), (1, ","), (1, ",,"), (2, "1,"), (2, "2,x,y"), (3, "9,9,x"), (2, "0,x"), (5, "2,2,1,4,x"), (4, "1,2,3,x")]));
    inputs.extend(faults(8, &[(3, "2,1,"), (1, ",2,1"), (2, "2,,1"), (1, "2;1"), (1, "2 1"), (2, "2, 1"), (4, "9,9,9,01,9"), (2, "300,+1,300")]));
    for (before, after) in [(19, 0), (19, 1), (20, 0), (20, 1), (21, 0), (254, 5), (255, 5), (256, 5), (257, 0), (275, 1), (299, 1), (511, 0)] {
        inputs.push(fault(8, before + 1, format!("{},x{}", of_length(before, "1"), ",y".repeat(after))));
    }
    inputs.extend(faults(3, &[(2, "2,9,2,1"), (2, "2,9,3,1"), (2, "2,0,0"), (1, "9,9"), (1, "0,0"), (1, "0,2,2"), (3, "2,1,9,9"), (3, "2,3,256,3")]));
    inputs.extend(faults(3, &[(2, "4,9,3,4"), (1, "5,1,4,1"), (4, "2,1,4,5"), (4, "2,1,4,0"), (1, "18446744073709551615,1"), (2, "2,18446744073709551615")]));
    inputs.extend(faults(4, &[(2, "3,3,9,1"), (3, "2,1,2,4"), (3, "2,1,2,9"), (2, "2,2"), (2, "2,2,1"), (3, "3,1,3"), (5, "2,5,4,3,5"), (3, "3,1,3,3")]));
    inputs.extend(faults(4, &[(2, "3,3,3"), (3, "2,3,3,2"), (2, "2,2,2,2,2"), (4, "3,4,1,3,5"), (3, "4,3,3,4"), (2, "5,5,3,300,1"), (4, "2,1,4,4")]));
    inputs.extend(faults(5, &[(1, "1,9"), (1, "1,1,1"), (2, "3,2,2"), (3, "2,1,3,9"), (1, "1,300,300"), (3, "2,4,3,3"), (3, "2,1,3,3"), (4, "2,3,1,4,9")]));
    inputs
}

/// An input whose newline is missing, or not last, among the bytes that are judged.
fn unended(place: &'static str, bytes: Vec<u8>) -> Input {
    Input { group: "11".into(), place, jack: 0, bytes }
}

/// A line of so many bytes: entries of one digit, and for an even number of bytes the first of two.
fn filled(bytes: usize) -> String {
    let line = of_length(bytes.div_ceil(2), "1");
    if bytes % 2 == 1 {
        line
    } else {
        line.replacen('1', "10", 1)
    }
}

fn of_the_newline() -> Vec<Input> {
    let missing = ["", "2,1", "5,4,2,3,1", "2", "x", "9,9", "2,2", "1,2", ",", "\0", "\r", "2,1\r", "2,1\\n", "2,1\0", " "];
    let after = ["2,1\n\n", "2,1\nx", "2,1\n\0", "2,1\n ", "2,1\n\r", "2,1\n,", "2,1\n2,1\n", "2,1\n2,1", "5,4,2,3,1\n\n\n", "\n\n", "\n2,1\n", "x\nx"];
    let faulty = ["\nx", "1\n1", "9,9\n9\n", "2,2\n2", "1,2\n\n", ",\n,", "2,1\r\n\n", "2,1\r\n\r\n", "2\n,1\n"];
    let mut inputs: Vec<Input> = missing.iter().map(|text| unended("missing", text.as_bytes().to_vec())).collect();
    inputs.extend(after.iter().chain(&faulty).map(|text| unended("after", text.as_bytes().to_vec())));
    inputs
}

/// Inputs about 1,024 bytes long, of which no more are judged: a line that ends there may be followed by anything, and one that ends later has no newline.
fn of_1024_bytes() -> Vec<Input> {
    let mut inputs = vec![];
    for bytes in [1023, 1024, 1025, 2048, 4095, 4096, 4097, 100_000] {
        inputs.push(unended("missing", filled(bytes).into()));
        inputs.push(unended("missing", vec![b'1'; bytes]));
        inputs.push(unended("after", vec![b'\n'; bytes]));
        inputs.push(unended("after", [b"2,1\n", &vec![0; bytes - 4][..]].concat()));
        if bytes > 1023 {
            inputs.push(unended("missing", [filled(bytes).as_bytes(), b"\n"].concat()));
            inputs.push(unended("missing", [&vec![b','; bytes][..], b"\n2,1\n"].concat()));
        }
    }
    for (bytes, after) in [(1021, ""), (1022, ""), (1023, ""), (1023, "x"), (1023, "\n"), (1023, "2,1\n"), (1023, ",1\n"), (1023, "\0\0\n\n"), (1023, "1,1")] {
        for (number, jack, line) in [(1, 0, filled(bytes)), (8, 1, "1".repeat(bytes)), (8, 1, ",".repeat(bytes)), (8, 1, "x".repeat(bytes))] {
            let whole = fault(number, jack, line);
            inputs.push(Input { bytes: [&whole.bytes, after.as_bytes()].concat(), ..whole });
        }
    }
    for more in [1, 1000, 3071, 3072, 3073, 100_000] {
        let whole = fault(1, 0, filled(1023));
        inputs.push(Input { bytes: [whole.bytes.clone(), vec![b'1'; more]].concat(), ..whole });
        inputs.push(unended("after", [filled(1022).as_bytes(), b"\n", &vec![b'\n'; more]].concat()));
        inputs.push(unended("after", [filled(1021).as_bytes(), b"\n", &vec![b'1'; more]].concat()));
    }
    inputs
}

// ---- damage by chance

/// Some entries changed, or one to three bytes exchanged, taken out or put in.
fn damaged(rng: &mut Rng) -> Input {
    let n = patterns::ports(rng);
    let mut p = patterns::pattern(rng, n);
    let changes = rng.below(4);
    if changes == 0 {
        patterns::damage_entries(rng, &mut p);
    }
    let mut bytes = format!("{}\n", entries(&p)).into_bytes();
    for _ in 0..changes {
        let (place, byte) = (rng.below(bytes.len()), rng.pick(b"00112239,,,\n\n\r \0-+x/:\xff"));
        match rng.below(3) {
            0 => bytes[place] = byte,
            1 => drop(bytes.remove(place)),
            _ => bytes.insert(place, byte),
        }
    }
    Input { group: "damaged".into(), place: "-", jack: 0, bytes }
}

/// The front of an input for people: bytes that are no letters, digits or signs by their numbers.
fn shown(bytes: &[u8]) -> String {
    let byte = |&byte: &u8| if byte.is_ascii_graphic() && byte != b'\\' { char::from(byte).to_string() } else { format!("<{byte:02x}>") };
    format!("{} ({} bytes)", bytes.iter().take(70).map(byte).collect::<String>(), bytes.len())
}

fn main() -> io::Result<()> {
    let folder = args().nth(1).expect("usage: texts FOLDER");
    let mut rng = Rng::of(20, "levels", 0);
    let mut inputs: Vec<Input> = every().chain(spread(&mut rng)).collect();
    for some in [not_plain(), none_of_the_ports(), with_pairs(), with_own_numbers(), of_other_lengths(), of_two_faults(), of_the_newline(), of_1024_bytes()] {
        inputs.extend(some);
    }
    inputs.extend((0..200).map(|_| damaged(&mut rng)));
    let mut list = String::new();
    for made in ["texts", "wanted"] {
        fs::create_dir(format!("{folder}/{made}"))?;
    }
    for (name, Input { group, place, jack, bytes }) in inputs.iter().enumerate() {
        let (mut wanted, status) = explained(bytes);
        wanted.extend(format!("status={status}\n").bytes());
        fs::write(format!("{folder}/texts/{name}"), bytes)?;
        fs::write(format!("{folder}/wanted/{name}"), wanted)?;
        list += &format!("{name} {group} {place} {jack} {}\n", shown(bytes));
    }
    fs::write(format!("{folder}/list"), list)
}
