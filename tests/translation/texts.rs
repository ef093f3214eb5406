//! Texts for `bin/translate`, written into a folder:
//!
//!     texts FOLDER
//!
//! - `every`: every rank, number and pattern of 2 to 6 ports
//! - `chance`: ranks, numbers and patterns of 7 to 20 ports by chance, the ports changed every few lines
//! - `0`, `1`, ..: texts at the limits of length, and texts with one bad line, in two of four places: first, in the middle, last, and last without its newline
//! - `list`: of each of these its name, the number of the refusal that it must meet, 0 for none, its line, and what is in it

#[allow(dead_code)]
#[path = "../reference/inputs/rng.rs"]
mod rng;

use reference::list::{at, count_of};
use rng::Rng;
use std::env::args;
use std::fs;
use std::io;

/// So many bytes a good line has at most: those of a pattern of 20 ports.
const MOST: usize = 58;
const MEGABYTE: usize = 1 << 20;

fn entries(p: &[u8]) -> String {
    p.iter().map(u8::to_string).collect::<Vec<_>>().join(",")
}

/// The line of the pattern of a rank, without its newline.
fn pattern_line(n: usize, rank: u128) -> Vec<u8> {
    format!("pattern={}", entries(&at(n, rank))).into_bytes()
}

// ---- good lines

fn every() -> Vec<u8> {
    let mut text = vec![];
    for n in 2..=6 {
        text.extend(format!("ports={n}\n").bytes());
        for k in 0..count_of(n) {
            text.extend(format!("rank={k}\nnumber={k}\n").bytes());
            text.extend(pattern_line(n, k));
            text.push(b'\n');
        }
    }
    text
}

/// A rank or a number of n ports, often at an end.
fn below_count(rng: &mut Rng, n: usize) -> u128 {
    let count = count_of(n);
    if rng.chance(10) {
        rng.pick(&[0, 1, count - 2, count - 1])
    } else {
        rng.below_wide(count)
    }
}

fn chance(rng: &mut Rng, lines: usize) -> Vec<u8> {
    let (mut text, mut n) = (vec![], 0);
    for _ in 0..lines {
        if n == 0 || rng.chance(20) {
            n = rng.between(7, 20);
            text.extend(format!("ports={n}\n").bytes());
        }
        let k = below_count(rng, n);
        match rng.below(3) {
            0 => text.extend(format!("rank={k}").bytes()),
            1 => text.extend(format!("number={k}").bytes()),
            _ => text.extend(pattern_line(n, k)),
        }
        text.push(b'\n');
    }
    text
}

// ---- bad lines

/// A bad line, without its newline: the ports that hold there, 0 for none, and the number that it must meet.
struct Bad {
    ports: usize,
    line: Vec<u8>,
    number: u8,
}

fn bad(number: u8, ports: usize, lines: &[&str]) -> Vec<Bad> {
    lines.iter().map(|line| Bad { ports, line: line.as_bytes().to_vec(), number }).collect()
}

/// A line filled up with a byte.
fn filled(front: &str, byte: u8, length: usize) -> Vec<u8> {
    let mut line = front.as_bytes().to_vec();
    line.resize(length, byte);
    line
}

fn bad_lines() -> Vec<Bad> {
    let mut all = vec![];
    all.extend(bad(1, 4, &["ports=0", "ports=1", "ports=21", "ports=258", "ports=65538", "ports=4294967298", "ports=18446744073709551615"]));
    all.extend(bad(3, 4, &["pattern=0,1,4,3", "pattern=5,1,4,3", "pattern=2,1,4,5", "pattern=2,1,4,0", "pattern=258,1,4,3", "pattern=2,1,4,259"]));
    all.extend(bad(3, 4, &["pattern=2,65537,4,3", "pattern=18446744073709551615,1,4,3", "pattern=4,9,4,4"]));
    all.extend(bad(3, 20, &["pattern=2,1,4,3,6,5,8,7,10,9,12,11,14,13,16,15,18,17,20,21"]));
    all.extend(bad(4, 4, &["pattern=2,2,4,3", "pattern=3,4,1,1", "pattern=2,1,4,4", "pattern=2,1,2,0"]));
    all.extend(bad(4, 20, &["pattern=2,1,4,3,6,5,8,7,10,9,12,11,14,13,16,15,18,17,20,20"]));
    all.extend(bad(5, 4, &["pattern=1,2,4,3", "pattern=2,1,3,4", "pattern=2,3,1,4", "pattern=1,1,1,1"]));
    all.extend(bad(5, 20, &["pattern=2,1,4,3,6,5,8,7,10,9,12,11,14,13,16,15,18,17,19,20"]));
    all.extend(bad(6, 2, &["rank=1", "number=1"]));
    all.extend(bad(6, 4, &["rank=9", "number=9", "rank=18446744073709551615", "number=265"]));
    all.extend(bad(6, 20, &["rank=895014631192902121", "number=895014631192902121"]));
    all.extend(bad(7, 0, &["rank=0", "number=0", "pattern=2,1", "rank=x", "pattern="]));
    all.extend(bad(7, 4, &["", " ", "\r", "\0", "x", "=", "rank", "number", "pattern", "ports", "rank 0", "Rank=0", " rank=0", "rank =0", "ranks=0"]));
    all.extend(bad(7, 4, &["mark=0", "legs=1", "#rank=0", "\u{feff}rank=0", "\0rank=0", "ports\0=4", "port=4", "numbers=0", "patterns=2,1,4,3"]));
    all.extend(bad(8, 4, &["ports=", "rank=", "number=", "pattern=", "ports=04", "rank=01", "number=00", "rank=+1", "rank=-1", "rank=-0", "rank= 1"]));
    all.extend(bad(8, 4, &["rank=1 ", "rank=1\r", "ports=4\r", "number=1\t", "rank=1,2", "rank=x", "number=1x", "rank=0x1", "rank=1.0", "rank=1\0"]));
    all.extend(bad(8, 4, &["rank=\0", "rank==1", "rank=18446744073709551616", "number=99999999999999999999", "ports=18446744073709551616"]));
    all.extend(bad(8, 4, &["pattern=2,1,4", "pattern=2,1,4,3,5", "pattern=9", "pattern=2,1", "pattern=2,,4,3", "pattern=,2,1,4", "pattern=2,1,4,"]));
    all.extend(bad(8, 4, &["pattern=2,1,4,3,", "pattern=2;1;4;3", "pattern=2 1 4 3", "pattern=2, 1,4,3", "pattern=02,1,4,3", "pattern=+2,1,4,3"]));
    all.extend(bad(8, 4, &["pattern=9,9", "pattern=2,1,4,18446744073709551616", "pattern=2,1,4,3\r", "pattern=2,1,4,3 ", "pattern=\0,1,4,3", "pattern=9,9,9,x"]));
    // of just as many bytes as a good line may have, and of one more: then neither the key nor the ports are looked at
    for (front, byte, number) in [("", b'x', 7), ("", 0, 7), ("rank=", b'1', 8), ("rank=", b'0', 8), ("ports=", b'4', 8), ("pattern=", b',', 8)] {
        all.push(Bad { ports: 4, line: filled(front, byte, MOST), number });
        all.push(Bad { ports: 4, line: filled(front, byte, MOST + 1), number: 8 });
    }
    all.push(Bad { ports: 0, line: filled("rank=0", b'x', MOST), number: 7 });
    all.push(Bad { ports: 0, line: filled("rank=0", b'x', MOST + 1), number: 8 });
    all.extend(bad(8, 20, &["pattern=21,1,4,3,6,5,8,7,10,9,12,11,14,13,16,15,18,17,20,19"]));
    for after in [b"\r", b",", b"0", b" "] {
        let line = [&pattern_line(20, 5), &after[..]].concat();
        all.push(Bad { ports: 20, line, number: 8 });
    }
    all
}

// ---- whole texts

/// A text: its lines, of which all but the last one end in a newline, and that one where `ended`; the refusal that it must meet, and where.
struct Text {
    lines: Vec<Vec<u8>>,
    ended: bool,
    number: u8,
    line: usize,
    what: String,
}

fn words(line: &[u8]) -> String {
    let shown: String = line.escape_ascii().to_string().chars().take(70).collect();
    format!("{shown} ({} bytes)", line.len())
}

/// The ports, where some hold, and good lines of them.
fn good(ports: usize) -> Vec<Vec<u8>> {
    if ports == 0 {
        return vec![];
    }
    let last = count_of(ports) - 1;
    vec![format!("ports={ports}").into(), b"rank=0".to_vec(), format!("number={last}").into(), pattern_line(ports, last)]
}

/// The places of a bad line among others.
const PLACES: [&str; 4] = ["first", "middle", "last", "unended"];

/// A text with a bad line in a place: the first that its ports allow, the middle, the last, or the last without its newline, which is 11 whatever the line is.
fn with_bad(bad: &Bad, place: &str) -> Text {
    let ports = good(bad.ports).into_iter().take(1).collect();
    let before = if place == "first" || bad.ports == 0 { ports } else { [good(20), good(3), good(bad.ports)].concat() };
    let after = if place == "first" || place == "middle" { good(5) } else { vec![] };
    let (line, number) = (before.len() + 1, if place == "unended" { 11 } else { bad.number });
    let what = format!("{place}: ports {}, {}", bad.ports, words(&bad.line));
    Text { lines: [before, vec![bad.line.clone()], after].concat(), ended: place != "unended", number, line, what }
}

/// Each bad line in two of the places, by turns. Of a line without its newline a byte is there at least.
fn with_each_bad() -> Vec<Text> {
    let mut texts = vec![];
    for (k, bad) in bad_lines().iter().enumerate() {
        texts.push(with_bad(bad, PLACES[k % 4]));
        texts.push(with_bad(bad, PLACES[(k + 1) % 4]));
    }
    texts.retain(|text| text.ended || text.lines.last().is_some_and(|line| !line.is_empty()));
    texts
}

/// A line that starts so many bytes before 64 KiB of the text have gone by.
fn at_border(before: usize, line: &[u8], ended: bool, number: u8) -> Text {
    let room = 65536 - before;
    let nine = if room % 8 == 0 { 8 } else { room % 8 };
    let mut lines = vec![b"ports=4".to_vec(); (room - 9 * nine) / 8];
    lines.resize(lines.len() + nine, b"ports=20".to_vec());
    let (at, what) = (lines.len() + 1, format!("{} {before} bytes before 64 KiB: {}", if ended { "a line" } else { "unended" }, words(line)));
    lines.push(line.to_vec());
    Text { lines, ended, number, line: if number == 0 { 0 } else { at }, what }
}

fn at_limits() -> Vec<Text> {
    let whole = |lines: Vec<Vec<u8>>, ended: bool, number: u8, line: usize, what: &str| Text { lines, ended, number, line, what: what.to_string() };
    let mut texts = vec![
        whole(vec![], false, 0, 0, "an empty text"),
        whole(vec![vec![]], true, 7, 1, "only a newline"),
        whole(vec![b"\0".to_vec()], false, 11, 1, "only a NUL"),
        whole(vec![b"ports=4".to_vec()], true, 0, 0, "only ports"),
        whole(vec![b"ports=4".to_vec()], false, 11, 1, "only ports, without the newline"),
        whole(good(20), true, 0, 0, "a line of 58 bytes, last"),
        whole(good(20), false, 11, 4, "a line of 58 bytes, last, without its newline"),
    ];
    for byte in [b'1', 0] {
        for (lines, name) in [(vec![], "first"), (good(4), "after others")] {
            let (line, long) = (lines.len() + 1, [lines, vec![filled("rank=", byte, MEGABYTE)]].concat());
            texts.push(whole([long.clone(), good(4)].concat(), true, 8, line, &format!("a line of 1 MB, {name}")));
            texts.push(whole(long, false, 11, line, &format!("a line of 1 MB without a newline, {name}")));
        }
    }
    let (exact, long) = (pattern_line(20, 7), [&pattern_line(20, 7)[..], b","].concat());
    for before in [0, 1, 2, 29, 57, 58, 59, 60, 61] {
        texts.push(at_border(before, &exact, true, 0));
        texts.push(at_border(before, &exact, false, 11));
        texts.push(at_border(before, &long, true, 8));
        texts.push(at_border(before, &long, false, 11));
        texts.push(at_border(before, &filled("x", b'x', 200), true, 8));
    }
    texts
}

fn main() -> io::Result<()> {
    let folder = args().nth(1).expect("usage: texts FOLDER");
    assert_eq!(pattern_line(20, 0).len(), MOST);
    let mut rng = Rng::of(20, "translation", 0);
    fs::write(format!("{folder}/every"), every())?;
    fs::write(format!("{folder}/chance"), chance(&mut rng, 6000))?;
    let texts = at_limits().into_iter().chain(with_each_bad());
    let mut list = String::new();
    for (k, text) in texts.enumerate() {
        let mut bytes = text.lines.join(&b'\n');
        if text.ended {
            bytes.push(b'\n');
        }
        fs::write(format!("{folder}/{k}"), bytes)?;
        list += &format!("{k} {} {} {}\n", text.number, text.line, text.what);
    }
    fs::write(format!("{folder}/list"), list)
}
