//! Order lines, in words and as text.

use super::{permutation, wide, Rng};
use reference::text::Line;

/// The words of a line: mostly an order in shape on n jacks, else anything. Words that a kind has no use for hold anything.
pub fn line_words(rng: &mut Rng, n: usize) -> [u64; 4] {
    let kind = match rng.below(12) {
        0 => wide(rng),
        1 => rng.between(0, 7) as u64,
        2 => 256 + rng.between(0, 7) as u64,
        _ => rng.pick(&[1, 2, 3, 4, 6]),
    };
    let mut words = [kind, wide(rng), wide(rng), wide(rng)];
    if kind <= 2 || kind == 6 || rng.chance(10) {
        let jacks = permutation(rng, n.max(3));
        let mut three = [jacks[0], jacks[1], jacks[2]].map(u64::from);
        if kind == 1 {
            three[..2].sort();
        } else if kind != 6 {
            let least = (0..3).min_by_key(|&j| three[j]).expect("three jacks");
            three.rotate_left(least);
        }
        words[1..].copy_from_slice(&three);
        if rng.chance(40) {
            let j = rng.between(1, 3);
            words[j] = match rng.below(6) {
                0 => words[rng.between(1, 3)],
                1 => words[j] + rng.pick(&[256, 1 << 32]),
                2 => rng.pick(&[0, 20, 21, n as u64, n as u64 + 1]),
                3 => rng.between(1, 22) as u64,
                _ => wide(rng),
            };
        }
    }
    words
}

/// A line that a campaign may write.
pub fn line(rng: &mut Rng) -> Line {
    let jacks = permutation(rng, 20);
    let mut three = [jacks[0], jacks[1], jacks[2]].map(u64::from);
    three.sort();
    let [a, b, c] = three;
    match rng.below(5) {
        0 => Line::Swap(a, b),
        1 if rng.chance(50) => Line::Turn(a, b, c),
        1 => Line::Turn(a, c, b),
        2 => Line::Mark(wide(rng), wide(rng)),
        3 => Line::Seat(jacks[3].into()),
        _ => Line::End(wide(rng)),
    }
}

/// A number as text: good, or bad in one of the ways that the paper names.
pub fn number_text(rng: &mut Rng) -> String {
    const SHOWN: [&str; 22] = [
        "", "0", "00", "01", "+1", "-1", "-0", "-", " 1", "1 ", "1\r", "0x1", "20", "21", "256", "257", "276", "18446744073709551615",
        "18446744073709551616", "18446744073709551626", "28446744073709551615", "99999999999999999999999999999999999999999",
    ];
    if rng.chance(70) {
        return rng.pick(&SHOWN).to_string();
    }
    wide(rng).to_string()
}

/// One to three bytes changed, put in or taken out, or the text cut short.
pub fn damage_text(rng: &mut Rng, text: &mut Vec<u8>) {
    const NEAR: &[u8] = b"0123456789,=-+\n\r swaptunmkedrlgi\0\xff";
    for _ in 0..rng.between(1, 3) {
        let place = rng.below(text.len() + 1);
        let byte = rng.pick(NEAR);
        match rng.below(4) {
            0 => text.insert(place, byte),
            1 if place < text.len() => text[place] = byte,
            2 if place < text.len() => {
                text.remove(place);
            }
            3 => text.truncate(place),
            _ => {}
        }
    }
}

/// The text of a line: good, with numbers of every sort, or damaged byte by byte.
pub fn line_text(rng: &mut Rng) -> Vec<u8> {
    match rng.below(5) {
        0 | 1 => line(rng).text(),
        2 => {
            let mut text = line(rng).text();
            damage_text(rng, &mut text);
            text
        }
        3 => {
            let jacks = line_words(rng, 20);
            let key = rng.pick(&["swap=", "turn=", "mark=", "end=", "seat="]);
            let numbers: Vec<String> = jacks[1..rng.between(2, 4)].iter().map(u64::to_string).collect();
            format!("{key}{}\n", numbers.join(",")).into_bytes()
        }
        _ => {
            let key = rng.pick(&["swap=", "turn=", "mark=", "end=", "seat=", "swap", "end", "seat", "Swap=", " end=", "set=", "=", ""]);
            let numbers: Vec<String> = (0..rng.below(5)).map(|_| number_text(rng)).collect();
            let newline = rng.pick(&["\n", "\n", "\n", "\r\n", ""]);
            format!("{key}{}{newline}", numbers.join(",")).into_bytes()
        }
    }
}

/// Several lines, and the place where one of them starts, or another place.
pub fn lines_and_place(rng: &mut Rng) -> (Vec<u8>, usize) {
    let mut text = vec![];
    for _ in 0..rng.below(3) {
        text.extend(line(rng).text());
    }
    let start = text.len();
    text.extend(line_text(rng));
    for _ in 0..rng.below(2) {
        text.extend(line(rng).text());
    }
    let place = match rng.below(10) {
        0 => rng.pick(&[text.len(), text.len() + 1, usize::MAX, usize::MAX - 1, usize::MAX - text.len(), 1 << 63, 1 << 32]),
        1 => rng.below(text.len() + 2),
        _ => start,
    };
    (text, place)
}
