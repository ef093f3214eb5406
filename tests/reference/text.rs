//! Numbers, order lines and refusals as text.

use crate::{refusal, Refusal, MOST_PORTS};

/// An order line. A caller may hold any numbers in it.
#[derive(Clone, Copy, Debug, PartialEq, Eq)]
pub enum Line {
    Swap(u64, u64),
    Turn(u64, u64, u64),
    Mark(u64, u64),
    End(u64),
    Seat(u64),
}

impl Line {
    /// Whether the jacks of an order are jacks 1 to n, different and in the paper's form. A mark and an end have none.
    pub fn in_shape(self, n: u64) -> bool {
        let jack = |j: u64| 1 <= j && j <= n;
        match self {
            Line::Swap(a, b) => jack(a) && jack(b) && a < b,
            Line::Turn(a, b, c) => jack(a) && jack(b) && jack(c) && a < b && a < c && b != c,
            Line::Seat(j) => jack(j),
            Line::Mark(..) | Line::End(_) => true,
        }
    }

    /// The line's text, its newline included.
    pub fn text(self) -> Vec<u8> {
        match self {
            Line::Swap(a, b) => format!("swap={a},{b}\n"),
            Line::Turn(a, b, c) => format!("turn={a},{b},{c}\n"),
            Line::Mark(number, rank) => format!("mark={number},{rank}\n"),
            Line::End(marks) => format!("end={marks}\n"),
            Line::Seat(j) => format!("seat={j}\n"),
        }
        .into_bytes()
    }
}

/// 'Numbers are decimal, without leading zero or plus; 64 bits unsigned for the magnitude.'
pub fn number(text: &[u8]) -> Option<u64> {
    let digits = !text.is_empty() && text.iter().all(u8::is_ascii_digit);
    let leading_zero = text.len() > 1 && text[0] == b'0';
    if !digits || leading_zero {
        return None;
    }
    std::str::from_utf8(text).ok()?.parse().ok()
}

/// '`-` only before a non-zero run.'
pub fn signed(text: &[u8]) -> Option<i128> {
    match text.strip_prefix(b"-") {
        None => number(text).map(i128::from),
        Some(magnitude) => number(magnitude).filter(|&m| m != 0).map(|m| -i128::from(m)),
    }
}

/// A text at the front of a buffer, whose later bytes keep their values; answers how many bytes it takes, or 2 where it does not fit.
fn put(text: &[u8], buffer: &mut [u8]) -> Result<usize, Refusal> {
    buffer.get_mut(..text.len()).ok_or(refusal(2))?.copy_from_slice(text);
    Ok(text.len())
}

/// A line at the front of a buffer; answers how many bytes it takes. 'In writing an order, 17 comes before 2.'
pub fn write_line(line: Option<Line>, buffer: &mut [u8]) -> Result<usize, Refusal> {
    let line = line.filter(|line| line.in_shape(MOST_PORTS as u64)).ok_or(refusal(17))?;
    put(&line.text(), buffer)
}

/// What 0 and each refusal say, by number.
const SAID: [&str; 18] = [
    "accepted",
    "ports or length not 2 to 20",
    "does not fit the buffer",
    "entry outside the panel's ports",
    "entry equal to an earlier one",
    "entry equal to its own jack",
    "rank not below the count",
    "not the key that belongs here",
    "number badly written or too large",
    "legs not 1 to 16",
    "run too long",
    "text ended early or went on",
    "report of a mark that does not stand",
    "request while a mark stands",
    "report kind above 2",
    "state unfit",
    "error reported when 65,535 are counted",
    "jack or port off the panel, or order out of shape",
];

/// The words of a number, which need not be that of a refusal.
fn said(number: u8) -> &'static str {
    SAID.get(usize::from(number)).unwrap_or(&"no refusal has this number")
}

/// The words of a refusal at the front of a buffer, with no newline; answers how many bytes they take, or 2 where they do not fit.
pub fn refusal_words(number: u8, buffer: &mut [u8]) -> Result<usize, Refusal> {
    put(said(number).as_bytes(), buffer)
}

/// A refusal as a sentence. 'Before the words of the number stands where the fault is, "jack 5: " for 3, 4 and 5, "line 7: " for any other refusal, nothing
/// where the first word is 0; after those of 4 stands where the other one is, ", at jack 2", and nothing where the second word is 0. Of 0, and of a number
/// that no refusal has, the sentence is the words alone.'
pub fn sentence(of: Refusal) -> String {
    let Refusal { number, place, earlier } = of;
    let before = match (number, place) {
        (0 | 18.., _) | (_, 0) => String::new(),
        (3..=5, _) => format!("jack {place}: "),
        _ => format!("line {place}: "),
    };
    let after = match (number, earlier) {
        (4, 1..) => format!(", at jack {earlier}"),
        _ => String::new(),
    };
    [&before, said(number), &after].concat()
}

/// That sentence at the front of a buffer, with no newline; answers how many bytes it takes, or 2 where it does not fit.
pub fn refusal_sentence(of: Refusal, buffer: &mut [u8]) -> Result<usize, Refusal> {
    put(sentence(of).as_bytes(), buffer)
}

/// The line that starts at a place, and the place after its newline. 'Checks: newline (11, also at or past the end of the slice), key with its `=`
/// (7), form and count of numbers (8), jacks 1 to 20, different and in shape (17).'
pub fn read_line(text: &[u8], place: usize) -> Result<(Line, usize), Refusal> {
    let rest = text.get(place..).unwrap_or(&[]);
    let end = rest.iter().position(|&byte| byte == b'\n').ok_or(refusal(11))?;
    let keys: [&[u8]; 5] = [b"swap=", b"turn=", b"mark=", b"end=", b"seat="];
    let key = keys.into_iter().find(|key| rest[..end].starts_with(key)).ok_or(refusal(7))?;
    let numbers: Option<Vec<u64>> = rest[key.len()..end].split(|&byte| byte == b',').map(number).collect();
    let line = match (key, numbers.as_deref()) {
        (b"swap=", Some(&[a, b])) => Line::Swap(a, b),
        (b"turn=", Some(&[a, b, c])) => Line::Turn(a, b, c),
        (b"mark=", Some(&[number, rank])) => Line::Mark(number, rank),
        (b"end=", Some(&[marks])) => Line::End(marks),
        (b"seat=", Some(&[j])) => Line::Seat(j),
        _ => return Err(refusal(8)),
    };
    if !line.in_shape(MOST_PORTS as u64) {
        return Err(refusal(17));
    }
    Ok((line, place + end + 1))
}
