//! What `bin/translate` is to print of standard input, over the reference, written from the request for partner labs. It ends with 65 where a line is refused.

use reference::dictionary;
use reference::list::{at, check, count, rank, unrank};
use reference::text::number;
use reference::{refusal, Refusal, MOST_PORTS};
use std::io::{self, Read, Write};
use std::process::exit;

/// The entries of a pattern, with commas between them.
fn entries(p: &[u8]) -> String {
    p.iter().map(u8::to_string).collect::<Vec<_>>().join(",")
}

/// 'Prints one line for each of the last three', with the three names of the pattern.
fn names(p: &[u8]) -> Result<String, Refusal> {
    Ok(format!("rank={} number={} pattern={}\n", rank(p)?, dictionary::number(p)?, entries(p)))
}

/// 'Numbers and patterns in the form of plans': 8 otherwise.
fn value(text: &[u8]) -> Result<u64, Refusal> {
    number(text).ok_or(refusal(8))
}

/// The pattern that a text is: 8 where it is not numbers with commas between them, or not as many as the ports; then 3, 4, 5. An entry that no byte holds is as
/// far outside the ports as 0 is.
fn pattern(ports: usize, text: &[u8]) -> Result<Vec<u8>, Refusal> {
    let numbers: Vec<u64> = text.split(|&byte| byte == b',').map(value).collect::<Result<_, _>>()?;
    if numbers.len() != ports {
        return Err(refusal(8));
    }
    let p: Vec<u8> = numbers.into_iter().map(|entry| u8::try_from(entry).unwrap_or(0)).collect();
    check(&p)?;
    Ok(p)
}

/// What is printed of a line, with the ports that hold: none yet, or those of the last `ports=`, which this line may change.
fn translate(ports: &mut Option<usize>, line: &[u8]) -> Result<String, Refusal> {
    // 'A line longer than any good one is 8': every pattern of the most ports is as long as this one
    if line.len() > "pattern=".len() + entries(&at(MOST_PORTS, 0)).len() {
        return Err(refusal(8));
    }
    if let Some(text) = line.strip_prefix(b"ports=") {
        let wanted = value(text)? as usize;
        count(wanted)?;
        *ports = Some(wanted);
        return Ok(String::new());
    }
    // 'A line before any `ports` is 7; a key that is none of these is 7'
    let held = ports.ok_or(refusal(7))?;
    if let Some(text) = line.strip_prefix(b"rank=") {
        names(&unrank(held, value(text)?.into())?)
    } else if let Some(text) = line.strip_prefix(b"number=") {
        names(&dictionary::pattern(held, value(text)?.into())?)
    } else if let Some(text) = line.strip_prefix(b"pattern=") {
        names(&pattern(held, text)?)
    } else {
        Err(refusal(7))
    }
}

/// What is printed of a whole text, and the number and line of its refusal, if one ended it.
fn translated(text: &[u8]) -> (String, Option<(u8, usize)>) {
    let (mut printed, mut ports) = (String::new(), None);
    let mut lines: Vec<&[u8]> = text.split(|&byte| byte == b'\n').collect();
    let rest = lines.pop().expect("a text has a last piece");
    for (before, line) in lines.iter().enumerate() {
        match translate(&mut ports, line) {
            Ok(names) => printed += &names,
            Err(refused) => return (printed, Some((refused.number, before + 1))),
        }
    }
    (printed, (!rest.is_empty()).then_some((11, lines.len() + 1)))
}

fn main() -> io::Result<()> {
    let mut text = vec![];
    io::stdin().read_to_end(&mut text)?;
    let (printed, refused) = translated(&text);
    let mut out = io::stdout();
    out.write_all(printed.as_bytes())?;
    if let Some((number, line)) = refused {
        // 'A bad line prints `refused=` and `at=` with the line's number, as two lines, and ends the program; what came before is printed.'
        out.write_all(format!("refused={number}\nat={line}\n").as_bytes())?;
        out.flush()?;
        exit(65);
    }
    Ok(())
}
