//! The state of a campaign in a file. A cut at any moment leaves one whole state there: the old one or the new one.
//!
//! The file is text, lines that each end in a newline:
//!
//!     jidrofex state, version 2      what it is, with the version of the words of a state
//!     4                              the words of the state in turn, in decimal
//!     ..
//!     sum 0123456789abcdef           the 64-bit FNV-1a sum of all bytes before this line
//!
//! It is written beside the old one, synced to the disk, and renamed over it.

use crate::jidrofex::{State, STATE_VERSION, STATE_WORDS};
use std::fs::{self, File};
use std::io::{ErrorKind, Write};
use std::path::Path;

const FIRST_LINE: &str = "jidrofex state, version ";

/// The whole text of a state.
fn text_of(state: &State) -> String {
    let mut text = format!("{FIRST_LINE}{STATE_VERSION}\n");
    for word in state {
        text += &format!("{word}\n");
    }
    let mut sum: u64 = 14695981039346656037;
    for byte in text.bytes() {
        sum = (sum ^ u64::from(byte)).wrapping_mul(1099511628211);
    }
    text + &format!("sum {sum:016x}\n")
}

/// The state that the text is, or what is wrong with it.
fn state_in(text: &[u8]) -> Result<State, &'static str> {
    let first = FIRST_LINE.as_bytes();
    let shared = first.len().min(text.len());
    if text[..shared] != first[..shared] {
        return Err("is not the state of a campaign");
    }
    // what stands after the last newline is a piece too, and is to be empty
    let lines: Vec<&[u8]> = text.split(|byte| *byte == b'\n').collect();
    if lines.len() == 1 {
        return Err("is cut short");
    }
    if lines[0] != format!("{FIRST_LINE}{STATE_VERSION}").as_bytes() {
        return Err("is a state of another version");
    }
    if lines.len() < STATE_WORDS + 3 {
        return Err("is cut short");
    }
    if lines.len() > STATE_WORDS + 3 || !lines[STATE_WORDS + 2].is_empty() {
        return Err("goes on after its end");
    }
    let mut state = [0; STATE_WORDS];
    for (word, line) in state.iter_mut().zip(&lines[1..]) {
        *word = String::from_utf8_lossy(line).parse().unwrap_or(0);
    }
    // the words that were read make this very text, with its sum: so no byte is another
    if text_of(&state).as_bytes() != text {
        return Err("is torn: its sum does not hold");
    }
    Ok(state)
}

/// The state in the file, or none where there is no such file.
pub fn read(name: &Path) -> Result<Option<State>, String> {
    match fs::read(name) {
        Ok(text) => state_in(&text).map(Some).map_err(|why| format!("{} {why}", name.display())),
        Err(error) if error.kind() == ErrorKind::NotFound => Ok(None),
        Err(error) => Err(format!("{}: {error}", name.display())),
    }
}

/// Saves the state. Where this comes back well it is on the disk; else the file is a whole state, the old one or the
/// new one: go no further, start again.
pub fn write(name: &Path, state: &State) -> Result<(), String> {
    text(name, &text_of(state))
}

/// Saves any text in the same way.
pub fn text(name: &Path, text: &str) -> Result<(), String> {
    let mut beside = name.as_os_str().to_owned();
    beside.push(".new");
    let folder = match name.parent() {
        Some(folder) if !folder.as_os_str().is_empty() => folder,
        _ => Path::new("."),
    };
    let save = || {
        let mut file = File::create(&beside)?;
        file.write_all(text.as_bytes())?;
        file.sync_all()?;
        fs::rename(&beside, name)?;
        File::open(folder)?.sync_all()
    };
    save().map_err(|error: std::io::Error| format!("{}: {error}", name.display()))
}
