//! The calls that a controller makes, from Rust. include/jidrofex.h says what each takes and gives.

use std::fmt;

mod raw {
    extern "C" {
        pub fn jidrofex_version(answer: *mut u64) -> u8;
        pub fn jidrofex_refusal_sentence(
            number: u8,
            refused: *const u64,
            buffer: *mut u8,
            bytes: usize,
            answer: *mut u64,
        ) -> u8;
        pub fn jidrofex_unrank(rank: u64, pattern: *mut u8, ports: usize, answer: *mut u64) -> u8;
        pub fn jidrofex_carry(panel: *mut u8, ports: usize, line: *const u64, answer: *mut u64) -> u8;
        pub fn jidrofex_begin(text: *const u8, bytes: usize, state: *mut u64, words: usize, answer: *mut u64) -> u8;
        pub fn jidrofex_status(state: *const u64, words: usize, answer: *mut u64) -> u8;
        pub fn jidrofex_request(state: *mut u64, words: usize, buffer: *mut u8, bytes: usize, answer: *mut u64) -> u8;
        pub fn jidrofex_report_mark(state: *mut u64, words: usize, mark: u64, kind: u8, answer: *mut u64) -> u8;
        pub fn jidrofex_resume(state: *mut u64, words: usize, panel: *const u8, ports: usize, answer: *mut u64) -> u8;
    }
}

pub const VERSION: u64 = 5;
pub const STATE_VERSION: u64 = 2;
pub const ANSWER_WORDS: usize = 5;
pub const LINE_BYTES: usize = 45;
pub const SENTENCE_BYTES: usize = 86;
pub const STATE_WORDS: usize = 62;
pub const STATE_PORTS: usize = 0;
pub const STATE_PANEL: usize = 34; // the words before it are the plan
pub const MARK: u64 = 3;
pub const END: u64 = 4;
pub const SEAT: u64 = 6;
pub const RAN: u8 = 0;
pub const ERROR: u8 = 1;

pub type Answer = [u64; ANSWER_WORDS];
pub type State = [u64; STATE_WORDS];

/// A refused call: its name, the number of the refusal, and its answer, which says where.
pub struct Refusal {
    call: &'static str,
    number: u8,
    answer: Answer,
}

impl fmt::Display for Refusal {
    fn fmt(&self, f: &mut fmt::Formatter) -> fmt::Result {
        let Refusal { call, number, answer } = self;
        let (mut text, mut taken) = ([0; SENTENCE_BYTES], [0; ANSWER_WORDS]);
        let (refused, room) = (answer.as_ptr(), text.as_mut_ptr());
        unsafe { raw::jidrofex_refusal_sentence(*number, refused, room, SENTENCE_BYTES, taken.as_mut_ptr()) };
        let sentence = String::from_utf8_lossy(&text[..taken[0] as usize]);
        write!(f, "{call}: refused={number}: {sentence}")
    }
}

impl From<Refusal> for String {
    fn from(refusal: Refusal) -> String {
        refusal.to_string()
    }
}

/// What a call gave, or its refusal. The call is made with a place for its answer.
fn told(call: &'static str, make: impl FnOnce(*mut u64) -> u8) -> Result<Answer, Refusal> {
    let mut answer = [0; ANSWER_WORDS];
    match make(answer.as_mut_ptr()) {
        0 => Ok(answer),
        number => Err(Refusal { call, number, answer }),
    }
}

/// The version of the library.
pub fn version() -> Result<u64, Refusal> {
    Ok(told("version", |answer| unsafe { raw::jidrofex_version(answer) })?[0])
}

/// The pattern of a rank.
pub fn unrank(rank: u64, ports: usize) -> Result<Vec<u8>, Refusal> {
    let mut pattern = vec![0; ports];
    told("unrank", |answer| unsafe { raw::jidrofex_unrank(rank, pattern.as_mut_ptr(), ports, answer) })?;
    Ok(pattern)
}

/// The panel after a line: the first four words that a request gave.
pub fn carry(panel: &mut [u8], line: &Answer) -> Result<Answer, Refusal> {
    told("carry", |answer| unsafe { raw::jidrofex_carry(panel.as_mut_ptr(), panel.len(), line.as_ptr(), answer) })
}

/// The first state of the plan that the text is.
pub fn begin(text: &[u8]) -> Result<State, Refusal> {
    let mut state = [0; STATE_WORDS];
    told("begin", |answer| unsafe {
        raw::jidrofex_begin(text.as_ptr(), text.len(), state.as_mut_ptr(), STATE_WORDS, answer)
    })?;
    Ok(state)
}

/// Where a campaign is.
pub struct Status {
    pub mark: u64,
    pub rank: u64,
    pub standing: bool,
}

pub fn status(state: &State) -> Result<Status, Refusal> {
    let given = told("status", |answer| unsafe { raw::jidrofex_status(state.as_ptr(), STATE_WORDS, answer) })?;
    Ok(Status { mark: given[1], rank: given[2], standing: given[3] == 1 })
}

/// The next order: the words of its line, and the line.
pub fn request(state: &mut State) -> Result<(Answer, Vec<u8>), Refusal> {
    let mut line = vec![0; LINE_BYTES];
    let given = told("request", |answer| unsafe {
        raw::jidrofex_request(state.as_mut_ptr(), STATE_WORDS, line.as_mut_ptr(), LINE_BYTES, answer)
    })?;
    line.truncate(given[4] as usize);
    Ok((given, line))
}

pub fn report_mark(state: &mut State, mark: u64, kind: u8) -> Result<Answer, Refusal> {
    told("report", |answer| unsafe {
        raw::jidrofex_report_mark(state.as_mut_ptr(), STATE_WORDS, mark, kind, answer)
    })
}

pub fn resume(state: &mut State, panel: &[u8]) -> Result<Answer, Refusal> {
    told("resume", |answer| unsafe {
        raw::jidrofex_resume(state.as_mut_ptr(), STATE_WORDS, panel.as_ptr(), panel.len(), answer)
    })
}
