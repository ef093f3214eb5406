//! The calls that are made: those of include/jidrofex_benches.h, each on words that stand between guards, and those of include/jidrofex.h that a campaign
//! needs.

use crate::face;
use reference::told::Answer;
use std::ptr;

/// The declarations of include/jidrofex.h for a campaign.
mod campaign {
    extern "C" {
        pub fn jidrofex_begin(text: *const u8, bytes: usize, state: *mut u64, words: usize, answer: *mut u64) -> u8;
        pub fn jidrofex_status(state: *const u64, words: usize, answer: *mut u64) -> u8;
        pub fn jidrofex_request(state: *mut u64, words: usize, buffer: *mut u8, bytes: usize, answer: *mut u64) -> u8;
        pub fn jidrofex_report(state: *mut u64, words: usize, kind: u8, answer: *mut u64) -> u8;
        pub fn jidrofex_report_mark(state: *mut u64, words: usize, mark: u64, kind: u8, answer: *mut u64) -> u8;
        pub fn jidrofex_resume(state: *mut u64, words: usize, panel: *const u8, ports: usize, answer: *mut u64) -> u8;
    }
}

/// What stands in an answer before the call, and in the guards around it and around what is lent.
const JUNK: u64 = 0xa5a5_5a5a_a5a5_5a5a;
const GUARD: usize = 8;

/// Words with a guard before and after them.
struct Guarded(Vec<u64>);

impl Guarded {
    fn around(words: &[u64]) -> Guarded {
        Guarded([&[JUNK; GUARD], words, &[JUNK; GUARD]].concat())
    }

    fn words(&mut self) -> &mut [u64] {
        let end = self.0.len() - GUARD;
        &mut self.0[GUARD..end]
    }

    fn guards_kept(&self) -> bool {
        let end = self.0.len() - GUARD;
        self.0[..GUARD].iter().chain(&self.0[end..]).all(|&word| word == JUNK)
    }
}

/// What came of a call: its number, the words of its answer, and whether the guards and all that was lent for reading are as they were.
#[derive(Clone, Copy, Debug, PartialEq, Eq)]
pub struct Told {
    pub number: u8,
    pub answer: Answer,
    pub kept: bool,
}

impl Told {
    /// What is wanted: this number and these words, and nothing else changed.
    pub fn wanted((number, answer): (u8, Answer)) -> Told {
        Told { number, answer, kept: true }
    }
}

/// A call on an answer full of junk between guards.
fn on_answer(call: impl FnOnce(*mut u64) -> u8) -> Told {
    let mut lent = Guarded::around(&[JUNK; 5]);
    let number = call(lent.words().as_mut_ptr());
    let answer = Answer::try_from(&*lent.words()).expect("an answer has five words");
    Told { number, answer, kept: lent.guards_kept() }
}

pub fn version() -> Told {
    on_answer(|answer| unsafe { face::jidrofex_benches_version(answer) })
}

pub fn share(ports: u64, benches: u64, bench: u64) -> Told {
    on_answer(|answer| unsafe { face::jidrofex_benches_share(ports, benches, bench, answer) })
}

pub fn sum(ports: u64, benches: u64, counts: &[u64]) -> Told {
    let mut lent = Guarded::around(counts);
    let told = on_answer(|answer| unsafe { face::jidrofex_benches_sum(ports, benches, lent.words().as_ptr(), counts.len(), answer) });
    Told { kept: told.kept && lent.guards_kept() && lent.words() == counts, ..told }
}

/// The same with no counts at all: 'with length 0 a pointer may be null'.
pub fn sum_of_nothing(ports: u64, benches: u64) -> Told {
    on_answer(|answer| unsafe { face::jidrofex_benches_sum(ports, benches, ptr::null(), 0, answer) })
}

// ---- the campaign: the number of the call, and its answer where the test looks at it

pub fn begin(text: &[u8], state: &mut [u64]) -> u8 {
    on_answer(|answer| unsafe { campaign::jidrofex_begin(text.as_ptr(), text.len(), state.as_mut_ptr(), state.len(), answer) }).number
}

pub fn status(state: &[u64]) -> Told {
    on_answer(|answer| unsafe { campaign::jidrofex_status(state.as_ptr(), state.len(), answer) })
}

pub fn request(state: &mut [u64], buffer: &mut [u8]) -> u8 {
    on_answer(|answer| unsafe { campaign::jidrofex_request(state.as_mut_ptr(), state.len(), buffer.as_mut_ptr(), buffer.len(), answer) }).number
}

pub fn report(state: &mut [u64], kind: u8) -> u8 {
    on_answer(|answer| unsafe { campaign::jidrofex_report(state.as_mut_ptr(), state.len(), kind, answer) }).number
}

pub fn report_mark(state: &mut [u64], mark: u64, kind: u8) -> u8 {
    on_answer(|answer| unsafe { campaign::jidrofex_report_mark(state.as_mut_ptr(), state.len(), mark, kind, answer) }).number
}

pub fn resume(state: &mut [u64], panel: &[u8]) -> u8 {
    on_answer(|answer| unsafe { campaign::jidrofex_resume(state.as_mut_ptr(), state.len(), panel.as_ptr(), panel.len(), answer) }).number
}
