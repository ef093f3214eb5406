//! One call with all that is lent to it, and what comes of it on either side: the library or the reference. Every slice stands between guards.

use face::Answer;
use std::fmt;

/// Which call, with the numbers that go by value.
#[derive(Clone, Copy, Debug)]
pub enum Name {
    Version,
    RefusalWords { number: u8 },
    RefusalSentence { number: u8 },
    Check,
    CheckPanel,
    Count { ports: u8 },
    Rank,
    Unrank { rank: u64 },
    Next,
    Previous,
    Step { ports: u8, rank: u64, k: i64 },
    DictionaryNumber,
    DictionaryPattern { number: u64 },
    DictionaryNext,
    NumberToRank { ports: u8, number: u64 },
    RankToNumber { ports: u8, rank: u64 },
    PortAt { jack: u8 },
    JackOf { port: u8 },
    Carry,
    WriteLine,
    ReadLine { place: usize },
    Named,
    Begin,
    Status,
    Request,
    Report { kind: u8 },
    ReportMark { mark: u64, kind: u8 },
    Resume,
    Rehearse,
    Orders,
}

/// A call: its name, the bytes lent to it (a pattern, a panel, a text or a buffer) and the words (a line, a state, a rehearsal, a
/// refused answer or what gaps are written to).
#[derive(Clone)]
pub struct Call {
    pub name: Name,
    pub bytes: Vec<u8>,
    pub words: Vec<u64>,
}

impl Call {
    pub fn plain(name: Name) -> Call {
        Call { name, bytes: vec![], words: vec![] }
    }

    pub fn on_bytes(name: Name, bytes: Vec<u8>) -> Call {
        Call { name, bytes, words: vec![] }
    }

    pub fn on_both(name: Name, bytes: Vec<u8>, words: Vec<u64>) -> Call {
        Call { name, bytes, words }
    }
}

impl fmt::Debug for Call {
    fn fmt(&self, out: &mut fmt::Formatter) -> fmt::Result {
        write!(out, "{:?}, bytes {:?} (b\"{}\"), words {:?}", self.name, self.bytes, self.bytes.escape_ascii(), self.words)
    }
}

/// What came of a call: its number and answer, the final bytes and words of what was lent, and whether anything beside these was written.
#[derive(Clone, PartialEq, Eq)]
pub struct Outcome {
    pub number: u8,
    pub answer: Answer,
    pub bytes: Vec<u8>,
    pub words: Vec<u64>,
    pub spilled: bool,
}

impl fmt::Debug for Outcome {
    fn fmt(&self, out: &mut fmt::Formatter) -> fmt::Result {
        let spilled = if self.spilled { ", A GUARD WAS WRITTEN" } else { "" };
        write!(out, "number {}, answer {:?}, bytes {:?}, words {:?}{spilled}", self.number, self.answer, self.bytes, self.words)
    }
}

/// The calls of one side.
pub struct Side {
    version: fn(&mut Answer) -> u8,
    refusal_words: fn(u8, &mut [u8], &mut Answer) -> u8,
    refusal_sentence: fn(u8, &Answer, &mut [u8], &mut Answer) -> u8,
    check: fn(&[u8], &mut Answer) -> u8,
    check_panel: fn(&[u8], &mut Answer) -> u8,
    count: fn(u8, &mut Answer) -> u8,
    rank: fn(&[u8], &mut Answer) -> u8,
    unrank: fn(u64, &mut [u8], &mut Answer) -> u8,
    next: fn(&mut [u8], &mut Answer) -> u8,
    previous: fn(&mut [u8], &mut Answer) -> u8,
    step: fn(u8, u64, i64, &mut Answer) -> u8,
    dictionary_number: fn(&[u8], &mut Answer) -> u8,
    dictionary_pattern: fn(u64, &mut [u8], &mut Answer) -> u8,
    dictionary_next: fn(&mut [u8], &mut Answer) -> u8,
    number_to_rank: fn(u8, u64, &mut Answer) -> u8,
    rank_to_number: fn(u8, u64, &mut Answer) -> u8,
    port_at: fn(&[u8], u8, &mut Answer) -> u8,
    jack_of: fn(&[u8], u8, &mut Answer) -> u8,
    carry: fn(&mut [u8], &[u64; 4], &mut Answer) -> u8,
    write_line: fn(&[u64; 4], &mut [u8], &mut Answer) -> u8,
    read_line: fn(&[u8], usize, &mut Answer) -> u8,
    named: fn(&[u8], &mut [u64], &mut Answer) -> u8,
    begin: fn(&[u8], &mut [u64], &mut Answer) -> u8,
    status: fn(&[u64], &mut Answer) -> u8,
    request: fn(&mut [u64], &mut [u8], &mut Answer) -> u8,
    report: fn(&mut [u64], u8, &mut Answer) -> u8,
    report_mark: fn(&mut [u64], u64, u8, &mut Answer) -> u8,
    resume: fn(&mut [u64], &[u8], &mut Answer) -> u8,
    rehearse: fn(&[u8], &mut [u64], &mut Answer) -> u8,
    orders: fn(&mut [u64], &mut [u8], &mut Answer) -> u8,
}

/// A module that has all the calls, as a side.
macro_rules! side {
    ($calls:path) => {{
        use $calls as calls;
        Side {
            version: calls::version,
            refusal_words: calls::refusal_words,
            refusal_sentence: calls::refusal_sentence,
            check: calls::check,
            check_panel: calls::check_panel,
            count: calls::count,
            rank: calls::rank,
            unrank: calls::unrank,
            next: calls::next,
            previous: calls::previous,
            step: calls::step,
            dictionary_number: calls::dictionary_number,
            dictionary_pattern: calls::dictionary_pattern,
            dictionary_next: calls::dictionary_next,
            number_to_rank: calls::number_to_rank,
            rank_to_number: calls::rank_to_number,
            port_at: calls::port_at,
            jack_of: calls::jack_of,
            carry: calls::carry,
            write_line: calls::write_line,
            read_line: calls::read_line,
            named: calls::named,
            begin: calls::begin,
            status: calls::status,
            request: calls::request,
            report: calls::report,
            report_mark: calls::report_mark,
            resume: calls::resume,
            rehearse: calls::rehearse,
            orders: calls::orders,
        }
    }};
}

pub const LIBRARY: Side = side!(face);
pub const REFERENCE: Side = side!(reference::told);

const GUARD: usize = 24;
const GUARD_BYTE: u8 = 0xa5;
const GUARD_WORD: u64 = 0xa5a5_5a5a_a5a5_5a5a;
/// What an answer holds before a call: a call writes all of it.
const UNWRITTEN: u64 = 0xdead_dead_dead_dead;

/// A slice between guards.
struct Lent<T> {
    all: Vec<T>,
    guard: T,
}

impl<T: Copy + PartialEq> Lent<T> {
    fn new(content: &[T], guard: T) -> Lent<T> {
        let mut all = vec![guard; content.len() + 2 * GUARD];
        all[GUARD..GUARD + content.len()].copy_from_slice(content);
        Lent { all, guard }
    }

    fn lend(&mut self) -> &mut [T] {
        let end = self.all.len() - GUARD;
        &mut self.all[GUARD..end]
    }

    fn spilled(&self) -> bool {
        let (before, rest) = self.all.split_at(GUARD);
        let after = &rest[rest.len() - GUARD..];
        before.iter().chain(after).any(|&value| value != self.guard)
    }
}

impl Side {
    pub fn run(&self, call: &Call) -> Outcome {
        let mut lent_bytes = Lent::new(&call.bytes, GUARD_BYTE);
        let mut lent_words = Lent::new(&call.words, GUARD_WORD);
        let mut lent_answer = Lent::new(&[UNWRITTEN; 5], GUARD_WORD);
        let bytes = lent_bytes.lend();
        let words = lent_words.lend();
        let answer: &mut Answer = lent_answer.lend().try_into().expect("five words");
        fn line(words: &[u64]) -> &[u64; 4] {
            words.try_into().expect("a line has four words")
        }
        fn refused(words: &[u64]) -> &Answer {
            words.try_into().expect("an answer has five words")
        }
        let number = match call.name {
            Name::Version => (self.version)(answer),
            Name::RefusalWords { number } => (self.refusal_words)(number, bytes, answer),
            Name::RefusalSentence { number } => (self.refusal_sentence)(number, refused(words), bytes, answer),
            Name::Check => (self.check)(bytes, answer),
            Name::CheckPanel => (self.check_panel)(bytes, answer),
            Name::Count { ports } => (self.count)(ports, answer),
            Name::Rank => (self.rank)(bytes, answer),
            Name::Unrank { rank } => (self.unrank)(rank, bytes, answer),
            Name::Next => (self.next)(bytes, answer),
            Name::Previous => (self.previous)(bytes, answer),
            Name::Step { ports, rank, k } => (self.step)(ports, rank, k, answer),
            Name::DictionaryNumber => (self.dictionary_number)(bytes, answer),
            Name::DictionaryPattern { number } => (self.dictionary_pattern)(number, bytes, answer),
            Name::DictionaryNext => (self.dictionary_next)(bytes, answer),
            Name::NumberToRank { ports, number } => (self.number_to_rank)(ports, number, answer),
            Name::RankToNumber { ports, rank } => (self.rank_to_number)(ports, rank, answer),
            Name::PortAt { jack } => (self.port_at)(bytes, jack, answer),
            Name::JackOf { port } => (self.jack_of)(bytes, port, answer),
            Name::Carry => (self.carry)(bytes, line(words), answer),
            Name::WriteLine => (self.write_line)(line(words), bytes, answer),
            Name::ReadLine { place } => (self.read_line)(bytes, place, answer),
            Name::Named => (self.named)(bytes, words, answer),
            Name::Begin => (self.begin)(bytes, words, answer),
            Name::Status => (self.status)(words, answer),
            Name::Request => (self.request)(words, bytes, answer),
            Name::Report { kind } => (self.report)(words, kind, answer),
            Name::ReportMark { mark, kind } => (self.report_mark)(words, mark, kind, answer),
            Name::Resume => (self.resume)(words, bytes, answer),
            Name::Rehearse => (self.rehearse)(bytes, words, answer),
            Name::Orders => (self.orders)(words, bytes, answer),
        };
        let answer = *answer;
        Outcome {
            number,
            answer,
            bytes: lent_bytes.lend().to_vec(),
            words: lent_words.lend().to_vec(),
            spilled: lent_bytes.spilled() || lent_words.spilled() || lent_answer.spilled(),
        }
    }
}
