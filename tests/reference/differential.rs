//! The differential test: the library beside the reference on many inputs, good and damaged. Compared are the number, the five words of the answer,
//! every byte and word of what was lent, and the guards around each. Any difference fails the test, and so does a group that compared nothing.
//!
//!     differential [--seed N|now] [--cases N] [--long] [--group NAME [--case N]]
//!
//! A difference is printed with its seed, group and case; `--seed S --group G --case N` makes that case again, and only that one.

mod calls;
mod groups;
mod inputs;

use calls::{Call, Outcome, LIBRARY, REFERENCE};
use face::Answer;
use groups::{Group, Work, GROUPS};
use inputs::Rng;
use std::collections::BTreeMap;
use std::fmt::Debug;
use std::process::exit;
use std::time::{Duration, Instant, SystemTime, UNIX_EPOCH};

const SEED: u64 = 20;
const CASES: usize = 2_036_000;
const LONG_CASES: usize = 40_000_000;
const MOST_DIFFERENCES: usize = 10;
/// From so many cases on, every group is large enough to meet the numbers that it must meet.
const FULL: usize = 360_000;

/// What a group compared: how often each number came, and each kind of move or line.
#[derive(Default)]
struct Tally {
    compared: usize,
    numbers: BTreeMap<u8, usize>,
    kinds: BTreeMap<u64, usize>,
}

pub struct Harness {
    seed: u64,
    group: &'static str,
    case: u64,
    tally: Tally,
    compared: usize,
    differences: usize,
    long: bool,
    last_progress: Instant,
}

impl Harness {
    /// One call on both sides. Answers what the reference made of it.
    fn compare(&mut self, call: Call) -> Outcome {
        let wanted = REFERENCE.run(&call);
        let found = LIBRARY.run(&call);
        self.count(wanted.number);
        if wanted.number == 0 && matches!(call.name, calls::Name::Next | calls::Name::Previous | calls::Name::Request | calls::Name::ReadLine { .. }) {
            *self.tally.kinds.entry(wanted.answer[0]).or_default() += 1;
        }
        if found != wanted {
            self.differ(&call, &found, &wanted);
        }
        wanted
    }

    /// One call on both sides, beside all that is known to come of it: a reference that is wrong where the library is would be seen.
    fn compare_as(&mut self, call: Call, known: Outcome) {
        let found = self.compare(call.clone());
        if found != known {
            self.differ_as(["reference:", "known:"], &call, &found, &known);
        }
    }

    /// The same of a call that is known to be refused so, with nothing changed.
    fn compare_refused(&mut self, call: Call, number: u8, answer: Answer) {
        let known = Outcome { number, answer, bytes: call.bytes.clone(), words: call.words.clone(), spilled: false };
        self.compare_as(call, known);
    }

    /// One call on the library alone, beside all that is known to come of it.
    fn compare_known(&mut self, call: &Call, known: &Outcome) {
        let found = LIBRARY.run(call);
        self.count(known.number);
        if found != *known {
            self.differ_as(["library:", "known:"], call, &found, known);
        }
    }

    /// What was made by hand on both sides, with the number that it counts under.
    fn compare_made<T: PartialEq + Debug>(&mut self, what: &str, number: u8, found: T, wanted: T) {
        self.count(number);
        if found != wanted {
            self.differ(&what, &found, &wanted);
        }
    }

    fn count(&mut self, number: u8) {
        self.compared += 1;
        self.tally.compared += 1;
        *self.tally.numbers.entry(number).or_default() += 1;
        if self.long && self.compared % 1024 == 0 && self.last_progress.elapsed() > Duration::from_secs(5) {
            self.last_progress = Instant::now();
            println!("{} cases so far, in group {}, {} differences", self.compared, self.group, self.differences);
        }
    }

    fn differ(&mut self, input: &dyn Debug, found: &dyn Debug, wanted: &dyn Debug) {
        self.differ_as(["library:", "reference:"], input, found, wanted);
    }

    /// A difference, with the names of what was found and of what was wanted.
    fn differ_as(&mut self, names: [&str; 2], input: &dyn Debug, found: &dyn Debug, wanted: &dyn Debug) {
        self.differences += 1;
        println!("difference {}: --seed {} --group '{}' --case {}", self.differences, self.seed, self.group, self.case);
        println!("  input:     {input:?}\n  {:10} {found:?}\n  {:10} {wanted:?}", names[0], names[1]);
        if self.differences == MOST_DIFFERENCES {
            println!("differential: {} cases, {} differences, and no more is compared", self.compared, self.differences);
            exit(1);
        }
    }

    /// A group: all of its cases, its share of them, or the one that was asked for.
    fn run(&mut self, group: &Group, share: usize, only: Option<u64>) {
        (self.group, self.case, self.tally) = (group.name, 0, Tally::default());
        match (&group.work, only) {
            (Work::Whole(all), _) => all(self),
            (Work::Share(_, one), Some(case)) => {
                self.case = case;
                one(self, &mut Rng::of(self.seed, group.name, case));
            }
            (Work::Share(_, one), None) => {
                while self.tally.compared < share {
                    one(self, &mut Rng::of(self.seed, group.name, self.case));
                    self.case += 1;
                }
            }
        }
    }

    /// The group's line: how many cases, how many of them accepted, and how many refused by each number.
    fn show(&self) {
        const KINDS: [&str; 7] = ["nothing", "swap", "turn", "mark", "end", "two swaps", "seat"];
        let Tally { compared, numbers, kinds } = &self.tally;
        let accepted = numbers.get(&0).copied().unwrap_or(0);
        let refused: String = numbers.iter().filter(|(number, _)| **number != 0).map(|(number, times)| format!(" {number}:{times}")).collect();
        let kinds: Vec<String> = kinds.iter().map(|(kind, times)| format!("{} {times}", KINDS[*kind as usize])).collect();
        let kinds = if kinds.is_empty() { String::new() } else { format!(" ({})", kinds.join(", ")) };
        println!("group {}: {compared} cases, {accepted} accepted{kinds}, {} refused{refused}", self.group, compared - accepted);
    }
}

struct Options {
    seed: u64,
    cases: usize,
    long: bool,
    group: Option<String>,
    case: Option<u64>,
}

fn options() -> Options {
    let mut read = Options { seed: SEED, cases: 0, long: false, group: None, case: None };
    let mut words = std::env::args().skip(1);
    while let Some(word) = words.next() {
        let mut value = || words.next().unwrap_or_else(|| wrong(&format!("{word} needs a value")));
        match word.as_str() {
            "--seed" => {
                let shown = value();
                read.seed = if shown == "now" { now() } else { number(&shown) };
            }
            "--cases" => read.cases = number(&value()) as usize,
            "--long" => read.long = true,
            "--group" => read.group = Some(value()),
            "--case" => read.case = Some(number(&value())),
            _ => wrong(&format!("no option {word}")),
        }
    }
    if read.cases == 0 {
        read.cases = if read.long { LONG_CASES } else { CASES };
    }
    if read.case.is_some() && read.group.is_none() {
        wrong("--case needs --group");
    }
    if let Some(name) = &read.group {
        if !GROUPS.iter().any(|group| group.name == name) {
            wrong(&format!("no group {name}"));
        }
    }
    read
}

fn now() -> u64 {
    SystemTime::now().duration_since(UNIX_EPOCH).map_or(SEED, |since| since.as_nanos() as u64)
}

fn number(shown: &str) -> u64 {
    shown.parse().unwrap_or_else(|_| wrong(&format!("'{shown}' is no number")))
}

fn wrong(reason: &str) -> ! {
    eprintln!("differential: {reason}");
    eprintln!("usage: differential [--seed N|now] [--cases N] [--long] [--group NAME [--case N]]");
    exit(2);
}

fn main() {
    let asked = options();
    println!("differential: seed {}, {} cases", asked.seed, asked.cases);
    let mut h = Harness { seed: asked.seed, group: "", case: 0, tally: Tally::default(), compared: 0, differences: 0, long: asked.long, last_progress: Instant::now() };
    let weight = |group: &Group| if let Work::Share(weight, _) = group.work { weight } else { 0 };
    let all: usize = GROUPS.iter().map(weight).sum();
    let mut poor = vec![];
    let mut to_share = asked.cases;
    for group in &GROUPS {
        if asked.group.as_ref().map_or(false, |name| name != group.name) {
            continue;
        }
        let share = (to_share * weight(group) / all).max(1);
        h.run(group, share, asked.case);
        h.show();
        if weight(group) == 0 {
            to_share = to_share.saturating_sub(h.tally.compared);
        }
        let missing: Vec<u8> = group.meets.iter().copied().filter(|number| !h.tally.numbers.contains_key(number)).collect();
        if h.tally.compared == 0 || (asked.cases >= FULL && asked.case.is_none() && !missing.is_empty()) {
            poor.push(format!("group {} met none of the numbers {missing:?} in {} cases", group.name, h.tally.compared));
        }
    }
    for reason in &poor {
        println!("too little: {reason}");
    }
    println!("differential: {} cases, {} differences", h.compared, h.differences);
    exit(i32::from(h.differences > 0 || !poor.is_empty()));
}
