//! The speed table, as Markdown: nanoseconds a call of the proved library beside the plain Rust reference, in the same process and run, and the
//! deepest stack of each call. Each time is the median of several runs with the least and the most; nothing is asserted of any.

mod benches;
mod campaign;
mod dictionary;
mod named;
mod stack;

use face::Answer;
use reference::campaign::WORDS;
use reference::circuit::each_pattern;
use reference::list::{at, count_of, Move};
use reference::panel::orders;
use reference::printer::print;
use reference::rehearsal::REHEARSAL_WORDS;
use reference::text::Line;
use reference::{relations, told};
use std::ptr::read_volatile;
use std::time::{Duration, Instant};

const PORTS: [usize; 4] = [8, 9, 10, 20];

/// How much is measured: all of it, or with `--try` each thing once and the shortest circuits alone, to see that the tables can be made.
struct Effort {
    runs: usize,
    shortest_run: Duration,
    circuits: &'static [usize],
    printed: &'static [usize],
}

const WHOLE: Effort = Effort { runs: 7, shortest_run: Duration::from_millis(10), circuits: &[8, 9, 10], printed: &[7, 8, 9] };
const TRIED: Effort = Effort { runs: 1, shortest_run: Duration::ZERO, circuits: &[8], printed: &[7] };

fn effort() -> &'static Effort {
    if std::env::args().nth(1).as_deref() == Some("--try") { &TRIED } else { &WHOLE }
}

/// Keeps a value from being optimised away.
fn keep<T: Copy>(value: T) -> T {
    // a read of an own local through its address
    unsafe { read_volatile(&value) }
}

/// What the runs took, in nanoseconds for one call of a run.
struct Took {
    least: f64,
    median: f64,
    most: f64,
}

impl Took {
    fn shown(&self) -> String {
        format!("{:.0} ({:.0}..{:.0})", self.median, self.least, self.most)
    }

    /// Calls a second, in millions.
    fn millions(&self) -> String {
        format!("{:.2} ({:.2}..{:.2})", 1e3 / self.median, 1e3 / self.most, 1e3 / self.least)
    }
}

/// Times `work`, which makes and answers a number of calls. A run repeats it until the run is long enough to be timed.
fn time(mut work: impl FnMut() -> usize) -> Took {
    work();
    let Effort { runs, shortest_run, .. } = *effort();
    let mut each: Vec<f64> = (0..runs)
        .map(|_| {
            let (start, mut calls) = (Instant::now(), work());
            while start.elapsed() < shortest_run {
                calls += work();
            }
            start.elapsed().as_nanos() as f64 / calls as f64
        })
        .collect();
    each.sort_by(f64::total_cmp);
    Took { least: each[0], median: each[runs / 2], most: each[runs - 1] }
}

/// Ranks spread over the list, the same in every run.
fn ranks(n: usize) -> Vec<u64> {
    let count = count_of(n);
    (0..256u128).map(|k| ((k * 0x9e37_79b9_7f4a_7c15 + k) % count) as u64).collect()
}

fn patterns(n: usize) -> Vec<Vec<u8>> {
    ranks(n).into_iter().map(|rank| at(n, rank.into())).collect()
}

type OnPattern = fn(&[u8], &mut Answer) -> u8;
type OnRank = fn(u64, &mut [u8], &mut Answer) -> u8;
type Neighbour = fn(&mut [u8], &mut Answer) -> u8;

fn time_on_pattern(n: usize, call: OnPattern) -> Took {
    let patterns = patterns(n);
    let mut answer = [0; 5];
    time(|| {
        for pattern in &patterns {
            keep(call(pattern, &mut answer));
        }
        patterns.len()
    })
}

fn time_unrank(n: usize, call: OnRank) -> Took {
    let (ranks, mut pattern, mut answer) = (ranks(n), vec![0; n], [0; 5]);
    time(|| {
        for &rank in &ranks {
            keep(call(rank, &mut pattern, &mut answer));
        }
        ranks.len()
    })
}

fn time_neighbour(n: usize, call: Neighbour) -> Took {
    let (mut patterns, mut answer) = (patterns(n), [0; 5]);
    time(|| {
        for pattern in &mut patterns {
            keep(call(pattern, &mut answer));
        }
        patterns.len()
    })
}

/// The plain Rust neighbours as calls: checked, and by the relations.
fn plain_next(pattern: &mut [u8], answer: &mut Answer) -> u8 {
    plain(pattern, answer, relations::next)
}

fn plain_previous(pattern: &mut [u8], answer: &mut Answer) -> u8 {
    plain(pattern, answer, relations::previous)
}

fn plain(pattern: &mut [u8], answer: &mut Answer, go: fn(&mut [u8]) -> Move) -> u8 {
    let number = told::check(pattern, answer);
    if number == 0 {
        *answer = match go(pattern) {
            Move::Nothing => [0; 5],
            Move::Swap(a, b) => [1, a, b, 0, 0].map(u64::from),
            Move::Turn(a, b, c) => [2, a, b, c, 0].map(u64::from),
            Move::TwoSwaps(a, b, c, d) => [5, a, b, c, d].map(u64::from),
        };
    }
    number
}

fn calls_table() {
    println!("\n## Calls on patterns\n");
    println!("Nanoseconds a call. The reference allocates as it likes and finds a neighbour from the list: the rank, the pattern one rank on, the difference. 'Plain");
    println!("Rust' is the check and then relations (3) to (9) on arrays, with nothing allocated.\n");
    println!("| call | ports | library | reference | plain Rust |\n|---|---|---|---|---|");
    let on_pattern: [(&str, OnPattern, OnPattern); 2] = [("check", face::check, told::check), ("rank", face::rank, told::rank)];
    for (name, library, reference) in on_pattern {
        for n in PORTS {
            println!("| {name} | {n} | {} | {} | |", time_on_pattern(n, library).shown(), time_on_pattern(n, reference).shown());
        }
    }
    for n in PORTS {
        println!("| unrank | {n} | {} | {} | |", time_unrank(n, face::unrank).shown(), time_unrank(n, told::unrank).shown());
    }
    let neighbours: [(&str, [Neighbour; 3]); 2] = [("next", [face::next, told::next, plain_next]), ("previous", [face::previous, told::previous, plain_previous])];
    for (name, sides) in neighbours {
        for n in PORTS {
            let [library, reference, plain] = sides.map(|call| time_neighbour(n, call).shown());
            println!("| {name} | {n} | {library} | {reference} | {plain} |");
        }
    }
}

/// Next from the first pattern round to it again.
fn walk(n: usize, call: Neighbour) -> usize {
    let (mut pattern, mut answer, mut met) = (at(n, 0), [0; 5], 0);
    let first = pattern.clone();
    loop {
        keep(call(&mut pattern, &mut answer));
        met += 1;
        if pattern == first {
            return met;
        }
    }
}

fn generate(n: usize) -> usize {
    let mut met = 0;
    each_pattern(n, |pattern| {
        keep(pattern[0]);
        met += 1;
    });
    met
}

fn circuits_table() {
    println!("\n## Whole circuits\n");
    println!("Nanoseconds a pattern: next round the whole circuit, beside the two procedures of document 000, which walk the list in order and keep their place");
    println!("in it; next is given a pattern and nothing else.\n");
    println!("| ports | patterns | library next | plain Rust next | gen_up and gen_down |\n|---|---|---|---|---|");
    for &n in effort().circuits {
        let count = count_of(n);
        assert_eq!([walk(n, face::next), walk(n, plain_next), generate(n)], [count as usize; 3], "each way meets every pattern");
        let (library, plain, generated) = (time(|| walk(n, face::next)), time(|| walk(n, plain_next)), time(|| generate(n)));
        println!("| {n} | {count} | {} | {} | {} |", library.shown(), plain.shown(), generated.shown());
    }
}

fn begun(n: usize) -> (Vec<u8>, Vec<u64>) {
    let plan = format!("ports={n}\nlegs=1\nstart=0\nrun={}\n", count_of(n) - 1).into_bytes();
    let (mut state, mut answer) = (vec![0; WORDS], [0; 5]);
    assert_eq!(told::begin(&plan, &mut state, &mut answer), 0, "the plan is accepted");
    (plan, state)
}

/// The same plan's rehearsal.
fn rehearsed(n: usize) -> (Vec<u8>, Vec<u64>) {
    let (plan, mut rehearsal, mut answer) = (begun(n).0, vec![0; REHEARSAL_WORDS], [0; 5]);
    assert_eq!(told::rehearse(&plan, &mut rehearsal, &mut answer), 0, "the plan is accepted");
    (plan, rehearsal)
}

/// Every line of a rehearsal by jidrofex_orders.
fn library_prints(first: &[u64], buffer: &mut [u8]) -> usize {
    let (mut rehearsal, mut answer, mut lines) = (first.to_vec(), [0; 5], 0);
    while answer[1] == 0 {
        assert_eq!(face::orders(&mut rehearsal, buffer, &mut answer), 0);
        lines += count_lines(&buffer[..answer[0] as usize]);
    }
    lines
}

fn count_lines(text: &[u8]) -> usize {
    text.iter().filter(|&&byte| byte == b'\n').count()
}

/// A full circuit from home, printed in plain Rust by the relations.
fn plain_prints(n: usize) -> Vec<u8> {
    let (count, mut pattern, mut text) = (count_of(n) as u64, at(n, 0), vec![]);
    text.extend(Line::Mark(0, 0).text());
    for rank in 1..count {
        for order in orders(relations::next(&mut pattern)) {
            text.extend(order.text());
        }
        text.extend(Line::Mark(rank, rank).text());
    }
    text.extend(Line::End(count).text());
    text
}

fn printer_table() {
    println!("\n## Orders printed\n");
    println!("Millions of lines a second over one full circuit: jidrofex_orders by a buffer of 64 KiB, beside the reference's printer (each pattern from its");
    println!("rank) and a plain Rust printer that goes on by the relations.\n");
    println!("| ports | lines | library | reference | plain Rust |\n|---|---|---|---|---|");
    let mut buffer = vec![0; 1 << 16];
    for &n in effort().printed {
        let (plan, first) = rehearsed(n);
        let text = print(&plan);
        assert!(plain_prints(n) == text, "the two printers print the same");
        let lines = count_lines(&text);
        assert_eq!(library_prints(&first, &mut buffer), lines, "the library prints as many lines");
        let library = time(|| library_prints(&first, &mut buffer));
        let reference = time(|| count_lines(&print(&plan)));
        let plain = time(|| count_lines(&plain_prints(n)));
        println!("| {n} | {lines} | {} | {} | {} |", library.millions(), reference.millions(), plain.millions());
    }
}

fn machine() -> String {
    let kind = std::process::Command::new("uname").arg("-m").output().map(|said| String::from_utf8_lossy(&said.stdout).trim().to_string());
    let about = std::fs::read_to_string("/proc/cpuinfo").unwrap_or_default();
    let line = |key: &str| about.lines().find(|line| line.starts_with(key)).and_then(|line| line.split(": ").nth(1)).map(str::to_string);
    let model = line("model name").or_else(|| Some(format!("implementer {} part {}", line("CPU implementer")?, line("CPU part")?)));
    let processors = about.lines().filter(|line| line.starts_with("processor")).count();
    format!("{}, {}, {processors} processors", kind.unwrap_or_else(|_| std::env::consts::ARCH.into()), model.unwrap_or_else(|| "processor not named".into()))
}

fn main() {
    println!("Machine: {}. Medians of {} runs, least and most in brackets.", machine(), effort().runs);
    calls_table();
    circuits_table();
    dictionary::dictionary_table();
    named::named_table();
    campaign::campaign_table();
    campaign::errors_table();
    printer_table();
    benches::benches_table();
    stack::stack_table();
}
