//! Several benches: one full circuit of the patterns split over 1 to 64 of them, and their counts added up; both as the calls of include/jidrofex_benches.h, in
//! numbers and slices, and as `bin/benches` is to print them.

use crate::list::count;
use crate::plan::{Leg, Plan};
use crate::text::number;
use crate::told::Answer;
use crate::{refusal, refusal_at, Refusal, MOST_ERRORS};

/// The version of include/jidrofex_benches.h that this is the reference of.
pub const BENCHES_VERSION: u64 = 1;

pub const MOST_BENCHES: u64 = 64;

/// So many bytes of a file are judged.
const MOST_BYTES: usize = 4096;

/// 'Refusals: 1 (ports not 2 to 20), then 21 bench count outside 1 to 64.' Answers how many patterns there are.
fn patterns(ports: u64, benches: u64) -> Result<u128, Refusal> {
    let patterns = count(usize::try_from(ports).unwrap_or(0))?;
    if !(1..=MOST_BENCHES).contains(&benches) {
        return Err(refusal(21));
    }
    Ok(patterns)
}

// ---- the shares

/// How many marks each bench has, from number 0 on: as many for each as all of them can have, and then those that are left over, one by one from number 0 on.
/// So 'shares differ by at most one mark, the larger at the lower numbers'.
pub fn dealt(patterns: u128, benches: u64) -> Vec<u128> {
    let mut shares = vec![patterns / u128::from(benches); benches as usize];
    let left_over = patterns - shares.iter().sum::<u128>();
    for bench in 0..left_over {
        shares[bench as usize] += 1;
    }
    shares
}

/// 'Each bench, from number 0 at rank 0 on, the start and run of its own one-leg forward plan': it starts where those before it end. None for a bench that is
/// left over because there are more benches than patterns.
pub fn share(ports: u64, benches: u64, bench: u64) -> Result<Option<Plan>, Refusal> {
    let shares = dealt(patterns(ports, benches)?, benches);
    if bench >= benches {
        return Err(refusal(22));
    }
    let (before, marks) = (&shares[..bench as usize], shares[bench as usize]);
    if marks == 0 {
        return Ok(None);
    }
    // a leg of run r names r + 1 ranks
    let leg = Leg { start: before.iter().sum(), run: marks as i128 - 1 };
    Ok(Some(Plan { ports: ports as usize, legs: vec![leg] }))
}

// ---- the sums

/// The sums of the covered, of the open and of the errors, which are lent in turn for each bench. After 1 and 21, '27 for the first bench whose covered plus
/// open is above its share or whose errors are above 65,535'.
pub fn sums(ports: u64, benches: u64, counts: &[u64]) -> Result<[u128; 3], Refusal> {
    let shares = dealt(patterns(ports, benches)?, benches);
    if counts.len() as u64 != 3 * benches {
        return Err(refusal(21));
    }
    let mut sums = [0; 3];
    for (bench, share) in shares.into_iter().enumerate() {
        let [covered, open, errors] = [0, 1, 2].map(|k| u128::from(counts[3 * bench + k]));
        if covered + open > share || errors > MOST_ERRORS {
            return Err(refusal_at(27, bench as u64));
        }
        sums = [sums[0] + covered, sums[1] + open, sums[2] + errors];
    }
    Ok(sums)
}

// ---- as the calls of the header

/// 'Accepted: the values that the call names, then zeros. Refused: the place (for 27 the bench, counted from 0; for every other refusal 0), then zeros.'
fn told(values: Result<[u128; 3], Refusal>) -> (u8, Answer) {
    match values {
        Ok([a, b, c]) => (0, [a as u64, b as u64, c as u64, 0, 0]),
        Err(Refusal { number, place, .. }) => (number, [place, 0, 0, 0, 0]),
    }
}

pub fn told_version() -> (u8, Answer) {
    told(Ok([BENCHES_VERSION.into(), 0, 0]))
}

/// 'Gives how many marks the plan has, the rank that the leg starts at, and its run'; for a bench without a plan '0 marks, and 0 and 0'.
pub fn told_share(ports: u64, benches: u64, bench: u64) -> (u8, Answer) {
    let words = |plan: Plan| [plan.marks(), plan.legs[0].start, plan.legs[0].run as u128];
    told(share(ports, benches, bench).map(|plan| plan.map_or([0; 3], words)))
}

pub fn told_sum(ports: u64, benches: u64, counts: &[u64]) -> (u8, Answer) {
    told(sums(ports, benches, counts))
}

// ---- the command

/// All that is printed, and the exit status: 0 printed, 65 refused.
type Printed = (Vec<u8>, i32);

/// 'A refusal prints two lines and nothing else.'
fn printed(text: Result<String, Refusal>) -> Printed {
    match text {
        Ok(text) => (text.into_bytes(), 0),
        Err(Refusal { number, place, .. }) => (format!("refused={number}\nat={place}\n").into_bytes(), 65),
    }
}

/// One line of a bench: its share, or that it has no plan.
fn line(bench: u64, plan: &Option<Plan>) -> String {
    match plan {
        Some(Plan { legs, .. }) => format!("bench={bench} start={} run={}\n", legs[0].start, legs[0].run),
        None => format!("bench={bench} none\n"),
    }
}

/// The text of a plan of one leg, as the order printer takes it.
pub fn plan_text(Plan { ports, legs }: &Plan) -> String {
    format!("ports={ports}\nlegs=1\nstart={}\nrun={}\n", legs[0].start, legs[0].run)
}

/// `bin/benches PORTS BENCHES`: one line for each bench.
pub fn printed_shares(ports: u64, benches: u64) -> Printed {
    let lines = || (0..benches).map(|bench| share(ports, benches, bench).map(|plan| line(bench, &plan))).collect();
    printed(patterns(ports, benches).and_then(|_| lines()))
}

/// `bin/benches PORTS BENCHES BENCH`: the plan of that bench, or its line where it has none.
pub fn printed_plan(ports: u64, benches: u64, bench: u64) -> Printed {
    printed(share(ports, benches, bench).map(|plan| plan.as_ref().map_or(line(bench, &None), plan_text)))
}

/// Three plain decimals with commas between them, and nothing else.
fn three(line: &[u8]) -> Option<[u64; 3]> {
    let numbers: Option<Vec<u64>> = line.split(|&byte| byte == b',').map(number).collect();
    numbers?.try_into().ok()
}

/// The lines of a file, one for each bench: 'line by line the first line that is bad: 11 at that line (from 1) where it has no newline, else 8 at that line'.
fn lines_of(file: &[u8]) -> Result<Vec<[u64; 3]>, Refusal> {
    let (mut rest, mut lines) = (&file[..file.len().min(MOST_BYTES)], vec![]);
    while !rest.is_empty() {
        let line = lines.len() as u64 + 1;
        let end = rest.iter().position(|&byte| byte == b'\n').ok_or(refusal_at(11, line))?;
        lines.push(three(&rest[..end]).ok_or(refusal_at(8, line))?);
        rest = &rest[end + 1..];
    }
    Ok(lines)
}

/// `bin/benches PORTS BENCHES --add`: 1 and 21 of the arguments, then the lines one by one, then 21 where there are not as many as benches, then 27.
pub fn printed_sums(ports: u64, benches: u64, file: &[u8]) -> Printed {
    let added = || {
        let patterns = patterns(ports, benches)?;
        let [covered, open, errors] = sums(ports, benches, &lines_of(file)?.concat())?;
        Ok(format!("covered={covered}\nopen={open}\nerrors={errors}\nof={patterns}\n"))
    };
    printed(added())
}
