//! The deepest stack of each call.

use super::benches;
use super::campaign::standing_mark;
use super::named::apart;
use super::{begun, patterns, rehearsed};
use face::Answer;
use reference::benches::MOST_BENCHES;
use reference::campaign::{PANEL, STANDING};
use std::arch::asm;
use std::ptr::{read_volatile, write_volatile};

/// Where the stack's pointer stands.
#[inline(always)]
fn stack_pointer() -> usize {
    let at: usize;
    #[cfg(target_arch = "x86_64")]
    unsafe {
        asm!("mov {}, rsp", out(reg) at, options(nomem, nostack, preserves_flags));
    }
    #[cfg(target_arch = "aarch64")]
    unsafe {
        asm!("mov {}, sp", out(reg) at, options(nomem, nostack, preserves_flags));
    }
    at
}

const STACK: usize = 1 << 20;
const PAINTED: usize = 1 << 19;
const PAINT: u64 = 0x5ca1_ab1e_0ddb_a11d;

/// How many bytes below this frame a call writes: the stack below is painted, and the lowest word that lost its paint is looked for. Runs on a thread
/// whose stack is larger than what is painted; this function makes a call, so that nothing of its own stands below the pointer.
#[inline(never)]
fn depth(call: &mut dyn FnMut()) -> usize {
    let top = stack_pointer();
    let lowest = top - PAINTED;
    for at in (lowest..top).step_by(8) {
        unsafe { write_volatile(at as *mut u64, PAINT) };
    }
    call();
    let reached = (lowest..top).step_by(8).find(|&at| unsafe { read_volatile(at as *const u64) } != PAINT);
    top - reached.unwrap_or(top)
}

/// What is lent to the calls: a pattern of 20 ports, a state in the middle of a leg, a rehearsal, a buffer, an answer.
struct Lent {
    pattern: Vec<u8>,
    state: Vec<u64>,
    rehearsal: Vec<u64>,
    buffer: Vec<u8>,
    answer: Answer,
}

/// The deepest of a call over 256 inputs, each made ready first. The first round of calls is not looked at: the loader may take stack in it.
fn deepest(ready: impl Fn(&mut Lent) + Send, call: impl Fn(&mut Lent) + Send) -> usize {
    let measure = move || {
        let mut lent = Lent { pattern: vec![], state: begun(20).1, rehearsal: rehearsed(20).1, buffer: vec![0; 4096], answer: [0; 5] };
        let mut most = 0;
        for round in 0..2 {
            for pattern in patterns(20) {
                lent.pattern = pattern;
                ready(&mut lent);
                let found = depth(&mut || call(&mut lent));
                most = if round == 0 { 0 } else { most.max(found) };
            }
        }
        most
    };
    std::thread::scope(|scope| {
        let thread = std::thread::Builder::new().stack_size(STACK).spawn_scoped(scope, measure).expect("a thread");
        thread.join().expect("the calls end")
    })
}

/// The last mark closed, so that a request is due.
fn for_request(lent: &mut Lent) {
    if lent.state[STANDING] == 1 {
        face::report(&mut lent.state, 0, &mut lent.answer);
    }
}

/// A mark standing, so that a report is due.
fn for_report(lent: &mut Lent) {
    while lent.state[STANDING] == 0 {
        face::request(&mut lent.state, &mut lent.buffer, &mut lent.answer);
    }
}

/// One call further on.
fn for_status(lent: &mut Lent) {
    if lent.state[STANDING] == 1 {
        for_request(lent);
    } else {
        face::request(&mut lent.state, &mut lent.buffer, &mut lent.answer);
    }
}

/// One call further on, and the state's own panel read back.
fn for_resume(lent: &mut Lent) {
    for_status(lent);
    let panel = &lent.state[PANEL..PANEL + lent.pattern.len()];
    lent.pattern.copy_from_slice(&panel.iter().map(|&port| port as u8).collect::<Vec<_>>());
}

pub fn stack_table() {
    println!("\n## Stack\n");
    println!("The deepest stack seen of each call over 256 inputs of 20 ports, in bytes, the Rust frame that makes the call included.\n");
    println!("| call | bytes |\n|---|---|");
    const LONGEST: &[u8] = b"mark=18446744073709551615,18446744073709551615\n";
    let plan = &begun(20).0;
    let nothing = |_: &mut Lent| {};
    let show = |name: &str, bytes: usize| println!("| {name} | {bytes} |");
    show("version", deepest(nothing, |l| accepted(face::version(&mut l.answer))));
    show("refusal_words", deepest(nothing, |l| accepted(face::refusal_words(l.pattern[0], &mut l.buffer, &mut l.answer))));
    let longest = [u64::MAX; 5];
    show("refusal_sentence", deepest(nothing, |l| accepted(face::refusal_sentence(l.pattern[0], &longest, &mut l.buffer, &mut l.answer))));
    show("check", deepest(nothing, |l| accepted(face::check(&l.pattern, &mut l.answer))));
    show("check_panel", deepest(nothing, |l| accepted(face::check_panel(&l.pattern, &mut l.answer))));
    show("count", deepest(nothing, |l| accepted(face::count(20, &mut l.answer))));
    show("rank", deepest(nothing, |l| accepted(face::rank(&l.pattern, &mut l.answer))));
    show("unrank", deepest(nothing, |l| accepted(face::unrank(u64::from(l.pattern[0]) << 54, &mut l.pattern, &mut l.answer))));
    show("next", deepest(nothing, |l| accepted(face::next(&mut l.pattern, &mut l.answer))));
    show("previous", deepest(nothing, |l| accepted(face::previous(&mut l.pattern, &mut l.answer))));
    show("step", deepest(nothing, |l| accepted(face::step(20, l.pattern[0].into(), i64::MIN, &mut l.answer))));
    show("dictionary_number", deepest(nothing, |l| accepted(face::dictionary_number(&l.pattern, &mut l.answer))));
    let dictionary_pattern = |l: &mut Lent| accepted(face::dictionary_pattern(u64::from(l.pattern[0]) << 54, &mut l.pattern, &mut l.answer));
    show("dictionary_pattern", deepest(nothing, dictionary_pattern));
    show("dictionary_next", deepest(nothing, |l| accepted(face::dictionary_next(&mut l.pattern, &mut l.answer))));
    show("number_to_rank", deepest(nothing, |l| accepted(face::number_to_rank(20, u64::from(l.pattern[0]) << 54, &mut l.answer))));
    show("rank_to_number", deepest(nothing, |l| accepted(face::rank_to_number(20, u64::from(l.pattern[0]) << 54, &mut l.answer))));
    show("port_at", deepest(nothing, |l| accepted(face::port_at(&l.pattern, 20, &mut l.answer))));
    show("jack_of", deepest(nothing, |l| accepted(face::jack_of(&l.pattern, 20, &mut l.answer))));
    show("carry", deepest(nothing, |l| accepted(face::carry(&mut l.pattern, &[2, 1, 20, 3], &mut l.answer))));
    show("write_line", deepest(nothing, |l| accepted(face::write_line(&[3, u64::MAX, u64::MAX, 0], &mut l.buffer, &mut l.answer))));
    show("read_line", deepest(nothing, |l| accepted(face::read_line(LONGEST, 0, &mut l.answer))));
    let most_gaps = &apart(16);
    show("named", deepest(nothing, |l| accepted(face::named(most_gaps, &mut l.state, &mut l.answer))));
    show("begin", deepest(nothing, |l| accepted(face::begin(plan, &mut l.state, &mut l.answer))));
    show("status", deepest(for_status, |l| accepted(face::status(&l.state, &mut l.answer))));
    show("request", deepest(for_request, |l| accepted(face::request(&mut l.state, &mut l.buffer, &mut l.answer))));
    show("report", deepest(for_report, |l| accepted(face::report(&mut l.state, 0, &mut l.answer))));
    let report_mark = |l: &mut Lent| {
        let mark = standing_mark(&l.state);
        accepted(face::report_mark(&mut l.state, mark, 0, &mut l.answer));
    };
    show("report_mark", deepest(for_report, report_mark));
    show("resume", deepest(for_resume, |l| accepted(face::resume(&mut l.state, &l.pattern, &mut l.answer))));
    show("rehearse", deepest(nothing, |l| accepted(face::rehearse(plan, &mut l.rehearsal, &mut l.answer))));
    show("orders", deepest(nothing, |l| accepted(face::orders(&mut l.rehearsal, &mut l.buffer, &mut l.answer))));
    show("benches_version", deepest(nothing, |l| accepted(benches::version(&mut l.answer))));
    show("benches_share", deepest(nothing, |l| accepted(benches::share(benches::PORTS, MOST_BENCHES, l.pattern[0].into(), &mut l.answer))));
    let counts = &benches::counts();
    show("benches_sum", deepest(nothing, |l| accepted(benches::sum(benches::PORTS, MOST_BENCHES, counts, &mut l.answer))));
}

/// The call was accepted: a refused one would say nothing of the stack.
fn accepted(number: u8) {
    assert_eq!(number, 0, "the call is accepted");
}
