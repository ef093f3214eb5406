//! The calls of include/jidrofex.h from Rust: the declarations, and a safe wrapper around each that takes slices for pointers and lengths.
//! A safe wrapper is sound because a slice is good for its length and a mutable one overlaps nothing else, which is all that the header asks for.

pub type Answer = [u64; 5];

/// The declarations of the header, call by call.
pub mod raw {
    extern "C" {
        pub fn jidrofex_version(answer: *mut u64) -> u8;
        pub fn jidrofex_refusal_words(number: u8, buffer: *mut u8, bytes: usize, answer: *mut u64) -> u8;
        pub fn jidrofex_refusal_sentence(number: u8, refused: *const u64, buffer: *mut u8, bytes: usize, answer: *mut u64) -> u8;
        pub fn jidrofex_check(pattern: *const u8, ports: usize, answer: *mut u64) -> u8;
        pub fn jidrofex_check_panel(panel: *const u8, ports: usize, answer: *mut u64) -> u8;
        pub fn jidrofex_count(ports: u8, answer: *mut u64) -> u8;
        pub fn jidrofex_rank(pattern: *const u8, ports: usize, answer: *mut u64) -> u8;
        pub fn jidrofex_unrank(rank: u64, pattern: *mut u8, ports: usize, answer: *mut u64) -> u8;
        pub fn jidrofex_next(pattern: *mut u8, ports: usize, answer: *mut u64) -> u8;
        pub fn jidrofex_previous(pattern: *mut u8, ports: usize, answer: *mut u64) -> u8;
        pub fn jidrofex_step(ports: u8, rank: u64, k: i64, answer: *mut u64) -> u8;
        pub fn jidrofex_dictionary_number(pattern: *const u8, ports: usize, answer: *mut u64) -> u8;
        pub fn jidrofex_dictionary_pattern(number: u64, pattern: *mut u8, ports: usize, answer: *mut u64) -> u8;
        pub fn jidrofex_dictionary_next(pattern: *mut u8, ports: usize, answer: *mut u64) -> u8;
        pub fn jidrofex_number_to_rank(ports: u8, number: u64, answer: *mut u64) -> u8;
        pub fn jidrofex_rank_to_number(ports: u8, rank: u64, answer: *mut u64) -> u8;
        pub fn jidrofex_port_at(panel: *const u8, ports: usize, jack: u8, answer: *mut u64) -> u8;
        pub fn jidrofex_jack_of(panel: *const u8, ports: usize, port: u8, answer: *mut u64) -> u8;
        pub fn jidrofex_carry(panel: *mut u8, ports: usize, line: *const u64, answer: *mut u64) -> u8;
        pub fn jidrofex_write_line(line: *const u64, buffer: *mut u8, bytes: usize, answer: *mut u64) -> u8;
        pub fn jidrofex_read_line(text: *const u8, bytes: usize, place: usize, answer: *mut u64) -> u8;
        pub fn jidrofex_named(text: *const u8, bytes: usize, gaps: *mut u64, numbers: usize, answer: *mut u64) -> u8;
        pub fn jidrofex_begin(text: *const u8, bytes: usize, state: *mut u64, words: usize, answer: *mut u64) -> u8;
        pub fn jidrofex_status(state: *const u64, words: usize, answer: *mut u64) -> u8;
        pub fn jidrofex_request(state: *mut u64, words: usize, buffer: *mut u8, bytes: usize, answer: *mut u64) -> u8;
        pub fn jidrofex_report(state: *mut u64, words: usize, kind: u8, answer: *mut u64) -> u8;
        pub fn jidrofex_report_mark(state: *mut u64, words: usize, mark: u64, kind: u8, answer: *mut u64) -> u8;
        pub fn jidrofex_resume(state: *mut u64, words: usize, panel: *const u8, ports: usize, answer: *mut u64) -> u8;
        pub fn jidrofex_rehearse(text: *const u8, bytes: usize, rehearsal: *mut u64, words: usize, answer: *mut u64) -> u8;
        pub fn jidrofex_orders(rehearsal: *mut u64, words: usize, buffer: *mut u8, bytes: usize, answer: *mut u64) -> u8;
    }
}

pub fn version(answer: &mut Answer) -> u8 {
    unsafe { raw::jidrofex_version(answer.as_mut_ptr()) }
}

pub fn refusal_words(number: u8, buffer: &mut [u8], answer: &mut Answer) -> u8 {
    unsafe { raw::jidrofex_refusal_words(number, buffer.as_mut_ptr(), buffer.len(), answer.as_mut_ptr()) }
}

pub fn refusal_sentence(number: u8, refused: &Answer, buffer: &mut [u8], answer: &mut Answer) -> u8 {
    unsafe { raw::jidrofex_refusal_sentence(number, refused.as_ptr(), buffer.as_mut_ptr(), buffer.len(), answer.as_mut_ptr()) }
}

pub fn check(pattern: &[u8], answer: &mut Answer) -> u8 {
    unsafe { raw::jidrofex_check(pattern.as_ptr(), pattern.len(), answer.as_mut_ptr()) }
}

pub fn check_panel(panel: &[u8], answer: &mut Answer) -> u8 {
    unsafe { raw::jidrofex_check_panel(panel.as_ptr(), panel.len(), answer.as_mut_ptr()) }
}

pub fn count(ports: u8, answer: &mut Answer) -> u8 {
    unsafe { raw::jidrofex_count(ports, answer.as_mut_ptr()) }
}

pub fn rank(pattern: &[u8], answer: &mut Answer) -> u8 {
    unsafe { raw::jidrofex_rank(pattern.as_ptr(), pattern.len(), answer.as_mut_ptr()) }
}

pub fn unrank(rank: u64, pattern: &mut [u8], answer: &mut Answer) -> u8 {
    unsafe { raw::jidrofex_unrank(rank, pattern.as_mut_ptr(), pattern.len(), answer.as_mut_ptr()) }
}

pub fn next(pattern: &mut [u8], answer: &mut Answer) -> u8 {
    unsafe { raw::jidrofex_next(pattern.as_mut_ptr(), pattern.len(), answer.as_mut_ptr()) }
}

pub fn previous(pattern: &mut [u8], answer: &mut Answer) -> u8 {
    unsafe { raw::jidrofex_previous(pattern.as_mut_ptr(), pattern.len(), answer.as_mut_ptr()) }
}

pub fn step(ports: u8, rank: u64, k: i64, answer: &mut Answer) -> u8 {
    unsafe { raw::jidrofex_step(ports, rank, k, answer.as_mut_ptr()) }
}

pub fn dictionary_number(pattern: &[u8], answer: &mut Answer) -> u8 {
    unsafe { raw::jidrofex_dictionary_number(pattern.as_ptr(), pattern.len(), answer.as_mut_ptr()) }
}

pub fn dictionary_pattern(number: u64, pattern: &mut [u8], answer: &mut Answer) -> u8 {
    unsafe { raw::jidrofex_dictionary_pattern(number, pattern.as_mut_ptr(), pattern.len(), answer.as_mut_ptr()) }
}

pub fn dictionary_next(pattern: &mut [u8], answer: &mut Answer) -> u8 {
    unsafe { raw::jidrofex_dictionary_next(pattern.as_mut_ptr(), pattern.len(), answer.as_mut_ptr()) }
}

pub fn number_to_rank(ports: u8, number: u64, answer: &mut Answer) -> u8 {
    unsafe { raw::jidrofex_number_to_rank(ports, number, answer.as_mut_ptr()) }
}

pub fn rank_to_number(ports: u8, rank: u64, answer: &mut Answer) -> u8 {
    unsafe { raw::jidrofex_rank_to_number(ports, rank, answer.as_mut_ptr()) }
}

pub fn port_at(panel: &[u8], jack: u8, answer: &mut Answer) -> u8 {
    unsafe { raw::jidrofex_port_at(panel.as_ptr(), panel.len(), jack, answer.as_mut_ptr()) }
}

pub fn jack_of(panel: &[u8], port: u8, answer: &mut Answer) -> u8 {
    unsafe { raw::jidrofex_jack_of(panel.as_ptr(), panel.len(), port, answer.as_mut_ptr()) }
}

pub fn carry(panel: &mut [u8], line: &[u64; 4], answer: &mut Answer) -> u8 {
    unsafe { raw::jidrofex_carry(panel.as_mut_ptr(), panel.len(), line.as_ptr(), answer.as_mut_ptr()) }
}

pub fn write_line(line: &[u64; 4], buffer: &mut [u8], answer: &mut Answer) -> u8 {
    unsafe { raw::jidrofex_write_line(line.as_ptr(), buffer.as_mut_ptr(), buffer.len(), answer.as_mut_ptr()) }
}

pub fn read_line(text: &[u8], place: usize, answer: &mut Answer) -> u8 {
    unsafe { raw::jidrofex_read_line(text.as_ptr(), text.len(), place, answer.as_mut_ptr()) }
}

pub fn named(text: &[u8], gaps: &mut [u64], answer: &mut Answer) -> u8 {
    unsafe { raw::jidrofex_named(text.as_ptr(), text.len(), gaps.as_mut_ptr(), gaps.len(), answer.as_mut_ptr()) }
}

pub fn begin(text: &[u8], state: &mut [u64], answer: &mut Answer) -> u8 {
    unsafe { raw::jidrofex_begin(text.as_ptr(), text.len(), state.as_mut_ptr(), state.len(), answer.as_mut_ptr()) }
}

pub fn status(state: &[u64], answer: &mut Answer) -> u8 {
    unsafe { raw::jidrofex_status(state.as_ptr(), state.len(), answer.as_mut_ptr()) }
}

pub fn request(state: &mut [u64], buffer: &mut [u8], answer: &mut Answer) -> u8 {
    unsafe { raw::jidrofex_request(state.as_mut_ptr(), state.len(), buffer.as_mut_ptr(), buffer.len(), answer.as_mut_ptr()) }
}

pub fn report(state: &mut [u64], kind: u8, answer: &mut Answer) -> u8 {
    unsafe { raw::jidrofex_report(state.as_mut_ptr(), state.len(), kind, answer.as_mut_ptr()) }
}

pub fn report_mark(state: &mut [u64], mark: u64, kind: u8, answer: &mut Answer) -> u8 {
    unsafe { raw::jidrofex_report_mark(state.as_mut_ptr(), state.len(), mark, kind, answer.as_mut_ptr()) }
}

pub fn resume(state: &mut [u64], panel: &[u8], answer: &mut Answer) -> u8 {
    unsafe { raw::jidrofex_resume(state.as_mut_ptr(), state.len(), panel.as_ptr(), panel.len(), answer.as_mut_ptr()) }
}

pub fn rehearse(text: &[u8], rehearsal: &mut [u64], answer: &mut Answer) -> u8 {
    unsafe { raw::jidrofex_rehearse(text.as_ptr(), text.len(), rehearsal.as_mut_ptr(), rehearsal.len(), answer.as_mut_ptr()) }
}

pub fn orders(rehearsal: &mut [u64], buffer: &mut [u8], answer: &mut Answer) -> u8 {
    unsafe { raw::jidrofex_orders(rehearsal.as_mut_ptr(), rehearsal.len(), buffer.as_mut_ptr(), buffer.len(), answer.as_mut_ptr()) }
}
