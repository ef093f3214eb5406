//! The declarations of include/jidrofex_benches.h, call by call, and of no other header.

extern "C" {
    pub fn jidrofex_benches_version(answer: *mut u64) -> u8;
    pub fn jidrofex_benches_share(ports: u64, benches: u64, bench: u64, answer: *mut u64) -> u8;
    pub fn jidrofex_benches_sum(ports: u64, benches: u64, counts: *const u64, numbers: usize, answer: *mut u64) -> u8;
}
