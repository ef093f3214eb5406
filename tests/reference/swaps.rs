//! The fewest swaps between two panels, by a fact of the textbooks: a permutation of n jacks with c cycles is a product of n - c swaps of two jacks, and of no
//! fewer. A jack that keeps its port is a cycle too.

/// The fewest swaps of two jacks that make the panel `to` of the panel `from`, whatever panels they pass.
pub fn fewest(from: &[u8], to: &[u8]) -> usize {
    from.len() - cycles(from, to)
}

/// The cycles of the jacks, where after each jack comes the one at which `to` has its port.
fn cycles(from: &[u8], to: &[u8]) -> usize {
    let mut met = vec![false; from.len()];
    let mut cycles = 0;
    for first in 0..from.len() {
        if met[first] {
            continue;
        }
        cycles += 1;
        let mut jack = first;
        while !met[jack] {
            met[jack] = true;
            jack = to.iter().position(|&port| port == from[jack]).expect("both panels have the same ports");
        }
    }
    cycles
}
