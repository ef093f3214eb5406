//! The reference: Jidrofex in plain Rust, written from the paper, document 000 and the later requests, and from nothing else. The proved library is held to it.
//! Clarity comes first here: vectors, wide integers and recursion wherever they make a sentence of the paper plain.
//!
//! - `list`: the list of patterns, check, count, rank, unrank, next, previous, the signed step
//! - `circuit`: the list once more, as document 000's procedures gen_up and gen_down produce it, pattern by pattern
//! - `relations`: one neighbour by relations (3) to (9), without walking the list: the plain Rust that the speed table times
//! - `levels`: the parts of the list that hold a pattern, level by level, and what `bin/explain` is to print
//! - `dictionary`: the same patterns in dictionary order: number, pattern, next, and translation to our rank and back
//! - `plain`: dictionary numbers, ranks and their patterns on arrays: the plain Rust that the speed table times
//! - `panel`: look-ups and orders carried out
//! - `swaps`: the fewest swaps between two panels, by the cycles of their jacks
//! - `text`: numbers, order lines, refusals in words and as sentences
//! - `plan`: the reading of plans
//! - `named`: how many different ranks a plan names, and its gaps, by a walk and by intervals
//! - `campaign`: the state, its fitness, where it is, request, report, a report by number, and going on after a power cut
//! - `printer`: the order printer
//! - `rehearsal`: lines in bulk, with no counts
//! - `told`: all of these as the calls of include/jidrofex.h, in numbers and slices
//! - `benches`: one full circuit split over several benches, their counts added up, as the calls of include/jidrofex_benches.h and as `bin/benches` prints them

pub mod benches;
pub mod campaign;
pub mod circuit;
pub mod dictionary;
pub mod levels;
pub mod list;
pub mod named;
pub mod panel;
pub mod plain;
pub mod plan;
pub mod printer;
pub mod rehearsal;
pub mod relations;
pub mod swaps;
pub mod text;
pub mod told;

/// The version of include/jidrofex.h that this is the reference of.
pub const VERSION: u64 = 5;

pub const MOST_PORTS: usize = 20;
pub const MOST_LEGS: usize = 16;
pub const MOST_ERRORS: u128 = 65_535;

/// A refusal: the paper's number; the place, 0 where none is said; and for 4 the jack of the earlier equal entry, else 0.
#[derive(Clone, Copy, Debug, PartialEq, Eq)]
pub struct Refusal {
    pub number: u8,
    pub place: u64,
    pub earlier: u64,
}

/// A refusal at a jack, or at a line of a plan.
pub fn refusal_at(number: u8, place: u64) -> Refusal {
    Refusal { number, place, earlier: 0 }
}

/// The refusal of an entry at a jack that is equal to the one at an earlier jack.
pub fn repeated(jack: u64, earlier: u64) -> Refusal {
    Refusal { number: 4, place: jack, earlier }
}

/// A refusal at no place.
pub fn refusal(number: u8) -> Refusal {
    refusal_at(number, 0)
}
