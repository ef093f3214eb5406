//! Inputs, good and damaged, from a seeded generator of numbers.

mod arcs;
mod lines;
mod numbers;
mod patterns;
mod plans;
mod rng;
mod states;

pub use arcs::*;
pub use lines::*;
pub use numbers::*;
pub use patterns::*;
pub use plans::*;
pub use rng::Rng;
pub use states::*;
