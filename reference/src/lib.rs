//! A brute-force solver for parking towers, written from the specification
//! alone, with generators of inputs and the comparison with another make.

pub mod answer;
pub mod brute;
pub mod compare;
pub mod demand;
pub mod fast;
pub mod generate;
#[cfg(feature = "library")]
pub mod library;
pub mod planner;
pub mod sample;
