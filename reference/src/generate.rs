//! Inputs at random: sound tasks and their texts, then everything damaged.
//! All of it is decided by a seed, so that every input can be had again.

pub mod costs;
pub mod damage;
pub mod plans;
pub mod random;
pub mod restating;
pub mod rows;
pub mod tasks;
pub mod text;

pub use random::Random;
