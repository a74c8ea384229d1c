//! A lent state: 16 bytes, 255 beyond the variables.

use super::record::{self, ROW, UNNAMED};
use super::task::{State, Task};
use crate::answer::{Reason, Refusal};

/// The values of a lent state, or refusal 10.
pub fn decode(task: &Task, state: &[u8]) -> Result<State, Refusal> {
    if state.len() != ROW {
        return Err(Refusal::new(Reason::State, ROW));
    }
    let variables = task.sizes.len();
    let good = |v: usize| match task.sizes.get(v) {
        Some(&size) => state[v] < size,
        None => state[v] == UNNAMED,
    };
    match (0..ROW).find(|&v| !good(v)) {
        Some(offset) => Err(Refusal::new(Reason::State, offset)),
        None => Ok(state[..variables].to_vec()),
    }
}

/// The 16 bytes of a state.
pub fn encode(state: &[u8]) -> Vec<u8> {
    let mut cells = state.to_vec();
    cells.resize(ROW, UNNAMED);
    cells
}

/// The entry: refusals 5, 6, 10.
pub fn check_state(record: &[u8], state: &[u8]) -> Result<State, Refusal> {
    decode(&record::decode(record)?, state)
}
