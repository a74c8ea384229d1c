//! Stored records of the first form, which had no costs, made into records of
//! today's.

use super::record::{self, LENGTH};
use crate::answer::{Reason, Refusal};

/// The first form is today's without the costs at its end.
pub const FIRST_LENGTH: usize = record::COSTS;
/// Its limit was a number of moves.
pub const FIRST_MOST_LIMIT: u8 = 32;

/// Whether a cell is within the rule of the first form, provided all cells
/// before it are.
fn within_first_rule(old: &[u8], offset: usize) -> bool {
    match offset {
        record::LIMIT => old[offset] <= FIRST_MOST_LIMIT,
        _ => record::within_rule(old, offset),
    }
}

/// The entry: the old 5 and 6, then 5 for the target. Each used move costs 1,
/// as every move did.
pub fn upgrade_record(old: &[u8], target: &mut [u8]) -> Result<(), Refusal> {
    if old.len() < FIRST_LENGTH {
        return Err(Refusal::new(Reason::ShortRecord, old.len()));
    }
    if let Some(offset) = (0..FIRST_LENGTH).find(|&offset| !within_first_rule(old, offset)) {
        return Err(Refusal::new(Reason::Cell, offset));
    }
    if target.len() < LENGTH {
        return Err(Refusal::new(Reason::ShortRecord, target.len()));
    }
    let used = usize::from(old[record::ACTIONS]);
    let costs = (0..LENGTH - FIRST_LENGTH).map(|action| u8::from(action < used));
    let upgraded: Vec<u8> = old[..FIRST_LENGTH].iter().copied().chain(costs).collect();
    target[..LENGTH].copy_from_slice(&upgraded);
    Ok(())
}
