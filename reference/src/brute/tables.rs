//! Pattern tables: the costs of the abstractions, one table after the other.

use super::costs::{self, INFINITE};
use super::record;
use super::task::Task;
use crate::answer::{Reason, Refusal};

pub const MOST_STATES: u128 = 4_096;
/// The entry that means infinite.
pub const INFINITE_ENTRY: u32 = 4_294_967_295;
/// No finite entry is above it: a cheapest path passes each of 4,096 states
/// once and takes moves of at most 255 between them.
pub const MOST_ENTRY: u32 = 1_044_225;

/// The number of entries of all tables, once they fit the patterns (7) and
/// the lent slice (8).
pub fn entries(task: &Task, lent: usize) -> Result<usize, Refusal> {
    let states = |pattern: &Vec<bool>| task.projected(pattern).states();
    let sizes: Vec<u128> = task.patterns.iter().map(states).collect();
    if let Some(wide) = sizes.iter().position(|&size| size > MOST_STATES) {
        return Err(Refusal::new(Reason::WidePattern, wide));
    }
    let needed = sizes.iter().sum::<u128>() as usize;
    if lent < needed {
        return Err(Refusal::new(Reason::ShortTables, needed));
    }
    Ok(needed)
}

fn entry(cost: u32) -> u32 {
    if cost == INFINITE {
        return INFINITE_ENTRY;
    }
    assert!(cost <= MOST_ENTRY, "a finite cost of {cost}");
    cost
}

/// The table of one pattern.
pub fn table(task: &Task, pattern: &[bool]) -> Vec<u32> {
    let costs = costs::costs(&task.projected(pattern));
    costs.into_iter().map(entry).collect()
}

/// All tables, for patterns that have been found small enough.
pub fn all_tables(task: &Task) -> Vec<u32> {
    let tables = task.patterns.iter().map(|pattern| table(task, pattern));
    tables.collect::<Vec<_>>().concat()
}

/// The entry: refusals 5, 6, 7, 8; answers the number of entries written.
pub fn build_tables(record: &[u8], tables: &mut [u32]) -> Result<usize, Refusal> {
    let task = record::decode(record)?;
    let needed = entries(&task, tables.len())?;
    tables[..needed].copy_from_slice(&all_tables(&task));
    Ok(needed)
}
