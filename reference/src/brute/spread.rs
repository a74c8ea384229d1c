//! The spread of a table: how many abstract states of a pattern have each
//! value.

use super::record;
use super::tables::{self, INFINITE_ENTRY, MOST_ENTRY};
use crate::answer::{Reason, Refusal};

/// A count for each value from 0 to the largest that an entry can have, then
/// the one of the infinite states.
pub const COUNTS: usize = MOST_ENTRY as usize + 2;

/// Counts the entries of a table: in order, equal ones stand side by side, and
/// how many they are is their count. All other counts are 0.
fn count(table: &[u32], counts: &mut [u32]) {
    counts.fill(0);
    let mut sorted = table.to_vec();
    sorted.sort_unstable();
    for equal in sorted.chunk_by(|one, other| one == other) {
        let place = if equal[0] == INFINITE_ENTRY { COUNTS - 1 } else { equal[0] as usize };
        counts[place] = equal.len() as u32;
    }
}

/// The entry: refusals 5, 6, 7, 8, 18; answers the number of states counted.
pub fn spread(
    record: &[u8],
    pattern: u64,
    lent: &mut [u32],
    row: &mut [u32],
) -> Result<usize, Refusal> {
    let task = record::decode(record)?;
    let needed = tables::entries(&task, lent.len())?;
    if row.len() < COUNTS {
        return Err(Refusal::new(Reason::ShortRow, row.len()));
    }
    let built: Vec<Vec<u32>> = task.patterns.iter().map(|p| tables::table(&task, p)).collect();
    lent[..needed].copy_from_slice(&built.concat());
    // Numbers are looked for and not made indices: of any size, one that no
    // pattern has names no states.
    let named = (0..).zip(&built).find(|&(number, _): &(u64, _)| number == pattern);
    let states = named.map_or(&[][..], |(_, table)| table);
    count(states, &mut row[..COUNTS]);
    Ok(states.len())
}
