//! The spread of a table: the row cleared in one pass, then each entry of the
//! table adds 1 to its count.

use super::patterns::INFINITE;
use crate::answer::{Reason, Refusal};

/// Where the infinite states are counted, behind the values.
const LAST: u32 = 1_044_226;
const COUNTS: usize = LAST as usize + 1;

/// The counts at the start of a row, or refusal 18.
pub fn counts(row: &mut [u32]) -> Result<&mut [u32; COUNTS], Refusal> {
    let length = row.len();
    row.first_chunk_mut().ok_or(Refusal::new(Reason::ShortRow, length))
}

/// Counts the states of a table and answers how many they are.
pub fn count(table: &[u32], row: &mut [u32; COUNTS]) -> usize {
    row.fill(0);
    for &entry in table {
        // Finite entries are below the last place, so that this moves the
        // infinite ones alone, and no index has to be tested.
        debug_assert!(entry < LAST || entry == INFINITE);
        row[entry.min(LAST) as usize] += 1;
    }
    table.len()
}
