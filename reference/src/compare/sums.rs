//! What holds of every spread, whoever counted: the row against the tables
//! that the same call left, with the room of the patterns taken from the bytes
//! of the record.

use std::collections::BTreeMap;

use super::{Call, Entry, Made};
use crate::brute::record::ROW;
use crate::brute::spread::COUNTS;
use crate::demand::ensure;

/// Where the number of patterns, the sizes and the patterns stand.
const PATTERNS: usize = 2;
const SIZES: usize = 8;
const MEMBERS: usize = 56;

/// The number of states of each pattern of a sound record.
fn states(record: &[u8]) -> Vec<usize> {
    let sizes = &record[SIZES..SIZES + ROW];
    let members = record[MEMBERS..].chunks(ROW).take(record[PATTERNS].into());
    let size = |(&member, &size): (&u8, &u8)| if member == 1 { usize::from(size) } else { 1 };
    members.map(|row| row.iter().zip(sizes).map(size).product()).collect()
}

/// Where an entry is counted; finite ones from 1,044,226 on are nowhere.
fn place(entry: u32) -> Option<usize> {
    match entry {
        0..1_044_226 => Some(entry as usize),
        u32::MAX => Some(1_044_226),
        _ => None,
    }
}

/// The counts add up to the pattern's number of states, which the answer
/// tells, and each value of the table has as many as there are entries of it, so
/// that nothing is left for any other. The rest of the row is as lent.
pub fn check(call: &Call, made: &Made) -> Result<(), String> {
    if call.entry != Entry::Spread || made.answer.number != 0 {
        return Ok(());
    }
    let all = states(&call.slices.record);
    let number = usize::try_from(call.pattern).unwrap_or(usize::MAX);
    let expected = all.get(number).copied().unwrap_or(0);
    let before: usize = all.iter().take(number).sum();
    let (counts, rest) = made.lent_row().split_at(COUNTS);
    let sum: u64 = counts.iter().map(|&count| u64::from(count)).sum();
    ensure(made.answer.first == expected as u64, || format!("the pattern has {expected} states"))?;
    ensure(sum == expected as u64, || format!("counts of {sum} states, there are {expected}"))?;
    ensure(rest == &call.slices.row[COUNTS..], || "the rest of the row is touched".to_owned())?;
    let mut entries = BTreeMap::new();
    for &entry in made.lent_tables().iter().skip(before).take(expected) {
        *entries.entry(entry).or_insert(0) += 1;
    }
    for (entry, times) in entries {
        let count = place(entry).and_then(|place| counts.get(place));
        ensure(count == Some(&times), || {
            format!("{count:?} entries {entry} are counted, there are {times}")
        })?;
    }
    Ok(())
}
