//! Spreads that do not depend on a seed: the sample tower with every number
//! and length near the ends of the rules, and the deepest table there is.

use super::costs::with_costs;
use super::counts::Counts;
use super::fixed::{Calls, record, task, variants};
use super::{Call, Slices};
use crate::brute::record::{LENGTH, encode};
use crate::brute::spread::COUNTS;
use crate::brute::tables;
use crate::generate::{Random, rows, tasks};
use crate::sample;

/// No count of a small tower, so that one that is not written shows.
const OLD_COUNT: u32 = 0xfeed_beef;
const OLD_ENTRY: u32 = 0x7777_7777;

fn call(record: &[u8], pattern: u64, entries: usize, counts: usize) -> Call {
    let (tables, row) = (vec![OLD_ENTRY; entries], Counts::filled(OLD_COUNT, counts));
    Call::spread(pattern, Slices { record: record.to_vec(), tables, row, ..Slices::default() })
}

/// The numbers from 0 past all patterns, and those that look like them in
/// fewer bits.
fn numbers() -> Vec<u64> {
    let near = |&round: &u64| [round - 1, round, round + 1];
    let mut numbers: Vec<u64> = (0..=10).chain([u64::MAX - 1, u64::MAX]).collect();
    numbers.extend(rows::ROUND_NUMBERS.iter().flat_map(near));
    numbers
}

/// The sample with each number and slices that are just long enough; it and its
/// variants with some numbers and rows and tables of every length about those.
pub fn near_the_sample() -> Calls {
    let sound = record(&sample::sample());
    let of_number = move |pattern| call(&sound, pattern, 6, COUNTS);
    let of_text = |text: String| {
        let (record, needed) = (record(&text), tables::all_tables(&task(&text)).len());
        let mut lent = Vec::new();
        for pattern in [0, 1, 2, u64::MAX] {
            for counts in [0, 4_097, COUNTS - 1, COUNTS, COUNTS + 3] {
                let lengths = [needed.saturating_sub(1), needed, needed + 2];
                lent.extend(lengths.map(|entries| (pattern, entries, counts)));
            }
        }
        let call = move |(pattern, entries, counts)| call(&record, pattern, entries, counts);
        lent.into_iter().map(call)
    };
    let of_variants = variants().into_iter().flat_map(of_text);
    Box::new(numbers().into_iter().map(of_number).chain(of_variants))
}

/// Short and faulty records and one with a pattern too wide, each with slices
/// that would be refused later, and with slices that would not.
pub fn refused() -> Calls {
    let sound = record(&sample::sample());
    let mut faulty = sound.clone();
    faulty[2] = 99;
    let mut wide = task(&sample::sample());
    wide.sizes = vec![16; 4];
    wide.goal.resize(4, None);
    wide.start.resize(4, 0);
    wide.actions.clear();
    wide.patterns = vec![vec![true, false, false, false], vec![true; 4]];
    let records = [sound[..LENGTH - 1].to_vec(), Vec::new(), faulty, encode(&wide)];
    let of_record = |record: Vec<u8>| {
        let lengths = [0, COUNTS - 1, COUNTS, COUNTS + 1];
        let both = lengths.into_iter().flat_map(|counts| [(0, counts), (70_000, counts)]);
        both.map(move |(entries, counts)| call(&record, 0, entries, counts)).collect::<Vec<_>>()
    };
    Box::new(records.into_iter().flat_map(of_record))
}

/// A counter of twelve variables, whose table holds every number from 0 to
/// 4,095 once, and the same without the move that carries into its highest
/// variable: half of the states are then infinite. Then both with moves that
/// cost 255, so that the entries go up to 1,044,225.
pub fn deepest() -> Calls {
    let whole = tasks::counter(&mut Random::new(1), 12);
    let mut lost = whole.clone();
    lost.actions.pop();
    let dear = [&whole, &lost].map(|task| with_costs(task, |_| 255));
    let all = [whole, lost].into_iter().chain(dear);
    Box::new(all.map(|task| call(&encode(&task), 0, 4_100, COUNTS + 1)))
}
