//! Rows to count in, and numbers of patterns that do not exist.

use super::Random;
use crate::brute::spread::COUNTS;
use crate::compare::counts::Counts;

/// Numbers that are those of the first pattern, or just not, to anyone who
/// keeps only 3, 8, 16, 32 or 63 bits of them.
pub const ROUND_NUMBERS: &[u64] =
    &[8, 255, 256, 1 << 16, 1 << 31, u32::MAX as u64, 1 << 32, 1 << 40, 1 << 63];

/// A number not below the number of patterns: mostly one that some number of
/// low bits takes for a pattern that exists, else any, else the highest ones.
pub fn far_number(random: &mut Random, patterns: u64) -> u64 {
    let pattern = random.below(patterns as usize + 2) as u64;
    let far = match random.below(8) {
        0 => u64::MAX - pattern,
        1 => random.draw(),
        2 => patterns + 1 + pattern,
        3 => 256 * random.within(1..=255) as u64 + pattern,
        4 => (random.within(1..=1 << 20) as u64) << 32 | pattern,
        _ => random.pick(ROUND_NUMBERS) + pattern,
    };
    far.max(patterns)
}

/// A length of rows: mostly enough, exactly or with some to spare.
fn row_length(random: &mut Random) -> usize {
    match random.below(16) {
        0 => random.pick(&[0, 4_097]),
        1 => COUNTS - 1,
        2 => random.below(COUNTS),
        3..=6 => COUNTS + 1,
        7..=9 => COUNTS + random.within(2..=40),
        _ => COUNTS,
    }
}

/// A row with one number throughout, so that it prints short. It is mostly
/// no count, so that one that is not written shows.
pub fn row(random: &mut Random) -> Counts {
    let held = random.draw() as u32;
    Counts::filled(held, row_length(random))
}
