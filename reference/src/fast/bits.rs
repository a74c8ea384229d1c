//! Rows of cells as sets of variables.

use super::layout::Row;

const ONES: u64 = 0x0101_0101_0101_0101;

/// Eight bytes of 0 or 1 as eight bits, the first byte lowest.
fn gathered_half(flags: u64) -> u16 {
    const SPREAD: u64 = 0x0102_0408_1020_4080;
    (flags.wrapping_mul(SPREAD) >> 56) as u16
}

fn halves(row: &Row) -> [u64; 2] {
    let (halves, _) = row.as_chunks();
    [u64::from_le_bytes(halves[0]), u64::from_le_bytes(halves[1])]
}

/// Sixteen bytes of 0 or 1 as sixteen bits.
pub fn gathered(flags: &Row) -> u16 {
    let [low, high] = halves(flags);
    gathered_half(low) | gathered_half(high) << 8
}

/// The variables a row of a sound record names: of its cells only 255 has the
/// highest bit.
pub fn named(row: &Row) -> u16 {
    let [low, high] = halves(row).map(|half| !half >> 7 & ONES);
    gathered_half(low) | gathered_half(high) << 8
}

/// The members of a set, lowest first.
pub fn members(mut set: u64) -> impl Iterator<Item = usize> {
    std::iter::from_fn(move || {
        let lowest = (set != 0).then(|| set.trailing_zeros() as usize);
        set &= set.wrapping_sub(1);
        lowest
    })
}
