//! Spreads that are the reference's but for one fault.

use reference::answer::Answer;
use reference::brute::Brute;
use reference::brute::spread::COUNTS;
use reference::planner::Planner;

#[derive(Clone, Copy, Debug)]
pub enum SpreadFault {
    KeepsEightBitsOfTheNumber,
    KeepsThirtyTwoBitsOfTheNumber,
    RefusesANumberWithoutPattern,
    LeavesTheRowWithoutPattern,
    CountsTheFirstTable,
    AddsToOldCounts,
    ClearsTheWholeRow,
    LosesInfiniteStates,
    TestsTheRowFirst,
    BuildsBeforeTheRowIsTested,
    LeavesTablesAsLent,
    CountsAsBeforeCosts,
    KeepsSixteenBitsOfTheValue,
}

use SpreadFault::*;

impl SpreadFault {
    pub const ALL: [SpreadFault; 13] = [
        KeepsEightBitsOfTheNumber,
        KeepsThirtyTwoBitsOfTheNumber,
        RefusesANumberWithoutPattern,
        LeavesTheRowWithoutPattern,
        CountsTheFirstTable,
        AddsToOldCounts,
        ClearsTheWholeRow,
        LosesInfiniteStates,
        TestsTheRowFirst,
        BuildsBeforeTheRowIsTested,
        LeavesTablesAsLent,
        CountsAsBeforeCosts,
        KeepsSixteenBitsOfTheValue,
    ];

    pub fn spread(
        self,
        record: &[u8],
        pattern: u64,
        tables: &mut [u32],
        row: &mut [u32],
    ) -> Answer {
        let found = row.to_vec();
        let answer = match self {
            KeepsEightBitsOfTheNumber => Brute.spread(record, pattern % 256, tables, row),
            KeepsThirtyTwoBitsOfTheNumber => Brute.spread(record, pattern % (1 << 32), tables, row),
            CountsTheFirstTable if pattern < 8 => Brute.spread(record, 0, tables, row),
            LeavesTablesAsLent => Brute.spread(record, pattern, &mut tables.to_vec(), row),
            TestsTheRowFirst if row.len() < COUNTS => {
                Answer { number: 18, first: row.len() as u64, ..Answer::default() }
            }
            _ => Brute.spread(record, pattern, tables, row),
        };
        if answer.number == 0 {
            return self.spoilt(answer, row, &found);
        }
        if matches!(self, BuildsBeforeTheRowIsTested) && answer.number == 18 {
            Brute.build_tables(record, tables);
        }
        answer
    }

    /// What becomes of an answer and its row.
    fn spoilt(self, answer: Answer, row: &mut [u32], found: &[u32]) -> Answer {
        match self {
            RefusesANumberWithoutPattern if answer.first == 0 => {
                return Answer { number: 7, ..Answer::default() };
            }
            LeavesTheRowWithoutPattern if answer.first == 0 => row.copy_from_slice(found),
            AddsToOldCounts => {
                let counts = row[..COUNTS].iter_mut().zip(found);
                counts.for_each(|(count, old)| *count = count.wrapping_add(*old));
            }
            ClearsTheWholeRow => row[COUNTS..].fill(0),
            LosesInfiniteStates => row[COUNTS - 1] = 0,
            // Values from 0 to 4,095, then the infinite states.
            CountsAsBeforeCosts => {
                row[4_096] = row[COUNTS - 1];
                row[4_097..].copy_from_slice(&found[4_097..]);
            }
            KeepsSixteenBitsOfTheValue => {
                for value in 65_536..COUNTS - 1 {
                    let count = std::mem::take(&mut row[value]);
                    row[value % 65_536] += count;
                }
            }
            _ => {}
        }
        answer
    }
}
