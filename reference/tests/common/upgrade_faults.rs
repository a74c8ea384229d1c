//! Upgrades of stored records that are the reference's but for one fault.

use reference::answer::Answer;
use reference::brute::Brute;
use reference::brute::record::{COSTS, LENGTH};
use reference::planner::Planner;

#[derive(Clone, Copy, Debug)]
pub enum UpgradeFault {
    TakesTheLimitOfToday,
    TestsTheTargetFirst,
    TestsTheTargetBeforeTheCells,
    TestsTheCostsOfALongerRecord,
    NeedsARecordOfToday,
    GivesEveryMoveACost,
    GivesNoMoveACost,
    KeepsWhatStandsBehindTheOldRecord,
    ClearsTheRestOfTheTarget,
    WritesBeforeItRefuses,
    TakesATargetOfTheOldLength,
}

use UpgradeFault::*;

fn refused(number: u64, first: usize) -> Answer {
    Answer { number, first: first as u64, ..Answer::default() }
}

impl UpgradeFault {
    pub const ALL: [UpgradeFault; 11] = [
        TakesTheLimitOfToday,
        TestsTheTargetFirst,
        TestsTheTargetBeforeTheCells,
        TestsTheCostsOfALongerRecord,
        NeedsARecordOfToday,
        GivesEveryMoveACost,
        GivesNoMoveACost,
        KeepsWhatStandsBehindTheOldRecord,
        ClearsTheRestOfTheTarget,
        WritesBeforeItRefuses,
        TakesATargetOfTheOldLength,
    ];

    pub fn upgrade_record(self, old: &[u8], target: &mut [u8]) -> Answer {
        let short = target.len() < LENGTH;
        match self {
            TestsTheTargetFirst if short => return refused(5, target.len()),
            TestsTheTargetBeforeTheCells if short && old.len() >= COSTS => {
                return refused(5, target.len());
            }
            NeedsARecordOfToday if old.len() < LENGTH => return refused(5, old.len()),
            TestsTheCostsOfALongerRecord if old.len() >= LENGTH => {
                let answer = Brute.check_record(old);
                if answer.number == 6 && answer.first as usize >= COSTS {
                    return answer;
                }
            }
            TakesTheLimitOfToday if old.len() >= COSTS => {
                let mut lower = old.to_vec();
                lower[3] = 0;
                let answer = Brute.upgrade_record(&lower, target);
                if answer.number == 0 {
                    target[3] = old[3];
                }
                return answer;
            }
            _ => {}
        }
        let found = target.to_vec();
        let answer = Brute.upgrade_record(old, target);
        if answer.number == 0 {
            self.spoil(old, target);
        } else if matches!(self, WritesBeforeItRefuses) && answer.number == 6 && !short {
            target[..COSTS].copy_from_slice(&old[..COSTS]);
        } else if matches!(self, TakesATargetOfTheOldLength) && short && target.len() >= COSTS {
            let mut longer = [&found[..], &[0; LENGTH]].concat();
            let answer = Brute.upgrade_record(old, &mut longer);
            target.copy_from_slice(&longer[..found.len()]);
            return answer;
        }
        answer
    }

    fn spoil(self, old: &[u8], target: &mut [u8]) {
        let costs = &mut target[COSTS..LENGTH];
        match self {
            GivesEveryMoveACost => costs.fill(1),
            GivesNoMoveACost => costs.fill(0),
            KeepsWhatStandsBehindTheOldRecord => {
                costs.iter_mut().zip(&old[COSTS..]).for_each(|(cost, &held)| *cost = held);
            }
            ClearsTheRestOfTheTarget => target[LENGTH..].fill(0),
            _ => {}
        }
    }
}
