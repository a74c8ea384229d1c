//! The solver. Each part follows the wording of the specification and takes
//! the plainest method, not the fastest one.

pub mod costs;
pub mod plan;
pub mod program;
pub mod reader;
pub mod record;
pub mod search;
pub mod spread;
pub mod state;
pub mod tables;
pub mod task;
pub mod upgrade;
pub mod value;

use crate::answer::{Answer, Refusal};
use crate::planner::Planner;
use search::Ending;
use value::Verdict;

/// The reference as a planner with the ten entries.
pub struct Brute;

/// Refusals and answers in one form.
fn answer<T>(result: Result<T, Refusal>, told: impl FnOnce(T) -> Answer) -> Answer {
    result.map_or_else(Answer::from, told)
}

fn done<T>(_: T) -> Answer {
    Answer::default()
}

impl Planner for Brute {
    fn read_text(&self, text: &[u8], record: &mut [u8]) -> Answer {
        answer(reader::read_text(text, record), done)
    }

    fn check_record(&self, record: &[u8]) -> Answer {
        answer(record::decode(record), done)
    }

    fn check_state(&self, record: &[u8], state: &[u8]) -> Answer {
        answer(state::check_state(record, state), done)
    }

    fn build_tables(&self, record: &[u8], tables: &mut [u32]) -> Answer {
        answer(tables::build_tables(record, tables), |written| {
            Answer::kind(0, written as u64, 0, 0)
        })
    }

    fn spread(&self, record: &[u8], pattern: u64, tables: &mut [u32], row: &mut [u32]) -> Answer {
        answer(spread::spread(record, pattern, tables, row), |states| {
            Answer::kind(0, states as u64, 0, 0)
        })
    }

    fn additive(&self, record: &[u8]) -> Answer {
        answer(value::additive(record), |verdict| match verdict {
            Verdict::Additive => Answer::kind(0, 0, 0, 0),
            Verdict::Conflict { action, lower, upper } => {
                Answer::kind(1, action as u64, lower as u64, upper as u64)
            }
        })
    }

    fn value(&self, record: &[u8], state: &[u8], tables: &[u32]) -> Answer {
        answer(value::value(record, state, tables), |value| match value {
            Some(value) => Answer::kind(0, value, 0, 0),
            None => Answer::kind(1, 0, 0, 0),
        })
    }

    fn search(&self, record: &[u8], tables: &mut [u32], plan: &mut [u8]) -> Answer {
        answer(search::search(record, tables, plan), |report| {
            let count = report.count.into();
            match report.ending {
                Ending::Found { plan, cost } => {
                    let length = plan.bytes().len() as u64;
                    Answer::kind(0, cost.into(), count, length)
                }
                Ending::Over => Answer::kind(1, 0, count, 0),
                Ending::Spent { round } => Answer::kind(2, round.into(), count, 0),
                Ending::None => Answer::kind(3, 0, count, 0),
            }
        })
    }

    fn check_plan(&self, record: &[u8], state: &[u8], plan: &[u8]) -> Answer {
        answer(plan::check_plan(record, state, plan), |passed| {
            Answer::kind(0, passed.cost as u64, passed.length as u64, 0)
        })
    }

    fn upgrade_record(&self, old: &[u8], record: &mut [u8]) -> Answer {
        answer(upgrade::upgrade_record(old, record), done)
    }
}
