//! The same entries written for speed: what the benchmark holds the planner
//! library against. Safe Rust, bounds checks on; nothing of the brute-force
//! solver is used here.

mod bits;
mod compiled;
mod front;
mod layout;
mod patterns;
mod plan;
mod record;
mod results;
mod search;
mod spread;
mod table;
mod text;
mod write;

use crate::answer::{Answer, Refusal};
use crate::planner::Planner;
use search::Ending;

/// The fast make.
pub struct Fast;

fn answer<T>(result: Result<T, Refusal>, told: impl FnOnce(T) -> Answer) -> Answer {
    match result {
        Ok(found) => told(found),
        Err(refusal) => refusal.into(),
    }
}

impl Planner for Fast {
    fn read_text(&self, text: &[u8], record: &mut [u8]) -> Answer {
        answer(text::read(text, record), |()| Answer::default())
    }

    fn check_record(&self, record: &[u8]) -> Answer {
        answer(record::check(record), |_| Answer::default())
    }

    fn check_state(&self, record: &[u8], state: &[u8]) -> Answer {
        let state = record::check(record).and_then(|record| record.state(state));
        answer(state, |_| Answer::default())
    }

    fn build_tables(&self, record: &[u8], tables: &mut [u32]) -> Answer {
        let built = record::check(record).and_then(|record| {
            let spaces = patterns::spaces(&record, tables.len())?;
            table::build(&record, &spaces, tables);
            Ok(spaces.entries)
        });
        answer(built, |entries| Answer::kind(0, entries as u64, 0, 0))
    }

    fn spread(&self, record: &[u8], pattern: u64, tables: &mut [u32], row: &mut [u32]) -> Answer {
        let counted = record::check(record).and_then(|record| {
            let spaces = patterns::spaces(&record, tables.len())?;
            let row = spread::counts(row)?;
            table::build(&record, &spaces, tables);
            Ok(spread::count(spaces.table(pattern, tables), row))
        });
        answer(counted, |states| Answer::kind(0, states as u64, 0, 0))
    }

    fn additive(&self, record: &[u8]) -> Answer {
        let conflict = record::check(record).map(|record| patterns::conflict(&record));
        answer(conflict, |conflict| match conflict {
            None => Answer::kind(0, 0, 0, 0),
            Some((action, lower, upper)) => {
                Answer::kind(1, action as u64, lower.into(), upper.into())
            }
        })
    }

    fn value(&self, record: &[u8], state: &[u8], tables: &[u32]) -> Answer {
        let value = record::check(record).and_then(|record| {
            let spaces = patterns::spaces(&record, tables.len())?;
            patterns::demand_additive(&record)?;
            Ok(spaces.value(record.state(state)?, tables))
        });
        answer(value, |value| match value {
            Some(value) => Answer::kind(0, value, 0, 0),
            None => Answer::kind(1, 0, 0, 0),
        })
    }

    fn search(&self, record: &[u8], tables: &mut [u32], plan: &mut [u8]) -> Answer {
        let report = record::check(record).and_then(|record| {
            let spaces = patterns::spaces(&record, tables.len())?;
            patterns::demand_additive(&record)?;
            table::build(&record, &spaces, tables);
            search::run(&record, &spaces, tables, plan)
        });
        answer(report, |(ending, count)| {
            let count = count.into();
            match ending {
                Ending::Found { cost, length } => {
                    Answer::kind(0, cost.into(), count, length as u64)
                }
                Ending::Over => Answer::kind(1, 0, count, 0),
                Ending::Spent { round } => Answer::kind(2, round.into(), count, 0),
                Ending::None => Answer::kind(3, 0, count, 0),
            }
        })
    }

    fn check_plan(&self, record: &[u8], state: &[u8], plan: &[u8]) -> Answer {
        let passed = record::check(record).and_then(|record| {
            let state = record.state(state)?;
            plan::check(&record, *state, plan)
        });
        answer(passed, |cost| Answer::kind(0, cost.into(), plan.len() as u64, 0))
    }

    fn upgrade_record(&self, old: &[u8], record: &mut [u8]) -> Answer {
        answer(record::upgrade(old, record), |()| Answer::default())
    }
}
