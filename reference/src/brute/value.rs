//! The additivity verdict and the summed estimate.

use super::task::{Action, Assignment, Task};
use super::{record, state, tables};
use crate::answer::{Reason, Refusal};

#[derive(Clone, Copy, Debug, PartialEq, Eq)]
pub enum Verdict {
    Additive,
    /// The lowest action that touches two patterns, and the lowest two.
    Conflict {
        action: usize,
        lower: usize,
        upper: usize,
    },
}

/// What is left of an outcome without the assignments of the value that the
/// need of its own move demands.
fn remaining(outcome: &Assignment, need: &Assignment) -> Assignment {
    let counts = |(name, demanded): (&Option<u8>, &Option<u8>)| name.filter(|_| name != demanded);
    outcome.iter().zip(need).map(counts).collect()
}

/// An action touches a pattern if one of the remaining assignments is of a
/// variable of the pattern.
fn touches(action: &Action, pattern: &[bool]) -> bool {
    let names_member = |(name, &member): (&Option<u8>, &bool)| member && name.is_some();
    let names_one = |outcome: &Assignment| {
        let remaining = remaining(outcome, &action.precondition);
        remaining.iter().zip(pattern).any(names_member)
    };
    action.outcomes.iter().any(names_one)
}

pub fn verdict(task: &Task) -> Verdict {
    let touched = |action: &Action| -> Vec<usize> {
        let patterns = 0..task.patterns.len();
        patterns.filter(|&p| touches(action, &task.patterns[p])).collect()
    };
    // Every action is judged in full; the first conflict is then picked.
    let all: Vec<Vec<usize>> = task.actions.iter().map(touched).collect();
    match all.iter().position(|touched| touched.len() > 1) {
        None => Verdict::Additive,
        Some(action) => Verdict::Conflict { action, lower: all[action][0], upper: all[action][1] },
    }
}

/// Refusal 9, where the sum is asked for.
pub fn demand_additive(task: &Task) -> Result<(), Refusal> {
    match verdict(task) {
        Verdict::Additive => Ok(()),
        Verdict::Conflict { action, .. } => Err(Refusal::new(Reason::NotAdditive, action)),
    }
}

/// The sum of the entries of the state's projections; `None` is infinite. Eight
/// lent entries may add up to more than 32 bits hold.
pub fn sum(task: &Task, state: &[u8], tables: &[u32]) -> Option<u64> {
    let mut total = 0;
    let mut rest = tables;
    for pattern in &task.patterns {
        let abstraction = task.projected(pattern);
        let members = state.iter().zip(pattern).filter(|&(_, &member)| member);
        let projection: Vec<u8> = members.map(|(&value, _)| value).collect();
        let (table, later) = rest.split_at(abstraction.states() as usize);
        match table[abstraction.index(&projection)] {
            tables::INFINITE_ENTRY => return None,
            entry => total += u64::from(entry),
        }
        rest = later;
    }
    Some(total)
}

/// The entry of the verdict: refusals 5, 6.
pub fn additive(record: &[u8]) -> Result<Verdict, Refusal> {
    Ok(verdict(&record::decode(record)?))
}

/// The entry of the value: refusals 5, 6, 7, 8, 9, 10.
pub fn value(record: &[u8], state: &[u8], lent: &[u32]) -> Result<Option<u64>, Refusal> {
    let task = record::decode(record)?;
    tables::entries(&task, lent.len())?;
    demand_additive(&task)?;
    let state = state::decode(&task, state)?;
    Ok(sum(&task, &state, lent))
}
