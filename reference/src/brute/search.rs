//! The search as worded: rounds of growing depth, from which each move takes its
//! cost, and every examination counted.

use super::task::{Action, State, Task, after};
use super::{plan::Plan, record, tables, value};
use crate::answer::{Reason, Refusal};

#[derive(Clone, Debug, PartialEq, Eq)]
pub enum Ending {
    Found { plan: Plan, cost: u32 },
    Over,
    Spent { round: u32 },
    None,
}

/// How a search ended and how many examinations it made.
#[derive(Clone, Debug, PartialEq, Eq)]
pub struct Report {
    pub ending: Ending,
    pub count: u32,
}

/// The budget was used up before an examination.
struct Spent;

/// One pattern as the search reads it: its variables, each with its weight in
/// the index, and its table.
struct Part<'a> {
    weights: Vec<(usize, usize)>,
    table: &'a [u32],
}

impl Part<'_> {
    /// The entry of the state's projection; `None` is infinite.
    fn entry(&self, state: &[u8]) -> Option<u64> {
        let index: usize = self.weights.iter().map(|&(v, w)| w * usize::from(state[v])).sum();
        let entry = self.table[index];
        (entry != tables::INFINITE_ENTRY).then_some(entry.into())
    }
}

/// The estimate of every state that is asked for. The weights are worked out
/// once, for the search asks up to a million times.
struct Estimates<'a> {
    task: &'a Task,
    parts: Vec<Part<'a>>,
}

impl<'a> Estimates<'a> {
    fn of(task: &'a Task, tables: &'a [u32]) -> Self {
        let mut rest = tables;
        let mut parts = Vec::new();
        for pattern in &task.patterns {
            let mut weights = Vec::new();
            let mut weight = 1;
            for (v, _) in pattern.iter().enumerate().filter(|&(_, &member)| member) {
                weights.push((v, weight));
                weight *= usize::from(task.sizes[v]);
            }
            let (table, later) = rest.split_at(weight);
            parts.push(Part { weights, table });
            rest = later;
        }
        Self { task, parts }
    }

    /// The summed estimate; `None` is infinite.
    fn value(&self, state: &[u8]) -> Option<u64> {
        self.parts.iter().map(|part| part.entry(state)).sum()
    }
}

struct Searcher<'a> {
    estimates: Estimates<'a>,
    count: u32,
}

impl Searcher<'_> {
    /// Examines a state with `depth` left; a plan means that it succeeds.
    fn examine(&mut self, state: &State, depth: u32) -> Result<Option<Plan>, Spent> {
        let task = self.estimates.task;
        if self.count == task.budget {
            return Err(Spent);
        }
        self.count += 1;
        if task.is_goal(state) {
            return Ok(Some(Plan::Arrived));
        }
        if self.estimates.value(state).is_none_or(|value| value > depth.into()) || depth == 0 {
            return Ok(None);
        }
        for (number, action) in task.actions.iter().enumerate() {
            let cost = u32::from(action.cost);
            // A move dearer than the depth left is not tried.
            if !task.applies(action, state) || cost > depth {
                continue;
            }
            if let Some(plans) = self.examine_outcomes(state, action, depth - cost)? {
                return Ok(Some(Plan::Act(number as u8, plans)));
            }
        }
        Ok(None)
    }

    /// The plans for all outcomes of an action, unless one of them fails.
    fn examine_outcomes(
        &mut self,
        state: &State,
        action: &Action,
        depth: u32,
    ) -> Result<Option<Vec<Plan>>, Spent> {
        let mut plans = Vec::new();
        for outcome in &action.outcomes {
            match self.examine(&after(state, outcome), depth)? {
                Some(plan) => plans.push(plan),
                None => return Ok(None),
            }
        }
        Ok(Some(plans))
    }

    fn rounds(&mut self) -> Ending {
        let task = self.estimates.task;
        let Some(least) = self.estimates.value(&task.start) else {
            return Ending::None;
        };
        // Without a round, where the value is above the limit, it is over.
        let first = u32::try_from(least).unwrap_or(u32::MAX);
        for round in first..=task.limit.into() {
            match self.examine(&task.start, round) {
                Ok(Some(plan)) => return Ending::Found { cost: plan.cost(task), plan },
                Ok(None) => {}
                Err(Spent) => return Ending::Spent { round },
            }
        }
        Ending::Over
    }
}

/// The search from the task's start with the tables of the task.
pub fn run(task: &Task, tables: &[u32]) -> Report {
    let estimates = Estimates::of(task, tables);
    debug_assert_eq!(estimates.value(&task.start), value::sum(task, &task.start, tables));
    let mut searcher = Searcher { estimates, count: 0 };
    let ending = searcher.rounds();
    Report { ending, count: searcher.count }
}

/// The entry: refusals 5, 6, 7, 8, 9, 11. From refusal 11 on the slices hold
/// the tables and, but for a plan that fits, 255.
pub fn search(record: &[u8], lent: &mut [u32], plan: &mut [u8]) -> Result<Report, Refusal> {
    let task = record::decode(record)?;
    let needed = tables::entries(&task, lent.len())?;
    value::demand_additive(&task)?;
    lent[..needed].copy_from_slice(&tables::all_tables(&task));
    plan.fill(record::UNNAMED);
    let report = run(&task, &lent[..needed]);
    if let Ending::Found { plan: found, .. } = &report.ending {
        let bytes = found.bytes();
        if bytes.len() > plan.len() {
            return Err(Refusal::new(Reason::ShortPlan, bytes.len()));
        }
        plan[..bytes.len()].copy_from_slice(&bytes);
    }
    Ok(report)
}
