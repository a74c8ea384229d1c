//! Demand 3 by brute force: the answers of a planner against the exact cost
//! of every state of a small task.

use crate::answer::Answer;
use crate::brute::costs::{self, INFINITE};
use crate::brute::task::Task;
use crate::brute::{record, state};
use crate::planner::Planner;

/// Table entries enough for all patterns, and bytes for plans that are not
/// too bushy; longer ones are refused with 11.
const ENTRIES: usize = 8 * 4_096;
const PLAN: usize = 65_536;

/// What demand 3 was tried on.
#[derive(Clone, Copy, Debug, Default, PartialEq, Eq)]
pub struct Tried {
    pub states: usize,
    pub infinite: usize,
    pub found: bool,
}

/// Words for a breach, so that it can be printed with its task.
pub(crate) fn ensure(holds: bool, breach: impl FnOnce() -> String) -> Result<(), String> {
    if holds { Ok(()) } else { Err(breach()) }
}

struct Trial<'a> {
    planner: &'a dyn Planner,
    task: &'a Task,
    record: Vec<u8>,
    tables: Vec<u32>,
    costs: Vec<u32>,
}

impl Trial<'_> {
    /// The summed estimate of every state is at most its cost, and infinite
    /// only where the cost is.
    fn estimates(&self) -> Result<Tried, String> {
        let mut tried = Tried::default();
        for (index, values) in self.task.all_states().iter().enumerate() {
            let cost = self.costs[index];
            let lent = state::encode(values);
            let told = self.planner.value(&self.record, &lent, &self.tables);
            ensure(told.number == 0, || format!("value refused {values:?}: {told:?}"))?;
            let admissible = match told.kind {
                0 => told.first <= cost.into(),
                _ => cost == INFINITE,
            };
            ensure(admissible, || format!("value {told:?} of {values:?}, cost {cost}"))?;
            tried.states += 1;
            tried.infinite += usize::from(told.kind != 0);
        }
        Ok(tried)
    }

    /// The answer of the search against the exact cost of the start.
    fn search(&mut self) -> Result<bool, String> {
        let mut plan = vec![0; PLAN];
        let told = self.planner.search(&self.record, &mut self.tables, &mut plan);
        let cost = self.costs[self.task.index(&self.task.start)];
        if told.number == 11 {
            return Ok(false);
        }
        ensure(told.number == 0, || format!("search refused: {told:?}"))?;
        let (exact, limit) = (u64::from(cost), u64::from(self.task.limit));
        let right = match told.kind {
            0 => told.first == exact,
            1 => exact > limit,
            2 => exact >= told.first,
            _ => cost == INFINITE,
        };
        ensure(right, || format!("search answers {told:?}, the start costs {cost}"))?;
        if told.kind == 0 {
            self.found(&told, &plan)?;
        }
        Ok(told.kind == 0)
    }

    /// A found plan is a strong plan of the cost and length reported.
    fn found(&self, told: &Answer, plan: &[u8]) -> Result<(), String> {
        let length = told.third as usize;
        let within = length <= plan.len();
        ensure(within && plan[length..].iter().all(|&byte| byte == 255), || {
            format!("no 255 after the plan of {length} bytes")
        })?;
        let start = state::encode(&self.task.start);
        let checked = self.planner.check_plan(&self.record, &start, &plan[..length]);
        let passed = Answer::kind(0, told.first, told.third, 0);
        ensure(checked == passed, || format!("the plan of {told:?} is judged {checked:?}"))
    }
}

/// Tries demand 3 on a small sound task; `None` where the planner says that
/// the patterns are not additive.
pub fn third(planner: &dyn Planner, task: &Task) -> Result<Option<Tried>, String> {
    let record = record::encode(task);
    let mut tables = vec![0; ENTRIES];
    let verdict = planner.additive(&record);
    ensure(verdict.number == 0, || format!("verdict refused: {verdict:?}"))?;
    let built = planner.build_tables(&record, &mut tables);
    ensure(built.number == 0, || format!("build refused: {built:?}"))?;
    if verdict.kind != 0 {
        return Ok(None);
    }
    let costs = costs::costs(task);
    let mut trial = Trial { planner, task, record, tables, costs };
    let mut tried = trial.estimates()?;
    tried.found = trial.search()?;
    Ok(Some(tried))
}
