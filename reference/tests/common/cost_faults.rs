//! Costs of moves that are nearly those of the request.

use reference::answer::Answer;
use reference::brute::plan::{ARRIVED, Plan};
use reference::brute::record::{COSTS, LENGTH, decode, encode};
use reference::brute::task::{Action, State, Task, after};
use reference::brute::{Brute, tables, value};
use reference::planner::Planner;

#[derive(Clone, Copy, Debug, PartialEq, Eq)]
pub enum CostFault {
    IgnoredInTables,
    TakesTheCostOfTheNextMove,
    KeepsSixteenBitsOfEntries,
    AddsInThirtyTwoBits,
    IgnoredInDepth,
    CountsMovesThatAreTooDear,
    FailsAtAMoveThatIsTooDear,
    NeedsDepthToSpare,
    GrowsRoundsByTheLeastCost,
    IgnoredInTheSearchedPlan,
    IgnoredInTheCheckedPlan,
    TellsTheCostOfTheLastPath,
    AllowsCostsInsteadOfMoves,
    AllowsThirtyTwoMoves,
    AllowsOneMoveMore,
    PassesUnusedCosts,
    PassesCostsOfZero,
    RefusesLimitsAbove32,
    ReadsNoCostAsZero,
    ReadsNoCostAsTheOneBefore,
    RefusesTextsWithoutCosts,
    ReadsTheLastOfTwoCosts,
}

use CostFault::*;

fn with_task(record: &[u8], change: impl FnOnce(&mut Task)) -> Vec<u8> {
    let Ok(mut task) = decode(record) else { return record.to_vec() };
    change(&mut task);
    encode(&task)
}

/// Every move at the cost that is told of its number and of all costs.
fn with_costs(record: &[u8], cost: impl Fn(usize, &[u8]) -> u8) -> Vec<u8> {
    with_task(record, |task| {
        let all: Vec<u8> = task.actions.iter().map(|action| action.cost).collect();
        for (number, action) in task.actions.iter_mut().enumerate() {
            action.cost = cost(number, &all);
        }
    })
}

/// The lines behind the needs of a text, and where they stand.
fn behind_needs(lines: &[Vec<u8>]) -> Vec<usize> {
    (1..lines.len()).filter(|&line| lines[line - 1].starts_with(b"need=")).collect()
}

fn lines(text: &[u8]) -> Vec<Vec<u8>> {
    text.split(|&byte| byte == b'\n').map(<[u8]>::to_vec).collect()
}

/// The search once more, with a fault.
struct Search<'a> {
    task: &'a Task,
    tables: &'a [u32],
    count: u32,
    fault: Option<CostFault>,
}

struct Spent;

impl Search<'_> {
    fn examine(&mut self, state: &State, depth: u32) -> Result<Option<Plan>, Spent> {
        if self.count == self.task.budget {
            return Err(Spent);
        }
        self.count += 1;
        if self.task.is_goal(state) {
            return Ok(Some(Plan::Arrived));
        }
        let value = value::sum(self.task, state, self.tables);
        if value.is_none_or(|value| value > depth.into()) || depth == 0 {
            return Ok(None);
        }
        for (number, action) in self.task.actions.iter().enumerate() {
            if !self.task.applies(action, state) {
                continue;
            }
            match self.left(action, depth) {
                Some(left) => {
                    if let Some(plans) = self.outcomes(state, action, left)? {
                        return Ok(Some(Plan::Act(number as u8, plans)));
                    }
                }
                None if self.fault == Some(FailsAtAMoveThatIsTooDear) => return Ok(None),
                None if self.fault == Some(CountsMovesThatAreTooDear) => {
                    if self.count == self.task.budget {
                        return Err(Spent);
                    }
                    self.count += 1;
                }
                None => {}
            }
        }
        Ok(None)
    }

    /// The depth of the outcomes, unless the move is too dear.
    fn left(&self, action: &Action, depth: u32) -> Option<u32> {
        let cost = u32::from(action.cost);
        match self.fault {
            Some(IgnoredInDepth) => depth.checked_sub(1),
            Some(NeedsDepthToSpare) => depth.checked_sub(cost).filter(|&left| left > 0),
            _ => depth.checked_sub(cost),
        }
    }

    fn outcomes(
        &mut self,
        state: &State,
        action: &Action,
        depth: u32,
    ) -> Result<Option<Vec<Plan>>, Spent> {
        let mut plans = Vec::new();
        for outcome in &action.outcomes {
            match self.examine(&after(state, outcome), depth)? {
                Some(plan) => plans.push(plan),
                None => return Ok(None),
            }
        }
        Ok(Some(plans))
    }

    fn answer(&mut self) -> Answer {
        let Some(least) = value::sum(self.task, &self.task.start, self.tables) else {
            return Answer::kind(3, 0, 0, 0);
        };
        let costs = self.task.actions.iter().map(|action| usize::from(action.cost));
        let step = if self.fault == Some(GrowsRoundsByTheLeastCost) { costs.min() } else { None };
        for round in (least..=self.task.limit.into()).step_by(step.unwrap_or(1)) {
            match self.examine(&self.task.start, round as u32) {
                Ok(Some(plan)) => {
                    let (cost, length) = (plan.cost(self.task), plan.bytes().len());
                    return Answer::kind(0, cost.into(), self.count.into(), length as u64);
                }
                Ok(None) => {}
                Err(Spent) => return Answer::kind(2, round, self.count.into(), 0),
            }
        }
        Answer::kind(1, 0, self.count.into(), 0)
    }
}

/// The answer of the search once more where it gives one.
pub fn searched(fault: Option<CostFault>, record: &[u8], answer: Answer) -> Answer {
    let Ok(task) = decode(record) else { return answer };
    if answer.number != 0 {
        return answer;
    }
    let built = tables::all_tables(&task);
    Search { task: &task, tables: &built, count: 0, fault }.answer()
}

/// The cost of the path that a plan ends with.
fn last_path(task: &Task, plan: &[u8]) -> u64 {
    // The actions that await plans, each with the cost up to and with it.
    let mut awaiting: Vec<(usize, u64)> = Vec::new();
    let mut paid = 0;
    for &byte in plan {
        if byte != ARRIVED {
            let action = &task.actions[usize::from(byte)];
            paid += u64::from(action.cost);
            awaiting.push((action.outcomes.len(), paid));
        } else {
            while let Some((left, cost)) = awaiting.pop() {
                paid = cost;
                if left > 1 {
                    awaiting.push((left - 1, cost));
                    break;
                }
            }
        }
    }
    let path = plan.iter().rev().skip_while(|&&byte| byte == ARRIVED).copied().next();
    path.map_or(0, |_| paid)
}

impl CostFault {
    pub const ALL: [CostFault; 22] = [
        IgnoredInTables,
        TakesTheCostOfTheNextMove,
        KeepsSixteenBitsOfEntries,
        AddsInThirtyTwoBits,
        IgnoredInDepth,
        CountsMovesThatAreTooDear,
        FailsAtAMoveThatIsTooDear,
        NeedsDepthToSpare,
        GrowsRoundsByTheLeastCost,
        IgnoredInTheSearchedPlan,
        IgnoredInTheCheckedPlan,
        TellsTheCostOfTheLastPath,
        AllowsCostsInsteadOfMoves,
        AllowsThirtyTwoMoves,
        AllowsOneMoveMore,
        PassesUnusedCosts,
        PassesCostsOfZero,
        RefusesLimitsAbove32,
        ReadsNoCostAsZero,
        ReadsNoCostAsTheOneBefore,
        RefusesTextsWithoutCosts,
        ReadsTheLastOfTwoCosts,
    ];

    pub fn read_text(self, text: &[u8], record: &mut [u8]) -> Answer {
        let mut all = lines(text);
        let behind = behind_needs(&all);
        if self == ReadsTheLastOfTwoCosts {
            for &line in behind.iter().rev() {
                let is_cost = |line: usize| all.get(line).is_some_and(|l| l.starts_with(b"cost="));
                if is_cost(line) && is_cost(line + 1) {
                    all.remove(line);
                }
            }
            return Brute.read_text(&all.join(&b'\n'), record);
        }
        if self == RefusesTextsWithoutCosts && record.len() >= LENGTH {
            let first = behind.iter().find(|&&line| !all[line].starts_with(b"cost="));
            if let Some(&line) = first {
                return Answer { number: 1, first: line as u64 + 1, ..Answer::default() };
            }
        }
        let answer = Brute.read_text(text, record);
        if answer.number == 0 && matches!(self, ReadsNoCostAsZero | ReadsNoCostAsTheOneBefore) {
            for (number, line) in behind.into_iter().enumerate() {
                let left_out = !all[line].starts_with(b"cost=");
                if left_out && self == ReadsNoCostAsZero {
                    record[COSTS + number] = 0;
                } else if left_out && number > 0 {
                    record[COSTS + number] = record[COSTS + number - 1];
                }
            }
        }
        answer
    }

    pub fn check_record(self, record: &[u8]) -> Answer {
        let answer = Brute.check_record(record);
        let at = answer.first as usize;
        let passes = answer.number == 6
            && at >= COSTS
            && match self {
                PassesUnusedCosts => record[at] != 0,
                PassesCostsOfZero => record[at] == 0,
                _ => false,
            };
        if passes {
            return Answer::default();
        }
        let later = answer.number == 0 || answer.number == 6 && at > 3;
        if self == RefusesLimitsAbove32 && later && record[3] > 32 {
            return Answer { number: 6, first: 3, ..Answer::default() };
        }
        answer
    }

    pub fn build_tables(self, record: &[u8], lent: &mut [u32]) -> Answer {
        match self {
            IgnoredInTables => Brute.build_tables(&with_costs(record, |_, _| 1), lent),
            TakesTheCostOfTheNextMove => {
                let next = |number: usize, all: &[u8]| all[(number + 1) % all.len()];
                Brute.build_tables(&with_costs(record, next), lent)
            }
            KeepsSixteenBitsOfEntries => {
                let answer = Brute.build_tables(record, lent);
                if answer.number == 0 {
                    let built = &mut lent[..answer.first as usize];
                    let finite = built.iter_mut().filter(|entry| **entry != u32::MAX);
                    finite.for_each(|entry| *entry %= 65_536);
                }
                answer
            }
            _ => Brute.build_tables(record, lent),
        }
    }

    pub fn value(self, answer: Answer) -> Answer {
        match self {
            AddsInThirtyTwoBits => Answer { first: answer.first % (1 << 32), ..answer },
            _ => answer,
        }
    }

    pub fn search(self, record: &[u8], lent: &mut [u32], plan: &mut [u8]) -> Answer {
        let answer = Brute.search(record, lent, plan);
        match self {
            IgnoredInTheSearchedPlan if answer.number == 0 && answer.kind == 0 => {
                let start = decode(record).map(|task| reference::brute::state::encode(&task.start));
                let unit = with_costs(record, |_, _| 1);
                let length = answer.third as usize;
                let judged = Brute.check_plan(&unit, &start.unwrap_or_default(), &plan[..length]);
                Answer { first: judged.first, ..answer }
            }
            IgnoredInDepth
            | CountsMovesThatAreTooDear
            | FailsAtAMoveThatIsTooDear
            | NeedsDepthToSpare
            | GrowsRoundsByTheLeastCost => searched(Some(self), record, answer),
            _ => answer,
        }
    }

    pub fn check_plan(self, record: &[u8], state: &[u8], plan: &[u8]) -> Answer {
        let answer = Brute.check_plan(record, state, plan);
        let Ok(task) = decode(record) else { return answer };
        if self == AllowsOneMoveMore && answer.number == 17 && answer.first == 255 {
            return Answer::kind(0, 256, plan.len() as u64, 0);
        }
        if answer.number != 0 {
            return answer;
        }
        let too_deep = Answer { number: 17, first: 32, ..Answer::default() };
        let moves = Brute.check_plan(&with_costs(record, |_, _| 1), state, plan).first;
        match self {
            IgnoredInTheCheckedPlan => Answer { first: moves, ..answer },
            TellsTheCostOfTheLastPath => Answer { first: last_path(&task, plan), ..answer },
            AllowsCostsInsteadOfMoves if answer.first > 255 => too_deep,
            AllowsThirtyTwoMoves if moves > 32 => too_deep,
            _ => answer,
        }
    }
}
