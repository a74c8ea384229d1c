//! Owner rules that are nearly that of the request: each judges a task by one
//! in which other assignments remain.

use reference::answer::Answer;
use reference::brute::Brute;
use reference::brute::record::{decode, encode};
use reference::brute::task::{Action, Task};
use reference::planner::Planner;

#[derive(Clone, Copy, Debug)]
pub enum RestatingFault {
    CountsEveryAssignment,
    TakesAnyValueOfWhatIsNeeded,
    TakesTheNeedOfTheMoveBefore,
    TakesTheNeedOfAnyMove,
    TakesTheValueNeededOfAnyVariable,
    TakesTheValueOfTheGoal,
    TakesTheValueOfTheStart,
    JudgesAllOutcomesByOne,
    TakesTheWholeOutcome,
    TakesTheWholeMove,
    LooksAtTheFirstOutcome,
    LooksAtTheLastOutcome,
    TakesOnlyOutcomesThatRestateAll,
    TellsThePatternsByTheOldRule,
    RefusesValuesByTheOldRule,
    RefusesSearchesByTheOldRule,
}

use RestatingFault::*;

fn without_needs(task: &mut Task) {
    task.actions.iter_mut().for_each(|action| action.precondition.fill(None));
}

/// Takes the assignments away that are told by the number of the action, the
/// number of the outcome and the variable.
fn take(task: &mut Task, told: impl Fn(&Task, usize, usize, usize) -> bool) {
    let whole = task.clone();
    for (number, action) in task.actions.iter_mut().enumerate() {
        for (k, outcome) in action.outcomes.iter_mut().enumerate() {
            for (v, name) in outcome.iter_mut().enumerate() {
                *name = name.filter(|_| !told(&whole, number, k, v));
            }
        }
    }
}

fn restates(action: &Action, outcome: usize, v: usize) -> bool {
    let name = action.outcomes[outcome][v];
    name.is_some() && name == action.precondition[v]
}

fn restates_any(action: &Action, outcome: usize) -> bool {
    (0..action.precondition.len()).any(|v| restates(action, outcome, v))
}

/// Whether the outcome names nothing but what it restates.
fn restates_all(action: &Action, outcome: usize) -> bool {
    let named = |v: &usize| action.outcomes[outcome][*v].is_some();
    (0..action.precondition.len()).filter(named).all(|v| restates(action, outcome, v))
}

impl RestatingFault {
    pub const ALL: [RestatingFault; 16] = [
        CountsEveryAssignment,
        TakesAnyValueOfWhatIsNeeded,
        TakesTheNeedOfTheMoveBefore,
        TakesTheNeedOfAnyMove,
        TakesTheValueNeededOfAnyVariable,
        TakesTheValueOfTheGoal,
        TakesTheValueOfTheStart,
        JudgesAllOutcomesByOne,
        TakesTheWholeOutcome,
        TakesTheWholeMove,
        LooksAtTheFirstOutcome,
        LooksAtTheLastOutcome,
        TakesOnlyOutcomesThatRestateAll,
        TellsThePatternsByTheOldRule,
        RefusesValuesByTheOldRule,
        RefusesSearchesByTheOldRule,
    ];

    /// Whether an assignment does not count, where that is all there is to it.
    fn takes(self, task: &Task, number: usize, k: usize, v: usize) -> bool {
        let action = &task.actions[number];
        let (name, all) = (action.outcomes[k][v], 0..action.outcomes.len());
        let own = restates(action, k, v);
        match self {
            TakesAnyValueOfWhatIsNeeded => action.precondition[v].is_some(),
            TakesTheNeedOfTheMoveBefore => {
                own || number > 0 && task.actions[number - 1].precondition[v] == name
            }
            TakesTheNeedOfAnyMove => task.actions.iter().any(|a| a.precondition[v] == name),
            TakesTheValueNeededOfAnyVariable => action.precondition.contains(&name),
            TakesTheValueOfTheGoal => own || task.goal[v] == name,
            TakesTheValueOfTheStart => own || name == Some(task.start[v]),
            JudgesAllOutcomesByOne => all.clone().any(|k| restates(action, k, v)),
            TakesTheWholeOutcome => restates_any(action, k),
            TakesTheWholeMove => all.clone().any(|k| restates_any(action, k)),
            LooksAtTheFirstOutcome => own && k == 0,
            LooksAtTheLastOutcome => own && k + 1 == action.outcomes.len(),
            TakesOnlyOutcomesThatRestateAll => restates_all(action, k),
            _ => false,
        }
    }

    /// The verdict with the assignments taken that the faulty rule takes.
    fn judged(self, record: &[u8]) -> Answer {
        let Ok(mut task) = decode(record) else {
            return Brute.additive(record);
        };
        take(&mut task, |task, number, k, v| self.takes(task, number, k, v));
        without_needs(&mut task);
        Brute.additive(&encode(&task))
    }

    pub fn additive(self, record: &[u8]) -> Answer {
        let answer = Brute.additive(record);
        match self {
            RefusesValuesByTheOldRule | RefusesSearchesByTheOldRule => answer,
            TellsThePatternsByTheOldRule => self.old_patterns(record, answer),
            _ => self.judged(record),
        }
    }

    /// The move that the rule tells, with patterns that it touches by the old one.
    fn old_patterns(self, record: &[u8], answer: Answer) -> Answer {
        let Ok(mut task) = decode(record) else { return answer };
        if answer.kind == 0 {
            return answer;
        }
        task.actions.drain(..answer.first as usize);
        without_needs(&mut task);
        let old = Brute.additive(&encode(&task));
        Answer { second: old.second, third: old.third, ..answer }
    }

    /// 9 by the old rule where the call is refused by it and nothing else.
    fn refused(self, record: &[u8], answer: Answer) -> Answer {
        let verdict = CountsEveryAssignment.judged(record);
        if answer.number == 0 && verdict.kind == 1 {
            return Answer { number: 9, first: verdict.first, ..Answer::default() };
        }
        answer
    }

    pub fn value(self, record: &[u8], answer: Answer) -> Answer {
        if matches!(self, RefusesValuesByTheOldRule) {
            self.refused(record, answer)
        } else {
            answer
        }
    }

    pub fn search(self, record: &[u8], answer: Answer) -> Answer {
        if matches!(self, RefusesSearchesByTheOldRule) {
            self.refused(record, answer)
        } else {
            answer
        }
    }
}
