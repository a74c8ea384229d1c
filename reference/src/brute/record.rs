//! The record: every cell, its rule, and the way to a task and back.

use std::sync::OnceLock;

use super::task::{Action, Assignment, Task};
use crate::answer::{Reason, Refusal};

pub const LENGTH: usize = 9_528;
pub const UNNAMED: u8 = 255;
/// Cells of every row with one cell per variable.
pub const ROW: usize = 16;

const VARIABLES: usize = 0;
pub(super) const ACTIONS: usize = 1;
const PATTERNS: usize = 2;
pub(super) const LIMIT: usize = 3;
const BUDGET: usize = 4;
const SIZES: usize = 8;
const GOAL: usize = 24;
const START: usize = 40;
const MEMBERS: usize = 56;
const MOVES: usize = 184;
const MOVE: usize = 145;
/// A cost for each of 64 moves.
pub const COSTS: usize = 9_464;

pub const MOST_VARIABLES: u8 = 16;
pub const MOST_ACTIONS: u8 = 64;
pub const MOST_PATTERNS: u8 = 8;
pub const MOST_OUTCOMES: u8 = 8;
pub const MOST_BUDGET: u32 = 1_000_000;

/// What a cell holds.
#[derive(Clone, Copy, Debug, PartialEq, Eq)]
enum Cell {
    Variables,
    Actions,
    Patterns,
    Limit,
    Budget,
    BudgetRest,
    Size { variable: u8 },
    Goal { variable: u8 },
    Start { variable: u8 },
    Member { pattern: u8, variable: u8 },
    Outcomes { action: u8 },
    Precondition { action: u8, variable: u8 },
    Outcome { action: u8, outcome: u8, variable: u8 },
    Cost { action: u8 },
}

impl Cell {
    fn at(offset: usize) -> Cell {
        let variable = |base: usize| ((offset - base) % ROW) as u8;
        match offset {
            VARIABLES => Cell::Variables,
            ACTIONS => Cell::Actions,
            PATTERNS => Cell::Patterns,
            LIMIT => Cell::Limit,
            BUDGET => Cell::Budget,
            5..SIZES => Cell::BudgetRest,
            SIZES..GOAL => Cell::Size { variable: variable(SIZES) },
            GOAL..START => Cell::Goal { variable: variable(GOAL) },
            START..MEMBERS => Cell::Start { variable: variable(START) },
            MEMBERS..MOVES => {
                let pattern = ((offset - MEMBERS) / ROW) as u8;
                Cell::Member { pattern, variable: variable(MEMBERS) }
            }
            MOVES..COSTS => Cell::of_move(offset - MOVES),
            _ => Cell::Cost { action: (offset - COSTS) as u8 },
        }
    }

    fn of_move(offset: usize) -> Cell {
        let action = (offset / MOVE) as u8;
        let Some(within) = (offset % MOVE).checked_sub(1) else {
            return Cell::Outcomes { action };
        };
        // The need's row, then those of the outcomes.
        let variable = (within % ROW) as u8;
        match ((within / ROW) as u8).checked_sub(1) {
            None => Cell::Precondition { action, variable },
            Some(outcome) => Cell::Outcome { action, outcome, variable },
        }
    }
}

/// What each cell of a record holds, told once and for all.
fn cells() -> &'static [Cell] {
    static CELLS: OnceLock<Vec<Cell>> = OnceLock::new();
    CELLS.get_or_init(|| (0..LENGTH).map(Cell::at).collect())
}

fn budget(record: &[u8]) -> u32 {
    u32::from_le_bytes([record[4], record[5], record[6], record[7]])
}

fn outcomes(record: &[u8], action: usize) -> usize {
    usize::from(record[MOVES + action * MOVE])
}

/// Whether a cell is within its rule, provided all cells before it are.
pub(super) fn within_rule(record: &[u8], offset: usize) -> bool {
    let held = record[offset];
    let used_variable = |v: u8| v < record[VARIABLES];
    let used_action = |a: u8| a < record[ACTIONS];
    let is_value = |v: u8| held < record[SIZES + usize::from(v)];
    let names = |v: u8, used: bool| held == UNNAMED || used && used_variable(v) && is_value(v);
    match cells()[offset] {
        Cell::Variables => (1..=MOST_VARIABLES).contains(&held),
        Cell::Actions => held <= MOST_ACTIONS,
        Cell::Patterns => held <= MOST_PATTERNS,
        // A cost from 0 to 255, which is every byte.
        Cell::Limit => true,
        Cell::Budget => budget(record) <= MOST_BUDGET,
        // The four bytes are one cell, judged at its first byte.
        Cell::BudgetRest => true,
        Cell::Size { variable } if used_variable(variable) => (2..=16).contains(&held),
        Cell::Size { .. } => held == 0,
        Cell::Goal { variable } => names(variable, true),
        Cell::Start { variable } if used_variable(variable) => is_value(variable),
        Cell::Start { .. } => held == UNNAMED,
        Cell::Member { pattern, variable } => {
            let used = pattern < record[PATTERNS] && used_variable(variable);
            held <= u8::from(used)
        }
        Cell::Outcomes { action } if used_action(action) => (1..=MOST_OUTCOMES).contains(&held),
        Cell::Outcomes { .. } => held == 0,
        Cell::Precondition { action, variable } => names(variable, used_action(action)),
        Cell::Outcome { action, outcome, variable } => {
            // The number of outcomes stands before them; unused moves have 0.
            names(variable, usize::from(outcome) < outcomes(record, action.into()))
        }
        Cell::Cost { action } if used_action(action) => held != 0,
        Cell::Cost { .. } => held == 0,
    }
}

fn row(record: &[u8], offset: usize, variables: usize) -> Assignment {
    let named = |&held: &u8| (held != UNNAMED).then_some(held);
    record[offset..offset + variables].iter().map(named).collect()
}

fn decode_action(record: &[u8], action: usize, variables: usize) -> Action {
    let base = MOVES + action * MOVE + 1;
    let outcome = |o: usize| row(record, base + ROW * (1 + o), variables);
    Action {
        precondition: row(record, base, variables),
        outcomes: (0..outcomes(record, action)).map(outcome).collect(),
        cost: record[COSTS + action],
    }
}

/// The task of a record that is neither too short (5) nor at fault (6). Cells
/// after the record are not looked at.
pub fn decode(record: &[u8]) -> Result<Task, Refusal> {
    if record.len() < LENGTH {
        return Err(Refusal::new(Reason::ShortRecord, record.len()));
    }
    if let Some(offset) = (0..LENGTH).find(|&offset| !within_rule(record, offset)) {
        return Err(Refusal::new(Reason::Cell, offset));
    }
    let variables = usize::from(record[VARIABLES]);
    let cells = |offset: usize| record[offset..offset + variables].to_vec();
    let pattern = |p: usize| cells(MEMBERS + p * ROW).iter().map(|&cell| cell == 1).collect();
    Ok(Task {
        sizes: cells(SIZES),
        actions: (0..usize::from(record[ACTIONS]))
            .map(|action| decode_action(record, action, variables))
            .collect(),
        goal: row(record, GOAL, variables),
        start: cells(START),
        patterns: (0..usize::from(record[PATTERNS])).map(pattern).collect(),
        limit: record[LIMIT],
        budget: budget(record),
    })
}

fn unused(offset: usize) -> u8 {
    match cells()[offset] {
        Cell::Size { .. } | Cell::Member { .. } | Cell::Outcomes { .. } | Cell::Cost { .. } => 0,
        _ => UNNAMED,
    }
}

/// The record of a task: unused everywhere, then the cells that are in use.
pub fn encode(task: &Task) -> Vec<u8> {
    let mut record: Vec<u8> = (0..LENGTH).map(unused).collect();
    let mut put = |offset: usize, cells: &[u8]| {
        record[offset..offset + cells.len()].copy_from_slice(cells);
    };
    let named = |names: &Assignment| -> Vec<u8> {
        names.iter().map(|name| name.unwrap_or(UNNAMED)).collect()
    };
    put(VARIABLES, &[task.sizes.len() as u8]);
    put(ACTIONS, &[task.actions.len() as u8]);
    put(PATTERNS, &[task.patterns.len() as u8]);
    put(LIMIT, &[task.limit]);
    put(BUDGET, &task.budget.to_le_bytes());
    put(SIZES, &task.sizes);
    put(GOAL, &named(&task.goal));
    put(START, &task.start);
    for (p, pattern) in task.patterns.iter().enumerate() {
        let cells: Vec<u8> = pattern.iter().map(|&member| member.into()).collect();
        put(MEMBERS + p * ROW, &cells);
    }
    for (a, action) in task.actions.iter().enumerate() {
        let base = MOVES + a * MOVE;
        put(base, &[action.outcomes.len() as u8]);
        put(base + 1, &named(&action.precondition));
        for (o, outcome) in action.outcomes.iter().enumerate() {
            put(base + 1 + ROW * (1 + o), &named(outcome));
        }
        put(COSTS + a, &[action.cost]);
    }
    record
}
