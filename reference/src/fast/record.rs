//! The check of a record, whole rows at a time, and its parts by name.

use super::layout::*;
use crate::answer::{Reason, Refusal};

/// A record that was checked.
pub struct Record<'a> {
    cells: &'a [u8; LENGTH],
}

/// One action of a record.
pub struct Action<'a> {
    pub precondition: &'a Row,
    pub outcomes: &'a [Row],
    pub cost: u8,
}

/// What a record has before its costs.
type Front = [u8; COSTS];

fn rows<const START: usize, const N: usize>(cells: &[u8; N]) -> &[Row] {
    cells[START..].as_chunks().0
}

impl<'a> Record<'a> {
    pub fn limit(&self) -> u8 {
        self.cells[LIMIT]
    }

    pub fn budget(&self) -> u32 {
        budget(self.cells)
    }

    pub fn sizes(&self) -> &'a Row {
        &rows::<SIZES, _>(self.cells)[0]
    }

    pub fn goal(&self) -> &'a Row {
        &rows::<GOAL, _>(self.cells)[0]
    }

    pub fn start(&self) -> &'a Row {
        &rows::<START, _>(self.cells)[0]
    }

    pub fn patterns(&self) -> &'a [Row] {
        &rows::<MEMBERS, _>(self.cells)[..self.cells[PATTERNS].into()]
    }

    pub fn action_count(&self) -> usize {
        self.cells[ACTIONS].into()
    }

    pub fn action(&self, number: usize) -> Action<'a> {
        let (actions, _) = self.cells[MOVES..].as_chunks::<MOVE>();
        let [count, cells @ ..] = &actions[number];
        let (rows, _) = cells.as_chunks();
        Action {
            precondition: &rows[0],
            outcomes: &rows[1..1 + usize::from(*count)],
            cost: self.cells[COSTS + number],
        }
    }

    pub fn actions(&self) -> impl Iterator<Item = Action<'a>> {
        (0..self.action_count()).map(|number| self.action(number))
    }

    /// A lent state, or refusal 10.
    pub fn state<'b>(&self, state: &'b [u8]) -> Result<&'b Row, Refusal> {
        let Ok(row) = state.try_into() else {
            return Err(Refusal::new(Reason::State, 16));
        };
        match state_fault(row, self.sizes()) {
            false => Ok(row),
            true => {
                let faulty = |&v: &usize| !is_state_cell(row[v], self.sizes()[v]);
                let offset = (0..16).find(faulty).expect("the row has a fault");
                Err(Refusal::new(Reason::State, offset))
            }
        }
    }
}

fn budget<const N: usize>(cells: &[u8; N]) -> u32 {
    u32::from_le_bytes([cells[4], cells[5], cells[6], cells[7]])
}

/// Beyond the variables sizes are 0, and a state has 255 there.
fn is_state_cell(cell: u8, size: u8) -> bool {
    if size == 0 { cell == 255 } else { cell < size }
}

fn state_fault(row: &Row, sizes: &Row) -> bool {
    let mut fault = 0;
    for (&cell, &size) in row.iter().zip(sizes) {
        fault |= u8::from(!is_state_cell(cell, size));
    }
    fault != 0
}

/// Adds to the faults of the columns those of a row whose cells are 255 or
/// below a bound; where the bound is 0 only 255 is left.
fn gather(faults: &mut Row, row: &Row, bounds: &Row) {
    for ((fault, &cell), &bound) in faults.iter_mut().zip(row).zip(bounds) {
        *fault |= cell.wrapping_add(1).saturating_sub(bound);
    }
}

fn sizes_fault(sizes: &Row, used: &Row) -> bool {
    let mut fault = 0;
    for (&size, &used) in sizes.iter().zip(used) {
        // From 2 to 16 where used is 1, else 0.
        fault |= u8::from(size.wrapping_sub(2 * used) > 14 * used);
    }
    fault != 0
}

fn members_fault(patterns: &[Row], number: usize, used: &Row) -> bool {
    let mut fault = 0;
    for (p, members) in patterns.iter().enumerate() {
        let bounds = if p < number { used } else { &[0; 16] };
        for (&member, &bound) in members.iter().zip(bounds) {
            fault |= u8::from(member > bound);
        }
    }
    fault != 0
}

/// Whether all cells before the costs are within their rules; any limit is.
fn is_sound(cells: &Front) -> bool {
    let (variables, actions) = (cells[VARIABLES], cells[ACTIONS]);
    let head = variables.wrapping_sub(1) < MOST_VARIABLES
        && actions <= MOST_ACTIONS
        && cells[PATTERNS] <= MOST_PATTERNS
        && budget(cells) <= MOST_BUDGET;
    if !head {
        return false;
    }
    let used: Row = std::array::from_fn(|v| u8::from((v as u8) < variables));
    let sizes = &rows::<SIZES, _>(cells)[0];
    let patterns = &rows::<MEMBERS, _>(cells)[..8];
    let mut faults = [0; 16];
    gather(&mut faults, &rows::<GOAL, _>(cells)[0], sizes);
    let (moves, _) = cells[MOVES..].as_chunks::<MOVE>();
    let mut count_fault = false;
    for [count, cells @ ..] in &moves[..actions.into()] {
        count_fault |= count.wrapping_sub(1) >= MOST_OUTCOMES;
        let (rows, _) = cells.as_chunks::<16>();
        for (number, row) in rows.iter().enumerate() {
            let bounds = if number <= usize::from(*count) { sizes } else { &[0; 16] };
            gather(&mut faults, row, bounds);
        }
    }
    let unused = MOVES + MOVE * usize::from(actions);
    !(sizes_fault(sizes, &used)
        || state_fault(&rows::<START, _>(cells)[0], sizes)
        || members_fault(patterns, cells[PATTERNS].into(), &used)
        || count_fault
        || faults != [0; 16])
        && cells[unused..] == BLANK[unused..COSTS]
}

/// The record, unless it is too short (5) or has a fault (6).
pub fn check(record: &[u8]) -> Result<Record<'_>, Refusal> {
    let Some(cells) = record.first_chunk() else {
        return Err(Refusal::new(Reason::ShortRecord, record.len()));
    };
    let (front, costs) = parts(cells);
    if is_sound(front) && !costs_fault(costs, cells[ACTIONS]) {
        return Ok(Record { cells });
    }
    let offset = lowest_fault(front, u8::MAX).or_else(|| lowest_cost_fault(cells));
    Err(Refusal::new(Reason::Cell, offset.expect("the record has a fault")))
}

fn parts(cells: &[u8; LENGTH]) -> (&Front, &[u8; 64]) {
    let (front, costs) = cells.split_first_chunk().expect("a record is longer");
    (front, costs.first_chunk().expect("64 costs end the record"))
}

const fn numbers() -> [u8; 64] {
    let mut numbers = [0; 64];
    let mut at = 0;
    while at < 64 {
        numbers[at] = at as u8;
        at += 1;
    }
    numbers
}

/// Costs are not 0 where an action is in use, and 0 elsewhere.
fn costs_fault(costs: &[u8; 64], actions: u8) -> bool {
    const NUMBERS: [u8; 64] = numbers();
    let mut fault = 0;
    for (&number, &cost) in NUMBERS.iter().zip(costs) {
        // Both are 1 where an action is in use, and 0 elsewhere.
        fault |= cost.min(1) ^ actions.saturating_sub(number).min(1);
    }
    fault != 0
}

#[cold]
fn lowest_cost_fault(cells: &[u8; LENGTH]) -> Option<usize> {
    let used = |number: usize| number < cells[ACTIONS].into();
    (0..64).find(|&number| (cells[COSTS + number] == 0) == used(number)).map(|n| COSTS + n)
}

/// Makes a record of today's form of one of the first form, unless that is too
/// short (5) or has a fault (6) by its own rules, or the target is too short (5).
pub fn upgrade(old: &[u8], target: &mut [u8]) -> Result<(), Refusal> {
    let Some(front) = old.first_chunk() else {
        return Err(Refusal::new(Reason::ShortRecord, old.len()));
    };
    if front[LIMIT] > FIRST_MOST_LIMIT || !is_sound(front) {
        let offset = lowest_fault(front, FIRST_MOST_LIMIT).expect("the record has a fault");
        return Err(Refusal::new(Reason::Cell, offset));
    }
    let length = target.len();
    let Some(cells) = target.first_chunk_mut::<LENGTH>() else {
        return Err(Refusal::new(Reason::ShortRecord, length));
    };
    cells[..COSTS].copy_from_slice(front);
    for (number, cost) in (0..).zip(&mut cells[COSTS..]) {
        *cost = u8::from(number < front[ACTIONS]);
    }
    Ok(())
}

/// The rows of a move with their places, and whether each is in use.
fn move_fault(cells: &Front, number: usize) -> Option<usize> {
    let at = MOVES + MOVE * number;
    let used = number < usize::from(cells[ACTIONS]);
    let count = cells[at];
    if used != (1..=MOST_OUTCOMES).contains(&count) || !used && count != 0 {
        return Some(at);
    }
    (at + 1..at + MOVE).find(|&cell| {
        let (row, v) = ((cell - at - 1) / 16, (cell - at - 1) % 16);
        let named = used && row <= count.into() && cells[cell] < cells[SIZES + v];
        cells[cell] != 255 && !named
    })
}

/// The lowest cell before the costs that is outside its rule.
#[cold]
fn lowest_fault(cells: &Front, most_limit: u8) -> Option<usize> {
    let used = |v: usize| v < usize::from(cells[VARIABLES]);
    let in_pattern = |at: usize| {
        let (p, v) = ((at - MEMBERS) / 16, (at - MEMBERS) % 16);
        cells[at] <= u8::from(used(v) && p < cells[PATTERNS].into())
    };
    let good = |&at: &usize| match at {
        VARIABLES => (1..=MOST_VARIABLES).contains(&cells[at]),
        ACTIONS => cells[at] <= MOST_ACTIONS,
        PATTERNS => cells[at] <= MOST_PATTERNS,
        LIMIT => cells[at] <= most_limit,
        BUDGET => budget(cells) <= MOST_BUDGET,
        5..SIZES => true,
        SIZES..GOAL if used(at - SIZES) => (2..=16).contains(&cells[at]),
        SIZES..GOAL => cells[at] == 0,
        GOAL..START => cells[at] == 255 || cells[at] < cells[SIZES + at - GOAL],
        START..MEMBERS => is_state_cell(cells[at], cells[SIZES + at - START]),
        _ => in_pattern(at),
    };
    (0..MOVES)
        .find(|at| !good(at))
        .or_else(|| (0..MOST_ACTIONS.into()).find_map(|number| move_fault(cells, number)))
}
