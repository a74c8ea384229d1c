//! The check of a plan: one pass over its bytes with a stack of the actions
//! that still await plans for some of their outcomes.

use super::layout::Row;
use super::record::{Action, Record};
use crate::answer::{Reason, Refusal};

const ARRIVED: u8 = 254;
const MOST_MOVES: u32 = 255;

/// Whether a state has every value that a row names.
fn meets(state: &Row, named: &Row) -> bool {
    let mut missed = 0;
    for (&held, &name) in state.iter().zip(named) {
        missed |= u8::from(name != 255 && name != held);
    }
    missed == 0
}

fn after(state: &Row, outcome: &Row) -> Row {
    let mut next = *state;
    for (held, &name) in next.iter_mut().zip(outcome) {
        *held = if name == 255 { *held } else { name };
    }
    next
}

/// The number of moves on a path, above 16 bits of what they cost: 255 times 255
/// at most.
const MOVE: u32 = 1 << 16;

/// An action under way: its state, the outcomes not yet taken, and the moves up
/// to and with it.
#[derive(Clone, Copy)]
struct Awaiting<'a> {
    state: Row,
    rest: &'a [Row],
    path: u32,
}

/// The action that a byte names, if it applies: refusals 13, 17 and 14.
#[inline(always)]
fn applying<'a>(
    record: &Record<'a>,
    state: &Row,
    byte: u8,
    path: u32,
) -> Result<Action<'a>, Reason> {
    if usize::from(byte) >= record.action_count() {
        return Err(Reason::UnknownByte);
    }
    if path / MOVE == MOST_MOVES {
        return Err(Reason::TooDeep);
    }
    let action = record.action(byte.into());
    if !meets(state, action.precondition) || meets(state, record.goal()) {
        return Err(Reason::DoesNotApply);
    }
    Ok(action)
}

/// The plan's cost, or refusals 12 to 17.
pub fn check(record: &Record, start: Row, plan: &[u8]) -> Result<u32, Refusal> {
    // No more actions await a plan than there are bytes, or moves on a path.
    match plan.len() {
        0..=32 => check_with::<32>(record, start, plan),
        33..=64 => check_with::<64>(record, start, plan),
        _ => check_with::<{ MOST_MOVES as usize }>(record, start, plan),
    }
}

fn check_with<const ROOM: usize>(record: &Record, start: Row, plan: &[u8]) -> Result<u32, Refusal> {
    let mut stack = [Awaiting { state: [0; 16], rest: &[], path: 0 }; ROOM];
    let mut waiting = 0;
    let (mut state, mut path, mut cost) = (start, 0, 0);
    for (offset, &byte) in plan.iter().enumerate() {
        let refused = |reason| Refusal::new(reason, offset);
        if byte != ARRIVED {
            let action = applying(record, &state, byte, path).map_err(refused)?;
            let (first, rest) = action.outcomes.split_first().expect("an action has an outcome");
            path += MOVE + u32::from(action.cost);
            if !rest.is_empty() {
                stack[waiting] = Awaiting { state, rest, path };
                waiting += 1;
            }
            state = after(&state, first);
            continue;
        }
        if !meets(&state, record.goal()) {
            return Err(refused(Reason::NotArrived));
        }
        cost = cost.max(path % MOVE);
        if waiting == 0 {
            let end = offset + 1 == plan.len();
            return end.then_some(cost).ok_or(Refusal::new(Reason::BytesAfter, offset + 1));
        }
        let top = &mut stack[waiting - 1];
        if let [outcome, rest @ ..] = top.rest {
            (state, path, top.rest) = (after(&top.state, outcome), top.path, rest);
            waiting -= usize::from(rest.is_empty());
        }
    }
    Err(Refusal::new(Reason::EndsEarly, plan.len()))
}
