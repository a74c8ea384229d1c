//! Patterns: the room of their tables, the verdict, and the value of a state.

use super::bits::{gathered, members, named};
use super::layout::Row;
use super::record::{Action, Record};
use crate::answer::{Reason, Refusal};

pub const INFINITE: u32 = u32::MAX;
const MOST_STATES: u32 = 4_096;

/// The abstract states of one pattern.
#[derive(Clone, Copy, Default)]
pub struct Space {
    /// The pattern's variables.
    pub members: u16,
    /// By variable; 0 outside the pattern.
    pub weights: [u16; 16],
    pub states: usize,
    /// Where the pattern's table begins.
    pub offset: usize,
}

/// The spaces of all patterns and the entries their tables take.
pub struct Spaces {
    all: [Space; 8],
    number: usize,
    pub entries: usize,
}

fn space(members_row: &Row, sizes: &Row, offset: usize) -> Option<Space> {
    let mut space = Space { members: gathered(members_row), offset, ..Space::default() };
    let mut states = 1;
    for v in members(space.members.into()) {
        space.weights[v] = states as u16;
        states *= u32::from(sizes[v]);
        if states > MOST_STATES {
            return None;
        }
    }
    space.states = states as usize;
    Some(space)
}

/// The spaces, or refusal 7 or 8.
pub fn spaces(record: &Record, lent: usize) -> Result<Spaces, Refusal> {
    let mut spaces = Spaces { all: [Space::default(); 8], number: 0, entries: 0 };
    for (p, row) in record.patterns().iter().enumerate() {
        let Some(space) = space(row, record.sizes(), spaces.entries) else {
            return Err(Refusal::new(Reason::WidePattern, p));
        };
        spaces.entries += space.states;
        spaces.all[p] = space;
        spaces.number = p + 1;
    }
    if lent < spaces.entries {
        return Err(Refusal::new(Reason::ShortTables, spaces.entries));
    }
    Ok(spaces)
}

impl Spaces {
    pub fn iter(&self) -> impl Iterator<Item = &Space> {
        self.all[..self.number].iter()
    }

    /// The table of a pattern; a number that no pattern has gives an empty one.
    pub fn table<'a>(&self, pattern: u64, tables: &'a [u32]) -> &'a [u32] {
        // The number is compared in all its 64 bits before it is an index.
        if pattern >= self.number as u64 {
            return &[];
        }
        let space = &self.all[pattern as usize];
        &tables[space.offset..space.offset + space.states]
    }

    /// The sum of the entries of the state's projections, or infinite.
    pub fn value(&self, state: &Row, tables: &[u32]) -> Option<u64> {
        let mut sum = 0;
        for space in self.iter() {
            let place = |v: usize| usize::from(space.weights[v]) * usize::from(state[v]);
            let index: usize = members(space.members.into()).map(place).sum();
            match tables[space.offset + index] {
                INFINITE => return None,
                entry => sum += u64::from(entry),
            }
        }
        Some(sum)
    }
}

/// For each variable 255, unless an outcome of the action gives it a value. The
/// value that the precondition demands is none: where the action applies the
/// variable has it.
#[inline(always)]
fn given(action: &Action) -> Row {
    let mut all = [255; 16];
    for outcome in action.outcomes {
        for ((one, &cell), &demanded) in all.iter_mut().zip(outcome).zip(action.precondition) {
            *one &= if cell == demanded { 255 } else { cell };
        }
    }
    all
}

/// The variables that an action's outcomes may change.
pub fn touched(action: &Action) -> u16 {
    named(&given(action))
}

/// The lowest action that touches two patterns, and the lowest two of them.
pub fn conflict(record: &Record) -> Option<(usize, u32, u32)> {
    // For each variable the set of the patterns it is in.
    let mut owners = [0u8; 16];
    for (p, row) in record.patterns().iter().enumerate() {
        for (owner, &member) in owners.iter_mut().zip(row) {
            *owner |= member << p;
        }
    }
    for (number, action) in record.actions().enumerate() {
        let mut patterns = 0;
        for (&cell, &owner) in given(&action).iter().zip(&owners) {
            patterns |= if cell == 255 { 0 } else { owner };
        }
        if patterns & patterns.wrapping_sub(1) != 0 {
            let upper = patterns & (patterns - 1);
            return Some((number, patterns.trailing_zeros(), upper.trailing_zeros()));
        }
    }
    None
}

/// Refusal 9 where the patterns are not additive.
pub fn demand_additive(record: &Record) -> Result<(), Refusal> {
    match conflict(record) {
        None => Ok(()),
        Some((action, ..)) => Err(Refusal::new(Reason::NotAdditive, action)),
    }
}
