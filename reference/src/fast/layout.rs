//! Where the cells of a record are.

pub const LENGTH: usize = 9_528;
/// One cell per variable.
pub type Row = [u8; 16];

pub const VARIABLES: usize = 0;
pub const ACTIONS: usize = 1;
pub const PATTERNS: usize = 2;
pub const LIMIT: usize = 3;
pub const BUDGET: usize = 4;
pub const SIZES: usize = 8;
pub const GOAL: usize = 24;
pub const START: usize = 40;
pub const MEMBERS: usize = 56;
pub const MOVES: usize = 184;
/// Number of outcomes, precondition, eight outcomes.
pub const MOVE: usize = 145;
/// One cell per action; the first form of a record ended before them.
pub const COSTS: usize = 9_464;

pub const MOST_VARIABLES: u8 = 16;
pub const MOST_ACTIONS: u8 = 64;
pub const MOST_PATTERNS: u8 = 8;
pub const MOST_OUTCOMES: u8 = 8;
/// That of the first form; today's is any byte.
pub const FIRST_MOST_LIMIT: u8 = 32;
pub const MOST_BUDGET: u32 = 1_000_000;

/// A record without variables, actions and patterns.
pub static BLANK: [u8; LENGTH] = blank();

const fn blank() -> [u8; LENGTH] {
    let mut cells = [255; LENGTH];
    let mut at = 0;
    while at < GOAL {
        cells[at] = 0;
        at += 1;
    }
    at = MEMBERS;
    while at < MOVES {
        cells[at] = 0;
        at += 1;
    }
    while at < COSTS {
        cells[at] = 0;
        at += MOVE;
    }
    at = COSTS;
    while at < LENGTH {
        cells[at] = 0;
        at += 1;
    }
    cells
}
