//! The reference under the names of the C library, to try the linking and the
//! differential test on while there is no other make at hand.

use std::slice::{from_raw_parts, from_raw_parts_mut};

use reference::answer::Answer;
use reference::brute::Brute;
use reference::planner::Planner;

/// A slice that C lends; one of length 0 may have a null pointer.
unsafe fn lent<'a, T>(first: *const T, length: usize) -> &'a [T] {
    if length == 0 { &[] } else { unsafe { from_raw_parts(first, length) } }
}

/// The same of a slice that may be written.
unsafe fn lent_mut<'a, T>(first: *mut T, length: usize) -> &'a mut [T] {
    if length == 0 { &mut [] } else { unsafe { from_raw_parts_mut(first, length) } }
}

/// # Safety
/// Both pointers must be good for the lengths beside them; so below.
#[unsafe(no_mangle)]
pub unsafe extern "C" fn planner_read_text(
    text: *const u8,
    t: usize,
    record: *mut u8,
    r: usize,
) -> Answer {
    unsafe { Brute.read_text(lent(text, t), lent_mut(record, r)) }
}

/// # Safety
/// As above.
#[unsafe(no_mangle)]
pub unsafe extern "C" fn planner_check_record(record: *const u8, r: usize) -> Answer {
    unsafe { Brute.check_record(lent(record, r)) }
}

/// # Safety
/// As above.
#[unsafe(no_mangle)]
pub unsafe extern "C" fn planner_check_state(
    record: *const u8,
    r: usize,
    state: *const u8,
    s: usize,
) -> Answer {
    unsafe { Brute.check_state(lent(record, r), lent(state, s)) }
}

/// # Safety
/// As above.
#[unsafe(no_mangle)]
pub unsafe extern "C" fn planner_build_tables(
    record: *const u8,
    r: usize,
    tables: *mut u32,
    t: usize,
) -> Answer {
    unsafe { Brute.build_tables(lent(record, r), lent_mut(tables, t)) }
}

/// # Safety
/// As above.
#[unsafe(no_mangle)]
pub unsafe extern "C" fn planner_spread(
    record: *const u8,
    r: usize,
    pattern: u64,
    tables: *mut u32,
    t: usize,
    row: *mut u32,
    c: usize,
) -> Answer {
    unsafe {
        let (tables, row) = (lent_mut(tables, t), lent_mut(row, c));
        Brute.spread(lent(record, r), pattern, tables, row)
    }
}

/// # Safety
/// As above.
#[unsafe(no_mangle)]
pub unsafe extern "C" fn planner_additive(record: *const u8, r: usize) -> Answer {
    unsafe { Brute.additive(lent(record, r)) }
}

/// # Safety
/// As above.
#[unsafe(no_mangle)]
pub unsafe extern "C" fn planner_value(
    record: *const u8,
    r: usize,
    state: *const u8,
    s: usize,
    tables: *const u32,
    t: usize,
) -> Answer {
    unsafe {
        let (record, state) = (lent(record, r), lent(state, s));
        Brute.value(record, state, lent(tables, t))
    }
}

/// # Safety
/// As above.
#[unsafe(no_mangle)]
pub unsafe extern "C" fn planner_search(
    record: *const u8,
    r: usize,
    tables: *mut u32,
    t: usize,
    plan: *mut u8,
    p: usize,
) -> Answer {
    unsafe {
        let (tables, plan) = (lent_mut(tables, t), lent_mut(plan, p));
        Brute.search(lent(record, r), tables, plan)
    }
}

/// # Safety
/// As above.
#[unsafe(no_mangle)]
pub unsafe extern "C" fn planner_check_plan(
    record: *const u8,
    r: usize,
    state: *const u8,
    s: usize,
    plan: *const u8,
    p: usize,
) -> Answer {
    unsafe {
        let (record, state) = (lent(record, r), lent(state, s));
        Brute.check_plan(record, state, lent(plan, p))
    }
}

/// # Safety
/// As above.
#[unsafe(no_mangle)]
pub unsafe extern "C" fn planner_upgrade_record(
    old: *const u8,
    o: usize,
    record: *mut u8,
    r: usize,
) -> Answer {
    unsafe { Brute.upgrade_record(lent(old, o), lent_mut(record, r)) }
}
