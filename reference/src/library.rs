//! The planner library behind its C declarations.

use crate::answer::Answer;
use crate::planner::Planner;

// Every slice is a pointer and a length in elements.
unsafe extern "C" {
    fn planner_read_text(
        text: *const u8,
        text_length: usize,
        record: *mut u8,
        record_length: usize,
    ) -> Answer;
    fn planner_check_record(record: *const u8, record_length: usize) -> Answer;
    fn planner_check_state(
        record: *const u8,
        record_length: usize,
        state: *const u8,
        state_length: usize,
    ) -> Answer;
    fn planner_build_tables(
        record: *const u8,
        record_length: usize,
        tables: *mut u32,
        tables_length: usize,
    ) -> Answer;
    fn planner_spread(
        record: *const u8,
        record_length: usize,
        pattern: u64,
        tables: *mut u32,
        tables_length: usize,
        row: *mut u32,
        row_length: usize,
    ) -> Answer;
    fn planner_additive(record: *const u8, record_length: usize) -> Answer;
    fn planner_value(
        record: *const u8,
        record_length: usize,
        state: *const u8,
        state_length: usize,
        tables: *const u32,
        tables_length: usize,
    ) -> Answer;
    fn planner_search(
        record: *const u8,
        record_length: usize,
        tables: *mut u32,
        tables_length: usize,
        plan: *mut u8,
        plan_length: usize,
    ) -> Answer;
    fn planner_check_plan(
        record: *const u8,
        record_length: usize,
        state: *const u8,
        state_length: usize,
        plan: *const u8,
        plan_length: usize,
    ) -> Answer;
    fn planner_upgrade_record(
        old: *const u8,
        old_length: usize,
        record: *mut u8,
        record_length: usize,
    ) -> Answer;
}

/// The library of the product.
pub struct Library;

impl Library {
    /// Whether the linked archive has the entry.
    pub fn has(entry: &str) -> bool {
        env!("PLANNER_ENTRIES").split(',').any(|name| name.strip_prefix("planner_") == Some(entry))
    }
}

/// The call, if the linked archive has the entry.
macro_rules! entry {
    ($name:literal, $call:expr) => {{
        #[cfg(exported = $name)]
        let answer = unsafe { $call };
        #[cfg(not(exported = $name))]
        let answer = panic!("the planner library has no {}", $name);
        answer
    }};
}

// SAFETY (all calls below): each pointer comes with the length of the live
// slice it was taken from, and only slices borrowed mutably go to parameters
// the library may write through.
impl Planner for Library {
    fn read_text(&self, text: &[u8], record: &mut [u8]) -> Answer {
        entry!(
            "planner_read_text",
            planner_read_text(text.as_ptr(), text.len(), record.as_mut_ptr(), record.len())
        )
    }

    fn check_record(&self, record: &[u8]) -> Answer {
        entry!("planner_check_record", planner_check_record(record.as_ptr(), record.len()))
    }

    fn check_state(&self, record: &[u8], state: &[u8]) -> Answer {
        entry!(
            "planner_check_state",
            planner_check_state(record.as_ptr(), record.len(), state.as_ptr(), state.len())
        )
    }

    fn build_tables(&self, record: &[u8], tables: &mut [u32]) -> Answer {
        entry!(
            "planner_build_tables",
            planner_build_tables(record.as_ptr(), record.len(), tables.as_mut_ptr(), tables.len())
        )
    }

    fn spread(&self, record: &[u8], pattern: u64, tables: &mut [u32], row: &mut [u32]) -> Answer {
        entry!(
            "planner_spread",
            planner_spread(
                record.as_ptr(),
                record.len(),
                pattern,
                tables.as_mut_ptr(),
                tables.len(),
                row.as_mut_ptr(),
                row.len(),
            )
        )
    }

    fn additive(&self, record: &[u8]) -> Answer {
        entry!("planner_additive", planner_additive(record.as_ptr(), record.len()))
    }

    fn value(&self, record: &[u8], state: &[u8], tables: &[u32]) -> Answer {
        entry!(
            "planner_value",
            planner_value(
                record.as_ptr(),
                record.len(),
                state.as_ptr(),
                state.len(),
                tables.as_ptr(),
                tables.len(),
            )
        )
    }

    fn search(&self, record: &[u8], tables: &mut [u32], plan: &mut [u8]) -> Answer {
        entry!(
            "planner_search",
            planner_search(
                record.as_ptr(),
                record.len(),
                tables.as_mut_ptr(),
                tables.len(),
                plan.as_mut_ptr(),
                plan.len(),
            )
        )
    }

    fn check_plan(&self, record: &[u8], state: &[u8], plan: &[u8]) -> Answer {
        entry!(
            "planner_check_plan",
            planner_check_plan(
                record.as_ptr(),
                record.len(),
                state.as_ptr(),
                state.len(),
                plan.as_ptr(),
                plan.len(),
            )
        )
    }

    fn upgrade_record(&self, old: &[u8], record: &mut [u8]) -> Answer {
        entry!(
            "planner_upgrade_record",
            planner_upgrade_record(old.as_ptr(), old.len(), record.as_mut_ptr(), record.len())
        )
    }
}
