//! The memory of rows, which is used again: a row takes four megabytes, and
//! fresh memory costs more time than all that is done with it.

use std::cell::RefCell;
use std::mem;
use std::ops::{Deref, DerefMut};

use crate::brute::spread::COUNTS;

thread_local! {
    static SPARE: RefCell<Vec<Vec<u32>>> = const { RefCell::new(Vec::new()) };
}

/// The counts of a row.
#[derive(Debug, Default, PartialEq, Eq)]
pub struct Counts(Vec<u32>);

impl Counts {
    /// No counts yet; with room for a row, if one is to come.
    fn empty(length: usize) -> Self {
        let spare =
            if length < COUNTS { None } else { SPARE.with(|spare| spare.borrow_mut().pop()) };
        let mut counts = spare.unwrap_or_default();
        counts.clear();
        Self(counts)
    }

    /// So many counts that are all the same.
    pub fn filled(count: u32, length: usize) -> Self {
        let mut counts = Self::empty(length);
        counts.0.resize(length, count);
        counts
    }

    /// The counts with some of another number before and after.
    pub fn within(&self, guard: u32, guards: usize) -> Self {
        let mut counts = Self::empty(self.len());
        counts.0.resize(guards, guard);
        counts.0.extend_from_slice(&self.0);
        counts.0.resize(self.len() + 2 * guards, guard);
        counts
    }
}

impl Clone for Counts {
    fn clone(&self) -> Self {
        self.within(0, 0)
    }
}

impl Deref for Counts {
    type Target = [u32];

    fn deref(&self) -> &[u32] {
        &self.0
    }
}

impl DerefMut for Counts {
    fn deref_mut(&mut self) -> &mut [u32] {
        &mut self.0
    }
}

impl Drop for Counts {
    fn drop(&mut self) {
        if self.0.capacity() >= COUNTS {
            let row = mem::take(&mut self.0);
            // At the end of a thread there is nothing to keep it for.
            let _ = SPARE.try_with(|spare| spare.borrow_mut().push(row));
        }
    }
}
