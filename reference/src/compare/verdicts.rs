//! What the rule on restated values does to the verdicts of a run: how many
//! would be others if every assignment counted.

use std::fmt;

use super::{Call, Entry, Made};
use crate::brute::record;
use crate::brute::task::Task;
use crate::brute::value::{self, Verdict};

/// The verdict as if every assignment counted. Where nothing is needed there
/// is nothing to restate.
fn without_needs(task: &Task) -> Verdict {
    let mut task = task.clone();
    task.actions.iter_mut().for_each(|action| action.precondition.fill(None));
    value::verdict(&task)
}

/// Whether the patterns are additive by this rule alone.
pub fn additive_by_the_rule(task: &Task) -> bool {
    value::verdict(task) == Verdict::Additive && without_needs(task) != Verdict::Additive
}

/// How many verdicts of each kind were told.
#[derive(Clone, Debug, Default, PartialEq, Eq)]
pub struct Verdicts {
    pub additive: u64,
    /// Those that are additive by the rule alone.
    pub by_the_rule: u64,
    pub conflicts: u64,
    /// Those whose action or patterns the rule decides.
    pub elsewhere: u64,
}

impl Verdicts {
    pub fn add(&mut self, call: &Call, made: &Made) {
        if call.entry != Entry::Additive {
            return;
        }
        let Ok(task) = record::decode(&call.slices.record) else { return };
        let differs = value::verdict(&task) != without_needs(&task);
        let [all, differing] = match made.answer.kind {
            0 => [&mut self.additive, &mut self.by_the_rule],
            _ => [&mut self.conflicts, &mut self.elsewhere],
        };
        *all += 1;
        *differing += u64::from(differs);
    }
}

impl fmt::Display for Verdicts {
    fn fmt(&self, out: &mut fmt::Formatter) -> fmt::Result {
        let Self { additive, by_the_rule, conflicts, elsewhere } = self;
        write!(
            out,
            "verdicts: {additive} additive, {by_the_rule} only since restated values do not count; \
            {conflicts} conflicts, {elsewhere} told of another move or other patterns for that"
        )
    }
}
