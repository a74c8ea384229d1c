//! Writing the plan that the search found: the action of a state, then the
//! plans of its outcomes. The plan of a state that was met before with the same
//! depth is copied from where it stands.

use super::results::spread;
use super::search::Search;

const ARRIVED: u8 = 254;
const SLOTS: usize = 128;

/// Where the plan of a state with a depth stands; depth 0 means nowhere.
#[derive(Clone, Copy, Default)]
struct Written {
    state: u64,
    depth: u32,
    begin: u32,
    end: u32,
}

pub struct Writer<'a> {
    plan: &'a mut [u8],
    written: [Written; SLOTS],
}

impl<'a> Writer<'a> {
    /// A writer into a buffer that has room for the plan.
    pub fn of(plan: &'a mut [u8]) -> Self {
        Self { plan, written: [Written::default(); SLOTS] }
    }

    /// Writes the plan of a state that succeeds, and tells where it ends.
    pub fn write(
        &mut self,
        search: &mut Search,
        state: u64,
        value: u32,
        depth: u32,
        at: usize,
    ) -> usize {
        if value == 0 && search.task.is_goal(state) {
            self.plan[at] = ARRIVED;
            return at + 1;
        }
        let slot = spread(state, depth) % SLOTS;
        let known = self.written[slot];
        if known.state == state && known.depth == depth {
            let (begin, end) = (known.begin as usize, known.end as usize);
            self.plan.copy_within(begin..end, at);
            return at + end - begin;
        }
        let action = search.action(state, value, depth);
        self.plan[at] = action;
        let step = search.task.step(action);
        let rest = value - search.task.cost(step.field, state);
        let mut end = at + 1;
        for outcome in step.first..step.end {
            let after = search.task.after(state, outcome);
            let value = rest + search.task.cost(step.field, after);
            end = self.write(search, after, value, depth - step.cost, end);
        }
        self.written[slot] = Written { state, depth, begin: at as u32, end: end as u32 };
        end
    }
}
