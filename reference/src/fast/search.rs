//! The search: rounds of a depth-first examination with a stack of its own,
//! on a task made of words. Results are remembered over all rounds; the plan
//! is written when the last round has succeeded.

use super::compiled::{Compiled, Step};
use super::patterns::Spaces;
use super::record::Record;
use super::results::{Known, Results};
use super::write::Writer;
use crate::answer::{Reason, Refusal};

pub enum Ending {
    Found { cost: u8, length: usize },
    Over,
    Spent { round: u8 },
    None,
}

/// A state under way: the actions not yet tried, what was left of the budget
/// before it was examined, its value and its depth; then the action and the
/// outcome being tried, and the length of the plan so far.
#[derive(Clone, Copy, Default)]
struct Node {
    state: u64,
    untried: u64,
    left: u32,
    length: u32,
    outcome: u16,
    value: u8,
    depth: u8,
    action: u8,
}

impl Node {
    fn of(state: u64, untried: u64, left: u32, value: u8, depth: u8) -> Self {
        Self { state, untried, left, value, depth, ..Self::default() }
    }

    /// Takes the lowest action not yet tried, at its first outcome.
    #[inline(always)]
    fn take(&mut self, task: &Compiled) -> Step {
        self.action = self.untried.trailing_zeros() as u8;
        self.untried &= self.untried - 1;
        self.length = 1;
        let step = task.step(self.action);
        self.outcome = step.first;
        step
    }
}

/// How a round ends, with the length of the plan it found and its first byte.
enum Round {
    Found(u32, u8),
    Failed,
    Spent,
}

/// Room for paths: each action takes 1 or more off a depth of at most 255.
const ROOM: usize = 256;

/// The nodes that wait for the one above them.
struct Path<'a> {
    nodes: &'a mut [Node; ROOM],
    number: u8,
}

impl Path<'_> {
    #[inline(always)]
    fn push(&mut self, node: Node) {
        self.nodes[usize::from(self.number)] = node;
        self.number += 1;
    }

    #[inline(always)]
    fn pop(&mut self) -> Option<Node> {
        self.number = self.number.checked_sub(1)?;
        Some(self.nodes[usize::from(self.number)])
    }
}

pub struct Search<'a> {
    pub task: &'a Compiled,
    results: Results,
    nodes: Box<[Node; ROOM]>,
    budget: u32,
    left: u32,
}

impl Search<'_> {
    /// Examines the start, whose value is at most the depth.
    fn round(&mut self, start: u64, value: u8, depth: u8) -> Round {
        if self.left == 0 {
            return Round::Spent;
        }
        self.left -= 1;
        if self.task.is_goal(start) {
            return Round::Found(1, 0);
        }
        if depth == 0 {
            return Round::Failed;
        }
        match (self.task.groups(), self.task.is_valued()) {
            (0..=2, true) => self.expand::<2, true>(start, value, depth),
            (0..=2, false) => self.expand::<2, false>(start, value, depth),
            (3..=4, true) => self.expand::<4, true>(start, value, depth),
            (3..=4, false) => self.expand::<4, false>(start, value, depth),
            (_, true) => self.expand::<8, true>(start, value, depth),
            (_, false) => self.expand::<8, false>(start, value, depth),
        }
    }

    /// The action of a state that succeeds and is no goal: remembered, or
    /// found once more, with the whole budget.
    pub fn action(&mut self, state: u64, value: u32, depth: u32) -> u8 {
        if let Some(known) = self.results.known(state, depth) {
            return known.first;
        }
        self.left = self.budget;
        match self.round(state, value as u8, depth as u8) {
            Round::Found(_, first) => first,
            Round::Failed | Round::Spent => unreachable!("the state succeeded before"),
        }
    }

    /// Tries the actions of the start, with sets of actions looked up in so
    /// many groups; without patterns every value is 0.
    fn expand<const GROUPS: usize, const VALUED: bool>(
        &mut self,
        start: u64,
        value: u8,
        depth: u8,
    ) -> Round {
        let Self { task, results, nodes, .. } = self;
        let mut path = Path { nodes, number: 0 };
        let cost = |field, state| if VALUED { task.cost(field, state) } else { 0 };
        let mut left = self.left;
        let untried = task.applying::<GROUPS>(start, depth);
        let mut node = Node::of(start, untried, left + 1, value, depth);
        let round = 'node: loop {
            if node.untried == 0 {
                let failure = Known { examinations: node.left - left, ..Known::default() };
                results.note(node.state, node.depth.into(), failure);
                let Some(below) = path.pop() else { break Round::Failed };
                node = below;
                continue;
            }
            let mut step = node.take(task);
            let mut depth = u32::from(node.depth) - step.cost;
            // Until an outcome fails at once.
            loop {
                if left == 0 {
                    break 'node Round::Spent;
                }
                let before = left;
                left -= 1;
                let state = task.after(node.state, node.outcome);
                let rest = u32::from(node.value) - cost(step.field, node.state);
                let value = rest + cost(step.field, state);
                if value > depth {
                    break;
                }
                let mut length = 1;
                // Only a state of value 0 is a goal.
                if value != 0 || !task.is_goal(state) {
                    let untried = task.applying::<GROUPS>(state, depth as u8);
                    if untried == 0 {
                        break;
                    }
                    let known = results.known(state, depth);
                    let Some(known) = known.filter(|known| known.examinations <= before) else {
                        path.push(node);
                        node = Node::of(state, untried, before, value as u8, depth as u8);
                        continue 'node;
                    };
                    left = before - known.examinations;
                    length = known.length;
                    if length == 0 {
                        break;
                    }
                }
                match go_on(task, results, &mut path, node, length, left) {
                    Ok(next) => (node, step) = (next, task.step(next.action)),
                    Err(round) => break 'node round,
                }
                depth = u32::from(node.depth) - step.cost;
            }
        };
        self.left = left;
        round
    }
}

/// The next outcome after one that succeeded, of the action or of one it was
/// tried for; else how the round ends.
#[inline(always)]
fn go_on(
    task: &Compiled,
    results: &mut Results,
    path: &mut Path,
    mut node: Node,
    mut length: u32,
    left: u32,
) -> Result<Node, Round> {
    loop {
        node.length += length;
        node.outcome += 1;
        if node.outcome < task.step(node.action).end {
            return Ok(node);
        }
        length = node.length;
        let (examinations, first) = (node.left - left, node.action);
        results.note(node.state, node.depth.into(), Known { examinations, length, first });
        node = path.pop().ok_or(Round::Found(length, first))?;
    }
}

/// The rounds, with a larger memory as soon as one has filled the small one.
fn rounds(search: &mut Search, start: u64, value: u8, limit: u8) -> Ending {
    for depth in value..=limit {
        match search.round(start, value, depth) {
            Round::Found(length, _) => {
                return Ending::Found { cost: depth, length: length as usize };
            }
            Round::Spent => return Ending::Spent { round: depth },
            Round::Failed => search.results.grow(),
        }
    }
    Ending::Over
}

/// The search with its count; the tables were built. Refusal 11.
pub fn run(
    record: &Record,
    spaces: &Spaces,
    tables: &[u32],
    plan: &mut [u8],
) -> Result<(Ending, u32), Refusal> {
    let budget = record.budget();
    let value = spaces.value(record.start(), tables);
    let Some(value) = value.filter(|&value| value <= record.limit().into()) else {
        plan.fill(255);
        return Ok((if value.is_none() { Ending::None } else { Ending::Over }, 0));
    };
    let (task, start) = Compiled::of(record, spaces, tables);
    let (results, nodes) = (Results::few(), Box::new([Node::default(); ROOM]));
    let mut search = Search { task: &task, results, nodes, budget, left: budget };
    let ending = rounds(&mut search, start, value as u8, record.limit());
    let count = budget - search.left;
    let mut written = 0;
    if let Ending::Found { cost, length } = ending {
        if length > plan.len() {
            plan.fill(255);
            return Err(Refusal::new(Reason::ShortPlan, length));
        }
        written = Writer::of(plan).write(&mut search, start, value as u32, cost.into(), 0);
    }
    plan[written..].fill(255);
    Ok((ending, count))
}
