//! Plans as trees, and the check of plans written as bytes.

use super::task::{State, Task, after};
use super::{record, state};
use crate::answer::{Reason, Refusal};

/// The byte for arrived.
pub const ARRIVED: u8 = 254;
/// No path of a passed plan has more moves than this, whatever they cost.
pub const MOST_MOVES: usize = 255;

/// A plan: arrived, or an action with a plan for each of its outcomes.
#[derive(Clone, Debug, PartialEq, Eq)]
pub enum Plan {
    Arrived,
    Act(u8, Vec<Plan>),
}

impl Plan {
    /// What the dearest path from root to an arrival costs.
    pub fn cost(&self, task: &Task) -> u32 {
        match self {
            Plan::Arrived => 0,
            Plan::Act(action, plans) => {
                let dearest = plans.iter().map(|plan| plan.cost(task)).max().unwrap_or(0);
                u32::from(task.actions[usize::from(*action)].cost) + dearest
            }
        }
    }

    pub fn bytes(&self) -> Vec<u8> {
        match self {
            Plan::Arrived => vec![ARRIVED],
            Plan::Act(action, plans) => {
                let rest = plans.iter().flat_map(Plan::bytes);
                std::iter::once(*action).chain(rest).collect()
            }
        }
    }
}

/// A node of the tree a byte string spells; its place is its byte's offset,
/// so every node comes after its parent.
struct Node {
    byte: u8,
    /// The parent's offset and the outcome of it that leads here.
    parent: Option<(usize, usize)>,
    /// The moves on the path before it, and what they cost together.
    moves: usize,
    paid: usize,
}

/// The tree, as far as the bytes spell one, and why it ends there.
struct Tree {
    nodes: Vec<Node>,
    fault: Option<Refusal>,
}

impl Tree {
    /// Builds the tree from the shape alone: no state is looked at.
    fn of(task: &Task, plan: &[u8]) -> Self {
        let mut nodes: Vec<Node> = Vec::new();
        // The outcomes that still await a plan, the next one last.
        let mut awaiting = vec![None];
        let mut fault = None;
        while let Some(parent) = awaiting.pop() {
            let offset = nodes.len();
            let Some(&byte) = plan.get(offset) else {
                fault = Some(Refusal::new(Reason::EndsEarly, offset));
                break;
            };
            match task.actions.get(usize::from(byte)) {
                Some(action) => {
                    let outcomes = (0..action.outcomes.len()).rev();
                    awaiting.extend(outcomes.map(|outcome| Some((offset, outcome))));
                }
                None if byte == ARRIVED => {}
                None => {
                    fault = Some(Refusal::new(Reason::UnknownByte, offset));
                    break;
                }
            }
            let (moves, paid) = match parent {
                None => (0, 0),
                Some((above, _)) => {
                    let node: &Node = &nodes[above];
                    let cost = task.actions[usize::from(node.byte)].cost;
                    (node.moves + 1, node.paid + usize::from(cost))
                }
            };
            nodes.push(Node { byte, parent, moves, paid });
        }
        if fault.is_none() && nodes.len() < plan.len() {
            fault = Some(Refusal::new(Reason::BytesAfter, nodes.len()));
        }
        Self { nodes, fault }
    }

    /// The first fault of a node in the order of the bytes, given the state
    /// the plan is for. The states are those the tower would be in.
    fn judged(&self, task: &Task, from: State) -> Result<(), Refusal> {
        let mut states: Vec<State> = Vec::with_capacity(self.nodes.len());
        for (offset, node) in self.nodes.iter().enumerate() {
            let state = match node.parent {
                None => from.clone(),
                Some((above, outcome)) => {
                    let action = usize::from(self.nodes[above].byte);
                    after(&states[above], &task.actions[action].outcomes[outcome])
                }
            };
            if let Some(reason) = judge(task, node, &state) {
                return Err(Refusal::new(reason, offset));
            }
            states.push(state);
        }
        Ok(())
    }
}

/// What is wrong with a node at a state, in the order of the table.
fn judge(task: &Task, node: &Node, state: &State) -> Option<Reason> {
    if node.byte == ARRIVED {
        return (!task.is_goal(state)).then_some(Reason::NotArrived);
    }
    if node.moves >= MOST_MOVES {
        return Some(Reason::TooDeep);
    }
    let action = &task.actions[usize::from(node.byte)];
    (!task.applies(action, state)).then_some(Reason::DoesNotApply)
}

/// Cost and length of a plan that passes.
#[derive(Clone, Copy, Debug, PartialEq, Eq)]
pub struct Passed {
    pub cost: usize,
    pub length: usize,
}

/// Whether the bytes are a strong plan from the state. Faults of the shape end
/// the tree, so every node before them was read before them: a node's fault
/// goes first.
pub fn check(task: &Task, from: State, plan: &[u8]) -> Result<Passed, Refusal> {
    let tree = Tree::of(task, plan);
    tree.judged(task, from)?;
    match tree.fault {
        Some(fault) => Err(fault),
        None => Ok(Passed {
            cost: tree.nodes.iter().map(|node| node.paid).max().unwrap_or(0),
            length: plan.len(),
        }),
    }
}

/// The entry: refusals 5, 6, 10, then those of the check.
pub fn check_plan(record: &[u8], state: &[u8], plan: &[u8]) -> Result<Passed, Refusal> {
    let task = record::decode(record)?;
    let from = state::decode(&task, state)?;
    check(&task, from, plan)
}
