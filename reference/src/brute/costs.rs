//! The cost of every state of a task, abstract or not, by three methods that
//! share nothing but the graph of the states. Sweeps make the tables; the others
//! are there to hold them against.

use super::task::{Action, State, Task, after};

/// Infinite cost; adding a cost saturates, so it stays infinite.
pub const INFINITE: u32 = u32::MAX;

/// An action where it applies: its cost and the places its outcomes lead to.
pub struct Choice {
    pub cost: u32,
    pub leads_to: Vec<usize>,
}

impl Choice {
    /// The cost of the action plus the largest among its outcomes.
    fn worst(&self, costs: &[u32]) -> u32 {
        let largest = self.leads_to.iter().map(|&next| costs[next]).max();
        largest.expect("an action has an outcome").saturating_add(self.cost)
    }
}

/// The states by their places: which are goals, and for each state its applying
/// actions.
pub struct Graph {
    pub goals: Vec<bool>,
    pub choices: Vec<Vec<Choice>>,
}

impl Graph {
    pub fn of(task: &Task) -> Self {
        let states = task.all_states();
        let choice = |state: &State, action: &Action| {
            let outcomes = action.outcomes.iter();
            let leads_to = outcomes.map(|outcome| task.index(&after(state, outcome))).collect();
            Choice { cost: action.cost.into(), leads_to }
        };
        let choices = |state: &State| -> Vec<Choice> {
            let applying = task.actions.iter().filter(|action| task.applies(action, state));
            applying.map(|action| choice(state, action)).collect()
        };
        Self {
            goals: states.iter().map(|state| task.is_goal(state)).collect(),
            choices: states.iter().map(choices).collect(),
        }
    }

    /// The right side of the cost equation for one state: 0 at a goal,
    /// infinite where nothing applies, else the least over the actions of their
    /// cost plus the largest among the outcomes.
    fn backed_up(&self, state: usize, costs: &[u32]) -> u32 {
        if self.goals[state] {
            0
        } else {
            let worst = self.choices[state].iter().map(|choice| choice.worst(costs));
            worst.min().unwrap_or(INFINITE)
        }
    }
}

/// Sweeps over all states from infinity: each state is given what the costs
/// known so far say, up and down in turn, until a sweep changes nothing. The
/// costs then solve the equation, and since every action costs something it has
/// one solution: a finite cost falls along the path that it is the cost of.
pub fn by_sweeps(graph: &Graph) -> Vec<u32> {
    let states = graph.goals.len();
    let mut costs = vec![INFINITE; states];
    let mut upwards = false;
    loop {
        let mut changed = false;
        for place in 0..states {
            let state = if upwards { place } else { states - 1 - place };
            let next = graph.backed_up(state, &costs);
            changed |= next != costs[state];
            costs[state] = next;
        }
        if !changed {
            return costs;
        }
        upwards = !upwards;
    }
}

/// The limit of the definition, round by round from 0. A finite cost is that of
/// a path on which no state is met twice, so what has passed the cost of as many
/// of the dearest actions as there are other states is infinite. With costs it
/// takes as many rounds as that: of use where there are few states.
pub fn by_rounds_from_zero(graph: &Graph) -> Vec<u32> {
    let states = graph.goals.len();
    let dearest = graph.choices.iter().flatten().map(|choice| choice.cost).max().unwrap_or(0);
    let most = dearest * (states as u32 - 1);
    let settle = |cost: u32| if cost > most { INFINITE } else { cost };
    let mut costs = vec![0; states];
    loop {
        let next: Vec<u32> = (0..states).map(|s| settle(graph.backed_up(s, &costs))).collect();
        if next == costs {
            return costs;
        }
        costs = next;
    }
}

/// The states that can be left for good at a cost of 0, then at the least cost
/// that one outside has with all outcomes inside, and so on, set by set, until
/// no state outside has one.
pub fn by_growing_sets(graph: &Graph) -> Vec<u32> {
    let states = graph.goals.len();
    let goal = |&goal: &bool| if goal { 0 } else { INFINITE };
    let mut costs: Vec<u32> = graph.goals.iter().map(goal).collect();
    loop {
        let outside = (0..states).filter(|&s| costs[s] == INFINITE);
        let told: Vec<(usize, u32)> = outside.map(|s| (s, graph.backed_up(s, &costs))).collect();
        let least = told.iter().map(|&(_, cost)| cost).min().unwrap_or(INFINITE);
        if least == INFINITE {
            return costs;
        }
        for (state, _) in told.into_iter().filter(|&(_, cost)| cost == least) {
            costs[state] = least;
        }
    }
}

/// The cost of every state of the task, in the order of the states' places.
pub fn costs(task: &Task) -> Vec<u32> {
    by_sweeps(&Graph::of(task))
}
