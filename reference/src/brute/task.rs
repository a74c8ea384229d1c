//! A task as the specification words it, and what moves do to states.

/// One value for each variable.
pub type State = Vec<u8>;

/// Values for some of the variables: a precondition, an outcome or the goal.
pub type Assignment = Vec<Option<u8>>;

#[derive(Clone, Debug, PartialEq, Eq)]
pub struct Action {
    pub precondition: Assignment,
    pub outcomes: Vec<Assignment>,
    /// What the move costs: 1 to 255.
    pub cost: u8,
}

#[derive(Clone, Debug, PartialEq, Eq)]
pub struct Task {
    pub sizes: Vec<u8>,
    pub actions: Vec<Action>,
    pub goal: Assignment,
    pub start: State,
    /// For each pattern and variable: whether the variable is in.
    pub patterns: Vec<Vec<bool>>,
    pub limit: u8,
    pub budget: u32,
}

/// Whether the state has all the named values.
pub fn meets(state: &[u8], named: &Assignment) -> bool {
    state.iter().zip(named).all(|(&value, name)| name.is_none_or(|wanted| wanted == value))
}

/// The state after an outcome, which changes the named variables and no other.
pub fn after(state: &[u8], outcome: &Assignment) -> State {
    state.iter().zip(outcome).map(|(&value, name)| name.unwrap_or(value)).collect()
}

/// The members of `all` at the places that are kept.
fn kept<T: Clone>(all: &[T], keep: &[bool]) -> Vec<T> {
    all.iter().zip(keep).filter(|&(_, &keep)| keep).map(|(one, _)| one.clone()).collect()
}

impl Task {
    pub fn is_goal(&self, state: &[u8]) -> bool {
        meets(state, &self.goal)
    }

    /// A move applies in a state that meets its need and is not a goal state.
    pub fn applies(&self, action: &Action, state: &[u8]) -> bool {
        meets(state, &action.precondition) && !self.is_goal(state)
    }

    /// The abstraction: the task with the variables of the pattern only. All
    /// actions, their costs and all outcomes stay, also those that name nothing any more.
    pub fn projected(&self, pattern: &[bool]) -> Task {
        let project = |action: &Action| Action {
            precondition: kept(&action.precondition, pattern),
            outcomes: action.outcomes.iter().map(|o| kept(o, pattern)).collect(),
            cost: action.cost,
        };
        Task {
            sizes: kept(&self.sizes, pattern),
            actions: self.actions.iter().map(project).collect(),
            goal: kept(&self.goal, pattern),
            start: kept(&self.start, pattern),
            patterns: Vec::new(),
            limit: self.limit,
            budget: self.budget,
        }
    }

    /// The number of states. Sixteen sizes of 16 make 2^64, so 128 bits.
    pub fn states(&self) -> u128 {
        self.sizes.iter().map(|&size| u128::from(size)).product()
    }

    /// The place of a state in a table: the lowest variable has weight 1.
    pub fn index(&self, state: &[u8]) -> usize {
        // From the highest variable down, each step multiplies all above it.
        let pairs = state.iter().zip(&self.sizes).rev();
        pairs.fold(0, |index, (&value, &size)| index * usize::from(size) + usize::from(value))
    }

    /// All states in the order of their places: the lowest variable changes
    /// fastest, as in counting up.
    pub fn all_states(&self) -> Vec<State> {
        let mut states = vec![Vec::new()];
        for &size in &self.sizes {
            let longer = |value| {
                let with_value = move |state: &State| [state.as_slice(), &[value]].concat();
                states.iter().map(with_value).collect::<Vec<State>>()
            };
            states = (0..size).flat_map(longer).collect();
        }
        states
    }
}
