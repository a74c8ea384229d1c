//! A task made ready for the search. States are words: the variables that
//! some action may change lie side by side in as few bits as their sizes take,
//! those of a pattern together, so that a pattern's place in its table is a
//! field of the word. A variable that no action changes keeps its value and
//! takes no bits; a variable of two patterns is one of those, for else they
//! were not additive.

use super::bits::{members, named};
use super::layout::Row;
use super::patterns::{Space, Spaces, touched};
use super::record::Record;

/// Sets of applying actions are looked up by so many bits of the state.
const GROUP: u32 = 8;
const GROUP_VALUES: usize = 1 << GROUP;
/// Depths are at most the largest limit.
const DEPTHS: usize = 256;

/// A state's bits under a mask.
#[derive(Clone, Copy, Default)]
struct Partial {
    mask: u64,
    value: u64,
}

/// A pattern's field of the word and where its costs begin.
#[derive(Clone, Copy, Default)]
pub struct Field {
    shift: u32,
    mask: u32,
    offset: u32,
}

/// An action: the field of the pattern it touches, its outcomes, and its cost.
#[derive(Clone, Copy, Default)]
pub struct Step {
    pub field: Field,
    pub first: u16,
    pub end: u16,
    pub cost: u32,
}

pub struct Compiled {
    steps: [Step; 64],
    /// Masks of the bits that an outcome keeps, and the bits it sets.
    outcomes: Vec<Partial>,
    /// None if a variable without bits has another value than the goal's.
    goal: Option<Partial>,
    /// Costs of at most 255 by the fields of the patterns, then one 0 for
    /// actions that touch none. Larger ones and infinite ones fail alike: no
    /// outcome is examined with a depth above 254.
    costs: Vec<u8>,
    /// By depth: the actions that cost no more.
    within: [u64; DEPTHS],
    /// By group of bits, and by their value: the actions they permit. Of the
    /// first group only those that the variables without bits permit too.
    permitted: Vec<[u64; GROUP_VALUES]>,
}

/// The fields of a word, by variable; those that keep their value have none.
struct Fields {
    changed: u16,
    shifts: [u32; 16],
    masks: [u64; 16],
    bits: u32,
}

impl Fields {
    /// Gives bits to the variables that change, pattern by pattern.
    fn of(record: &Record, spaces: &Spaces, changed: u16) -> Self {
        let mut fields = Fields { changed, shifts: [0; 16], masks: [0; 16], bits: 0 };
        let mut rest = changed;
        for set in spaces.iter().map(|space| space.members).chain([changed]) {
            for v in members((set & rest).into()) {
                let bits = u32::from(record.sizes()[v] - 1).ilog2() + 1;
                fields.shifts[v] = fields.bits;
                fields.masks[v] = (1 << bits) - 1;
                fields.bits += bits;
            }
            rest &= !set;
        }
        fields
    }

    fn partial(&self, row: &Row) -> Partial {
        let mut partial = Partial::default();
        for v in members((named(row) & self.changed).into()) {
            partial.mask |= self.masks[v] << self.shifts[v];
            partial.value |= u64::from(row[v]) << self.shifts[v];
        }
        partial
    }

    /// Whether the variables without bits have the values named.
    fn kept(&self, row: &Row, start: &Row) -> bool {
        members((named(row) & !self.changed).into()).all(|v| row[v] == start[v])
    }
}

/// The field of a pattern, and its costs added to the others.
fn add_costs(
    costs: &mut Vec<u8>,
    fields: &Fields,
    space: &Space,
    record: &Record,
    table: &[u32],
) -> Field {
    let (sizes, start) = (record.sizes(), record.start());
    let moving = space.members & fields.changed;
    let place = |v: usize| u32::from(space.weights[v]) * u32::from(start[v]);
    let fixed = members((space.members & !moving).into()).map(place).sum();
    let mut places: Vec<u32> = vec![fixed];
    for v in members(moving.into()) {
        let known = places.len();
        for value in 1..=fields.masks[v] as u32 {
            // Values the variable does not have lie beyond the table.
            let out = value >= sizes[v].into();
            let step = if out { 1 << 16 } else { value * u32::from(space.weights[v]) };
            for place in 0..known {
                places.push(places[place] + step);
            }
        }
    }
    let shift = if moving == 0 { 0 } else { fields.shifts[moving.trailing_zeros() as usize] };
    let field = Field { shift, mask: places.len() as u32 - 1, offset: costs.len() as u32 };
    let cost = |place: u32| table.get(place as usize).map_or(255, |&cost| cost.min(255) as u8);
    costs.extend(places.into_iter().map(cost));
    field
}

/// The sets of actions by groups of bits, at least two groups.
fn permitted(needs: &[Partial], possible: u64, bits: u32) -> Vec<[u64; GROUP_VALUES]> {
    // The actions that permit a bit to be 0, and those that permit 1.
    let mut values = [[u64::MAX; 2]; 64];
    for (action, need) in needs.iter().enumerate() {
        for bit in members(need.mask) {
            let barred = need.value >> bit & 1 ^ 1;
            values[bit][barred as usize] &= !(1 << action);
        }
    }
    let groups = bits.div_ceil(GROUP).next_power_of_two().max(2) as usize;
    let mut sets = vec![[u64::MAX; GROUP_VALUES]; groups];
    sets[0][0] = possible;
    for (set, values) in sets.iter_mut().zip(values[..bits as usize].chunks(GROUP as usize)) {
        for (bit, [zero, one]) in values.iter().enumerate() {
            let (lower, upper) = set.split_at_mut(1 << bit);
            for (low, high) in lower.iter_mut().zip(upper) {
                *high = *low & one;
                *low &= zero;
            }
        }
    }
    sets
}

impl Compiled {
    /// The task, and its start.
    pub fn of(record: &Record, spaces: &Spaces, tables: &[u32]) -> (Self, u64) {
        let mut touching = [0; 64];
        for (set, action) in touching.iter_mut().zip(record.actions()) {
            *set = touched(&action);
        }
        let changed = touching.iter().fold(0, |all, set| all | set);
        let fields = Fields::of(record, spaces, changed);
        let mut costs = Vec::new();
        let mut patterns = [(0, Field::default()); 8];
        for (pattern, space) in patterns.iter_mut().zip(spaces.iter()) {
            let table = &tables[space.offset..space.offset + space.states];
            let field = add_costs(&mut costs, &fields, space, record, table);
            *pattern = (space.members & changed, field);
        }
        let none = Field { offset: costs.len() as u32, ..Field::default() };
        costs.push(0);
        let mut outcomes = Vec::with_capacity(128);
        let mut steps = [Step::default(); 64];
        let (mut needs, mut possible) = ([Partial::default(); 64], 0);
        let mut within = [0; DEPTHS];
        for (number, action) in record.actions().enumerate() {
            needs[number] = fields.partial(action.precondition);
            let kept = fields.kept(action.precondition, record.start());
            possible |= u64::from(kept) << number;
            let owner = patterns.iter().find(|(set, _)| set & touching[number] != 0);
            let field = owner.map_or(none, |&(_, field)| field);
            let first = outcomes.len() as u16;
            outcomes.extend(action.outcomes.iter().map(|row| {
                let set = fields.partial(row);
                Partial { mask: !set.mask, value: set.value }
            }));
            let (end, cost) = (outcomes.len() as u16, action.cost);
            steps[number] = Step { field, first, end, cost: cost.into() };
            within[usize::from(cost)] |= 1 << number;
        }
        for depth in 1..DEPTHS {
            within[depth] |= within[depth - 1];
        }
        let goal = fields.kept(record.goal(), record.start());
        let goal = goal.then(|| fields.partial(record.goal()));
        let permitted = permitted(&needs[..record.action_count()], possible, fields.bits);
        let start = fields.partial(record.start()).value;
        (Self { steps, outcomes, goal, costs, within, permitted }, start)
    }

    /// The number of groups: 2, 4 or 8.
    pub fn groups(&self) -> usize {
        self.permitted.len()
    }

    /// Whether there are patterns.
    pub fn is_valued(&self) -> bool {
        self.costs.len() > 1
    }

    pub fn is_goal(&self, state: u64) -> bool {
        self.goal.is_some_and(|goal| state & goal.mask == goal.value)
    }

    /// The actions whose precondition a state meets and that cost no more than
    /// the depth left.
    #[inline(always)]
    pub fn applying<const GROUPS: usize>(&self, state: u64, depth: u8) -> u64 {
        let (mut set, mut rest) = (self.within[usize::from(depth)], state);
        if set == 0 {
            return 0;
        }
        let groups: &[[u64; GROUP_VALUES]; GROUPS] =
            self.permitted.first_chunk().expect("as many groups");
        for group in groups {
            set &= group[rest as usize % GROUP_VALUES];
            rest >>= GROUP;
        }
        set
    }

    #[inline(always)]
    pub fn step(&self, action: u8) -> Step {
        self.steps[usize::from(action) % 64]
    }

    /// The state after an outcome.
    #[inline(always)]
    pub fn after(&self, state: u64, outcome: u16) -> u64 {
        let Partial { mask, value } = self.outcomes[usize::from(outcome)];
        state & mask | value
    }

    /// The cost of a state in the pattern with the field.
    #[inline(always)]
    pub fn cost(&self, field: Field, state: u64) -> u32 {
        let place = (state >> field.shift) as usize & field.mask as usize;
        self.costs[field.offset as usize + place].into()
    }
}
