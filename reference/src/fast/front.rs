//! The order in which the states of a table are settled: that of their costs.
//! Where all actions cost the same a queue has it; else there is a bucket for
//! each cost up to 255 above the one being settled, by its remainder.

use super::bits::members;

/// The states that lead to those settled so far.
pub trait Front {
    /// The next state to settle, unless no other state is left to lower.
    fn take(&mut self) -> Option<u16>;

    /// Whether an edge to the state taken last lowers the cost of a state.
    fn lowers(&self, edge: usize, place: u16) -> bool;

    /// Gives a state the cost that the edge to the state taken last tells.
    fn lower(&mut self, edge: usize, place: u16);
}

/// No level: the state is open.
pub const OPEN: u16 = u16::MAX;

/// Actions of one cost: states in the order in which they were found, with the
/// number of actions to a goal.
pub struct Queue<'a> {
    pub levels: &'a mut [u16],
    pub states: &'a mut [u16],
    head: usize,
    tail: usize,
    level: u16,
}

impl<'a> Queue<'a> {
    /// A queue whose first states are goals.
    pub fn of(levels: &'a mut [u16], states: &'a mut [u16], goals: usize) -> Self {
        Self { levels, states, head: 0, tail: goals, level: 0 }
    }
}

impl Front for Queue<'_> {
    #[inline(always)]
    fn take(&mut self) -> Option<u16> {
        if self.head >= self.tail || self.tail >= self.states.len() {
            return None;
        }
        let place = self.states[self.head];
        self.head += 1;
        self.level = self.levels[usize::from(place)] + 1;
        Some(place)
    }

    #[inline(always)]
    fn lowers(&self, _: usize, place: u16) -> bool {
        self.levels[usize::from(place)] == OPEN
    }

    #[inline(always)]
    fn lower(&mut self, _: usize, place: u16) {
        self.levels[usize::from(place)] = self.level;
        self.states[self.tail] = place;
        self.tail += 1;
    }
}

const BUCKETS: usize = 256;
const NONE: u32 = u32::MAX;

/// A state in a bucket. One that was lowered again stands in several, and
/// counts where its cost is that of the bucket.
#[derive(Clone, Copy)]
pub struct Node {
    place: u16,
    next: u32,
}

/// Actions of several costs.
pub struct Buckets<'a> {
    pub costs: &'a mut [u32],
    /// What each edge costs.
    weights: &'a [u8],
    nodes: &'a mut Vec<Node>,
    /// The first node of each bucket that is in use.
    heads: [u32; BUCKETS],
    used: [u64; BUCKETS / 64],
    /// The nodes left of the bucket being emptied, and its cost.
    rest: u32,
    cost: u32,
    /// The states that are not settled yet.
    open: usize,
}

impl<'a> Buckets<'a> {
    /// Buckets that hold the goals, of so many states.
    pub fn of(
        costs: &'a mut [u32],
        weights: &'a [u8],
        nodes: &'a mut Vec<Node>,
        goals: &[u16],
        open: usize,
    ) -> Self {
        nodes.clear();
        let mut buckets = Self {
            costs,
            weights,
            nodes,
            heads: [NONE; BUCKETS],
            used: [0; BUCKETS / 64],
            rest: NONE,
            cost: 0,
            open,
        };
        goals.iter().for_each(|&place| buckets.put(place, 0));
        buckets
    }

    #[inline(always)]
    fn put(&mut self, place: u16, cost: u32) {
        self.costs[usize::from(place)] = cost;
        let bucket = cost as usize % BUCKETS;
        let next = std::mem::replace(&mut self.heads[bucket], self.nodes.len() as u32);
        self.used[bucket / 64] |= 1 << (bucket % 64);
        self.nodes.push(Node { place, next });
    }

    /// How far the next bucket in use lies behind the one of the cost, which is
    /// empty.
    #[inline(always)]
    fn distance(&self) -> Option<u32> {
        let (word, bit) = (self.cost as usize % BUCKETS / 64, self.cost % 64);
        let above = self.used[word] >> bit;
        if above != 0 {
            return Some(above.trailing_zeros());
        }
        let words = self.used.len() as u32;
        let further = (1..=words).map(|step| (step, (word as u32 + step) % words));
        let mut found = further.filter(|&(_, word)| self.used[word as usize] != 0);
        let (step, word) = found.next()?;
        Some(64 * step - bit + self.used[word as usize].trailing_zeros())
    }
}

impl Front for Buckets<'_> {
    #[inline(always)]
    fn take(&mut self) -> Option<u16> {
        loop {
            if self.rest == NONE {
                self.cost += self.distance()?;
                let bucket = self.cost as usize % BUCKETS;
                self.rest = std::mem::replace(&mut self.heads[bucket], NONE);
                self.used[bucket / 64] &= !(1 << (bucket % 64));
            }
            let Node { place, next } = self.nodes[self.rest as usize];
            self.rest = next;
            if self.costs[usize::from(place)] == self.cost {
                self.open -= 1;
                return (self.open > 0).then_some(place);
            }
        }
    }

    #[inline(always)]
    fn lowers(&self, edge: usize, place: u16) -> bool {
        self.cost + u32::from(self.weights[edge]) < self.costs[usize::from(place)]
    }

    #[inline(always)]
    fn lower(&mut self, edge: usize, place: u16) {
        self.put(place, self.cost + u32::from(self.weights[edge]));
    }
}

/// The only cost of edges that all cost the same.
pub fn only_cost(weights: &[u8]) -> Option<u8> {
    let (&first, rest) = weights.split_first()?;
    rest.iter().all(|&weight| weight == first).then_some(first)
}

/// The members of a set of edges, which are told in words.
#[inline(always)]
pub fn edges_of(word: usize, set: u64) -> impl Iterator<Item = usize> {
    members(set).map(move |bit| 64 * word + bit)
}
