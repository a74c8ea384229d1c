//! The tables: from the goals backwards, each state once.
//!
//! For every action and outcome of a pattern's abstraction there is an edge.
//! Which edges lead to a state is a set of bits, the common part of one set
//! for the state's lower and one for its upper variables. An action with
//! several outcomes has a counter at every state of those not yet settled;
//! since states are settled in the order of their costs, the outcome that
//! brings a counter to 0 is the worst one. An outcome that could not lower the
//! cost known of a state need not be counted there, for the ones after it could
//! not either.

use super::bits::{members, named};
use super::front::{Buckets, Front, Node, OPEN, Queue, edges_of, only_cost};
use super::layout::Row;
use super::patterns::{INFINITE, Space, Spaces};
use super::record::{Action, Record};

/// No counters: the action has one outcome.
const SINGLE: u32 = u32::MAX;
/// The lower variables of a pattern have at most this many states together.
const LOWER_STATES: usize = 64;
/// Words for the edges: 64 actions of 8 outcomes.
const WORDS: usize = 8;

/// The variables an action names.
struct Names {
    precondition: u16,
    outcomes: [u16; 8],
    touched: u16,
}

/// The places of a pattern's states while its table is built: as in the table,
/// but a row of the lower variables' states takes a power of two.
struct Grid {
    members: u16,
    lower: u16,
    weights: [u16; 16],
    width: usize,
    shift: u32,
    places: usize,
}

/// An outcome of an action, seen from the states it leads to.
#[derive(Clone, Copy)]
struct Edge {
    /// Where the places stand that the variables set but not needed add.
    free: (u32, u32),
    /// Where the counters of its action begin.
    counters: u32,
    /// The values it leads to: those it sets, and those needed and kept.
    leads_to: Row,
}

/// A set of variables and where the places of all its values stand.
struct Known {
    set: u16,
    range: (u32, u32),
}

/// The edges of a pattern's abstraction.
#[derive(Default)]
struct Edges {
    edges: Vec<Edge>,
    /// What each edge adds to a state's place to give the lowest state that it
    /// leads from, what it costs, and the edges that lead from that state alone
    /// and have no counters.
    backs: Vec<u16>,
    weights: Vec<u8>,
    plain: [u64; WORDS],
    counters: Vec<u8>,
    offsets: Vec<u16>,
    known: Vec<Known>,
    /// The edges that may lead to a state, by its lower and upper variables.
    lower: Vec<u64>,
    upper: Vec<u64>,
}

/// What is used again from pattern to pattern.
#[derive(Default)]
struct Workshop {
    edges: Edges,
    queue: Vec<u16>,
    levels: Vec<u16>,
    costs: Vec<u32>,
    nodes: Vec<Node>,
}

impl Edge {
    /// Whether no other outcome of the action at a state is left to settle.
    #[inline(always)]
    fn is_last(&self, counters: &mut [u8], place: u16) -> bool {
        if self.counters == SINGLE {
            return true;
        }
        let counter = &mut counters[self.counters as usize + usize::from(place)];
        *counter -= 1;
        *counter == 0
    }
}

impl Grid {
    fn of(space: &Space, sizes: &Row) -> Self {
        let (mut width, mut lower) = (1, 0);
        let mut weights = [0; 16];
        for v in members(space.members.into()) {
            if width * usize::from(sizes[v]) > LOWER_STATES {
                break;
            }
            lower |= 1 << v;
            weights[v] = width as u16;
            width *= usize::from(sizes[v]);
        }
        let shift = width.next_power_of_two().ilog2();
        let mut places = 1 << shift;
        for v in members((space.members & !lower).into()) {
            weights[v] = places as u16;
            places *= usize::from(sizes[v]);
        }
        Self { members: space.members, lower, weights, width, shift, places }
    }

    fn place(&self, row: &Row, set: u16) -> u16 {
        members(set.into()).map(|v| self.weights[v] * u16::from(row[v])).sum()
    }
}

fn names(action: &Action) -> Names {
    let mut outcomes = [0; 8];
    for (set, outcome) in outcomes.iter_mut().zip(action.outcomes) {
        *set = named(outcome);
    }
    let touched = outcomes.iter().fold(0, |all, set| all | set);
    Names { precondition: named(action.precondition), outcomes, touched }
}

/// The edges that may lead to each value of a variable.
fn allowed(edges: &[Edge], v: usize, size: usize) -> [[u64; WORDS]; 16] {
    let mut sets = [[0; WORDS]; 16];
    for (number, edge) in edges.iter().enumerate() {
        let (word, bit) = (number / 64, 1 << (number % 64));
        match edge.leads_to[v] {
            255 => sets[..size].iter_mut().for_each(|set| set[word] |= bit),
            value => sets[usize::from(value)][word] |= bit,
        }
    }
    sets
}

/// Sets of so many words for every state of some variables.
fn sets(out: &mut Vec<u64>, edges: &[Edge], variables: u16, sizes: &Row, words: usize) {
    out.clear();
    out.resize(words, u64::MAX);
    for v in members(variables.into()) {
        let size = usize::from(sizes[v]);
        let allowed = allowed(edges, v, size);
        let length = out.len();
        out.resize(length * size, 0);
        let (first, further) = out.split_at_mut(length);
        for (sets, allowed) in further.chunks_exact_mut(length).zip(&allowed[1..]) {
            for (set, held) in sets.chunks_exact_mut(words).zip(first.chunks_exact(words)) {
                for ((word, held), allowed) in set.iter_mut().zip(held).zip(allowed) {
                    *word = held & allowed;
                }
            }
        }
        for set in first.chunks_exact_mut(words) {
            set.iter_mut().zip(&allowed[0]).for_each(|(word, allowed)| *word &= allowed);
        }
    }
}

impl Edges {
    /// The places of all values of a set of variables.
    fn offsets_of(&mut self, set: u16, grid: &Grid, sizes: &Row) -> (u32, u32) {
        if let Some(known) = self.known.iter().find(|known| known.set == set) {
            return known.range;
        }
        let begin = self.offsets.len();
        self.offsets.push(0);
        for v in members(set.into()) {
            let end = self.offsets.len();
            for value in 1..u16::from(sizes[v]) {
                for place in begin..end {
                    self.offsets.push(self.offsets[place] + value * grid.weights[v]);
                }
            }
        }
        let range = (begin as u32, self.offsets.len() as u32);
        self.known.push(Known { set, range });
        range
    }

    /// The edges of an action, unless one of its outcomes changes nothing:
    /// such an action leads from a state to itself and lowers no cost.
    fn add_action(&mut self, action: &Action, names: &Names, grid: &Grid, sizes: &Row) {
        let begin = self.edges.len();
        let needed = names.precondition & grid.members;
        let mut changes = [(0, 0); 8];
        for (number, outcome) in action.outcomes.iter().enumerate() {
            let set = names.outcomes[number] & grid.members;
            let to = grid.place(outcome, set);
            let from = grid.place(action.precondition, set & needed);
            if set & !needed == 0 && from == to {
                self.edges.truncate(begin);
                self.backs.truncate(begin);
                self.weights.truncate(begin);
                return;
            }
            let distinct = self.edges.len() - begin;
            if changes[..distinct].contains(&(set, to)) {
                continue;
            }
            changes[distinct] = (set, to);
            let free = self.offsets_of(set & !needed, grid, sizes);
            let mut leads_to = *action.precondition;
            for (value, &name) in leads_to.iter_mut().zip(outcome) {
                *value = if name == 255 { *value } else { name };
            }
            self.backs.push(from.wrapping_sub(to));
            self.weights.push(action.cost);
            self.edges.push(Edge { free, counters: SINGLE, leads_to });
        }
        self.number_edges(begin, grid);
    }

    /// Counters for the edges of an action that has several.
    fn number_edges(&mut self, begin: usize, grid: &Grid) {
        let outcomes = self.edges.len() - begin;
        if outcomes > 1 {
            let counters = self.counters.len();
            self.edges[begin..].iter_mut().for_each(|edge| edge.counters = counters as u32);
            self.counters.resize(counters + grid.places, outcomes as u8);
        } else if self.edges[begin].free.1 - self.edges[begin].free.0 == 1 {
            self.plain[begin / 64] |= 1 << (begin % 64);
        }
    }

    fn clear(&mut self) {
        self.edges.clear();
        self.backs.clear();
        self.weights.clear();
        self.plain = [0; WORDS];
        self.counters.clear();
        self.offsets.clear();
        self.known.clear();
    }

    /// Settles the states that lead to those of the front, until there is none
    /// or every state is settled.
    #[inline(always)]
    fn settle(&mut self, grid: &Grid, sizes: &Row, mut front: impl Front) {
        let words = self.edges.len().div_ceil(64);
        sets(&mut self.lower, &self.edges, grid.lower, sizes, words);
        sets(&mut self.upper, &self.edges, grid.members & !grid.lower, sizes, words);
        let Self { edges, backs, plain, counters, offsets, .. } = self;
        while let Some(place) = front.take() {
            let (above, below) = (place >> grid.shift, place & ((1 << grid.shift) - 1));
            let lower = &self.lower[usize::from(below) * words..][..words];
            let upper = &self.upper[usize::from(above) * words..][..words];
            for word in 0..words {
                let set = lower[word] & upper[word];
                for number in edges_of(word, set & plain[word]) {
                    let before = place.wrapping_add(backs[number]);
                    if front.lowers(number, before) {
                        front.lower(number, before);
                    }
                }
                for number in edges_of(word, set & !plain[word]) {
                    let edge = &edges[number];
                    let base = place.wrapping_add(backs[number]);
                    for &offset in &offsets[edge.free.0 as usize..edge.free.1 as usize] {
                        let before = base.wrapping_add(offset);
                        if front.lowers(number, before) && edge.is_last(counters, before) {
                            front.lower(number, before);
                        }
                    }
                }
            }
        }
    }
}

/// The entries of a row of levels.
#[inline(always)]
fn tell(entries: &mut [u32], levels: &[u16], cost: impl Fn(u32) -> u32) {
    for (entry, &level) in entries.iter_mut().zip(levels) {
        *entry = if level == OPEN { INFINITE } else { cost(level.into()) };
    }
}

impl Workshop {
    fn build(&mut self, record: &Record, names: &[Names], space: &Space, table: &mut [u32]) {
        let sizes = record.sizes();
        let grid = Grid::of(space, sizes);
        self.edges.clear();
        for (number, names) in names.iter().enumerate() {
            if names.touched & space.members != 0 {
                self.edges.add_action(&record.action(number), names, &grid, sizes);
            }
        }
        let fixed = named(record.goal()) & space.members;
        let lowest = grid.place(record.goal(), fixed);
        let (from, to) = self.edges.offsets_of(space.members & !fixed, &grid, sizes);
        let goals = &self.edges.offsets[from as usize..to as usize];
        self.queue.clear();
        self.queue.extend(goals.iter().map(|offset| lowest + offset));
        match only_cost(&self.edges.weights) {
            _ if self.queue.len() == space.states => table.fill(0),
            None if !self.edges.weights.is_empty() => self.by_costs(&grid, sizes, table),
            cost => self.by_levels(&grid, sizes, cost, table),
        }
    }

    /// All actions cost the same, or there are none.
    fn by_levels(&mut self, grid: &Grid, sizes: &Row, cost: Option<u8>, table: &mut [u32]) {
        self.levels.clear();
        self.levels.resize(grid.places, OPEN);
        self.queue.iter().for_each(|&place| self.levels[usize::from(place)] = 0);
        if cost.is_some() {
            let goals = self.queue.len();
            self.queue.resize(table.len(), 0);
            let queue = Queue::of(&mut self.levels, &mut self.queue, goals);
            self.edges.settle(grid, sizes, queue);
        }
        let rows = self.levels.chunks_exact(1 << grid.shift);
        let rows = table.chunks_exact_mut(grid.width).zip(rows);
        match u32::from(cost.unwrap_or(1)) {
            1 => rows.for_each(|(entries, levels)| tell(entries, levels, |level| level)),
            cost => rows.for_each(|(entries, levels)| tell(entries, levels, |level| level * cost)),
        }
    }

    fn by_costs(&mut self, grid: &Grid, sizes: &Row, table: &mut [u32]) {
        self.costs.clear();
        self.costs.resize(grid.places, INFINITE);
        let weights = std::mem::take(&mut self.edges.weights);
        let (nodes, goals) = (&mut self.nodes, &self.queue);
        let buckets = Buckets::of(&mut self.costs, &weights, nodes, goals, table.len());
        self.edges.settle(grid, sizes, buckets);
        self.edges.weights = weights;
        let rows = self.costs.chunks_exact(1 << grid.shift);
        for (entries, costs) in table.chunks_exact_mut(grid.width).zip(rows) {
            entries.copy_from_slice(&costs[..grid.width]);
        }
    }
}

/// Builds the tables of all patterns; there is room for them.
pub fn build(record: &Record, spaces: &Spaces, tables: &mut [u32]) {
    if spaces.iter().next().is_none() {
        return;
    }
    let names: Vec<Names> = record.actions().map(|action| names(&action)).collect();
    let mut workshop = Workshop::default();
    for space in spaces.iter() {
        let table = &mut tables[space.offset..space.offset + space.states];
        workshop.build(record, &names, space, table);
    }
}
