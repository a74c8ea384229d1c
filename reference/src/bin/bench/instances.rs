//! What is measured: tasks built by code, the random ones from a seed.

use reference::brute::reader;
use reference::brute::record;
use reference::brute::task::{Action, Assignment, Task};
use reference::brute::upgrade::{FIRST_LENGTH, FIRST_MOST_LIMIT};
use reference::generate::{Random, tasks, text};
use reference::sample;

use crate::operations::Operation::{self, *};

pub struct Instance {
    pub name: String,
    pub task: Task,
    pub operations: Vec<Operation>,
}

impl Instance {
    fn of(name: impl Into<String>, task: Task, operations: &[Operation]) -> Self {
        Self { name: name.into(), task, operations: operations.to_vec() }
    }

    pub fn text(&self) -> Vec<u8> {
        text::text(&self.task, true)
    }

    pub fn record(&self) -> Vec<u8> {
        record::encode(&self.task)
    }

    /// The record in its first form, with a limit that was good then.
    pub fn stored(&self) -> Vec<u8> {
        let mut stored = self.record();
        stored.truncate(FIRST_LENGTH);
        stored[3] = stored[3].min(FIRST_MOST_LIMIT);
        stored
    }
}

const ALL: [Operation; 8] =
    [ReadText, CheckRecord, BuildTables, Spread, Additive, Value, Search, CheckPlan];
const TABLES: [Operation; 5] = [ReadText, CheckRecord, BuildTables, Spread, Value];
const SEARCHES: [Operation; 3] = [BuildTables, Value, Search];
const RESTATED: [Operation; 4] = [BuildTables, Additive, Value, Search];

/// Values for some variables, the others unnamed.
fn names(variables: usize, named: &[(usize, u8)]) -> Assignment {
    let mut names = vec![None; variables];
    for &(v, value) in named {
        names[v] = Some(value);
    }
    names
}

type Named<'a> = &'a [(usize, u8)];

fn action(variables: usize, needed: Named, outcomes: &[Named]) -> Action {
    Action {
        precondition: names(variables, needed),
        outcomes: outcomes.iter().map(|outcome| names(variables, outcome)).collect(),
        cost: 1,
    }
}

fn pattern(variables: usize, members: &[usize]) -> Vec<bool> {
    (0..variables).map(|v| members.contains(&v)).collect()
}

/// Variables in groups of a size, one pattern for each.
fn groups(variables: usize, size: usize) -> Vec<Vec<bool>> {
    let all: Vec<usize> = (0..variables).collect();
    all.chunks(size).map(|members| pattern(variables, members)).collect()
}

/// Coins that stand (0), show heads (1) or tails (2): a standing coin is
/// flipped, a lying one turned; all are to show heads. Two to a pattern.
pub fn coins(number: usize) -> Task {
    let coin = |c: usize| {
        [
            action(number, &[(c, 0)], &[&[(c, 2)], &[(c, 1)]]),
            action(number, &[(c, 2)], &[&[(c, 1)]]),
            action(number, &[(c, 1)], &[&[(c, 2)]]),
        ]
    };
    Task {
        sizes: vec![3; number],
        actions: (0..number).flat_map(coin).collect(),
        goal: vec![Some(1); number],
        start: vec![0; number],
        patterns: groups(number, 2),
        limit: 32,
        budget: 1_000_000,
    }
}

/// A chain of rooms: variable 0 is the room, then for each door dark (0),
/// closed (1) or open (2), then for each room whether it was visited. Light
/// shows the door of a room open or closed; a pattern has the place and, if
/// told so, the doors, else the visits.
pub fn rooms(number: usize, with_doors: bool) -> Task {
    let doors = number - 1;
    let variables = 1 + doors + number;
    let visited = |room: usize| 1 + doors + room;
    let room = |r: usize| {
        let (door, here, next) = (1 + r, r as u8, r as u8 + 1);
        [
            action(variables, &[(0, here), (door, 0)], &[&[(door, 2)], &[(door, 1)]]),
            action(variables, &[(0, here), (door, 1)], &[&[(door, 2)]]),
            action(variables, &[(0, here), (door, 2)], &[&[(0, next), (visited(r + 1), 1)]]),
            action(variables, &[(0, next), (door, 2)], &[&[(0, here), (visited(r), 1)]]),
        ]
    };
    let mut goal: Vec<(usize, u8)> = (0..number).map(|room| (visited(room), 1)).collect();
    goal.extend(with_doors.then_some((0, doors as u8)));
    let joins = |&v: &usize| v == 0 || (v <= doors) == with_doors;
    let members: Vec<usize> = (0..variables).filter(joins).collect();
    let mut start = vec![0; variables];
    start[visited(0)] = 1;
    let size = |v: usize| {
        if v == 0 {
            number as u8
        } else if v <= doors {
            3
        } else {
            2
        }
    };
    Task {
        sizes: (0..variables).map(size).collect(),
        actions: (0..doors).flat_map(room).collect(),
        goal: names(variables, &goal),
        start,
        patterns: vec![pattern(variables, &members)],
        limit: 32,
        budget: 1_000_000,
    }
}

/// A tower with several pallets (store, lift, bay, edge), a door and one lift
/// that carries a pallet at a time; one pattern for each of as many variables
/// as told, the pallets first and then the door.
pub fn tower(pallets: usize, patterns: usize) -> Task {
    let (door, lift, variables) = (pallets, pallets + 1, pallets + 2);
    let pallet = |p: usize| {
        let (bay, edge) = ([(p, 2), (lift, 0)], [(p, 3), (lift, 0)]);
        [
            action(variables, &[(p, 0), (lift, 0)], &[&[(p, 1), (lift, 1)]]),
            action(variables, &[(p, 1), (door, 1)], &[&bay, &edge]),
            action(variables, &[(p, 3)], &[&[(p, 2)]]),
        ]
    };
    let mut actions: Vec<Action> = (0..pallets).flat_map(pallet).collect();
    actions.push(action(variables, &[(door, 0)], &[&[(door, 1)]]));
    let mut goal: Vec<(usize, u8)> = (0..pallets).map(|p| (p, 2)).collect();
    goal.push((door, 1));
    Task {
        sizes: (0..variables).map(|v| if v < pallets { 4 } else { 2 }).collect(),
        actions,
        goal: names(variables, &goal),
        start: vec![0; variables],
        patterns: (0..patterns).map(|v| pattern(variables, &[v])).collect(),
        limit: 32,
        budget: 1_000_000,
    }
}

/// Rings of four values, all to be turned from 0 to 3: every action turns one
/// of them a step on from one value, provided a ring of another pattern has
/// some value; those beyond the first 32 may turn it two steps. A pattern for
/// every two rings, or none at all.
pub fn rings(seed: u64, actions: usize, with_patterns: bool, budget: u32) -> Task {
    const RINGS: usize = 8;
    let mut random = Random::new(seed);
    let mut turn = |number: usize| {
        let (ring, from) = (number % RINGS, (number / RINGS % 4) as u8);
        let other = (ring / 2 * 2 + 2 + random.below(RINGS - 2)) % RINGS;
        let needed = [(ring, from), (other, random.below(4) as u8)];
        let (once, twice) = ([(ring, (from + 1) % 4)], [(ring, (from + 2) % 4)]);
        let outcomes: [Named; 2] = [&once, &twice];
        action(RINGS, &needed, &outcomes[..if number < 32 { 1 } else { 2 }])
    };
    Task {
        sizes: vec![4; RINGS],
        actions: (0..actions).map(&mut turn).collect(),
        goal: vec![Some(3); RINGS],
        start: vec![0; RINGS],
        patterns: if with_patterns { groups(RINGS, 2) } else { Vec::new() },
        limit: 32,
        budget,
    }
}

/// Random actions of one or two outcomes over ten variables, with as many
/// needs as told, and a goal that none of them reaches.
pub fn wandering(seed: u64, actions: usize, needs: usize) -> Task {
    const VARIABLES: usize = 10;
    let mut random = Random::new(seed);
    let mut wander = |_| {
        let needed: Vec<(usize, u8)> =
            (0..needs).map(|n| ((n * 5 + random.below(5)) % 10, random.below(3) as u8)).collect();
        let mut outcome = || vec![(random.below(VARIABLES - 1), random.below(3) as u8)];
        let outcomes = [outcome(), outcome()];
        let number = random.within(1..=2);
        let outcomes: Vec<Named> = outcomes[..number].iter().map(Vec::as_slice).collect();
        action(VARIABLES, &needed, &outcomes)
    };
    Task {
        sizes: vec![4; VARIABLES],
        actions: (0..actions).map(&mut wander).collect(),
        goal: names(VARIABLES, &[(VARIABLES - 1, 3)]),
        start: vec![0; VARIABLES],
        patterns: Vec::new(),
        limit: 32,
        budget: 1_000_000,
    }
}

/// Sixteen dials of four values: the pattern's are to be turned to 3, and as
/// many others as told. An action turns one of the pattern a step on, where a
/// dial outside has some value; either outcome sets up to eight dials outside
/// anew, so that few states are met twice.
pub fn scattering(seed: u64, members: usize, others: usize, limit: u8) -> Task {
    const DIALS: usize = 16;
    let mut random = Random::new(seed);
    let mut outside = || {
        let value = random.below(4) as u8;
        (members + random.below(DIALS - members), value)
    };
    let mut turn = |number: usize| {
        let (dial, from) = (number % members, (number / members % 4) as u8);
        let needed = [(dial, from), outside()];
        let mut outcome = || {
            let mut named: Vec<(usize, u8)> = (0..8).map(|_| outside()).collect();
            named.extend((from < 3).then_some((dial, from + 1)));
            named
        };
        action(DIALS, &needed, &[&outcome(), &outcome()])
    };
    let start = |dial: usize| if members == 3 || dial >= members { 0 } else { 1 + dial as u8 % 2 };
    Task {
        sizes: vec![4; DIALS],
        actions: (0..62).map(&mut turn).collect(),
        goal: (0..DIALS).map(|dial| (dial < members + others).then_some(3)).collect(),
        start: (0..DIALS).map(start).collect(),
        patterns: vec![(0..DIALS).map(|dial| dial < members).collect()],
        limit,
        budget: 1_000_000,
    }
}

/// Dials of eight values, four to a pattern, all to be turned from 5 to 7: an
/// action turns one of them a step on, or two, where one of the other pattern
/// has some value.
pub fn dials(seed: u64) -> Task {
    const DIALS: usize = 8;
    let mut random = Random::new(seed);
    let mut turn = |number: usize| {
        let (dial, from) = (number % DIALS, (number / DIALS) as u8);
        let other = (dial / 4 * 4 + 4 + random.below(4)) % DIALS;
        let needed = [(dial, from), (other, random.within(5..=7) as u8)];
        let (once, twice) = ([(dial, from + 1)], [(dial, (from + 2).min(7))]);
        action(DIALS, &needed, &[&once, &twice])
    };
    Task {
        sizes: vec![8; DIALS],
        actions: (0..DIALS * 7).map(&mut turn).collect(),
        goal: vec![Some(7); DIALS],
        start: vec![5; DIALS],
        patterns: groups(DIALS, 4),
        limit: 32,
        budget: 100_000,
    }
}

/// The task with outcomes that write down all that their need demands and they
/// leave as it is. It is additive as it was, by the rule on restated values
/// alone, with the same tables and the same search.
pub fn restated(mut task: Task) -> Task {
    for Action { precondition, outcomes, .. } in &mut task.actions {
        for outcome in outcomes {
            for (name, &need) in outcome.iter_mut().zip(precondition.iter()) {
                *name = name.or(need);
            }
        }
    }
    task
}

/// A binary counter in one pattern: its table is as deep as it is long.
pub fn counter(variables: usize) -> Task {
    tasks::counter(&mut Random::new(1), variables)
}

/// The states of a reflected Gray code, each with its two neighbours: variable
/// 0 turns at any time, another one if the one below is 1 and those under that
/// are 0.
pub fn gray(variables: usize) -> Task {
    let turn = |(v, from): (usize, u8)| {
        let mut needed = vec![(v, from)];
        needed.extend((0..v).map(|w| (w, u8::from(w + 1 == v))));
        action(variables, &needed, &[&[(v, 1 - from)]])
    };
    let turns = (0..variables).flat_map(|v| [(v, 0), (v, 1)]);
    Task {
        sizes: vec![2; variables],
        actions: turns.map(turn).collect(),
        goal: vec![Some(0); variables],
        start: vec![1; variables],
        patterns: vec![vec![true; variables]],
        limit: 32,
        budget: 1_000,
    }
}

/// Patterns of 4,096 states each: all of three variables of size 16, or of
/// twelve of size 2. An action sets a variable or two of a pattern, every
/// second one only where another variable has some value.
pub fn large(seed: u64, size: u8, patterns: usize, actions: usize) -> Task {
    let mut random = Random::new(seed);
    let members = if size == 16 { 3 } else { 12 };
    let member = |p: usize, m: usize| (2 * p + m % members) % 16;
    let mut act = |number: usize| {
        let (p, m) = (number % patterns, number / patterns);
        let mut value = || random.below(2) as u8;
        let needed = [(member(p, m + 2), value())];
        let first = [(member(p, m), value()), (member(p, m + 1), value())];
        let second = [(member(p, m), value())];
        let outcomes: [Named; 2] = [&first[..1 + m % 2], &second];
        action(16, &needed[..number % 2], &outcomes[..1 + random.below(2)])
    };
    let actions = (0..actions).map(&mut act).collect();
    let members_of = |p: usize| (0..members).map(|m| member(p, m)).collect::<Vec<_>>();
    Task {
        sizes: vec![size; 16],
        actions,
        goal: names(16, &[(0, 1), (3, 0), (7, 1), (12, 0)]),
        start: vec![0; 16],
        patterns: (0..patterns).map(|p| pattern(16, &members_of(p))).collect(),
        limit: 32,
        budget: 1_000,
    }
}

/// The task with a goal of these values alone: patterns of which it names few
/// variables have many goals, and those of which it names none nothing else.
fn with_goal(task: Task, goal: Named) -> Task {
    Task { goal: names(task.sizes.len(), goal), ..task }
}

/// One pattern of twelve variables of size 2 and 64 actions of eight outcomes,
/// each of which sets four variables that it does not need: as many edges as
/// there can be, and at each more free variables than two.
pub fn broad(seed: u64) -> Task {
    const DIALS: usize = 12;
    let mut random = Random::new(seed);
    let mut outcome = || {
        let set = |_| (random.below(DIALS - 1) + 1, random.below(2) as u8);
        names(DIALS, &(0..4).map(set).collect::<Vec<_>>())
    };
    let mut act = |number: usize| Action {
        precondition: names(DIALS, &[(0, (number % 2) as u8)]),
        outcomes: (0..8).map(|_| outcome()).collect(),
        cost: 1,
    };
    Task {
        sizes: vec![2; DIALS],
        actions: (0..64).map(&mut act).collect(),
        goal: names(DIALS, &[(1, 1), (2, 1)]),
        start: vec![0; DIALS],
        patterns: vec![vec![true; DIALS]],
        limit: 32,
        budget: 1_000,
    }
}

/// The task of the largest text, 53,301 bytes.
pub fn largest() -> Task {
    let all = vec![Some(15); 16];
    let action = Action { precondition: all.clone(), outcomes: vec![all.clone(); 8], cost: 1 };
    Task {
        sizes: vec![16; 16],
        actions: vec![action; 64],
        goal: all,
        start: vec![15; 16],
        patterns: vec![vec![true; 16]; 8],
        limit: 32,
        budget: 1_000_000,
    }
}

/// The task with the cost of each action as told by its number, and the highest
/// limit.
fn costly(mut task: Task, cost: impl FnMut(usize) -> u8) -> Task {
    let costs: Vec<u8> = (0..task.actions.len()).map(cost).collect();
    task.actions.iter_mut().zip(costs).for_each(|(action, cost)| action.cost = cost);
    task.limit = u8::MAX;
    task
}

/// The task with random costs from 1 up to the most.
fn random_costs(seed: u64, task: Task, most: usize) -> Task {
    let mut random = Random::new(seed);
    costly(task, |_| random.within(1..=most) as u8)
}

/// A binary counter that may also jump: bit k by itself from 0 to 1, for k from
/// 1 to 7. A step costs 1, and a jump nearly twice the steps that it spares, so
/// that the cheapest way from a state is the longest there is: who settles
/// states in another order than that of their costs lowers them over and over.
fn jumping_counter(variables: usize) -> Task {
    const JUMPS: usize = 7;
    let mut task = counter(variables);
    task.actions.extend((1..=JUMPS).map(|k| Action {
        cost: (2_usize.pow(k as u32 + 1) - 1) as u8,
        ..action(variables, &[(k, 0)], &[&[(k, 1)]])
    }));
    task.limit = u8::MAX;
    task
}

/// A task with costs whose table is built, as it is and with each action at the
/// same cost.
pub struct Twins {
    pub name: &'static str,
    pub weighted: Task,
}

impl Twins {
    /// What the weighted task is held against.
    pub fn equal(&self) -> Task {
        costly(self.weighted.clone(), |_| 1)
    }
}

/// The tables that tell how well an order by cost is kept.
pub fn weighted_tables(seed: u64) -> Vec<Twins> {
    let random = |task| random_costs(seed, task, 255);
    let twins = |name, weighted| Twins { name, weighted };
    // From 1 for the variable that turns most often to 255 for the last.
    let by_variable = |action: usize| (1 + 254 * (action / 2) / 10) as u8;
    vec![
        twins("counter, 12 variables, costs 255", costly(counter(12), |_| 255)),
        twins("Gray code, 11 variables, costs by variable", costly(gray(11), by_variable)),
        twins("counter with jumps, 12 variables", jumping_counter(12)),
        twins("table of 2^12, 64 actions, costs", random(large(seed, 2, 1, 64))),
        twins("8 tables of 2^12, 64 actions, costs", random(large(seed, 2, 8, 64))),
        twins("table of 2^12, 512 edges, costs", random(broad(seed))),
        twins("dials, 2 tables of 4,096, costs to 255", random(dials(seed))),
        twins("rooms, 6, place and doors, costs", random(rooms(6, true))),
    ]
}

/// Tasks with costs. Where there is one of the same name without, the row differs
/// by them.
fn costs(seed: u64) -> Vec<Instance> {
    let few = |task, most| random_costs(seed, task, most);
    let three_digits = |task| costly(task, |action| 100 + (action * 31 % 156) as u8);
    let search = |name: &str, task| Instance::of(name, task, &SEARCHES);
    let read = |name: &str, task| Instance::of(name, task, &[ReadText, CheckRecord]);
    let stored = |name: &str, task| Instance::of(name, task, &[UpgradeRecord]);
    let mut all = vec![
        stored("sample, stored", sample_task()),
        stored("largest text, stored", largest()),
        Instance::of("coins, 10, costs to 9", few(coins(10), 9), &ALL),
        Instance::of("rooms, 5, place and visits, costs to 4", few(rooms(5, false), 4), &ALL),
        Instance::of("tower, 7 pallets, costs to 4", few(tower(7, 8), 4), &ALL),
        read("tower, 7 pallets, costs from 100", three_digits(tower(7, 8))),
        read("rings, 48 actions, costs from 100", three_digits(rings(seed + 5, 48, true, 1_000))),
        read("largest text, costs from 100", three_digits(largest())),
        search("dials, 2 tables of 4,096, costs to 3", few(dials(seed), 3)),
        search("rings, 48 actions, costs to 3", few(rings(seed + 5, 48, true, 1_000_000), 3)),
        search("rings, 48 actions, costs to 20", few(rings(seed + 5, 48, true, 1_000_000), 20)),
        search(
            "rings, 48 actions, no patterns, costs to 3",
            few(rings(seed + 5, 48, false, 1_000_000), 3),
        ),
        search("wandering, 64 actions, costs to 9", few(wandering(seed + 2, 64, 1), 9)),
        search("tower, 5 of 7 pallets in patterns, costs to 4", few(tower(7, 5), 4)),
        search("scattering, 4,096 states, costs to 3", few(scattering(32, 6, 0, 255), 3)),
    ];
    // With equal costs the build of these ends when the states next to the goals
    // are settled, for those are all of them; so they tell nothing of the order.
    let wide = random_costs(seed, large(seed, 16, 8, 64), 255);
    all.push(Instance::of("8 tables of 16^3, 64 actions, costs", wide, &[BuildTables]));
    let built = weighted_tables(seed).into_iter();
    all.extend(built.map(|twins| Instance::of(twins.name, twins.weighted, &[BuildTables])));
    all
}

/// The sample without patterns: a spread clears the row and does no more.
fn no_tables() -> Task {
    Task { patterns: Vec::new(), ..sample_task() }
}

fn sample_task() -> Task {
    reader::parse(sample::sample().as_bytes()).expect("the sample is sound")
}

/// Tasks restated, each beside itself as it was: the rows differ by what the
/// rule costs.
fn restating(seed: u64) -> Vec<Instance> {
    let row = |name: &str, task| Instance::of(name, task, &RESTATED);
    let turning = rings(seed + 5, 48, true, 1_000_000);
    vec![
        row("dials, 2 tables of 4,096", dials(seed)),
        row("dials, 2 tables of 4,096, restated", restated(dials(seed))),
        row("tower, 7 pallets, restated", restated(tower(7, 8))),
        row("rings, 48 actions", turning.clone()),
        row("rings, 48 actions, restated", restated(turning)),
    ]
}

fn heavy(seed: u64) -> Vec<Instance> {
    let search = |name: &str, task| Instance::of(name, task, &SEARCHES);
    vec![
        search("wandering, 16 actions", wandering(seed, 16, 1)),
        search("wandering, 32 actions", wandering(seed + 1, 32, 1)),
        search("wandering, 64 actions", wandering(seed + 2, 64, 1)),
        search("wandering, 64 actions, 2 needs", wandering(seed + 3, 64, 2)),
        search("rings, 48 actions, 100,000", rings(seed + 5, 48, true, 100_000)),
        search("rings, 40 actions", rings(seed + 4, 40, true, 1_000_000)),
        search("rings, 64 actions", rings(seed + 6, 64, true, 1_000_000)),
        search("rings, 48 actions, no patterns", rings(seed + 5, 48, false, 1_000_000)),
        search("tower, 5 of 7 pallets in patterns", tower(7, 5)),
        search("scattering, 64 states, found", scattering(28, 3, 1, 32)),
        search("scattering, 64 states, over", scattering(87, 3, 1, 10)),
        search("scattering, 4,096 states, found", scattering(32, 6, 0, 32)),
        search("scattering, 4,096 states, over", scattering(100, 6, 1, 11)),
    ]
}

/// All instances of a seed.
pub fn instances(seed: u64) -> Vec<Instance> {
    let mut all = vec![
        Instance::of("sample", sample_task(), &ALL),
        Instance::of("table of 8 states", counter(3), &TABLES),
        Instance::of("coins, 6", coins(6), &ALL),
        Instance::of("coins, 10", coins(10), &ALL),
        Instance::of("coins, 14", coins(14), &ALL),
        Instance::of("rooms, 6, place and doors", rooms(6, true), &ALL),
        Instance::of("rooms, 5, place and visits", rooms(5, false), &ALL),
        Instance::of("rooms, 7, place and visits", rooms(7, false), &SEARCHES),
        Instance::of("tower, 3 pallets", tower(3, 4), &ALL),
        Instance::of("tower, 7 pallets", tower(7, 8), &ALL),
        Instance::of("counter, 6 variables", counter(6), &[BuildTables]),
        Instance::of("Gray code, 6 variables", gray(6), &[BuildTables]),
        Instance::of("counter, 12 variables", counter(12), &TABLES),
        Instance::of("Gray code, 11 variables", gray(11), &TABLES),
        Instance::of("8 tables of 16^3, 64 actions", large(seed, 16, 8, 64), &TABLES[..4]),
        Instance::of("8 tables of 2^12, 64 actions", large(seed, 2, 8, 64), &TABLES[..4]),
        Instance::of(
            "8 tables of 2^12, 64 actions, all goals",
            with_goal(large(seed, 2, 8, 64), &[]),
            &[BuildTables],
        ),
        // Half of the states of six tables, and all of two.
        Instance::of(
            "8 tables of 2^12, no actions, many goals",
            with_goal(large(seed, 2, 8, 0), &[(7, 1)]),
            &[BuildTables],
        ),
        Instance::of("table of 2^12, 512 edges", broad(seed), &[BuildTables]),
        Instance::of("table of 16^3, no actions", large(seed, 16, 1, 0), &[BuildTables, Spread]),
        Instance::of("no tables", no_tables(), &[BuildTables, Spread]),
        Instance::of("largest text", largest(), &[ReadText, CheckRecord]),
    ];
    all.extend(restating(seed));
    all.extend(heavy(seed));
    all.extend(costs(seed));
    let mut random = Random::new(seed);
    let sparse = |number| {
        let task = tasks::task(&mut random, &tasks::LARGE);
        Instance::of(format!("random, number {number}"), task, &TABLES[..3])
    };
    all.extend((1..=4).map(sparse));
    all
}
