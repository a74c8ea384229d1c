//! The differential test: another make against the reference, call by call,
//! with everything the lent slices hold afterwards.

pub mod cases;
pub mod costs;
pub mod counts;
pub mod fixed;
pub mod restated;
pub mod spreads;
pub mod sums;
pub mod upgrades;
pub mod verdicts;

use std::collections::BTreeMap;
use std::fmt;

use crate::answer::Answer;
use crate::brute::Brute;
use crate::brute::task::Task;
use crate::demand;
use crate::planner::Planner;
use counts::Counts;
use verdicts::Verdicts;

/// The ten entries.
#[derive(Clone, Copy, Debug, PartialEq, Eq, PartialOrd, Ord)]
pub enum Entry {
    ReadText,
    CheckRecord,
    CheckState,
    BuildTables,
    Spread,
    Additive,
    Value,
    Search,
    CheckPlan,
    UpgradeRecord,
}

/// Cells before and after each lent slice that no call may touch.
pub const GUARD: usize = 32;

/// The slices of a call; those the entry does not take are empty.
#[derive(Clone, Debug, Default, PartialEq, Eq)]
pub struct Slices {
    pub text: Vec<u8>,
    /// A stored record, of the first form.
    pub old: Vec<u8>,
    pub record: Vec<u8>,
    pub state: Vec<u8>,
    pub tables: Vec<u32>,
    pub row: Counts,
    pub plan: Vec<u8>,
}

fn guarded<T: Copy>(cells: &[T], guard: T) -> Vec<T> {
    [&[guard; GUARD], cells, &[guard; GUARD]].concat()
}

/// The cells that were lent, to look at.
fn within<T>(guarded: &[T]) -> &[T] {
    &guarded[GUARD..guarded.len() - GUARD]
}

fn lent<T>(guarded: &mut [T]) -> &mut [T] {
    let end = guarded.len() - GUARD;
    &mut guarded[GUARD..end]
}

impl Slices {
    fn guarded(&self) -> Self {
        Self {
            text: guarded(&self.text, 0xa5),
            old: guarded(&self.old, 0xa5),
            record: guarded(&self.record, 0xa5),
            state: guarded(&self.state, 0xa5),
            tables: guarded(&self.tables, 0xa5a5_a5a5),
            row: self.row.within(0xa5a5_a5a5, GUARD),
            plan: guarded(&self.plan, 0xa5),
        }
    }
}

/// One call with all that it is lent.
#[derive(Clone, Debug, PartialEq, Eq)]
pub struct Call {
    pub entry: Entry,
    /// The pattern whose spread is asked for; 0 for the other entries.
    pub pattern: u64,
    pub slices: Slices,
}

/// What a call answered and left behind, guards included.
#[derive(Clone, Debug, PartialEq, Eq)]
pub struct Made {
    pub answer: Answer,
    pub left: Slices,
}

impl Made {
    /// The lent plan without its guards.
    pub fn lent_plan(&self) -> &[u8] {
        within(&self.left.plan)
    }

    /// The lent tables without their guards.
    pub fn lent_tables(&self) -> &[u32] {
        within(&self.left.tables)
    }

    /// The lent row without its guards.
    pub fn lent_row(&self) -> &[u32] {
        within(&self.left.row)
    }
}

impl Call {
    /// A call of an entry that takes slices alone.
    pub fn of(entry: Entry, slices: Slices) -> Self {
        Self { entry, pattern: 0, slices }
    }

    /// A call for the spread of a pattern.
    pub fn spread(pattern: u64, slices: Slices) -> Self {
        Self { entry: Entry::Spread, pattern, slices }
    }

    /// Makes the call on slices of its own.
    pub fn made(&self, planner: &dyn Planner) -> Made {
        let mut left = self.slices.guarded();
        let text = lent(&mut left.text);
        let old = lent(&mut left.old);
        let record = lent(&mut left.record);
        let state = lent(&mut left.state);
        let tables = lent(&mut left.tables);
        let row = lent(&mut left.row);
        let plan = lent(&mut left.plan);
        let answer = match self.entry {
            Entry::ReadText => planner.read_text(text, record),
            Entry::CheckRecord => planner.check_record(record),
            Entry::CheckState => planner.check_state(record, state),
            Entry::BuildTables => planner.build_tables(record, tables),
            Entry::Spread => planner.spread(record, self.pattern, tables, row),
            Entry::Additive => planner.additive(record),
            Entry::Value => planner.value(record, state, tables),
            Entry::Search => planner.search(record, tables, plan),
            Entry::CheckPlan => planner.check_plan(record, state, plan),
            Entry::UpgradeRecord => planner.upgrade_record(old, record),
        };
        Made { answer, left }
    }

    /// Whether the slices are as they were lent, guards included.
    pub fn untouched(&self, made: &Made) -> bool {
        made.left == self.slices.guarded()
    }
}

/// Cells as numbers, runs of equal ones as `number*times`.
fn runs<T: PartialEq + fmt::Display>(cells: &[T]) -> String {
    let run = |run: &[T]| match run.len() {
        1 => run[0].to_string(),
        times => format!("{}*{times}", run[0]),
    };
    let all: Vec<String> = cells.chunk_by(|a, b| a == b).map(run).collect();
    all.join(" ")
}

impl fmt::Display for Slices {
    fn fmt(&self, out: &mut fmt::Formatter) -> fmt::Result {
        if !self.text.is_empty() {
            writeln!(out, "  text as string: {:?}", String::from_utf8_lossy(&self.text))?;
        }
        writeln!(out, "  text   ({}): {}", self.text.len(), runs(&self.text))?;
        writeln!(out, "  old    ({}): {}", self.old.len(), runs(&self.old))?;
        writeln!(out, "  record ({}): {}", self.record.len(), runs(&self.record))?;
        writeln!(out, "  state  ({}): {}", self.state.len(), runs(&self.state))?;
        writeln!(out, "  tables ({}): {}", self.tables.len(), runs(&self.tables))?;
        writeln!(out, "  row    ({}): {}", self.row.len(), runs(&self.row))?;
        writeln!(out, "  plan   ({}): {}", self.plan.len(), runs(&self.plan))
    }
}

impl fmt::Display for Call {
    fn fmt(&self, out: &mut fmt::Formatter) -> fmt::Result {
        writeln!(out, "  pattern: {}", self.pattern)?;
        self.slices.fmt(out)
    }
}

/// A call that the two makes answer differently, a row that does not fit its
/// tables, or a breach of demand 3.
#[derive(Clone, Debug)]
pub struct Difference {
    /// The case of the seed, or none for the fixed calls.
    pub case: Option<u64>,
    pub told: String,
}

/// The first cell of a slice that the two makes left differently.
fn first_cell<T: PartialEq + fmt::Display>(name: &str, expected: &[T], got: &[T]) -> String {
    let differs = |place: &usize| expected[*place] != got[*place];
    match (0..expected.len()).find(differs) {
        None => String::new(),
        Some(place) => {
            // Guard cells before the slice have negative offsets.
            let offset = place as i64 - GUARD as i64;
            format!("{name}[{offset}]: expected {}, got {}\n", expected[place], got[place])
        }
    }
}

fn difference(call: &Call, expected: &Made, got: &Made) -> String {
    let (left, right) = (&expected.left, &got.left);
    let parts = [
        format!("{:?} differs; it was lent\n{call}", call.entry),
        format!("expected {:?}\n     got {:?}\n", expected.answer, got.answer),
        first_cell("text", &left.text, &right.text),
        first_cell("old", &left.old, &right.old),
        first_cell("record", &left.record, &right.record),
        first_cell("state", &left.state, &right.state),
        first_cell("tables", &left.tables, &right.tables),
        first_cell("row", &left.row, &right.row),
        first_cell("plan", &left.plan, &right.plan),
    ];
    parts.concat()
}

/// How often each entry gave each kind of answer.
#[derive(Clone, Debug, Default, PartialEq, Eq)]
pub struct Tally {
    /// By entry, refusal number and kind.
    pub answers: BTreeMap<(Entry, u64, u64), u64>,
    pub verdicts: Verdicts,
    /// Tasks on which demand 3 was tried, those of them that are additive only
    /// since restated values do not count, their states, and those found.
    pub tasks: u64,
    pub by_the_rule: u64,
    pub states: u64,
    pub found: u64,
}

impl Tally {
    pub fn calls(&self, entry: Entry) -> u64 {
        let of_entry = self.answers.iter().filter(|((one, ..), _)| *one == entry);
        of_entry.map(|(_, &times)| times).sum()
    }
}

impl fmt::Display for Tally {
    fn fmt(&self, out: &mut fmt::Formatter) -> fmt::Result {
        let mut entries: Vec<Entry> = self.answers.keys().map(|key| key.0).collect();
        entries.dedup();
        for entry in entries {
            write!(out, "{entry:?}: {} calls", self.calls(entry))?;
            for ((_, number, kind), times) in self.answers.iter().filter(|(key, _)| key.0 == entry)
            {
                match number {
                    0 => write!(out, ", kind {kind}: {times}")?,
                    _ => write!(out, ", refusal {number}: {times}")?,
                }
            }
            writeln!(out)?;
        }
        let Self { verdicts, tasks, by_the_rule, states, found, .. } = self;
        writeln!(out, "{verdicts}")?;
        writeln!(
            out,
            "demand 3: {tasks} tasks, {by_the_rule} of them by the rule on restated values, \
            {states} states, {found} plans found"
        )
    }
}

/// A comparison under way.
pub struct Run<'a> {
    pub planner: &'a dyn Planner,
    /// Told of every call before it is made, to locate a crash.
    pub watch: &'a dyn Fn(&Call),
    pub tally: Tally,
}

impl<'a> Run<'a> {
    pub fn of(planner: &'a dyn Planner) -> Self {
        let tally = Tally::default();
        Self { planner, watch: &|_| {}, tally }
    }

    fn call(&mut self, call: &Call) -> Result<(), String> {
        (self.watch)(call);
        let expected = call.made(&Brute);
        let got = call.made(self.planner);
        if expected != got {
            return Err(difference(call, &expected, &got));
        }
        sums::check(call, &got).map_err(|told| format!("spread: {told}; it was lent\n{call}"))?;
        let Answer { number, kind, .. } = got.answer;
        let times = self.tally.answers.entry((call.entry, number, kind));
        *times.or_default() += 1;
        self.tally.verdicts.add(call, &got);
        Ok(())
    }

    fn demand(&mut self, task: &Task) -> Result<(), String> {
        let tried = demand::third(self.planner, task);
        let tried = tried.map_err(|breach| format!("demand 3: {breach}\nof {task:?}\n"))?;
        if let Some(tried) = tried {
            self.tally.tasks += 1;
            self.tally.by_the_rule += u64::from(verdicts::additive_by_the_rule(task));
            self.tally.states += tried.states as u64;
            self.tally.found += u64::from(tried.found);
        }
        Ok(())
    }

    /// The calls that do not depend on a seed.
    pub fn fixed(&mut self) -> Result<(), Difference> {
        let mut calls = fixed::PARTS.iter().flat_map(|part| part());
        let outcome = calls.try_for_each(|call| self.call(&call));
        outcome.map_err(|told| Difference { case: None, told })
    }

    /// One case of a seed: its calls, then demand 3 on its small task.
    pub fn case(&mut self, seed: u64, case: u64) -> Result<(), Difference> {
        let mut calls = cases::calls(seed, case).into_iter();
        let outcome = calls.try_for_each(|call| self.call(&call));
        let outcome = outcome.and_then(|()| self.demand(&cases::small_task(seed, case)));
        outcome.map_err(|told| Difference { case: Some(case), told })
    }
}
