//! The reader: splits the text into lines, then takes the due ones in turn.

use std::ops::RangeInclusive;

use super::record::{
    self, LENGTH, MOST_ACTIONS, MOST_BUDGET, MOST_OUTCOMES, MOST_PATTERNS, MOST_VARIABLES,
};
use super::task::{Action, Assignment, Task};
use crate::answer::{Reason, Refusal};

const MOST_DIGITS: usize = 7;

/// A number of the text, or `None` for a fault of form.
fn number(text: &[u8]) -> Option<u32> {
    let digits = (1..=MOST_DIGITS).contains(&text.len()) && text.iter().all(u8::is_ascii_digit);
    let leading_zero = text.len() > 1 && text[0] == b'0';
    if !digits || leading_zero {
        return None;
    }
    std::str::from_utf8(text).ok()?.parse().ok()
}

/// The members of a list; an empty text is the list without members.
fn members(text: &[u8]) -> Vec<&[u8]> {
    if text.is_empty() {
        return Vec::new();
    }
    text.split(|&byte| byte == b',').collect()
}

fn pair(text: &[u8]) -> Option<(u32, u32)> {
    match text.split(|&byte| byte == b':').collect::<Vec<_>>()[..] {
        [variable, value] => Some((number(variable)?, number(value)?)),
        _ => None,
    }
}

fn ascending(variables: &[u32]) -> bool {
    variables.windows(2).all(|two| two[0] < two[1])
}

/// The lines of a text and the number of those already taken.
struct Lines<'a> {
    lines: Vec<&'a [u8]>,
    taken: usize,
}

impl<'a> Lines<'a> {
    fn of(text: &'a [u8]) -> Self {
        let mut lines: Vec<&[u8]> = text.split(|&byte| byte == b'\n').collect();
        // What follows the last line break is a line only if it holds a byte.
        if lines.last().is_some_and(|last| last.is_empty()) {
            lines.pop();
        }
        Self { lines, taken: 0 }
    }

    /// The refusal at the line taken last.
    fn fault(&self, reason: Reason) -> Refusal {
        Refusal::new(reason, self.taken)
    }

    /// What stands behind the due key and `=` on the next line.
    fn value(&mut self, key: &str) -> Result<&'a [u8], Refusal> {
        let line = self.lines.get(self.taken).copied();
        self.taken += 1;
        line.and_then(|line| line.strip_prefix(key.as_bytes()))
            .and_then(|rest| rest.strip_prefix(b"="))
            .ok_or(self.fault(Reason::Key))
    }

    fn number(&mut self, key: &str, range: RangeInclusive<u32>) -> Result<u32, Refusal> {
        let found = number(self.value(key)?).ok_or(self.fault(Reason::Form))?;
        if range.contains(&found) { Ok(found) } else { Err(self.fault(Reason::Range)) }
    }

    /// A number of at most 255, for counts and sizes.
    fn small(&mut self, key: &str, least: u8, most: u8) -> Result<u8, Refusal> {
        let found = self.number(key, least.into()..=most.into())?;
        Ok(u8::try_from(found).expect("the range ends at 255 or before"))
    }

    /// Pairs of variables and values, as in needs, outcomes and the goal.
    fn assignment(&mut self, key: &str, sizes: &[u8]) -> Result<Assignment, Refusal> {
        let pairs: Option<Vec<(u32, u32)>> =
            members(self.value(key)?).into_iter().map(pair).collect();
        let pairs = pairs.ok_or(self.fault(Reason::Form))?;
        let variables: Vec<u32> = pairs.iter().map(|&(variable, _)| variable).collect();
        let mut named = vec![None; sizes.len()];
        for (variable, value) in pairs {
            let variable = variable as usize;
            match sizes.get(variable) {
                Some(&size) if value < size.into() => named[variable] = Some(value as u8),
                _ => return Err(self.fault(Reason::List)),
            }
        }
        if ascending(&variables) { Ok(named) } else { Err(self.fault(Reason::List)) }
    }

    fn start(&mut self, sizes: &[u8]) -> Result<Vec<u8>, Refusal> {
        // Unlike the other lists this one is never empty: splitting an empty
        // value gives one empty number, a fault of form.
        let parts = self.value("start")?.split(|&byte| byte == b',');
        let values: Option<Vec<u32>> = parts.map(number).collect();
        let values = values.ok_or(self.fault(Reason::Form))?;
        let below = |(&value, &size): (&u32, &u8)| value < size.into();
        if values.len() == sizes.len() && values.iter().zip(sizes).all(below) {
            Ok(values.into_iter().map(|value| value as u8).collect())
        } else {
            Err(self.fault(Reason::List))
        }
    }

    fn pattern(&mut self, variables: usize) -> Result<Vec<bool>, Refusal> {
        let numbers: Option<Vec<u32>> =
            members(self.value("pattern")?).into_iter().map(number).collect();
        let numbers = numbers.ok_or(self.fault(Reason::Form))?;
        let below = |&variable: &u32| (variable as usize) < variables;
        if !ascending(&numbers) || !numbers.iter().all(below) {
            return Err(self.fault(Reason::List));
        }
        Ok((0..variables).map(|v| numbers.contains(&(v as u32))).collect())
    }

    /// The cost of a move. The line may be left out, and the move then costs 1:
    /// whatever does not begin with the key is for the next due line to judge.
    fn cost(&mut self) -> Result<u8, Refusal> {
        match self.lines.get(self.taken) {
            Some(line) if line.starts_with(b"cost=") => self.small("cost", 1, u8::MAX),
            _ => Ok(1),
        }
    }

    fn action(&mut self, sizes: &[u8]) -> Result<Action, Refusal> {
        let precondition = self.assignment("need", sizes)?;
        let cost = self.cost()?;
        let outcomes = self.small("outcomes", 1, MOST_OUTCOMES)?;
        let outcomes = (0..outcomes).map(|_| self.assignment("eff", sizes));
        Ok(Action { outcomes: outcomes.collect::<Result<_, _>>()?, precondition, cost })
    }

    fn task(&mut self) -> Result<Task, Refusal> {
        let variables = self.small("vars", 1, MOST_VARIABLES)?;
        let sizes = (0..variables).map(|_| self.small("size", 2, 16));
        let sizes: Vec<u8> = sizes.collect::<Result<_, _>>()?;
        let actions = self.small("moves", 0, MOST_ACTIONS)?;
        let actions = (0..actions).map(|_| self.action(&sizes));
        let actions = actions.collect::<Result<_, _>>()?;
        let goal = self.assignment("goal", &sizes)?;
        let start = self.start(&sizes)?;
        let patterns = self.small("patterns", 0, MOST_PATTERNS)?;
        let patterns = (0..patterns).map(|_| self.pattern(sizes.len()));
        let patterns = patterns.collect::<Result<_, _>>()?;
        let limit = self.small("limit", 0, u8::MAX)?;
        let budget = self.number("budget", 0..=MOST_BUDGET)?;
        Ok(Task { sizes, actions, goal, start, patterns, limit, budget })
    }
}

/// The task a text describes, or refusals 1 to 4.
pub fn parse(text: &[u8]) -> Result<Task, Refusal> {
    let mut lines = Lines::of(text);
    let task = lines.task()?;
    if lines.taken < lines.lines.len() {
        return Err(Refusal::new(Reason::Key, lines.taken + 1));
    }
    Ok(task)
}

/// The entry: refusal 5 first, then the text; writes the record's bytes only.
pub fn read_text(text: &[u8], record: &mut [u8]) -> Result<(), Refusal> {
    if record.len() < LENGTH {
        return Err(Refusal::new(Reason::ShortRecord, record.len()));
    }
    let task = parse(text)?;
    record[..LENGTH].copy_from_slice(&record::encode(&task));
    Ok(())
}
