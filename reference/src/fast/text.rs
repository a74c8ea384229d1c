//! The reader. Each line is read once, on the assumption that it is good; the
//! first one that is not is read again slowly, to tell what is wrong with it.

use super::layout::*;
use crate::answer::{Reason, Refusal};

const MOST_DIGITS: usize = 7;

/// What a line may hold behind its key.
#[derive(Clone, Copy)]
enum Kind {
    Number,
    Pairs,
    Variables,
    Values,
}

/// The text, how far it was read, and the number of the line being read.
struct Lines<'a> {
    text: &'a [u8],
    at: usize,
    line: usize,
}

/// Eight bytes from a place on, with line breaks behind the text.
fn window(text: &[u8], at: usize) -> [u8; 8] {
    match text.get(at..at + 8) {
        Some(bytes) => bytes.try_into().expect("eight bytes"),
        None => last_window(text, at),
    }
}

#[cold]
fn last_window(text: &[u8], at: usize) -> [u8; 8] {
    std::array::from_fn(|i| text.get(at + i).copied().unwrap_or(b'\n'))
}

/// A number of one or two digits and the byte behind it, with its length.
/// Longer numbers are in no list; the byte behind gives them away.
#[inline(always)]
fn short_number(window: [u8; 8], from: usize) -> Option<(u8, u8, usize)> {
    let first = window[from].wrapping_sub(b'0');
    let second = window[from + 1].wrapping_sub(b'0');
    if first > 9 {
        None
    } else if second > 9 {
        Some((first, window[from + 1], from + 1))
    } else if first == 0 {
        None
    } else {
        Some((10 * first + second, window[from + 2], from + 2))
    }
}

impl Lines<'_> {
    /// Behind the key of the next line, or `None` if it has another.
    #[inline(always)]
    fn behind(&mut self, key: &[u8]) -> Option<usize> {
        self.line += 1;
        let rest = self.text.get(self.at..)?;
        rest.starts_with(key).then_some(self.at + key.len())
    }

    #[inline(always)]
    fn number(&mut self, key: &[u8], least: u32, most: u32) -> Result<u32, Refusal> {
        self.good_number(key, least, most).ok_or_else(|| self.fault(key, Kind::Number))
    }

    #[inline(always)]
    fn good_number(&mut self, key: &[u8], least: u32, most: u32) -> Option<u32> {
        let at = self.behind(key)?;
        let window = window(self.text, at);
        let mut number = 0;
        for (length, &byte) in window.iter().enumerate() {
            let digit = byte.wrapping_sub(b'0');
            if digit > 9 {
                let good = byte == b'\n'
                    && length > 0
                    && (length == 1 || window[0] != b'0')
                    && least <= number
                    && number <= most;
                return good.then(|| {
                    self.at = at + length + 1;
                    number
                });
            }
            number = 10 * number + u32::from(digit);
        }
        None
    }

    /// The cost of an action, 1 where the line is left out.
    #[inline(always)]
    fn cost(&mut self) -> Result<u8, Refusal> {
        const KEY: &[u8] = b"cost=";
        match self.text.get(self.at..) {
            Some(rest) if rest.starts_with(KEY) => Ok(self.number(KEY, 1, 255)? as u8),
            _ => Ok(1),
        }
    }

    /// Pairs of ascending variables and values below their sizes; sizes are 0
    /// beyond the variables.
    #[inline(always)]
    fn pairs(&mut self, key: &[u8], sizes: &Row, row: &mut Row) -> Result<(), Refusal> {
        self.good_pairs(key, sizes, row).ok_or_else(|| self.fault(key, Kind::Pairs))
    }

    #[inline(always)]
    fn good_pairs(&mut self, key: &[u8], sizes: &Row, row: &mut Row) -> Option<()> {
        let mut at = self.behind(key)?;
        if self.text.get(at).is_none_or(|&byte| byte == b'\n') {
            self.at = at + 1;
            return Some(());
        }
        let mut least = 0;
        loop {
            let window = window(self.text, at);
            let (variable, colon, behind) = match short_number(window, 0) {
                Some(read) if read.1 == b':' => read,
                _ => return None,
            };
            let (value, end, behind) = match colon {
                _ if behind == 1 => short_number(window, 2)?,
                _ => short_number(window, 3)?,
            };
            let v = usize::from(variable);
            if v < least || v >= 16 || value >= sizes[v] {
                return None;
            }
            row[v] = value;
            least = v + 1;
            at += behind + 1;
            match end {
                b',' => {}
                b'\n' => {
                    self.at = at;
                    return Some(());
                }
                _ => return None,
            }
        }
    }

    /// As many values as there are variables.
    fn values(&mut self, sizes: &[u8], row: &mut Row) -> Result<(), Refusal> {
        self.good_values(sizes, row).ok_or_else(|| self.fault(b"start=", Kind::Values))
    }

    fn good_values(&mut self, sizes: &[u8], row: &mut Row) -> Option<()> {
        let mut at = self.behind(b"start=")?;
        for (v, &size) in sizes.iter().enumerate() {
            let (value, end, length) = short_number(window(self.text, at), 0)?;
            let due = if v + 1 == sizes.len() { b'\n' } else { b',' };
            if value >= size || end != due {
                return None;
            }
            row[v] = value;
            at += length + 1;
        }
        self.at = at;
        Some(())
    }

    fn members(&mut self, variables: usize, row: &mut Row) -> Result<(), Refusal> {
        self.good_members(variables, row).ok_or_else(|| self.fault(b"pattern=", Kind::Variables))
    }

    fn good_members(&mut self, variables: usize, row: &mut Row) -> Option<()> {
        let mut at = self.behind(b"pattern=")?;
        if window(self.text, at)[0] == b'\n' {
            self.at = at + 1;
            return Some(());
        }
        let mut least = 0;
        loop {
            let (variable, end, length) = short_number(window(self.text, at), 0)?;
            let v = usize::from(variable);
            if v < least || v >= variables {
                return None;
            }
            row[v] = 1;
            least = v + 1;
            at += length + 1;
            match end {
                b',' => {}
                b'\n' => {
                    self.at = at;
                    return Some(());
                }
                _ => return None,
            }
        }
    }

    /// What is wrong with the line last begun, which is not good.
    #[cold]
    #[inline(never)]
    fn fault(&self, key: &[u8], kind: Kind) -> Refusal {
        let refused = |reason| Refusal::new(reason, self.line);
        let line = match self.text.get(self.at..) {
            Some(rest) => rest.split(|&byte| byte == b'\n').next().unwrap_or_default(),
            None => &[],
        };
        let Some(value) = line.strip_prefix(key) else {
            return refused(Reason::Key);
        };
        let mut parts = value.split(|&byte| byte == b',');
        let listed = matches!(kind, Kind::Pairs | Kind::Variables) && value.is_empty();
        let formed = match kind {
            Kind::Number => is_number(value),
            Kind::Pairs => listed || parts.all(is_pair),
            Kind::Variables | Kind::Values => listed || parts.all(is_number),
        };
        match kind {
            _ if !formed => refused(Reason::Form),
            Kind::Number => refused(Reason::Range),
            _ => refused(Reason::List),
        }
    }
}

fn is_number(text: &[u8]) -> bool {
    let no_leading_zero = text.len() == 1 || text.first() != Some(&b'0');
    let length = (1..=MOST_DIGITS).contains(&text.len());
    length && no_leading_zero && text.iter().all(u8::is_ascii_digit)
}

fn is_pair(text: &[u8]) -> bool {
    let colon = text.iter().position(|&byte| byte == b':');
    colon.is_some_and(|at| is_number(&text[..at]) && is_number(&text[at + 1..]))
}

fn row<const AT: usize>(cells: &mut [u8; LENGTH]) -> &mut Row {
    cells[AT..].first_chunk_mut().expect("a row lies within the record")
}

/// Fills a blank record line by line.
fn fill(text: &[u8], cells: &mut [u8; LENGTH]) -> Result<(), Refusal> {
    let mut lines = Lines { text, at: 0, line: 0 };
    let variables = lines.number(b"vars=", 1, MOST_VARIABLES.into())? as usize;
    cells[VARIABLES] = variables as u8;
    let mut sizes = [0; 16];
    for size in &mut sizes[..variables] {
        *size = lines.number(b"size=", 2, 16)? as u8;
    }
    *row::<SIZES>(cells) = sizes;
    let actions = lines.number(b"moves=", 0, MOST_ACTIONS.into())? as usize;
    cells[ACTIONS] = actions as u8;
    let (moves, costs) = cells[MOVES..].split_at_mut(COSTS - MOVES);
    let (moves, _) = moves.as_chunks_mut::<MOVE>();
    for ([count, cells @ ..], cost) in moves[..actions].iter_mut().zip(costs) {
        let (rows, _) = cells.as_chunks_mut::<16>();
        lines.pairs(b"need=", &sizes, &mut rows[0])?;
        *cost = lines.cost()?;
        *count = lines.number(b"outcomes=", 1, MOST_OUTCOMES.into())? as u8;
        for outcome in &mut rows[1..1 + usize::from(*count)] {
            lines.pairs(b"eff=", &sizes, outcome)?;
        }
    }
    lines.pairs(b"goal=", &sizes, row::<GOAL>(cells))?;
    lines.values(&sizes[..variables], row::<START>(cells))?;
    let patterns = lines.number(b"patterns=", 0, MOST_PATTERNS.into())? as usize;
    cells[PATTERNS] = patterns as u8;
    let (rows, _) = cells[MEMBERS..MOVES].as_chunks_mut();
    for members in &mut rows[..patterns] {
        lines.members(variables, members)?;
    }
    cells[LIMIT] = lines.number(b"limit=", 0, u8::MAX.into())? as u8;
    let budget = lines.number(b"budget=", 0, MOST_BUDGET)?;
    cells[BUDGET..SIZES].copy_from_slice(&budget.to_le_bytes());
    match text.len() {
        end if lines.at < end => Err(Refusal::new(Reason::Key, lines.line + 1)),
        _ => Ok(()),
    }
}

/// Reads a text into a record: refusal 5, then 1 to 4 of the lowest line.
pub fn read(text: &[u8], record: &mut [u8]) -> Result<(), Refusal> {
    let length = record.len();
    let Some(lent) = record.first_chunk_mut() else {
        return Err(Refusal::new(Reason::ShortRecord, length));
    };
    let mut cells = BLANK;
    fill(text, &mut cells)?;
    *lent = cells;
    Ok(())
}
