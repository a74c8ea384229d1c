//! Damaged texts, records and states.

use super::Random;
use crate::brute::record::{COSTS, LENGTH, ROW};

/// Bytes that mean something in a text, and some that never do.
const TEXT_BYTES: &[u8] = b"0123456789,:=\n\r +-.sveg\0\xff";

/// Single numbers at the ends of the ranges and of the form.
pub const NUMBERS: &[&str] = &[
    "",
    "0",
    "00",
    "01",
    "1",
    "2",
    "3",
    "8",
    "9",
    "16",
    "17",
    "32",
    "33",
    "64",
    "65",
    "254",
    "255",
    "256",
    "257",
    "511",
    "512",
    "1000000",
    "1000001",
    "9999999",
    "10000000",
    "4294967297",
    "18446744073709551617",
    "-1",
    "+1",
    "1 ",
    " 1",
    "1\r",
    "=1",
    "1.0",
];

/// Lists at the ends of their rules and of their form.
pub const LISTS: &[&str] = &[
    "",
    "0",
    "1",
    "0,1",
    "1,0",
    "0,0",
    "1,1",
    "0,0,0",
    "0,1,2",
    "0,0,0,0",
    "0,1,2,3",
    "15",
    "16",
    "0:0",
    "0:1",
    "1:0",
    "0:0,1:1",
    "0:0,0:0",
    "1:0,0:0",
    "0:1,0:0",
    "0:16",
    "15:0",
    "16:0",
    "0:255",
    "255:0",
    "256:0",
    "0:256",
    "9999999",
    "9999999:0",
    "0:9999999",
    "10000000",
    "0:",
    ":0",
    "0:0:0",
    ",",
    "0,",
    ",0",
    "0:0,",
    ",0:0",
    "0:0,,1:0",
    "00:0",
    "0:00",
    "0:01",
    "0: 0",
    "0:+1",
    "0:0\r",
    "0,9,",
    "9:9,",
];

/// Bytes next to the ends of the rules of a record's cells.
const CELL_BYTES: &[u8] =
    &[0, 1, 2, 3, 4, 8, 9, 15, 16, 17, 32, 33, 64, 65, 127, 128, 253, 254, 255];

fn text_byte(random: &mut Random) -> u8 {
    if random.once_in(6) { random.byte() } else { random.pick(TEXT_BYTES) }
}

fn split(text: &[u8]) -> Vec<Vec<u8>> {
    text.split(|&byte| byte == b'\n').map(<[u8]>::to_vec).collect()
}

/// Takes a line away, doubles it, swaps it with another or gives it another value.
fn damaged_lines(random: &mut Random, text: &[u8]) -> Vec<u8> {
    let mut lines = split(text);
    let line = random.below(lines.len());
    match random.below(10) {
        0 => {
            lines.remove(line);
        }
        1 => {
            let doubled = lines[line].clone();
            lines.insert(line, doubled);
        }
        2 => {
            let other = random.below(lines.len());
            lines.swap(line, other);
        }
        3 => lines.insert(line, cost_line(random)),
        4 => {
            let behind = behind_a_need(random, &lines);
            lines.insert(behind, cost_line(random));
        }
        _ => give_value(random, &mut lines[line]),
    }
    lines.join(&b'\n')
}

/// A line with a cost, which is mostly none that a move can have.
fn cost_line(random: &mut Random) -> Vec<u8> {
    [b"cost=", random.pick(NUMBERS).as_bytes()].concat()
}

/// A place where a cost may stand: behind one of the needs, if there is any.
fn behind_a_need(random: &mut Random, lines: &[Vec<u8>]) -> usize {
    let is_need = |&line: &usize| lines[line].starts_with(b"need=");
    let needs: Vec<usize> = (0..lines.len()).filter(is_need).collect();
    if needs.is_empty() { random.below(lines.len()) } else { 1 + random.pick(&needs) }
}

/// Gives a line another value, mostly one of the kind that is due there.
fn give_value(random: &mut Random, line: &mut Vec<u8>) {
    let equals = line.iter().position(|&byte| byte == b'=');
    line.truncate(equals.map_or(0, |place| place + 1));
    let lists: [&[u8]; 5] = [b"need=", b"eff=", b"goal=", b"start=", b"pattern="];
    let is_list = lists.contains(&line.as_slice());
    let values = if is_list != random.once_in(8) { LISTS } else { NUMBERS };
    line.extend_from_slice(random.pick(values).as_bytes());
}

/// A text with one change: a byte changed, removed or inserted, the text cut
/// off or extended, or a change to whole lines.
pub fn text(random: &mut Random, text: &[u8]) -> Vec<u8> {
    let mut damaged = text.to_vec();
    if text.is_empty() {
        let length = random.below(20);
        return (0..length).map(|_| text_byte(random)).collect();
    }
    let place = random.below(text.len());
    match random.below(12) {
        0 => damaged[place] = text_byte(random),
        1 => {
            damaged.remove(place);
        }
        2 => damaged.insert(place, text_byte(random)),
        3 => damaged.truncate(place),
        4 => {
            damaged.extend((0..random.within(1..=3)).map(|_| text_byte(random)).collect::<Vec<_>>())
        }
        5 => {
            damaged.extend_from_slice(random.pick(&[&b"\n"[..], b"\n\n", b"\r", b"\r\n", b"x=1\n"]))
        }
        _ => return damaged_lines(random, text),
    }
    damaged
}

/// A length other than the right one.
fn wrong_length(random: &mut Random, right: usize) -> usize {
    match random.below(5) {
        0 => right - 1,
        1 => random.below(right),
        2 => 0,
        // As long as the costs of a record, for that is where one form ends.
        3 => right.saturating_sub(random.within(1..=64)),
        _ => right + random.within(1..=40),
    }
}

/// Cuts a slice off or extends it with any bytes.
fn resize(random: &mut Random, bytes: &mut Vec<u8>, length: usize) {
    bytes.truncate(length);
    let missing = length - bytes.len();
    bytes.extend(random.bytes(missing));
}

/// An offset of the record; the crowded cells in front come up more often.
fn offset(random: &mut Random) -> usize {
    match random.below(6) {
        0 => random.below(8),
        1 => random.below(200),
        2 => random.within(184..=184 + 4 * 145),
        3 => random.within(COSTS..=COSTS + 8),
        4 => random.within(COSTS..=LENGTH - 1),
        _ => random.below(LENGTH),
    }
}

/// A record of either form with one to three cells changed, or of another length.
pub fn record(random: &mut Random, record: &[u8]) -> Vec<u8> {
    let mut damaged = record.to_vec();
    if random.once_in(6) {
        let length = wrong_length(random, record.len());
        resize(random, &mut damaged, length);
        return damaged;
    }
    if damaged.len() == LENGTH && random.once_in(8) {
        let cost = &mut damaged[COSTS + random.below(LENGTH - COSTS)];
        *cost = if *cost == 0 { random.within(1..=255) as u8 } else { 0 };
        return damaged;
    }
    for _ in 0..random.within(1..=3) {
        let place = offset(random) % damaged.len();
        damaged[place] = if random.once_in(4) { random.byte() } else { random.pick(CELL_BYTES) };
    }
    damaged
}

/// A lent state with one cell changed, or of another length.
pub fn state(random: &mut Random, state: &[u8]) -> Vec<u8> {
    let mut damaged = state.to_vec();
    if random.once_in(3) {
        let length = wrong_length(random, ROW);
        resize(random, &mut damaged, length);
    } else {
        damaged[random.below(ROW)] = random.pick(CELL_BYTES);
    }
    damaged
}

/// The length of a record to read into: mostly right, else too short or longer.
pub fn record_length(random: &mut Random) -> usize {
    match random.below(12) {
        0 => wrong_length(random, LENGTH),
        1 => LENGTH + random.below(40),
        _ => LENGTH,
    }
}
