//! The text of a task.

use crate::brute::task::{Assignment, Task};

fn joined(parts: impl Iterator<Item = String>) -> String {
    parts.collect::<Vec<_>>().join(",")
}

fn pairs(named: &Assignment) -> String {
    let pair = |(v, name): (usize, &Option<u8>)| name.map(|value| format!("{v}:{value}"));
    joined(named.iter().enumerate().filter_map(pair))
}

fn lines(task: &Task, written: impl Fn(usize) -> bool) -> Vec<String> {
    let mut lines = vec![format!("vars={}", task.sizes.len())];
    lines.extend(task.sizes.iter().map(|size| format!("size={size}")));
    lines.push(format!("moves={}", task.actions.len()));
    for (number, action) in task.actions.iter().enumerate() {
        lines.push(format!("need={}", pairs(&action.precondition)));
        if action.cost != 1 || written(number) {
            lines.push(format!("cost={}", action.cost));
        }
        lines.push(format!("outcomes={}", action.outcomes.len()));
        lines.extend(action.outcomes.iter().map(|o| format!("eff={}", pairs(o))));
    }
    lines.push(format!("goal={}", pairs(&task.goal)));
    lines.push(format!("start={}", joined(task.start.iter().map(u8::to_string))));
    lines.push(format!("patterns={}", task.patterns.len()));
    for pattern in &task.patterns {
        let members = pattern.iter().enumerate().filter(|&(_, &member)| member);
        lines.push(format!("pattern={}", joined(members.map(|(v, _)| v.to_string()))));
    }
    lines.push(format!("limit={}", task.limit));
    lines.push(format!("budget={}", task.budget));
    lines
}

/// The text of a task, with or without the last line break. A cost of 1 is
/// written where that is told of the move, else left out.
pub fn text_with(task: &Task, written: impl Fn(usize) -> bool, last_break: bool) -> Vec<u8> {
    let mut text = lines(task, written).join("\n");
    if last_break {
        text.push('\n');
    }
    text.into_bytes()
}

/// The text of a task without the lines that may be left out.
pub fn text(task: &Task, last_break: bool) -> Vec<u8> {
    text_with(task, |_| false, last_break)
}
