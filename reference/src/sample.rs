//! The sample tower of the specification.

/// Its text, with / for a line break.
pub const SAMPLE: &str = "vars=2/size=4/size=2/moves=4/need=0:0/outcomes=1/eff=0:1/\
    need=0:1/outcomes=2/eff=0:2/eff=0:3/need=0:3/outcomes=1/eff=0:2/need=1:0/outcomes=1/eff=1:1/\
    goal=0:2,1:1/start=0,0/patterns=2/pattern=0/pattern=1/limit=32/budget=100";

/// Its plan.
pub const PLAN: [u8; 7] = [0, 1, 3, 254, 2, 3, 254];

/// The sample text with line breaks.
pub fn sample() -> String {
    SAMPLE.replace('/', "\n")
}

/// The sample text with some of its text replaced, which must be there once.
pub fn changed(from: &str, to: &str) -> String {
    assert_eq!(SAMPLE.matches(from).count(), 1, "{from}");
    SAMPLE.replace(from, to).replace('/', "\n")
}

/// The sample text with one line, counted from 1, replaced.
pub fn with_line(number: usize, line: &str) -> String {
    let mut lines: Vec<&str> = SAMPLE.split('/').collect();
    lines[number - 1] = line;
    lines.join("\n")
}

/// The sample without patterns: its value is 0 and rounds have to grow.
pub fn without_patterns() -> String {
    changed("patterns=2/pattern=0/pattern=1", "patterns=0")
}
