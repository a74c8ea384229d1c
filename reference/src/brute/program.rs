//! What the program `tower` prints for a text.

use super::record::LENGTH;
use super::search::Ending;
use super::{reader, search, state, tables, value};
use crate::answer::Refusal;

/// The program's input and plan buffers.
pub const BUFFER: usize = 65_536;
/// The table entries the program lends.
pub const ENTRIES: usize = 16_384;

fn lines(text: &[u8]) -> Result<Vec<String>, Refusal> {
    let mut record = vec![0; LENGTH];
    let mut lent = vec![0; ENTRIES];
    let mut plan = vec![0; BUFFER];
    reader::read_text(&text[..text.len().min(BUFFER)], &mut record)?;
    let start = reader::parse(&text[..text.len().min(BUFFER)])?.start;
    tables::build_tables(&record, &mut lent)?;
    let value = value::value(&record, &state::encode(&start), &lent)?;
    let report = search::search(&record, &mut lent, &mut plan)?;
    let mut told = vec![match value {
        Some(value) => format!("value={value}"),
        None => "value=infinite".to_owned(),
    }];
    let count = format!("count={}", report.count);
    told.extend(match report.ending {
        Ending::Found { plan, cost } => {
            let bytes: Vec<String> = plan.bytes().iter().map(u8::to_string).collect();
            let cost = format!("cost={cost}");
            let plan = format!("plan={}", bytes.join(","));
            vec!["answer=found".to_owned(), cost, count, plan]
        }
        Ending::Over => vec!["answer=over".to_owned(), count],
        Ending::Spent { round } => {
            vec!["answer=spent".to_owned(), format!("round={round}"), count]
        }
        Ending::None => vec!["answer=none".to_owned(), count],
    });
    Ok(told)
}

/// The output of the program, each line ended with a line break.
pub fn output(text: &[u8]) -> String {
    let told = lines(text).unwrap_or_else(|refusal| {
        vec![format!("refused={}", refusal.number()), format!("at={}", refusal.at)]
    });
    told.into_iter().map(|line| line + "\n").collect()
}
