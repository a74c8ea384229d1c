//! The ten entries as a trait, so that any two makes can be compared.

use crate::answer::Answer;

pub trait Planner {
    fn read_text(&self, text: &[u8], record: &mut [u8]) -> Answer;
    fn check_record(&self, record: &[u8]) -> Answer;
    fn check_state(&self, record: &[u8], state: &[u8]) -> Answer;
    fn build_tables(&self, record: &[u8], tables: &mut [u32]) -> Answer;
    fn spread(&self, record: &[u8], pattern: u64, tables: &mut [u32], row: &mut [u32]) -> Answer;
    fn additive(&self, record: &[u8]) -> Answer;
    fn value(&self, record: &[u8], state: &[u8], tables: &[u32]) -> Answer;
    fn search(&self, record: &[u8], tables: &mut [u32], plan: &mut [u8]) -> Answer;
    fn check_plan(&self, record: &[u8], state: &[u8], plan: &[u8]) -> Answer;
    fn upgrade_record(&self, old: &[u8], record: &mut [u8]) -> Answer;
}
