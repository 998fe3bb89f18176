//! Answers as one number, the form that crosses into C: bits 56-63 the refusal, bits 48-55
//! the broken rule or 1 for an open row, bits 0-31 the place, the event, the count or the row.

use crate::capture::Refusal;
use crate::verdict::Answer;

pub fn of_answer(answer: Answer) -> u64 {
    match answer {
        Answer::Refused { number, place } => of_refusal(Refusal { number, place }),
        Answer::Clean { judged } => u64::from(judged),
        Answer::Broken { rule, event, .. } => u64::from(rule) << 48 | u64::from(event),
    }
}

pub fn of_count(result: Result<u32, Refusal>) -> u64 {
    result.map_or_else(of_refusal, u64::from)
}

/// An open row, or 0 for idle.
pub fn of_row(result: Result<Option<u32>, Refusal>) -> u64 {
    let of_bank = |row: Option<u32>| row.map_or(0, |row| 1 << 48 | u64::from(row));
    result.map_or_else(of_refusal, of_bank)
}

fn of_refusal(refusal: Refusal) -> u64 {
    u64::from(refusal.number) << 56 | u64::from(refusal.place)
}
