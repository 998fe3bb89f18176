//! Which rows were open: the openings of each bank of a clean capture, and a question about a
//! bank and an event.

use crate::capture::{refused, Capture, Refusal};
use crate::command::BANKS;
use crate::part::{LookBack, Part};
use crate::verdict::part_after;

/// Of a bank: how many openings stand before its own, and how many it has.
#[derive(Clone, Copy, Debug, PartialEq, Eq)]
pub struct Record {
    pub before: u32,
    pub count: u32,
}

/// Its row, the event of the ACTIVE that began it, the last event after which it still stood
/// open.
type Opening = [u32; 3];

/// The open row of each bank after each event; none while it is idle.
fn rows(capture: &Capture) -> Vec<[Option<u32>; BANKS]> {
    let mut part = Part::new(capture.edition, capture.settings, LookBack::Running);
    capture
        .events
        .iter()
        .map(|event| {
            part.apply(u64::from(event.cycle), event.asked());
            part.banks.map(|bank| bank.row)
        })
        .collect()
}

/// An opening is a run of events after which the bank stands open: an ACTIVE finds it idle.
fn openings(rows: &[[Option<u32>; BANKS]], bank: usize) -> Vec<Opening> {
    let mut openings: Vec<Opening> = Vec::new();
    let mut open = false;
    for (event, row) in (0..).zip(rows.iter().map(|rows| rows[bank])) {
        match (row, openings.last_mut()) {
            (Some(_), Some(opening)) if open => opening[2] = event,
            (Some(row), _) => openings.push([row, event, event]),
            (None, _) => {}
        }
        open = row.is_some();
    }
    openings
}

/// Fills the records and the index, and answers with the row or with idle. Refusals 1 to 4,
/// then 8, 13, and 7 for the records before the index.
pub fn open_row(
    capture: &[u8],
    bank: u32,
    event: u32,
    records: &mut [Record],
    index: &mut [u32],
) -> Result<Option<u32>, Refusal> {
    part_after(capture, LookBack::Running)?;
    let rows = rows(&Capture::read(capture)?);
    if bank as usize >= BANKS || event as usize >= rows.len() {
        return refused(13, 0);
    }
    if records.len() < BANKS {
        return refused(7, BANKS as u32);
    }
    let banks: Vec<Vec<Opening>> = (0..BANKS).map(|bank| openings(&rows, bank)).collect();
    let words: Vec<u32> = banks.iter().flatten().flatten().copied().collect();
    if index.len() < words.len() {
        return refused(7, words.len() as u32);
    }
    index[..words.len()].copy_from_slice(&words);
    let mut before = 0;
    for (record, openings) in records.iter_mut().zip(&banks) {
        let count = openings.len() as u32;
        *record = Record { before, count };
        before += count;
    }
    Ok(rows[event as usize][bank as usize])
}
