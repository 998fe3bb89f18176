//! Exports of the handheld analyser: records of a 16-bit stamp and a 32-bit pin word, read
//! into captures and written from them.

use crate::capture::{
    bytes_of_edition, refused, word, Capture, Edition, Event, Refusal, Settings, SETTINGS,
};
use crate::command::Command;

pub const RECORD_BYTES: usize = 6;
pub const MOST_RECORDS: usize = 8_000;
/// The most cycles from one record to the next.
pub const REACH: u32 = 65_535;
/// Pins that a record may use.
const PINS: u32 = 0xf_ffff;

/// A record as it stands in an export.
#[derive(Clone, Copy, Debug, PartialEq, Eq)]
pub struct Record {
    pub stamp: u16,
    pub pins: u32,
}

/// Writes the records as a capture with these settings, of this edition, and answers how many
/// bytes it has.
pub fn read_export(
    records: &[u8],
    settings: &[u32],
    edition: u32,
    out: &mut [u8],
) -> Result<u32, Refusal> {
    if settings.len() != SETTINGS || Edition::read(edition).is_none() {
        return refused(2, 0);
    }
    Settings::read_awake(settings)?;
    let records = check_records(records)?;
    if let Some(place) = records.iter().position(|record| record.pins > PINS) {
        return refused(4, place as u32);
    }
    put(
        &bytes_of_edition(edition, settings, &events_of(&records)),
        out,
    )
}

/// Refusal 11, or the records.
fn check_records(bytes: &[u8]) -> Result<Vec<Record>, Refusal> {
    if bytes.len() % RECORD_BYTES != 0 {
        return refused(11, 0);
    }
    let records: Vec<Record> = bytes.chunks(RECORD_BYTES).map(record_of).collect();
    if records.len() > MOST_RECORDS {
        return refused(11, MOST_RECORDS as u32);
    }
    let stands = |pair: &[Record]| pair[0].stamp == pair[1].stamp;
    match records.windows(2).position(stands) {
        Some(before) => refused(11, before as u32 + 1),
        None => Ok(records),
    }
}

fn record_of(bytes: &[u8]) -> Record {
    Record {
        stamp: u16::from_le_bytes([bytes[0], bytes[1]]),
        pins: word(bytes, 2),
    }
}

/// The stamp goes round, so each record is as many cycles after the one before as their
/// stamps differ modulo 65,536.
fn events_of(records: &[Record]) -> Vec<Event> {
    let mut events: Vec<Event> = Vec::new();
    for (place, record) in records.iter().enumerate() {
        let cycle = match place.checked_sub(1) {
            None => u32::from(record.stamp),
            Some(before) => {
                let gone = record.stamp.wrapping_sub(records[before].stamp);
                events[before].cycle + u32::from(gone)
            }
        };
        events.push(Event {
            cycle,
            pins: record.pins,
        });
    }
    events
}

/// Writes the capture as an export, and answers how many bytes it has.
pub fn write_export(capture: &[u8], out: &mut [u8]) -> Result<u32, Refusal> {
    let capture = Capture::read(capture)?;
    let first_too_late = capture
        .events
        .first()
        .is_some_and(|event| event.cycle > REACH);
    if capture.settings.wake.is_some() || first_too_late {
        return refused(12, 0);
    }
    let events = with_nops(&capture.events);
    if events.len() > MOST_RECORDS {
        return refused(12, 0);
    }
    put(&export_of(&events), out)
}

/// The events, with a NOP 65,535 cycles after the last one wherever the next is further away.
pub fn with_nops(events: &[Event]) -> Vec<Event> {
    let mut bridged: Vec<Event> = Vec::new();
    for event in events {
        while let Some(last) = bridged.last() {
            if event.cycle - last.cycle <= REACH {
                break;
            }
            bridged.push(Event {
                cycle: last.cycle + REACH,
                pins: Command::Nop.pins(),
            });
        }
        bridged.push(*event);
    }
    bridged
}

/// The bytes of an export. Nothing is checked.
pub fn export_of(events: &[Event]) -> Vec<u8> {
    let records: Vec<Record> = events
        .iter()
        .map(|event| Record {
            stamp: (event.cycle % 65_536) as u16,
            pins: event.pins,
        })
        .collect();
    bytes_of_records(&records)
}

pub fn bytes_of_records(records: &[Record]) -> Vec<u8> {
    let bytes = |record: &Record| {
        let mut bytes = record.stamp.to_le_bytes().to_vec();
        bytes.extend(record.pins.to_le_bytes());
        bytes
    };
    records.iter().flat_map(bytes).collect()
}

fn put(answer: &[u8], out: &mut [u8]) -> Result<u32, Refusal> {
    let size = answer.len() as u32;
    if out.len() < answer.len() {
        return refused(7, size);
    }
    out[..answer.len()].copy_from_slice(answer);
    Ok(size)
}
