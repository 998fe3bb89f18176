//! Captures with the addresses blanked, and captures that differ only in addresses.

use crate::capture::{events_at, refused, settings_of_layout, Capture, Refusal, Settings};
use crate::capture::{Event, EVENT_BYTES};
use crate::command::{Command, A10, ADDRESS_PINS};

/// The pins that may be hidden of an event, as bits of its pin word: of a READ or WRITE A0-A9
/// and A11-A13, of an ACTIVE whose row the part has A0-A13, of any other none.
pub fn hidden(settings: &Settings, pins: u32) -> u32 {
    match Command::of_pins(pins) {
        Command::Read { .. } | Command::Write { .. } => ADDRESS_PINS & !A10,
        Command::Active { row, .. } if row < settings.rows() => ADDRESS_PINS,
        _ => 0,
    }
}

/// Writes the capture with those pins at 0, and answers how many bytes it has.
pub fn blank(capture: &[u8], out: &mut [u8]) -> Result<u32, Refusal> {
    let events = Capture::read(capture)?;
    let size = capture.len() as u32;
    if out.len() < capture.len() {
        return refused(7, size);
    }
    let blanked = with_pins(capture, &events, |event| {
        event.pins & !hidden(&events.settings, event.pins)
    });
    out[..capture.len()].copy_from_slice(&blanked);
    Ok(size)
}

/// The bytes of an accepted capture with other pins.
pub fn with_pins(bytes: &[u8], capture: &Capture, mut pins: impl FnMut(&Event) -> u32) -> Vec<u8> {
    let mut changed = bytes.to_vec();
    let events_at = events_at(settings_of_layout(bytes));
    for (place, event) in capture.events.iter().enumerate() {
        let at = events_at + EVENT_BYTES * place + 4;
        changed[at..at + 4].copy_from_slice(&pins(event).to_le_bytes());
    }
    changed
}
