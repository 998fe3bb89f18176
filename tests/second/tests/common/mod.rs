//! Short ways to write captures down.
#![allow(dead_code)] // each test file uses the ones it needs

use second::capture::{bytes_of, Event, SETTINGS};
use second::command::{Asked, Command, Named};
use second::schedule::{CLOSED_ROWS, OPEN_ROWS};
use second::{cells, judge, schedule, Answer, Refusal};

/// The settings of document 01's cases: CL 3, BL 4, sequential.
pub const CASE: [u32; SETTINGS] = [1, 13, 10, 0x32, 3, 3, 7, 10, 2, 3, 1, 12, 2, 1000];

pub fn with<const N: usize>(mut settings: [u32; N], changes: &[(usize, u32)]) -> [u32; N] {
    for &(place, value) in changes {
        settings[place] = value;
    }
    settings
}

pub fn events_of<A: Into<Asked> + Copy>(events: &[(u32, A)]) -> Vec<Event> {
    events
        .iter()
        .map(|&(cycle, asked)| Event {
            cycle,
            pins: asked.into().pins(),
        })
        .collect()
}

pub fn capture<A: Into<Asked> + Copy>(settings: &[u32], events: &[(u32, A)]) -> Vec<u8> {
    bytes_of(settings, &events_of(events))
}

pub fn active(bank: usize) -> Command {
    Command::Active { bank, row: 0 }
}

pub fn read(bank: usize) -> Command {
    read_from(bank, 0)
}

pub fn read_from(bank: usize, address: u32) -> Command {
    Command::Read {
        bank,
        address,
        auto_precharge: false,
    }
}

pub fn read_auto(bank: usize) -> Command {
    Command::Read {
        bank,
        address: 0,
        auto_precharge: true,
    }
}

pub fn write(bank: usize) -> Command {
    write_to(bank, 0)
}

pub fn write_to(bank: usize, address: u32) -> Command {
    Command::Write {
        bank,
        address,
        auto_precharge: false,
    }
}

pub fn write_auto(bank: usize) -> Command {
    Command::Write {
        bank,
        address: 0,
        auto_precharge: true,
    }
}

pub fn precharge(bank: usize) -> Command {
    Command::Precharge {
        banks: Named::One(bank),
    }
}

pub const PRECHARGE_ALL: Command = Command::Precharge { banks: Named::All };

pub fn mode_set(register: u32, address: u32) -> Command {
    Command::ModeRegisterSet { register, address }
}

/// Expects the events to be clean.
#[track_caller]
pub fn clean<A: Into<Asked> + Copy>(settings: &[u32], events: &[(u32, A)]) {
    let judged = events.len() as u32;
    assert_eq!(judge(&capture(settings, events)), Answer::Clean { judged });
}

/// Expects the last of the events to be the first that breaks a rule.
#[track_caller]
pub fn breaks<A: Into<Asked> + Copy>(rule: u32, settings: &[u32], events: &[(u32, A)]) {
    let event = events.len() as u32 - 1;
    let cycle = events[events.len() - 1].0;
    let expected = Answer::Broken {
        rule,
        event,
        cycle,
        judged: event,
    };
    assert_eq!(judge(&capture(settings, events)), expected);
}

#[track_caller]
pub fn refuses(number: u32, place: u32, capture: &[u8]) {
    assert_eq!(judge(capture), Answer::Refused { number, place });
}

pub fn cells_of<A: Into<Asked> + Copy>(settings: &[u32], events: &[(u32, A)]) -> Vec<u32> {
    let mut out = vec![0; 16 * events.len()];
    let written = cells(&capture(settings, events), &mut out).expect("a clean capture");
    out.truncate(written as usize);
    out
}

/// With closed rows, and with open ones.
pub fn schedule_of(settings: &[u32], requests: &[u32]) -> Result<Vec<u8>, Refusal> {
    schedule_by(CLOSED_ROWS, settings, requests)
}

pub fn open_schedule_of(settings: &[u32], requests: &[u32]) -> Result<Vec<u8>, Refusal> {
    schedule_by(OPEN_ROWS, settings, requests)
}

fn schedule_by(policy: u32, settings: &[u32], requests: &[u32]) -> Result<Vec<u8>, Refusal> {
    let mut out = vec![0; 80 + 32 * requests.len()];
    let written = schedule(settings, requests, policy, &mut out)?;
    out.truncate(written as usize);
    Ok(out)
}
