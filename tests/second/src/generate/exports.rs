//! Exports, good ones and ones for each refusal; and captures whose events lie far apart.

use super::settings::{self, Kind};
use super::{guided_capture, request_list, Dice};
use crate::capture::{
    bytes_of_edition, Capture, Edition, Event, LAST_CYCLE, SETTINGS, T_REFI_SETTING,
};
use crate::command::Command;
use crate::export::{bytes_of_records, Record, MOST_RECORDS, REACH};

/// What the reader is given.
#[derive(Clone, Debug)]
pub struct Export {
    pub records: Vec<u8>,
    pub settings: Vec<u32>,
    pub edition: u32,
}

pub fn export(dice: &mut Dice) -> Export {
    let mut records = records(dice);
    let mut settings = settings::settings(dice, Kind::Short).to_vec();
    let mut edition = dice.below(2);
    if dice.percent(40) {
        for _ in 0..dice.between(1, 2) {
            spoil_records(dice, &mut records);
        }
    }
    let mut records = bytes_of_records(&records);
    match dice.below(12) {
        0 => settings = request_list(dice).0,
        1 => edition = dice.pick(&[2, 3, 256, u32::MAX]),
        2 if dice.percent(50) => settings.truncate(13),
        2 => settings.extend([2, 20]),
        3 => {
            let rest = dice.between(1, 5) as usize;
            records.extend(vec![dice.word() as u8; rest]);
        }
        _ => {}
    }
    Export {
        records,
        settings,
        edition,
    }
}

fn records(dice: &mut Dice) -> Vec<Record> {
    let count = match dice.below(60) {
        0 => MOST_RECORDS as u32,
        1 => MOST_RECORDS as u32 + dice.between(1, 3),
        2..=4 => 0,
        5..=10 => dice.between(40, 300),
        _ => dice.between(1, 40),
    };
    let word = dice.word();
    let mut stamp = dice.pick(&[0, 1, 65_535, word]) as u16;
    (0..count)
        .map(|_| {
            let record = Record {
                stamp,
                pins: some_pins(dice),
            };
            stamp = stamp.wrapping_add(some_step(dice));
            record
        })
        .collect()
}

/// Most steps are short; some are the longest, and some go round.
fn some_step(dice: &mut Dice) -> u16 {
    let any = dice.between(1, REACH);
    let short = dice.between(1, 12);
    dice.pick(&[short, short, short, short, 1, REACH, REACH - 1, any]) as u16
}

fn some_pins(dice: &mut Dice) -> u32 {
    let commands = [
        Command::Nop,
        Command::Deselect,
        Command::AutoRefresh,
        Command::Active { bank: 1, row: 5 },
    ];
    let command = dice.pick(&commands).pins();
    let any = dice.below(1 << 20);
    dice.pick(&[command, command, any, 0xf_ffff])
}

/// A stamp that stands, or a pin that there is not.
fn spoil_records(dice: &mut Dice, records: &mut [Record]) {
    if records.is_empty() {
        return;
    }
    let place = dice.below(records.len() as u32) as usize;
    if place > 0 && dice.percent(50) {
        records[place].stamp = records[place - 1].stamp;
    } else {
        records[place].pins |= 1 << dice.between(20, 31);
    }
}

/// A capture whose events may be further apart than stamps can tell.
pub fn far_capture(dice: &mut Dice) -> Vec<u8> {
    let edition = dice.pick(&[Edition::Zero, Edition::One]);
    let mut list = settings::settings(dice, Kind::Short).to_vec();
    let t_refi = dice.between(1_000, 20_000);
    list[T_REFI_SETTING] = dice.pick(&[1_000_000, 1_000_000, 7_500, 10_000, t_refi]);
    if dice.once_in(20) {
        list.extend([2, 20]);
    }
    let events = far_events(dice);
    bytes_of_edition(edition.word(), &list, &events)
}

fn far_events(dice: &mut Dice) -> Vec<Event> {
    // Commands that keep and break rules, from a capture that was built for them.
    let kept = Capture::read(&guided_capture(dice)).expect("guided captures are accepted");
    let count = dice.between(0, 30) as usize;
    let pins = kept
        .events
        .iter()
        .map(|event| event.pins & 0xf_ffff)
        .take(count);
    let first = dice.pick(&[0, 0, 0, 1, REACH, REACH, REACH + 1, 70_000]);
    let far = dice.pick(&[0, 10, 30, 100]);
    let mut cycle = first;
    let mut events = Vec::new();
    for pins in pins {
        if cycle > LAST_CYCLE {
            break;
        }
        events.push(Event { cycle, pins });
        cycle += some_gap(dice, far);
    }
    events
}

fn some_gap(dice: &mut Dice, far: u32) -> u32 {
    let short = dice.between(1, 12);
    if !dice.percent(far) {
        return short;
    }
    let times = dice.between(1, 9) * REACH;
    let beside = dice.pick(&[times - 1, times, times + 1]);
    let any = dice.between(1, 10 * REACH);
    // 8,000 records are just reached, or just missed.
    let most = (MOST_RECORDS as u32 - 2) * REACH;
    let very_far = dice.pick(&[most, most + 1, LAST_CYCLE]);
    dice.pick(&[beside, beside, beside, beside, any, any, any, very_far])
}

/// The settings and the edition of a capture that is read back.
pub fn settings_of(capture: &[u8]) -> (Vec<u32>, u32) {
    let words = crate::capture::words(&capture[..crate::capture::events_at(SETTINGS)]);
    (words[6..].to_vec(), words[5])
}
