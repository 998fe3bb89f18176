//! Captures with one fault or several in their bytes, for refusals 1 to 4.

use super::settings::{most_t_rc, t_rc_beside};
use super::{guided_capture, Dice};
use crate::capture::{
    events_at, settings_of_layout, total_bytes, word, words, EDITION_AT, EVENT_BYTES, HEADER_BYTES,
    LAST_CYCLE, LIMITS, MODE_SETTING, MOST_EVENTS, SETTINGS, T_RC_SETTING,
};

pub fn damaged_capture(dice: &mut Dice) -> Vec<u8> {
    let mut bytes = match dice.below(40) {
        0 => random_bytes(dice),
        1 => extreme_length(dice),
        _ => short_capture(dice),
    };
    for _ in 0..dice.pick(&[0, 1, 1, 1, 2, 3]) {
        damage(dice, &mut bytes);
    }
    // Mostly with a fitting total, or refusal 1 would hide the rest.
    if dice.percent(75) {
        restate_total(&mut bytes);
    }
    bytes
}

/// A guided capture cut to its first few events.
fn short_capture(dice: &mut Dice) -> Vec<u8> {
    let mut bytes = guided_capture(dice);
    let start = events_start(&bytes);
    let events = (bytes.len() - start) / EVENT_BYTES;
    let kept = events.min(dice.below(30) as usize);
    bytes.truncate(start + EVENT_BYTES * kept);
    put(&mut bytes, 12, kept as u32);
    restate_total(&mut bytes);
    bytes
}

fn events_start(bytes: &[u8]) -> usize {
    events_at(settings_of_layout(bytes))
}

fn random_bytes(dice: &mut Dice) -> Vec<u8> {
    (0..dice.below(200)).map(|_| dice.word() as u8).collect()
}

/// Around the longest capture, with as many events stated as its bytes hold.
fn extreme_length(dice: &mut Dice) -> Vec<u8> {
    let mut bytes = short_capture(dice);
    let settings = settings_of_layout(&bytes);
    let most = total_bytes(settings, MOST_EVENTS) as usize;
    let length = most - 1 + dice.pick(&[0, 1, 1, 2, 9, 10_000]);
    while bytes.len() < length {
        let cycle = bytes.len() as u32;
        bytes.extend(cycle.to_le_bytes());
        bytes.extend(dice.below(1 << 20).to_le_bytes());
    }
    bytes.truncate(length);
    let events = (length - events_at(settings)) / EVENT_BYTES;
    put(&mut bytes, 12, events as u32);
    restate_total(&mut bytes);
    bytes
}

fn damage(dice: &mut Dice, bytes: &mut Vec<u8>) {
    match dice.below(16) {
        0 => shorten(dice, bytes),
        1 => lengthen(dice, bytes),
        2 => change_header(dice, bytes),
        3 => change_event_count(dice, bytes),
        4..=5 => change_setting(dice, bytes),
        6 => change_mode(dice, bytes),
        7..=8 => change_cycle(dice, bytes),
        9..=10 => set_spare_pin(dice, bytes),
        11..=12 => change_layout(dice, bytes),
        13 => change_t_rc(dice, bytes),
        14 => change_edition(dice, bytes),
        _ => scribble(dice, bytes),
    }
}

/// Puts a word where the bytes reach that far.
fn put(bytes: &mut [u8], at: usize, value: u32) {
    if let Some(place) = bytes.get_mut(at..at + 4) {
        place.copy_from_slice(&value.to_le_bytes());
    }
}

fn restate_total(bytes: &mut [u8]) {
    let total = bytes.len() as u32;
    put(bytes, 0, total);
}

fn shorten(dice: &mut Dice, bytes: &mut Vec<u8>) {
    let few = bytes.len().saturating_sub(dice.between(1, 9) as usize);
    let any = dice.below(bytes.len() as u32 + 1) as usize;
    bytes.truncate(dice.pick(&[few, few, any]));
}

fn lengthen(dice: &mut Dice, bytes: &mut Vec<u8>) {
    for _ in 0..dice.between(1, 16) {
        bytes.push(dice.word() as u8);
    }
}

fn change_header(dice: &mut Dice, bytes: &mut [u8]) {
    let at = 4 * dice.below(6) as usize;
    if bytes.len() < HEADER_BYTES {
        return;
    }
    let held = word(bytes, at);
    let any = dice.word();
    let up = held.wrapping_add(1);
    let down = held.wrapping_sub(1);
    let value = dice.pick(&[up, down, held ^ 1 << 31, 0, 14, 16, 80, 88, any]);
    put(bytes, at, value);
}

/// Another count of settings; often with a length near the limits of both layouts, and now
/// and then with the rest of that layout's header.
fn change_layout(dice: &mut Dice, bytes: &mut Vec<u8>) {
    let least = dice.between(78, 90);
    let most = dice.between(64_078, 64_090);
    match dice.below(4) {
        0 => bytes.resize(least as usize, 0),
        1 => bytes.resize(most as usize, 0),
        _ => {}
    }
    let count = dice.between(14, 17);
    put(bytes, 4, count);
    if dice.percent(50) {
        let start = events_at(count as usize);
        put(bytes, 16, start as u32);
        let events = bytes.len().saturating_sub(start) / EVENT_BYTES;
        put(bytes, 12, events as u32);
    }
}

/// An edition that there is not, or the other one.
fn change_edition(dice: &mut Dice, bytes: &mut [u8]) {
    let any = dice.word();
    let value = dice.pick(&[0, 1, 2, 2, 3, 1 << 16, 1 << 31, u32::MAX, any]);
    put(bytes, EDITION_AT, value);
}

fn change_event_count(dice: &mut Dice, bytes: &mut [u8]) {
    if bytes.len() < HEADER_BYTES {
        return;
    }
    let held = word(bytes, 12);
    // The first makes 8N wrap round to the true total in 32 bits.
    let value = dice.pick(&[held ^ 1 << 29, 8_000, 8_001, held + 1, held.wrapping_sub(1)]);
    put(bytes, 12, value);
}

fn change_setting(dice: &mut Dice, bytes: &mut [u8]) {
    let place = dice.below(LIMITS.len() as u32) as usize;
    let (least, most) = LIMITS[place];
    let any = dice.word();
    let value = dice.pick(&[
        least.wrapping_sub(1),
        least,
        most,
        most + 1,
        0,
        u32::MAX,
        any,
    ]);
    put(bytes, HEADER_BYTES + 4 * place, value);
}

fn change_mode(dice: &mut Dice, bytes: &mut [u8]) {
    let value = dice.below(140);
    put(bytes, HEADER_BYTES + 4 * MODE_SETTING, value);
}

/// Settings that contradict each other, or nearly so.
fn change_t_rc(dice: &mut Dice, bytes: &mut [u8]) {
    if let Some(settings) = bytes.get(HEADER_BYTES..events_at(SETTINGS)) {
        let value = t_rc_beside(dice, most_t_rc(&words(settings)));
        put(bytes, HEADER_BYTES + 4 * T_RC_SETTING, value);
    }
}

/// The byte offset of some event.
fn some_event(dice: &mut Dice, bytes: &[u8]) -> Option<usize> {
    let start = events_start(bytes);
    let events = bytes.len().checked_sub(start)? / EVENT_BYTES;
    let event = if events == 0 {
        return None;
    } else {
        dice.below(events as u32)
    };
    Some(start + EVENT_BYTES * event as usize)
}

fn change_cycle(dice: &mut Dice, bytes: &mut [u8]) {
    let Some(at) = some_event(dice, bytes) else {
        return;
    };
    let before = if at == events_start(bytes) {
        0
    } else {
        word(bytes, at - EVENT_BYTES)
    };
    let value = dice.pick(&[
        before,
        before.wrapping_sub(1),
        before.wrapping_add(1),
        0,
        LAST_CYCLE,
        LAST_CYCLE + 1,
        1 << 31,
        u32::MAX,
    ]);
    put(bytes, at, value);
}

fn set_spare_pin(dice: &mut Dice, bytes: &mut [u8]) {
    let Some(at) = some_event(dice, bytes) else {
        return;
    };
    let pins = word(bytes, at + 4) | 1 << dice.between(20, 31);
    put(bytes, at + 4, pins);
}

fn scribble(dice: &mut Dice, bytes: &mut [u8]) {
    for _ in 0..dice.between(1, 4) {
        if !bytes.is_empty() {
            let at = dice.below(bytes.len() as u32) as usize;
            bytes[at] = dice.word() as u8;
        }
    }
}
