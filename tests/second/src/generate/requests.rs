//! Settings, request lists and row policies, good ones and ones for refusals 2, 3, 10, 5 and 6.

use super::settings::{self, Kind};
use super::Dice;
use crate::capture::{LIMITS, MODE_SETTING, SETTINGS, T_RC_SETTING, T_REFI_SETTING};
use crate::schedule::{CLOSED_ROWS, MOST_REQUESTS, OPEN_ROWS};

const WRITE: u32 = 1 << 31;

pub fn request_list(dice: &mut Dice) -> (Vec<u32>, Vec<u32>) {
    let kind = settings::kind(dice);
    let list = settings_with_refreshes(dice, kind);
    let count = request_count(dice, kind);
    let mut requests = good_requests(dice, &list, count);
    if dice.percent(15) {
        spoil_requests(dice, &list, &mut requests);
    }
    let mut list = list.to_vec();
    if dice.percent(15) {
        spoil_settings(dice, &mut list);
    }
    (list, requests)
}

pub fn row_policy(dice: &mut Dice) -> u32 {
    let any = dice.between(2, u32::MAX - 1);
    match dice.below(20) {
        0..=10 => OPEN_ROWS,
        11..=18 => CLOSED_ROWS,
        _ => dice.pick(&[2, 3, 257, u32::MAX, any]),
    }
}

/// Valid settings whose tREFI often lets only a request or two pass between refreshes.
fn settings_with_refreshes(dice: &mut Dice, kind: Kind) -> [u32; SETTINGS] {
    let mut list = settings::settings(dice, kind);
    let times: u32 = list[4..T_REFI_SETTING].iter().sum();
    if dice.percent(60) {
        let few_requests = times / 8 + dice.below(times);
        list[T_REFI_SETTING] = few_requests.clamp(1, LIMITS[T_REFI_SETTING].1);
    }
    list
}

fn request_count(dice: &mut Dice, kind: Kind) -> u32 {
    let most = MOST_REQUESTS as u32;
    match (kind, dice.below(1_000)) {
        (Kind::Limits, 0..=900) => dice.below(7),
        (Kind::Limits, _) => most + 1,
        (_, 0..=3) => most,
        (_, 4..=12) => most + 1,
        (_, 13..=40) => dice.between(51, 200),
        _ => dice.below(51),
    }
}

fn good_requests(dice: &mut Dice, list: &[u32; SETTINGS], count: u32) -> Vec<u32> {
    let (row_bits, column_bits) = (list[1], list[2]);
    let banks = dice.between(1, 4);
    // Few rows, so that one is often found open, or many.
    let rows = dice.pick(&[1, 2, 3, 1 << row_bits]);
    let writes = dice.pick(&[0, 20, 50, 80, 100]);
    (0..count)
        .map(|_| {
            let bank = dice.below(banks);
            let row = dice.below(rows);
            let column = dice.below(1 << column_bits);
            let cell = (((bank << row_bits) + row) << column_bits) + column;
            if dice.percent(writes) {
                WRITE | cell
            } else {
                cell
            }
        })
        .collect()
}

/// Up to three requests that the part cannot serve.
fn spoil_requests(dice: &mut Dice, list: &[u32; SETTINGS], requests: &mut [u32]) {
    if requests.is_empty() {
        return;
    }
    let first_lacking = 4u32 << (list[1] + list[2]);
    for _ in 0..dice.between(1, 3) {
        let place = dice.below(requests.len() as u32) as usize;
        let held = requests[place];
        let spare = 1 << dice.between(27, 30);
        let any_cell = dice.below(1 << 27);
        requests[place] = dice.pick(&[
            first_lacking,
            first_lacking - 1,
            WRITE | first_lacking,
            held | spare,
            u32::MAX,
            any_cell,
        ]);
    }
}

fn spoil_settings(dice: &mut Dice, list: &mut Vec<u32>) {
    match dice.below(7) {
        0 => list.truncate(dice.below(14) as usize),
        1 => {
            for _ in 0..dice.between(1, 3) {
                list.push(dice.between(1, 1_000));
            }
        }
        2 => list[MODE_SETTING] = dice.below(140),
        3 => list[T_RC_SETTING] = settings::t_rc_beside(dice, settings::most_t_rc(list)),
        _ => {
            for _ in 0..dice.between(1, 2) {
                let place = dice.below(SETTINGS as u32) as usize;
                let (least, most) = LIMITS[place];
                list[place] = dice.pick(&[least.wrapping_sub(1), most + 1, u32::MAX, 0]);
            }
        }
    }
}
