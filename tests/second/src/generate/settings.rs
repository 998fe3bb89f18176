//! Valid settings: mostly short times, so that rules meet often; some of real parts, some
//! at the limits.

use super::Dice;
use crate::capture::{
    Edition, LIMITS, MODE_SETTING, SETTINGS, T_RAS_SETTING, T_RC_SETTING, T_REFI_SETTING,
    T_RP_SETTING,
};

const PARTS: &str = include_str!("../../../data/part-settings.csv");
/// The column of the parts' table where the 14 settings start.
const FIRST_COLUMN: usize = 3;
const TIMES: std::ops::Range<usize> = 4..13;
const T_WR: usize = 9;
const T_WTR: usize = 10;

#[derive(Clone, Copy, Debug, PartialEq, Eq)]
pub enum Kind {
    Short,
    /// Long bursts and hardly any waits: bursts of several banks overlap.
    Tight,
    RealPart,
    /// Times up to 10,000 cycles: few events, or the trying of cycles takes too long.
    Limits,
}

pub fn kind(dice: &mut Dice) -> Kind {
    match dice.below(100) {
        0..=74 => Kind::Short,
        75..=96 => Kind::RealPart,
        _ => Kind::Limits,
    }
}

/// The settings of a capture: in half of them tXP and tXSR follow, and it may sleep.
pub fn capture_settings(dice: &mut Dice, edition: Edition, kind: Kind) -> Vec<u32> {
    let mut list = settings(dice, kind).to_vec();
    if edition == Edition::One && kind != Kind::Limits {
        lengthen_write_waits(dice, &mut list);
    }
    if dice.percent(50) {
        list.extend(wake(dice, kind));
    }
    list
}

/// tWR and tWTR that differ from each other and often outlast a burst, so that a write is
/// cut twice, or when its data has long been on the bus.
fn lengthen_write_waits(dice: &mut Dice, list: &mut [u32]) {
    if dice.once_in(60) {
        for place in [T_WR, T_WTR] {
            list[place] = dice.between(1_000, LIMITS[place].1);
        }
        list[T_REFI_SETTING] = dice.between(10_000, LIMITS[T_REFI_SETTING].1);
        return;
    }
    for place in [T_WR, T_WTR] {
        let (usual, some, many) = (list[place], dice.between(1, 12), dice.between(1, 40));
        list[place] = dice.pick(&[usual, usual, 1, some, many]);
    }
}

/// tXP and tXSR.
fn wake(dice: &mut Dice, kind: Kind) -> [u32; 2] {
    match kind {
        Kind::Short | Kind::Tight => [dice.between(1, 8), dice.between(1, 30)],
        Kind::RealPart => [dice.between(1, 3), dice.between(20, 40)],
        Kind::Limits => [at_a_limit(dice, 14), at_a_limit(dice, 15)],
    }
}

pub fn settings(dice: &mut Dice, kind: Kind) -> [u32; SETTINGS] {
    let mut settings = match kind {
        Kind::Short => short(dice),
        Kind::Tight => tight(dice),
        Kind::RealPart => real_part(dice),
        Kind::Limits => limits(dice),
    };
    settings[T_RC_SETTING] = settings[T_RC_SETTING].min(most_t_rc(&settings));
    settings
}

/// The most that tRC may be, by tRAS and tRP; either may be anything in a damaged list.
pub fn most_t_rc(settings: &[u32]) -> u32 {
    settings[T_RAS_SETTING].wrapping_add(settings[T_RP_SETTING])
}

/// A tRC around the most that it may be.
pub fn t_rc_beside(dice: &mut Dice, most: u32) -> u32 {
    let (above, far_above) = (most.wrapping_add(1), LIMITS[T_RC_SETTING].1);
    dice.pick(&[most, above, above, most.wrapping_add(2), far_above])
}

/// Any of the 16 valid mode words.
pub fn mode(dice: &mut Dice) -> u32 {
    let length_code = dice.between(1, 4);
    let order = dice.below(2);
    let latency = dice.between(2, 3);
    latency << 4 | order << 3 | length_code
}

fn organisation(dice: &mut Dice) -> [u32; 4] {
    let mode = mode(dice);
    [
        dice.between(1, 2),
        dice.between(12, 14),
        dice.between(8, 11),
        mode,
    ]
}

fn short(dice: &mut Dice) -> [u32; SETTINGS] {
    let mut settings = [0; SETTINGS];
    settings[..4].copy_from_slice(&organisation(dice));
    let longest = dice.pick(&[1, 3, 6, 12]);
    for time in &mut settings[TIMES] {
        *time = dice.between(1, longest);
    }
    // tWR decides only where it outlasts the other waits; tRC is cut to its most.
    for place in [T_RC_SETTING, T_WR] {
        if dice.percent(50) {
            settings[place] = dice.between(longest, 5 * longest);
        }
    }
    settings[T_REFI_SETTING] = match dice.below(10) {
        0 => dice.between(1, 8),
        1 => dice.between(8, 25),
        2..=5 => dice.between(25, 120),
        _ => dice.between(120, 400),
    };
    settings
}

fn tight(dice: &mut Dice) -> [u32; SETTINGS] {
    let mut settings = [0; SETTINGS];
    settings[..4].copy_from_slice(&organisation(dice));
    if dice.percent(70) {
        let length_code = dice.between(3, 4);
        settings[MODE_SETTING] = settings[MODE_SETTING] & !7 | length_code;
    }
    for time in &mut settings[TIMES] {
        *time = dice.pick(&[1, 1, 1, 2, 3]);
    }
    settings[T_REFI_SETTING] = dice.between(25, 120);
    settings
}

fn real_part(dice: &mut Dice) -> [u32; SETTINGS] {
    let lines: Vec<&str> = PARTS.lines().skip(1).collect();
    let fields: Vec<&str> = dice.pick(&lines).split(',').collect();
    let mut settings = [0; SETTINGS];
    for (setting, field) in settings.iter_mut().zip(&fields[FIRST_COLUMN..]) {
        *setting = field.parse().expect("a setting of a part is a decimal");
    }
    if dice.percent(70) {
        settings[MODE_SETTING] = mode(dice);
    }
    settings
}

fn limits(dice: &mut Dice) -> [u32; SETTINGS] {
    let mut settings = [0; SETTINGS];
    settings[..4].copy_from_slice(&organisation(dice));
    for place in TIMES.chain([T_REFI_SETTING]) {
        settings[place] = at_a_limit(dice, place);
    }
    settings
}

fn at_a_limit(dice: &mut Dice, place: usize) -> u32 {
    let (least, most) = LIMITS[place];
    let anywhere = dice.between(least, most);
    dice.pick(&[least, least, least + 1, most - 1, most, anywhere])
}
