//! Refreshes that are owed: the worked lines of the customers' third request, its settled
//! readings, and the count held against two other ways to reckon it.

mod common;

use common::*;
use second::capture::SETTINGS;
use second::command::Asked;
use second::command::Command::{self, AutoRefresh, Nop};
use second::generate::Dice;
use second::refresh::{Owed, MOST_OWED};

/// The settings of the cases with tREFI 100.
const OFTEN: [u32; SETTINGS] = [1, 13, 10, 0x32, 3, 3, 7, 10, 2, 3, 1, 12, 2, 100];
/// The same with tXP 2 and tXSR 20.
const SLEEPY: [u32; 16] = [1, 13, 10, 0x32, 3, 3, 7, 10, 2, 3, 1, 12, 2, 100, 2, 20];

const NOP: Asked = Asked {
    command: Nop,
    low: false,
};
const NOP_LOW: Asked = Asked {
    command: Nop,
    low: true,
};
const REFRESH: Asked = Asked {
    command: AutoRefresh,
    low: false,
};
const REFRESH_LOW: Asked = Asked {
    command: AutoRefresh,
    low: true,
};

/// Expects an event to be clean a cycle before a multiple, and at it to break rule 14.
#[track_caller]
fn late_at(settings: &[u32], before: &[(u32, Asked)], multiple: u32, last: Asked) {
    clean(settings, &[before, &[(multiple - 1, last)]].concat());
    breaks(14, settings, &[before, &[(multiple, last)]].concat());
}

#[test]
fn the_ninth_that_is_owed() {
    late_at(&OFTEN, &[], 900, NOP);
    late_at(&OFTEN, &[], 900, REFRESH);
    late_at(&OFTEN, &[], 900, Command::Deselect.into());
    late_at(&OFTEN, &[], 900, active(0).into());
}

#[test]
fn no_credit() {
    late_at(&OFTEN, &[(50, REFRESH)], 900, NOP);
    let many: Vec<(u32, Asked)> = (0..8).map(|i| (12 * i, REFRESH)).collect();
    late_at(&OFTEN, &many, 900, NOP);
}

#[test]
fn at_a_shared_cycle_the_count_rises_first() {
    late_at(&OFTEN, &[(100, REFRESH)], 1000, NOP);
    late_at(&OFTEN, &[(99, REFRESH)], 900, NOP);
}

#[test]
fn one_refresh_pays_for_one_multiple() {
    late_at(&OFTEN, &[(899, REFRESH)], 1000, NOP);
    let eight: Vec<(u32, Asked)> = (0..8).map(|i| (800 + 12 * i, REFRESH)).collect();
    late_at(&OFTEN, &eight, 1700, NOP);
    let nine: Vec<(u32, Asked)> = (0..9).map(|i| (799 + 12 * i, REFRESH)).collect();
    late_at(&OFTEN, &nine, 1700, NOP);
}

#[test]
fn a_board_that_refreshes_one_time_in_eight() {
    // At 800 eight are owed; the ninth after it comes long before the refresh at 1600.
    late_at(&OFTEN, &[(800, REFRESH)], 1000, NOP);
    breaks(14, &OFTEN, &[(800, REFRESH), (1600, REFRESH)]);
}

#[test]
fn self_refresh_starts_anew() {
    late_at(&SLEEPY, &[(800, REFRESH_LOW), (5050, NOP)], 5950, NOP);
    late_at(&SLEEPY, &[], 900, REFRESH_LOW);
    // Asleep, and as it wakes, nothing is asked.
    clean(&SLEEPY, &[(0, REFRESH_LOW), (5000, NOP_LOW), (6000, NOP)]);
    let refreshed = [(800, REFRESH_LOW), (5050, NOP), (5070, REFRESH)];
    late_at(&SLEEPY, &refreshed, 5950, NOP);
    let refreshed = [(800, REFRESH_LOW), (5050, NOP), (5150, REFRESH)];
    late_at(&SLEEPY, &refreshed, 6050, NOP);
}

#[test]
fn power_down_changes_nothing() {
    late_at(&SLEEPY, &[(800, NOP_LOW)], 900, NOP);
    late_at(&SLEEPY, &[(0, NOP_LOW), (450, NOP)], 900, NOP);
}

#[test]
fn the_last_cycles() {
    let slow = with(SLEEPY, &[(13, 1_000_000)]);
    let before = [(0, REFRESH_LOW), (1_991_000_000, NOP)];
    late_at(&slow, &before, 2_000_000_000, NOP);
    let later = [(0, REFRESH_LOW), (1_991_000_001, NOP)];
    clean(&slow, &[&later[..], &[(2_000_000_000, NOP)]].concat());
}

/// The count as a walk over every cycle.
struct Walk {
    t_refi: u64,
    from: u64,
    cycle: u64,
    owed: u64,
}

impl Walk {
    fn go_to(&mut self, cycle: u64) {
        while self.cycle < cycle {
            self.cycle += 1;
            if (self.cycle - self.from) % self.t_refi == 0 {
                self.owed += 1;
            }
        }
    }
}

/// The last cycle in time, as the C keeps it, and what a refresh makes of it.
fn due_after_refresh(due: u64, cycle: u64, t_refi: u64) -> u64 {
    if due < cycle + 8 * t_refi {
        due + t_refi
    } else {
        due
    }
}

#[test]
fn three_ways_to_reckon() {
    let mut dice = Dice::new(1);
    for _ in 0..20_000 {
        let t_refi: u64 = dice.pick(&[1, 2, 3, 7, 20]);
        let step = dice.pick(&[3, 20, 60]);
        let mut owed = Owed::none_at(0, t_refi);
        let mut walk = Walk {
            t_refi,
            from: 0,
            cycle: 0,
            owed: 0,
        };
        let mut due = 9 * t_refi - 1;
        let mut cycle = u64::from(dice.below(step));
        for _ in 0..dice.below(60) {
            walk.go_to(cycle);
            assert_eq!(owed.at(cycle), walk.owed);
            assert_eq!(cycle <= due, walk.owed <= MOST_OWED);
            assert_eq!(owed.too_many_from(), due + 1);
            match dice.below(8) {
                0 => {
                    owed = Owed::none_at(cycle, t_refi);
                    (walk.from, walk.owed) = (cycle, 0);
                    due = cycle + 9 * t_refi - 1;
                }
                // No rule passes more than eight, so nothing lowers such a count.
                1..=5 if walk.owed <= MOST_OWED => {
                    owed.refresh(cycle);
                    walk.owed = walk.owed.saturating_sub(1);
                    due = due_after_refresh(due, cycle, t_refi);
                }
                _ => {}
            }
            cycle += 1 + u64::from(dice.below(step));
        }
    }
}
