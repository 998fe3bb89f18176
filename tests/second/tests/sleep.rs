//! Captures with sleep in them: the worked lines of the customers' first request, clean
//! and broken, and its settled readings.

mod common;

use common::*;
use second::capture::{bytes_of, Event, SLEEP_SETTINGS};
use second::command::Asked;
use second::command::Command::{self, AutoRefresh, BurstTerminate, Deselect, Nop};
use second::Answer;

/// The settings of the cases with tXP 2 and tXSR 20.
const SLEEPY: [u32; SLEEP_SETTINGS] = [1, 13, 10, 0x32, 3, 3, 7, 10, 2, 3, 1, 12, 2, 1000, 2, 20];
const EXTENDED: u32 = 0b10;

const NOP: Asked = high(Nop);
const NOP_LOW: Asked = low(Nop);
const REFRESH_LOW: Asked = low(AutoRefresh);

const fn high(command: Command) -> Asked {
    Asked {
        command,
        low: false,
    }
}

const fn low(command: Command) -> Asked {
    Asked { command, low: true }
}

/// A clean line, and each of the events that its last one is broken with.
#[track_caller]
fn line(before: &[(u32, Asked)], last: (u32, Asked), broken: &[(u32, (u32, Asked))]) {
    clean(&SLEEPY, &[before, &[last]].concat());
    for &(rule, event) in broken {
        breaks(rule, &SLEEPY, &[before, &[event]].concat());
    }
}

#[test]
fn txp() {
    let before = [(0, NOP_LOW), (5, NOP)];
    let active = high(active(0));
    line(&before, (7, active), &[(15, (6, active))]);
}

#[test]
fn the_next_entry_waits() {
    let before = [(0, NOP_LOW), (1, NOP)];
    let broken = [
        (15, (2, NOP_LOW)),
        (15, (2, REFRESH_LOW)),
        (15, (2, high(precharge(0)))),
        (15, (2, high(BurstTerminate))),
    ];
    line(&before, (3, NOP_LOW), &broken);
}

#[test]
fn a_nop_does_not_wait() {
    clean(&SLEEPY, &[(0, NOP_LOW), (1, NOP), (2, NOP)]);
    let deselected = [
        (0, low(Deselect)),
        (1, high(Deselect)),
        (3, high(active(0))),
    ];
    clean(&SLEEPY, &deselected);
}

#[test]
fn txsr() {
    let before = [(5, REFRESH_LOW), (5000, NOP)];
    let active = high(active(0));
    line(&before, (5020, active), &[(15, (5019, active))]);
    line(&before, (5020, NOP_LOW), &[(15, (5019, NOP_LOW))]);
}

#[test]
fn rule_14_counts_anew_after_self_refresh() {
    let before = [(5, REFRESH_LOW), (2500, NOP_LOW), (5000, NOP)];
    line(&before, (13_999, NOP), &[(14, (14_000, NOP))]);
}

#[test]
fn rule_14_in_power_down() {
    let broken = [(14, (9000, NOP)), (14, (9000, high(active(0))))];
    line(&[(0, NOP_LOW)], (8999, NOP), &broken);
    breaks(14, &SLEEPY, &[(0, NOP_LOW), (9000, NOP_LOW)]);
    breaks(14, &SLEEPY, &[(0, NOP_LOW), (500, NOP), (9000, NOP)]);
}

#[test]
fn the_end_of_a_read() {
    let before = [(0, high(active(0))), (3, high(read(0)))];
    line(&before, (8, NOP_LOW), &[(15, (7, NOP_LOW))]);
}

#[test]
fn the_end_of_a_cut_read() {
    let before = [
        (0, high(active(0))),
        (3, high(read(0))),
        (4, high(BurstTerminate)),
    ];
    line(&before, (7, NOP_LOW), &[(15, (6, NOP_LOW))]);
}

#[test]
fn the_end_of_a_write() {
    let before = [(0, high(active(0))), (3, high(write(0)))];
    line(&before, (6, NOP_LOW), &[(15, (5, NOP_LOW))]);
}

#[test]
fn rule_4_of_an_entry() {
    line(
        &[(1, high(AutoRefresh))],
        (13, NOP_LOW),
        &[(4, (12, NOP_LOW))],
    );
    clean(&SLEEPY, &[(1, high(AutoRefresh)), (2, NOP)]);
    let extended = high(mode_set(EXTENDED, 0));
    breaks(4, &SLEEPY, &[(1, extended), (2, low(Deselect))]);
}

#[test]
fn rule_5_of_an_entry() {
    let before = [(0, high(active(0))), (3, high(read_auto(0)))];
    line(&before, (10, REFRESH_LOW), &[(5, (9, REFRESH_LOW))]);
}

#[test]
fn power_down_with_an_open_bank() {
    let events = [
        (0, high(active(0))),
        (1, NOP_LOW),
        (2, NOP),
        (4, high(read(0))),
    ];
    clean(&SLEEPY, &events);
}

#[test]
fn an_entry_is_no_auto_refresh() {
    let settings = with(SLEEPY, &[(11, 500)]);
    clean(
        &settings,
        &[(0, REFRESH_LOW), (1, NOP), (21, high(active(0)))],
    );
}

#[test]
fn wrong_entries() {
    breaks(15, &SLEEPY, &[(0, low(BurstTerminate))]);
    breaks(3, &SLEEPY, &[(0, low(read(0)))]);
    breaks(3, &SLEEPY, &[(0, high(active(0))), (20, REFRESH_LOW)]);
    clean(&SLEEPY, &[(8999, REFRESH_LOW)]);
    breaks(14, &SLEEPY, &[(9000, REFRESH_LOW)]);
    breaks(15, &SLEEPY, &[(0, low(active(0)))]);
}

#[test]
fn while_low() {
    let high_row = Command::Active {
        bank: 0,
        row: 1 << 13,
    };
    breaks(3, &SLEEPY, &[(0, NOP_LOW), (5, low(read(0)))]);
    breaks(1, &SLEEPY, &[(0, NOP_LOW), (5, low(high_row))]);
    breaks(3, &SLEEPY, &[(0, NOP_LOW), (5, high(read(0)))]);
    breaks(15, &SLEEPY, &[(0, NOP_LOW), (5, low(precharge(0)))]);
    breaks(15, &SLEEPY, &[(0, REFRESH_LOW), (10_000, high(active(0)))]);
    breaks(15, &SLEEPY, &[(0, REFRESH_LOW), (10_000, low(active(0)))]);
}

#[test]
fn self_refresh_inside_a_read_is_rule_12() {
    let settings = with(SLEEPY, &[(5, 1), (6, 1), (7, 2)]);
    let before = [(0, high(active(0))), (3, high(read_auto(0)))];
    breaks(12, &settings, &[&before[..], &[(7, REFRESH_LOW)]].concat());
    clean(&settings, &[&before[..], &[(8, REFRESH_LOW)]].concat());
}

#[test]
fn power_down_does_not_restart_rule_14() {
    let before = [(0, NOP_LOW), (900, NOP)];
    line(&before, (8999, NOP), &[(14, (9000, NOP))]);
}

#[test]
fn a_capture_may_end_asleep() {
    clean(&SLEEPY, &[(0, NOP_LOW)]);
    clean(&SLEEPY, &[(0, REFRESH_LOW)]);
    clean(&SLEEPY, &[(0, REFRESH_LOW), (2_000_000_000, NOP_LOW)]);
}

#[test]
fn an_open_bank_waits_for_txp_too() {
    // tRCD is over at 3, tXP at 8.
    let before = [(0, high(active(0))), (1, NOP_LOW), (6, NOP)];
    line(&before, (8, high(read(0))), &[(15, (7, high(read(0))))]);
}

#[test]
fn burst_cells_of_a_capture_that_sleeps() {
    let events = [
        (0, high(active(0))),
        (3, high(read_from(0, 5))),
        (8, NOP_LOW),
        (30, NOP),
        (32, high(read_from(0, 8))),
    ];
    assert_eq!(cells_of(&SLEEPY, &events), [5, 6, 7, 4, 8, 9, 10, 11]);
}

fn changed(capture: &[u8], at: usize, word: u32) -> Vec<u8> {
    let mut bytes = capture.to_vec();
    bytes[4 * at..4 * at + 4].copy_from_slice(&word.to_le_bytes());
    bytes
}

/// So many bytes that state their own length, with a count of settings.
fn of_length(bytes: usize, count: u32) -> Vec<u8> {
    let mut capture = bytes_of(&SLEEPY, &[]);
    capture.resize(bytes, 0);
    changed(&changed(&capture, 0, bytes as u32), 1, count)
}

#[test]
fn lengths() {
    refuses(2, 0, &of_length(64_084, 16));
    refuses(2, 0, &of_length(64_088, 16)); // the event count says 0
    refuses(1, 0, &of_length(64_089, 16));
    refuses(1, 0, &of_length(64_084, 14));
    refuses(1, 0, &of_length(64_084, 15));
    refuses(1, 0, &of_length(87, 16));
    refuses(2, 0, &of_length(87, 17));
    refuses(1, 0, &of_length(80, 16));
    refuses(2, 0, &of_length(80, 15));
    refuses(1, 0, &of_length(79, 15));
}

#[test]
fn header_refusals() {
    let good = bytes_of(&SLEEPY, &[]);
    assert_eq!(good.len(), 88);
    clean::<Asked>(&SLEEPY, &[]);
    refuses(1, 0, &changed(&good, 0, 80));
    refuses(2, 0, &changed(&good, 1, 14));
    refuses(2, 0, &changed(&good, 1, 17));
    refuses(2, 0, &changed(&good, 2, 28));
    refuses(2, 0, &changed(&good, 3, 1));
    refuses(2, 0, &changed(&good, 4, 80));
    refuses(2, 0, &changed(&good, 5, 2));
    refuses(2, 0, &changed(&good, 5, u32::MAX));
}

#[test]
fn the_two_settings() {
    for place in [14, 15] {
        for value in [0, 10_001] {
            refuses(
                3,
                place as u32,
                &bytes_of(&with(SLEEPY, &[(place, value)]), &[]),
            );
        }
        clean::<Asked>(&with(SLEEPY, &[(place, 10_000)]), &[]);
    }
}

#[test]
fn pins() {
    let event = |pins| [Event { cycle: 0, pins }];
    refuses(4, 0, &bytes_of(&SLEEPY, &event(Nop.pins() | 1 << 21)));
    refuses(4, 0, &bytes_of(&SLEEPY[..14], &event(NOP_LOW.pins())));
    assert_eq!(
        second::judge(&bytes_of(&SLEEPY, &event(NOP_LOW.pins()))),
        Answer::Clean { judged: 1 }
    );
}

#[test]
fn the_longest_capture() {
    let events: Vec<(u32, Asked)> = (0..8_000).map(|cycle| (cycle, NOP_LOW)).collect();
    assert_eq!(capture(&SLEEPY, &events).len(), 64_088);
    clean(&SLEEPY, &events);
}
