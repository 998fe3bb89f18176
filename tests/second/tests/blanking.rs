//! Addresses blanked: which pins, which refusals, and that the judge says the same.

mod common;

use common::*;
use second::blank::hidden;
use second::capture::{bytes_of, Capture, Event, SETTINGS};
use second::command::Command::{self, Deselect, Nop};
use second::command::{ADDRESS_PINS, LOW};
use second::generate::{input, other_addresses, Dice, Input};
use second::{blank, cells, judge, Refusal};

const SLEEPY: [u32; 16] = [1, 13, 10, 0x32, 3, 3, 7, 10, 2, 3, 1, 12, 2, 1000, 2, 20];

fn one(settings: &[u32], pins: u32) -> Vec<u8> {
    bytes_of(settings, &[Event { cycle: 7, pins }])
}

fn blanked(capture: &[u8]) -> Vec<u8> {
    let mut out = vec![0; capture.len()];
    assert_eq!(blank(capture, &mut out), Ok(capture.len() as u32));
    out
}

/// With CKE high and, in a capture of 16 settings, low.
fn becomes(settings: [u32; SETTINGS], before: u32, after: u32) {
    assert_eq!(blanked(&one(&settings, before)), one(&settings, after));
    let sleepy = [&settings[..], &[2, 20]].concat();
    assert_eq!(
        blanked(&one(&sleepy, before | LOW)),
        one(&sleepy, after | LOW)
    );
}

#[test]
fn a_column_but_not_a10_nor_the_bank() {
    for command in [read_auto(3), write_auto(1)] {
        becomes(CASE, command.pins() | ADDRESS_PINS, command.pins());
    }
    for command in [read(2), write(0)] {
        for pin in (0..14).filter(|&pin| pin != 10) {
            becomes(CASE, command.pins() | 1 << pin, command.pins());
        }
    }
}

#[test]
fn a_row_that_the_part_has() {
    for (row_bits, rows) in [(12, 0x1000), (13, 0x2000), (14, 0x4000)] {
        let settings = with(CASE, &[(1, row_bits)]);
        let row = |row| Command::Active { bank: 2, row }.pins();
        for hidden in [0, 1, 0x400, rows - 1] {
            becomes(settings, row(hidden), row(0));
        }
        for left in (rows..0x4000).step_by(0x555) {
            becomes(settings, row(left), row(left));
        }
    }
}

#[test]
fn nothing_else() {
    let others = [
        Deselect,
        Nop,
        Command::BurstTerminate,
        Command::AutoRefresh,
        precharge(1),
        PRECHARGE_ALL,
    ];
    for command in others {
        becomes(
            CASE,
            command.pins() | ADDRESS_PINS,
            command.pins() | ADDRESS_PINS,
        );
    }
    let extended = 0b10 << 14 | ADDRESS_PINS;
    becomes(CASE, extended, extended);
    // With CS# high the other pins may look like anything.
    for command in [active(1), read(1), write(1)] {
        let pins = command.pins() | Deselect.pins() | 5;
        becomes(CASE, pins, pins);
    }
}

#[test]
fn refusals_one_to_four_then_seven() {
    let capture = capture(&CASE, &[(0, active(0)), (3, read_from(0, 5))]);
    let spare = one(&CASE, 1 << 20);
    let refusal = |number, place| Err(Refusal { number, place });
    let mut out = vec![9; 200];
    assert_eq!(blank(&capture[1..], &mut out), refusal(1, 0));
    assert_eq!(blank(&spare, &mut out), refusal(4, 0));
    assert_eq!(blank(&capture, &mut out[..95]), refusal(7, 96));
    assert_eq!(blank(&spare, &mut []), refusal(4, 0));
    assert_eq!(out, vec![9; 200]);
    assert_eq!(blank(&capture, &mut out), Ok(96));
    assert_eq!(out[96..], [9; 104]);
}

#[test]
fn the_same_verdict_and_other_cells() {
    let one = capture(&CASE, &[(0, active(0)), (3, read_from(0, 5))]);
    let other = capture(
        &CASE,
        &[
            (0, Command::Active { bank: 0, row: 8191 }),
            (3, read_from(0, 8)),
        ],
    );
    assert_eq!(judge(&one), judge(&other));
    assert_eq!(blanked(&one), blanked(&other));
    let list = |capture: &[u8]| {
        let mut out = [0; 4];
        cells(capture, &mut out).map(|_| out)
    };
    assert_ne!(list(&one), list(&other));
}

/// Of the generated captures, every one that is accepted; half of them have 16 settings.
#[test]
fn judged_alike() {
    let mut dice = Dice::new(4);
    let mut accepted = 0;
    for _ in 0..20_000 {
        let Input::Capture(capture) = input(&mut dice) else {
            continue;
        };
        let Ok(read) = Capture::read(&capture) else {
            continue;
        };
        accepted += 1;
        let other = other_addresses(&mut dice, &capture, &read);
        let blanked = blanked(&capture);
        assert_eq!(judge(&capture), judge(&other));
        assert_eq!(judge(&capture), judge(&blanked));
        assert_eq!(blanked, self::blanked(&other));
        for event in Capture::read(&blanked).expect("accepted").events {
            assert_eq!(event.pins & hidden(&read.settings, event.pins), 0);
        }
    }
    assert!(accepted > 10_000);
}

#[test]
fn the_longest_captures() {
    let quiet = |settings: &[u32]| {
        let events: Vec<Event> = (0..8_000)
            .map(|cycle| Event {
                cycle,
                pins: Nop.pins(),
            })
            .collect();
        bytes_of(settings, &events)
    };
    for capture in [quiet(&CASE), quiet(&SLEEPY)] {
        assert_eq!(blanked(&capture), capture);
    }
}
