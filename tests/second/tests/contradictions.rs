//! Settings that contradict each other: a tRC above tRAS + tRP is refused, by every call.

mod common;

use common::*;
use second::capture::{bytes_of, bytes_of_edition, Event, SETTINGS};
use second::command::Command::{self, Nop};
use second::schedule::CLOSED_ROWS;
use second::{cells, schedule, Refusal};

const T_RC_11: [u32; SETTINGS] = [1, 13, 10, 0x32, 3, 3, 7, 11, 2, 3, 1, 12, 2, 1000];
const OF_T_RC: Refusal = Refusal {
    number: 3,
    place: 7,
};
/// Requests and events that are refused too.
const NO_CELL: u32 = 1 << 27;
const SPARE_PIN: Event = Event {
    cycle: 0,
    pins: 1 << 31,
};

fn with_wake(settings: [u32; SETTINGS], wake: [u32; 2]) -> Vec<u32> {
    [&settings[..], &wake].concat()
}

#[test]
fn up_to_the_sum_and_no_further() {
    for (t_rp, t_ras) in [(3, 7), (1, 1), (1, 9), (9, 1), (4_999, 5_000)] {
        let sum = with(CASE, &[(5, t_rp), (6, t_ras), (7, t_rp + t_ras)]);
        let above = with(sum, &[(7, t_rp + t_ras + 1)]);
        clean::<Command>(&sum, &[]);
        clean::<Command>(&with_wake(sum, [2, 20]), &[]);
        refuses(3, 7, &bytes_of(&above, &[]));
        refuses(3, 7, &bytes_of(&with_wake(above, [2, 20]), &[]));
    }
    let largest = with(CASE, &[(5, 10_000), (6, 10_000), (7, 10_000)]);
    clean::<Command>(&largest, &[]);
}

#[test]
fn every_single_range_comes_first() {
    for (place, value) in [(0, 0), (3, 0x02), (5, 0), (6, 0), (8, 0), (13, 0)] {
        let settings = with(T_RC_11, &[(place, value)]);
        refuses(3, place as u32, &bytes_of(&settings, &[]));
    }
    refuses(3, 14, &bytes_of(&with_wake(T_RC_11, [0, 20]), &[]));
    refuses(3, 15, &bytes_of(&with_wake(T_RC_11, [2, 0]), &[]));
    // A tRC out of its range, and tRAS and tRP for which the sum would wrap.
    refuses(3, 7, &bytes_of(&with(CASE, &[(7, 10_001)]), &[]));
    let wrapping = with(CASE, &[(5, u32::MAX), (6, u32::MAX)]);
    refuses(3, 5, &bytes_of(&wrapping, &[]));
}

#[test]
fn the_other_refusals_of_a_capture() {
    refuses(3, 7, &bytes_of(&T_RC_11, &[SPARE_PIN]));
    let sleepy = with_wake(T_RC_11, [2, 20]);
    refuses(3, 7, &bytes_of(&sleepy, &[SPARE_PIN]));
    refuses(2, 0, &bytes_of_edition(2, &T_RC_11, &[]));
    refuses(3, 7, &bytes_of_edition(1, &T_RC_11, &[]));
    refuses(1, 0, &bytes_of(&T_RC_11, &[])[..79]);
}

#[test]
fn a_good_board_with_a_typing_error() {
    let opened_again = [(0, active(0)), (3, read_auto(0)), (10, active(0))];
    clean(&CASE, &opened_again);
    let settings = with(CASE, &[(7, 100)]);
    refuses(3, 7, &capture(&settings, &opened_again));
}

/// The column `K5` of the parts' table says which sheets this refuses.
#[test]
fn the_sheets() {
    let table = include_str!("../../data/part-settings.csv");
    let mut refused = 0;
    for line in table.lines().skip(1) {
        let fields: Vec<&str> = line.split(',').collect();
        let settings: Vec<u32> = fields[3..3 + SETTINGS]
            .iter()
            .map(|field| field.parse().expect("a setting of a part is a decimal"))
            .collect();
        match fields[20] {
            "ok" => clean::<Command>(&settings, &[]),
            "refused" => {
                refuses(3, 7, &bytes_of(&settings, &[]));
                refused += 1;
            }
            other => panic!("{other}"),
        }
    }
    assert_eq!(refused, 1);
}

#[test]
fn burst_lists_and_schedules() {
    let mut out = [7; 8];
    let broken = capture(&T_RC_11, &[(0, active(0)), (2, read(0))]);
    assert_eq!(cells(&broken, &mut out), Err(OF_T_RC));
    assert_eq!(out, [7; 8], "a refused call leaves the buffer");

    let mut out = [7; 96];
    assert_eq!(
        schedule(&T_RC_11, &[0], CLOSED_ROWS, &mut out),
        Err(OF_T_RC)
    );
    assert_eq!(
        schedule(&T_RC_11, &[NO_CELL], CLOSED_ROWS, &mut out),
        Err(OF_T_RC)
    );
    assert_eq!(
        schedule(&T_RC_11, &[NO_CELL; 2_001], CLOSED_ROWS, &mut out),
        Err(OF_T_RC)
    );
    let of_count = Err(Refusal {
        number: 2,
        place: 0,
    });
    let fifteen = [&T_RC_11[..], &[2]].concat();
    assert_eq!(schedule(&fifteen, &[0], CLOSED_ROWS, &mut out), of_count);
    assert_eq!(
        schedule(&with_wake(T_RC_11, [2, 20]), &[0], CLOSED_ROWS, &mut out),
        of_count
    );
    assert_eq!(out, [7; 96], "a refused call leaves the buffer");
    assert_eq!(schedule(&CASE, &[0], CLOSED_ROWS, &mut out), Ok(96));
}

#[test]
fn nothing_is_judged() {
    let late = [(9000, Nop)];
    breaks(14, &CASE, &late);
    refuses(3, 7, &capture(&T_RC_11, &late));
}
