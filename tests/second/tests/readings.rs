//! Readings of document 01 that are settled, each with an example that another reading
//! would answer otherwise.

mod common;

use common::*;
use second::capture::{bytes_of, Event, SETTINGS};
use second::command::Command::{self, AutoRefresh, BurstTerminate, Deselect, Nop};
use second::schedule::CLOSED_ROWS;
use second::{cells, replay, schedule, Answer, Refusal};

/// All times 1, so that only the rule in question waits.
const QUICK: [u32; SETTINGS] = [1, 13, 10, 0x32, 1, 1, 1, 1, 1, 1, 1, 1, 1, 1000];
const BL_2: (usize, u32) = (3, 0x31);
const BL_8: (usize, u32) = (3, 0x33);
const BL_16: (usize, u32) = (3, 0x34);
const EXTENDED: u32 = 0b10;

#[test]
fn a_burst_keeps_the_length_it_was_given_with() {
    let settings = with(QUICK, &[(3, 0x21)]);
    let events = [
        (0, active(0)),
        (1, read_auto(0)),
        (4, mode_set(0, 0x24)),
        (5, BurstTerminate),
    ];
    clean(&settings, &events);
}

#[test]
fn a_burst_keeps_the_order_it_was_given_with() {
    let settings = with(QUICK, &[(3, 0x22)]);
    let first = Command::Read {
        bank: 0,
        address: 1,
        auto_precharge: true,
    };
    let second = Command::Read {
        bank: 0,
        address: 1,
        auto_precharge: true,
    };
    let events = [
        (0, active(0)),
        (1, first),
        (10, mode_set(0, 0x2a)),
        (11, active(0)),
        (12, second),
    ];
    assert_eq!(cells_of(&settings, &events), [1, 2, 3, 0, 1, 0, 3, 2]);
}

#[test]
fn reads_cut_reads_of_every_bank() {
    let settings = with(QUICK, &[BL_8]);
    let events = [(0, active(0)), (1, active(1)), (2, read(0)), (4, read(1))];
    let bank_1 = 1 << 23;
    let mut expected = vec![0, 1, 2, 3];
    expected.extend((0..8).map(|column| bank_1 + column));
    assert_eq!(cells_of(&settings, &events), expected);
}

#[test]
fn writes_cut_writes_of_every_bank() {
    let settings = with(QUICK, &[BL_8]);
    let events = [(0, active(0)), (1, active(1)), (2, write(0)), (3, write(1))];
    assert_eq!(cells_of(&settings, &events).len(), 2 + 8);
    // The cut write's data ends at 4, so tWR is over at 5.
    clean(&settings, &[&events[..], &[(5, precharge(0))]].concat());
    breaks(10, &settings, &[&events[..], &[(4, precharge(0))]].concat());
}

#[test]
fn precharge_cuts_only_its_bank() {
    let settings = with(QUICK, &[BL_8]);
    let start = [(0, active(0)), (1, active(1)), (2, read(0))];
    let count = |last| cells_of(&settings, &[&start[..], &[(3, last)]].concat()).len();
    assert_eq!(count(precharge(0)), 2);
    assert_eq!(count(precharge(1)), 8);
    assert_eq!(count(PRECHARGE_ALL), 2);
}

#[test]
fn a_cut_never_gives_pairs_back() {
    let settings = with(QUICK, &[BL_16]);
    let events = [
        (0, active(0)),
        (1, read(0)),
        (3, BurstTerminate),
        (5, BurstTerminate),
    ];
    assert_eq!(cells_of(&settings, &events).len(), 4);
}

#[test]
fn auto_precharge_bursts_are_never_cut() {
    let settings = with(QUICK, &[BL_8]);
    let events = [
        (0, active(0)),
        (1, read_auto(0)),
        (2, PRECHARGE_ALL),
        (3, precharge(0)),
    ];
    assert_eq!(cells_of(&settings, &events).len(), 8);
}

#[test]
fn the_extended_register_waits_and_is_waited_for() {
    let settings = with(CASE, &[(12, 5)]);
    clean(
        &settings,
        &[(0, mode_set(EXTENDED, 0x3fff)), (5, active(0))],
    );
    breaks(4, &settings, &[(0, mode_set(EXTENDED, 0)), (4, active(0))]);
    breaks(3, &CASE, &[(0, active(0)), (20, mode_set(EXTENDED, 0))]);
    let closing = [(0, active(0)), (7, precharge(0))];
    breaks(
        5,
        &CASE,
        &[&closing[..], &[(9, mode_set(EXTENDED, 0))]].concat(),
    );
    clean(
        &CASE,
        &[&closing[..], &[(10, mode_set(EXTENDED, 0))]].concat(),
    );
    let settings = with(QUICK, &[BL_16]);
    let reading = [(0, active(0)), (1, read_auto(0))];
    breaks(
        12,
        &settings,
        &[&reading[..], &[(11, mode_set(EXTENDED, 0))]].concat(),
    );
    clean(
        &settings,
        &[&reading[..], &[(12, mode_set(EXTENDED, 0))]].concat(),
    );
}

#[test]
fn the_extended_register_leaves_the_mode_alone() {
    let events = [(0, mode_set(EXTENDED, 0x21)), (5, active(0)), (8, read(0))];
    assert_eq!(cells_of(&CASE, &events).len(), 4);
}

#[test]
fn other_registers_break_rule_2() {
    breaks(2, &CASE, &[(0, mode_set(0b01, 0))]);
    breaks(2, &CASE, &[(0, mode_set(0b11, 0x32))]);
    breaks(2, &CASE, &[(0, mode_set(0b00, 0x30))]);
    breaks(2, &CASE, &[(0, mode_set(0b00, 0xb2))]);
    clean(&CASE, &[(0, mode_set(0b00, 0x2c))]);
}

#[test]
fn auto_precharge_of_a_read_forgets_an_earlier_write() {
    // With tWR 100 a PRECHARGE would have to wait; the auto precharge of the read does not.
    let settings = with(QUICK, &[(9, 100)]);
    let events = [
        (0, active(0)),
        (1, write(0)),
        (5, read_auto(0)),
        (8, active(0)),
    ];
    clean(&settings, &events);
    // And after that ACTIVE the write is forgotten by rule 10 too.
    clean(&settings, &[&events[..], &[(9, precharge(0))]].concat());
}

#[test]
fn idle_precharge_and_terminate_only_obey_rules_4_and_14() {
    let idle = [
        (0, BurstTerminate),
        (1, precharge(2)),
        (2, PRECHARGE_ALL),
        (3, active(2)),
    ];
    clean(&CASE, &idle);
    for command in [BurstTerminate, precharge(0), PRECHARGE_ALL] {
        breaks(4, &CASE, &[(0, AutoRefresh), (11, command)]);
        breaks(14, &CASE, &[(9000, command)]);
    }
}

#[test]
fn precharge_in_an_auto_precharge_burst_meets_an_idle_bank() {
    let events = [
        (0, active(0)),
        (3, read_auto(0)),
        (4, precharge(0)),
        (10, active(0)),
    ];
    clean(&CASE, &events);
    let again = [
        (0, active(0)),
        (7, precharge(0)),
        (9, precharge(0)),
        (10, active(0)),
    ];
    clean(&CASE, &again);
}

#[test]
fn a_refresh_is_held_to_rule_14_itself() {
    clean(&CASE, &[(8999, AutoRefresh), (9999, Deselect)]);
    breaks(14, &CASE, &[(9000, AutoRefresh)]);
    breaks(14, &CASE, &[(8999, AutoRefresh), (10_000, Nop)]);
}

#[test]
fn events_on_cycle_0_count() {
    clean(&CASE, &[(0, AutoRefresh)]);
    breaks(4, &CASE, &[(0, AutoRefresh), (11, AutoRefresh)]);
}

#[test]
fn a_faulty_event_names_its_lowest_rule() {
    // An ACTIVE of an open bank, too soon, too high a row and with many refreshes owed.
    let high = Command::Active {
        bank: 0,
        row: 1 << 13,
    };
    breaks(1, &CASE, &[(0, active(0)), (20_000, high)]);
    breaks(3, &CASE, &[(0, active(0)), (20_000, active(0))]);
}

#[test]
fn row_pins_within_the_part_are_free() {
    clean(
        &CASE,
        &[(
            0,
            Command::Active {
                bank: 0,
                row: (1 << 13) - 1,
            },
        )],
    );
    clean(
        &with(CASE, &[(1, 14)]),
        &[(
            0,
            Command::Active {
                bank: 0,
                row: (1 << 14) - 1,
            },
        )],
    );
    breaks(
        1,
        &with(CASE, &[(1, 12)]),
        &[(
            0,
            Command::Active {
                bank: 0,
                row: 1 << 12,
            },
        )],
    );
}

#[test]
fn column_pins() {
    let columns = |bits: u32, address: u32| {
        let settings = with(CASE, &[(2, bits), BL_2]);
        cells_of(&settings, &[(0, active(0)), (3, read_from(0, address))])[0]
    };
    let every_pin_but_a10 = 0x3bff;
    assert_eq!(columns(8, every_pin_but_a10), 0xff);
    assert_eq!(columns(9, every_pin_but_a10), 0x1ff);
    assert_eq!(columns(10, every_pin_but_a10), 0x3ff);
    assert_eq!(columns(11, every_pin_but_a10), 0x7ff);
    assert_eq!(columns(11, 1 << 11), 1 << 10);
}

#[test]
fn cells_are_numbered_by_bank_row_and_column() {
    let row_5 = Command::Active { bank: 3, row: 5 };
    let cells = cells_of(&with(CASE, &[BL_2]), &[(0, row_5), (3, read_from(3, 6))]);
    let first = ((3 << 13) + 5) * 1024 + 6;
    assert_eq!(cells, [first, first + 1]);
}

#[test]
fn refusal_4_comes_before_any_judging() {
    let mut events = vec![Event {
        cycle: 0,
        pins: read(0).pins(),
    }];
    events.push(Event {
        cycle: 1,
        pins: 1 << 20,
    });
    refuses(4, 1, &bytes_of(&CASE, &events));
    events[1] = Event {
        cycle: 0,
        pins: Nop.pins(),
    };
    refuses(4, 1, &bytes_of(&CASE, &events));
    events[1] = Event {
        cycle: 2_000_000_001,
        pins: Nop.pins(),
    };
    refuses(4, 1, &bytes_of(&CASE, &events));
    events[1] = Event {
        cycle: 2_000_000_000,
        pins: Nop.pins(),
    };
    let expected = Answer::Broken {
        rule: 3,
        event: 0,
        cycle: 0,
        judged: 0,
    };
    assert_eq!(second::judge(&bytes_of(&CASE, &events)), expected);
}

#[test]
fn the_lowest_bad_setting_counts_range_and_mode_alike() {
    refuses(3, 3, &bytes_of(&with(CASE, &[(3, 0x02), (4, 0)]), &[]));
    refuses(3, 3, &bytes_of(&with(CASE, &[(3, 0x42)]), &[]));
    refuses(3, 3, &bytes_of(&with(CASE, &[(3, 128)]), &[]));
    refuses(3, 0, &bytes_of(&with(CASE, &[(0, 3), (3, 0x02)]), &[]));
    refuses(3, 13, &bytes_of(&with(CASE, &[(13, 1_000_001)]), &[]));
}

#[test]
fn header_refusals() {
    let good = bytes_of(&CASE, &[]);
    let changed = |at: usize, word: u32| {
        let mut bytes = good.clone();
        bytes[4 * at..4 * at + 4].copy_from_slice(&word.to_le_bytes());
        bytes
    };
    refuses(1, 0, &[]);
    refuses(1, 0, &good[..79]);
    refuses(1, 0, &changed(0, 88));
    refuses(1, 0, &[&good[..], &[0]].concat());
    refuses(1, 0, &changed(1, 16)); // 16 settings end at byte 88
    refuses(2, 0, &changed(1, 15));
    refuses(2, 0, &changed(2, 28));
    refuses(2, 0, &changed(3, 1));
    refuses(2, 0, &changed(3, 1 << 29)); // 8 x 2^29 would wrap to 0 in 32 bits
    refuses(2, 0, &changed(4, 88));
    refuses(2, 0, &changed(5, 2));
    refuses(2, 0, &changed(5, u32::MAX));
}

#[test]
fn the_longest_capture() {
    let events: Vec<Event> = (0..8_000)
        .map(|cycle| Event {
            cycle,
            pins: Nop.pins(),
        })
        .collect();
    let bytes = bytes_of(&CASE, &events);
    assert_eq!(bytes.len(), 64_080);
    assert_eq!(second::judge(&bytes), Answer::Clean { judged: 8_000 });
    let mut longer = events.clone();
    longer.push(Event {
        cycle: 8_000,
        pins: Nop.pins(),
    });
    refuses(1, 0, &bytes_of(&CASE, &longer));
}

#[test]
fn burst_cells_are_refused_by_8_before_7() {
    let mut out = [7; 3];
    let broken = capture(&CASE, &[(0, active(0)), (2, read(0))]);
    assert_eq!(
        cells(&broken, &mut out[..0]),
        Err(Refusal {
            number: 8,
            place: 1
        })
    );
    let whole = capture(&CASE, &[(0, active(0)), (3, read(0))]);
    assert_eq!(
        cells(&whole, &mut out),
        Err(Refusal {
            number: 7,
            place: 4
        })
    );
    assert_eq!(out, [7; 3], "a refused call leaves the buffer");
    let mut out = [7; 6];
    assert_eq!(cells(&whole, &mut out), Ok(4));
    assert_eq!(out, [0, 1, 2, 3, 7, 7]);
}

#[test]
fn schedule_refusals_in_their_order() {
    let refusal = |settings: &[u32], requests: &[u32], room: usize| {
        let mut out = vec![7; room];
        let refusal = schedule(settings, requests, CLOSED_ROWS, &mut out).expect_err("a refusal");
        assert!(
            out.iter().all(|&byte| byte == 7),
            "a refused call leaves the buffer"
        );
        (refusal.number, refusal.place)
    };
    let part_end = 4 << 23;
    assert_eq!(refusal(&CASE[..13], &[part_end], 0), (2, 0));
    assert_eq!(
        refusal(&[&CASE[..], &[2, 20]].concat(), &[part_end], 0),
        (2, 0)
    );
    assert_eq!(refusal(&with(CASE, &[(5, 0)]), &[part_end], 0), (3, 5));
    assert_eq!(refusal(&CASE, &vec![part_end; 2_001], 0), (5, 2_000));
    assert_eq!(refusal(&CASE, &[0, part_end, 1 << 27], 0), (5, 1));
    assert_eq!(refusal(&CASE, &[0, 0, 1 << 30], 0), (5, 2));
    let impossible = with(CASE, &[(13, 1)]);
    assert_eq!(refusal(&impossible, &[0, part_end], 0), (5, 1));
    assert_eq!(refusal(&impossible, &[0, 0], 0), (6, 0));
    assert_eq!(refusal(&CASE, &[0], 95), (7, 96));
    assert_eq!(refusal(&CASE, &[], 79), (7, 80));
}

#[test]
fn schedules_leave_the_bytes_behind_them() {
    let mut out = [7; 90];
    assert_eq!(schedule(&CASE, &[], CLOSED_ROWS, &mut out), Ok(80));
    assert_eq!(out[..80], bytes_of(&CASE, &[]));
    assert_eq!(out[80..], [7; 10]);
}

#[test]
fn the_last_cell_of_a_large_part() {
    let settings = with(CASE, &[(1, 14), (2, 11), BL_2]);
    let last = (1 << 27) - 1;
    let capture = schedule_of(&settings, &[last]).expect("the cell exists");
    let mut out = [0; 2];
    assert_eq!(cells(&capture, &mut out), Ok(2));
    assert_eq!(out, [last, last - 1]);
}

#[test]
fn masks_keep_lanes_and_cut_beats_still_take_their_words() {
    let settings = with(QUICK, &[(0, 1)]);
    let capture = capture(
        &settings,
        &[
            (0, active(0)),
            (1, write_to(0, 0)),
            (2, write_to(0, 4)),
            (9, read_from(0, 0)),
        ],
    );
    let supplied = [
        (0xffff_1111, 0),
        (0x2222, 1),
        (0x3333, 0),
        (0x4444, 0), // cut to one pair
        (0x5555, 2),
        (0x6666, 3),
        (0x7777, 0),
        (0x8888, 0),
    ];
    let mut next = supplied.iter();
    let outcome = replay(&capture, &|_| 0xabcd_abcd, &mut || {
        *next.next().expect("a word")
    })
    .expect("clean");
    assert_eq!(outcome.words_read, [0x1111, 0x22cd, 0xabcd, 0xabcd]);
    let stored: Vec<Option<&u32>> = (4..8).map(|cell| outcome.stored.get(&cell)).collect();
    assert_eq!(
        stored,
        [Some(&0xab55), Some(&0xabcd), Some(&0x7777), Some(&0x8888)]
    );
    assert!(next.next().is_none());
}

#[test]
fn four_lanes() {
    let settings = with(QUICK, &[(0, 2), BL_2]);
    let capture = capture(&settings, &[(0, active(0)), (1, write(0)), (9, read(0))]);
    let mut next = [(0x1122_3344, 0b0101), (0x5566_7788, 0b1000)].into_iter();
    let outcome = replay(&capture, &|_| 0xaabb_ccdd, &mut || {
        next.next().expect("a word")
    })
    .expect("clean");
    assert_eq!(outcome.words_read, [0x11bb_33dd, 0xaa66_7788]);
}
