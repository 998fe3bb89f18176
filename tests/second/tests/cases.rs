//! Document 01's cases a to m, line by line.

mod common;

use common::*;
use second::capture::{Capture, Mode, SETTINGS};
use second::command::Command::{self, AutoRefresh, BurstTerminate, Nop};
use second::Refusal;

const INTERLEAVED: u32 = 0x3a;

#[test]
fn case_a_no_events() {
    clean::<Command>(&CASE, &[]);
}

#[test]
fn case_b_read_waits_for_the_row() {
    clean(&CASE, &[(0, active(0)), (3, read(0))]);
    breaks(8, &CASE, &[(0, active(0)), (2, read(0))]);
}

#[test]
fn case_c_precharge_after_a_write() {
    let until = |cycle| [(0, active(0)), (3, write(0)), (cycle, precharge(0))];
    clean(&CASE, &until(9));
    breaks(10, &CASE, &until(8));
    breaks(9, &CASE, &until(6));
}

#[test]
fn case_d_two_banks() {
    clean(&CASE, &[(0, active(0)), (2, active(1))]);
    breaks(7, &CASE, &[(0, active(0)), (1, active(1))]);
}

#[test]
fn case_e_write_after_a_read() {
    clean(&CASE, &[(0, active(0)), (3, read(0)), (8, write(0))]);
    breaks(12, &CASE, &[(0, active(0)), (3, read(0)), (7, write(0))]);
}

#[test]
fn case_f_write_after_a_cut_read() {
    let until = |cycle| {
        [
            (0, active(0)),
            (3, read(0)),
            (4, BurstTerminate),
            (cycle, write(0)),
        ]
    };
    clean(&CASE, &until(7));
    breaks(12, &CASE, &until(6));
}

#[test]
fn case_g_active_after_auto_precharge() {
    let until = |cycle| [(0, active(0)), (3, read_auto(0)), (cycle, active(0))];
    clean(&CASE, &until(10));
    breaks(5, &CASE, &until(9));
    // tRC above tRAS + tRP: the settings contradict each other.
    refuses(3, 7, &capture(&with(CASE, &[(7, 11)]), &until(10)));
}

#[test]
fn case_h_read_after_a_write() {
    clean(&CASE, &[(0, active(0)), (3, write(0)), (7, read(0))]);
    breaks(11, &CASE, &[(0, active(0)), (3, write(0)), (6, read(0))]);
}

#[test]
fn case_i_active_after_a_refresh() {
    clean(&CASE, &[(1, AutoRefresh), (13, active(0))]);
    breaks(4, &CASE, &[(1, AutoRefresh), (12, active(0))]);
}

#[test]
fn case_j_refreshes_owed() {
    clean(&CASE, &[(8999, Nop)]);
    breaks(14, &CASE, &[(9000, Nop)]);
}

#[test]
fn case_k_burst_cells() {
    let one = [(0, active(0)), (3, read_from(0, 5))];
    assert_eq!(cells_of(&CASE, &one), [5, 6, 7, 4]);
    assert_eq!(
        cells_of(&with(CASE, &[(3, INTERLEAVED)]), &one),
        [5, 4, 7, 6]
    );
    let two = [(0, active(0)), (3, read_from(0, 5)), (4, read_from(0, 8))];
    assert_eq!(cells_of(&CASE, &two), [5, 6, 8, 9, 10, 11]);
}

#[test]
fn case_l_no_burst_terminate_in_a_write() {
    breaks(
        13,
        &CASE,
        &[(0, active(0)), (3, write(0)), (4, BurstTerminate)],
    );
}

/// The four requests of case m: two of bank 0 and two of bank 1, one of them a write.
fn requests_of_m() -> [u32; 4] {
    const WRITE: u32 = 1 << 31;
    const BANK_1: u32 = 8_388_608;
    [5, WRITE | BANK_1, 5, BANK_1]
}

fn with_t_refi(cycles: u32) -> [u32; SETTINGS] {
    with(CASE, &[(13, cycles)])
}

fn refusal_6(place: u32) -> Result<Vec<u8>, Refusal> {
    Err(Refusal { number: 6, place })
}

#[test]
fn case_m_a_schedule_without_a_refresh() {
    let read_5 = Command::Read {
        bank: 0,
        address: 5,
        auto_precharge: true,
    };
    let expected = [
        (0, active(0)),
        (3, read_5),
        (4, active(1)),
        (8, write_auto(1)),
        (10, active(0)),
        (13, read_5),
        (17, active(1)),
        (20, read_auto(1)),
    ];
    for t_refi in 4..=1000 {
        let settings = with_t_refi(t_refi);
        assert_eq!(
            schedule_of(&settings, &requests_of_m()),
            Ok(capture(&settings, &expected))
        );
    }
    assert_eq!(schedule_of(&with_t_refi(2), &requests_of_m()), refusal_6(2));
}

#[test]
fn case_m_ten_times_over() {
    let requests = requests_of_m().repeat(10);
    let settings = with_t_refi(24);
    let schedule = schedule_of(&settings, &requests).expect("a schedule");
    let events = Capture::read(&schedule).expect("a capture").events;
    let first = events
        .iter()
        .position(|event| event.asked() == AutoRefresh.into())
        .expect("a refresh");
    // Two events for each request before it.
    assert_eq!((first, events[first].cycle), (2 * 38, 215));
    assert_eq!(schedule_of(&with_t_refi(16), &requests), refusal_6(25));
}

#[test]
fn the_case_mode_is_as_named() {
    let mode = Mode(CASE[3]);
    assert_eq!(
        (mode.latency(), mode.burst_length(), mode.is_interleaved()),
        (3, 4, false)
    );
}
