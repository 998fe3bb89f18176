//! Interrupted writes: the worked lines of the customers' tenth request, its settled readings,
//! the pairs kept in the end found in another way, and what edition 0 is to edition 1.

mod common;

use common::*;
use second::capture::Edition::{self, One, Zero};
use second::capture::{bytes_of_edition, Capture, Settings, EDITION_AT, SETTINGS};
use second::command::Asked;
use second::command::Command::{self, BurstTerminate, Nop};
use second::generate::{input, Dice, Input};
use second::part::{Burst, Direction, LookBack};
use second::schedule::{CLOSED_ROWS, OPEN_ROWS};
use second::verdict::{cells_literally, judge_literally, part_after};
use second::{cells, judge, replay, schedule, Answer};

const SLEEPY: [u32; 16] = [1, 13, 10, 0x32, 3, 3, 7, 10, 2, 3, 1, 12, 2, 1000, 2, 20];
const BL_8: (usize, u32) = (3, 0x33);
const BL_16: (usize, u32) = (3, 0x34);
const T_RAS: usize = 6;
const T_WR: usize = 9;
const T_WTR: usize = 10;
/// The settings of the worked line about two cuts.
const TWO_CUTS: [u32; SETTINGS] = [1, 13, 10, 0x34, 3, 3, 7, 10, 2, 6, 1, 12, 2, 1000];

const NOP_LOW: Asked = Asked {
    command: Nop,
    low: true,
};

fn of_edition<A: Into<Asked> + Copy>(
    edition: Edition,
    settings: &[u32],
    events: &[(u32, A)],
) -> Vec<u8> {
    bytes_of_edition(edition.word(), settings, &events_of(events))
}

/// Expects events of edition 1 to be clean, and each write to keep so many pairs in the end.
#[track_caller]
fn leaves<A: Into<Asked> + Copy>(settings: &[u32], events: &[(u32, A)], pairs: &[u64]) {
    let capture = of_edition(One, settings, events);
    let judged = events.len() as u32;
    assert_eq!(judge(&capture), Answer::Clean { judged });
    let part = part_after(&capture, LookBack::Running).expect("a clean capture");
    let writes = part.bursts.iter().filter(|burst| is_write(burst));
    assert_eq!(writes.map(|write| write.kept).collect::<Vec<_>>(), pairs);
}

/// Expects the last of events of edition 1 to be the first that breaks a rule.
#[track_caller]
fn breaks_newer<A: Into<Asked> + Copy>(rule: u32, settings: &[u32], events: &[(u32, A)]) {
    let event = events.len() as u32 - 1;
    let expected = Answer::Broken {
        rule,
        event,
        cycle: events[events.len() - 1].0,
        judged: event,
    };
    assert_eq!(judge(&of_edition(One, settings, events)), expected);
}

fn cells_in(edition: Edition, settings: &[u32], events: &[(u32, Command)]) -> Vec<u32> {
    let mut out = vec![0; 16 * events.len()];
    let capture = of_edition(edition, settings, events);
    let written = cells(&capture, &mut out).expect("a clean capture");
    out.truncate(written as usize);
    out
}

fn is_write(burst: &Burst) -> bool {
    burst.direction == Direction::Write
}

fn and<A: Copy>(events: &[(u32, A)], last: (u32, A)) -> Vec<(u32, A)> {
    [events, &[last]].concat()
}

// The worked lines.

#[test]
fn read_after_a_write() {
    let written = [(0, active(0)), (3, write(0))];
    leaves(&CASE, &and(&written, (6, read(0))), &[1]);
    assert_eq!(
        cells_in(One, &CASE, &and(&written, (6, read(0)))),
        [0, 1, 0, 1, 2, 3]
    );
    breaks_newer(11, &CASE, &and(&written, (5, read(0))));
    breaks(11, &CASE, &and(&written, (6, read(0))));
    leaves(&CASE, &and(&written, (7, read(0))), &[2]);
}

#[test]
fn precharge_after_a_write() {
    let written = [(0, active(0)), (3, write(0))];
    leaves(&CASE, &and(&written, (8, precharge(0))), &[1]);
    breaks_newer(10, &CASE, &and(&written, (7, precharge(0))));
    breaks(10, &CASE, &and(&written, (8, precharge(0))));
    leaves(&CASE, &and(&written, (9, precharge(0))), &[2]);
    leaves(&CASE, &and(&written, (8, PRECHARGE_ALL)), &[1]);
}

#[test]
fn the_sixth_word() {
    for settings in [&SLEEPY[..14], &SLEEPY] {
        for (word, accepted) in [(0, true), (1, true), (2, false), (3, false)] {
            let capture = bytes_of_edition(word, settings, &[]);
            if accepted {
                assert_eq!(judge(&capture), Answer::Clean { judged: 0 });
            } else {
                refuses(2, 0, &capture);
            }
        }
        for word in [1 << 8, 1 << 16, 1 << 31, u32::MAX] {
            refuses(2, 0, &bytes_of_edition(word, settings, &[]));
        }
    }
    // Lengths are looked at before, settings afterwards.
    refuses(1, 0, &bytes_of_edition(2, &CASE, &[])[..79]);
    refuses(2, 0, &bytes_of_edition(2, &with(CASE, &[(4, 0)]), &[]));
    refuses(3, 4, &bytes_of_edition(1, &with(CASE, &[(4, 0)]), &[]));
}

#[test]
fn a_later_precharge_cuts_further() {
    let read_back = [(0, active(0)), (3, write(0)), (9, read(0))];
    leaves(&TWO_CUTS, &read_back, &[4]);
    leaves(&TWO_CUTS, &and(&read_back, (12, precharge(0))), &[2]);
    breaks_newer(10, &TWO_CUTS, &and(&read_back, (10, precharge(0))));
    // The write's cells are those it keeps in the end, the read's are cut to three pairs.
    let expected: Vec<u32> = (0..4).chain(0..6).collect();
    assert_eq!(
        cells_in(One, &TWO_CUTS, &and(&read_back, (12, precharge(0)))),
        expected
    );
}

#[test]
fn a_bank_closed_by_auto_precharge_is_not_precharged() {
    let closed = [(0, active(0)), (3, write(0)), (9, read_auto(0))];
    leaves(&TWO_CUTS, &and(&closed, (12, precharge(0))), &[4]);
    leaves(&TWO_CUTS, &and(&closed, (12, PRECHARGE_ALL)), &[4]);
}

#[test]
fn burst_terminate_after_a_cut() {
    let cut = [(0, active(0)), (3, write(0)), (9, read(0))];
    leaves(&TWO_CUTS, &and(&cut, (10, BurstTerminate)), &[4]);
    // Uncut, its data goes on until 12.
    breaks_newer(
        13,
        &TWO_CUTS,
        &[(0, active(0)), (3, write(0)), (11, BurstTerminate)],
    );
    let precharged = [(0, active(0)), (3, write(0)), (11, precharge(0))];
    leaves(&TWO_CUTS, &and(&precharged, (12, BurstTerminate)), &[1]);
    let quick = with(TWO_CUTS, &[(T_WR, 1), (T_RAS, 1), (7, 1)]);
    let precharged = [(0, active(0)), (3, write(0)), (6, precharge(0))];
    leaves(&quick, &and(&precharged, (7, BurstTerminate)), &[1]);
}

#[test]
fn a_write_whose_data_has_ended_is_still_cut() {
    let settings = with(CASE, &[(T_WTR, 20)]);
    let closed = [
        (0, active(0)),
        (2, active(1)),
        (3, write(0)),
        (9, precharge(0)),
    ];
    leaves(&settings, &closed, &[2]);
    leaves(&settings, &and(&closed, (25, read(1))), &[1]);
    leaves(&settings, &and(&closed, (26, read(1))), &[2]);
    breaks_newer(11, &settings, &and(&closed, (24, read(1))));
}

#[test]
fn after_auto_precharge_rule_11_is_the_old_one() {
    let written = [(0, active(0)), (2, active(1)), (5, write_auto(0))];
    leaves(&CASE, &and(&written, (9, read(1))), &[2]);
    breaks_newer(11, &CASE, &and(&written, (8, read(1))));
}

#[test]
fn sleep_after_a_cut() {
    let settings = with(SLEEPY, &[BL_16, (T_WR, 1)]);
    let cut: [(u32, Asked); 3] = [
        (0, active(0).into()),
        (5, write(0).into()),
        (8, precharge(0).into()),
    ];
    leaves(&settings, &and(&cut, (9, NOP_LOW)), &[1]);
    breaks_newer(15, &settings, &and(&cut[..2], (9, NOP_LOW)));
    leaves(&settings, &and(&cut[..2], (14, NOP_LOW)), &[8]);
    breaks_newer(15, &settings, &and(&cut[..2], (13, NOP_LOW)));
}

// What they leave open.

#[test]
fn only_the_last_write_is_cut() {
    let settings = with(CASE, &[BL_8]);
    let twice = [(0, active(0)), (3, write(0)), (5, write(0)), (8, read(0))];
    leaves(&settings, &twice, &[2, 1]);
    let apart = [(0, active(0)), (3, write(0)), (7, write(0)), (10, read(0))];
    leaves(&settings, &apart, &[4, 1]);
}

#[test]
fn a_precharge_cuts_a_write_before_the_last() {
    // tWR 10: the data of bank 0 has long ended, and bank 1 has been written since.
    let settings = with(CASE, &[BL_8, (T_WR, 10)]);
    let both = [
        (0, active(0)),
        (2, active(1)),
        (5, write(0)),
        (14, write(1)),
    ];
    leaves(&settings, &and(&both, (17, precharge(0))), &[1, 4]);
    leaves(&settings, &and(&both, (18, precharge(0))), &[2, 4]);
    breaks_newer(10, &settings, &and(&both, (16, precharge(0))));
    breaks_newer(10, &settings, &and(&both, (25, PRECHARGE_ALL)));
    leaves(&settings, &and(&both, (26, PRECHARGE_ALL)), &[4, 1]);
}

#[test]
fn each_bank_has_its_own_last_write() {
    let settings = with(CASE, &[BL_8]);
    let both = [(0, active(0)), (2, active(1)), (5, write(0)), (6, write(1))];
    // Bank 0 was cut to one pair by the write of bank 1.
    leaves(&settings, &and(&both, (10, precharge(0))), &[1, 4]);
    leaves(&settings, &and(&both, (12, precharge(1))), &[1, 2]);
    leaves(&settings, &and(&both, (11, PRECHARGE_ALL)), &[1, 1]);
    breaks_newer(10, &settings, &and(&both, (10, PRECHARGE_ALL)));
}

#[test]
fn a_precharge_of_an_idle_bank_cuts_nothing() {
    let settings = with(CASE, &[BL_8, (T_WR, 30), (T_WTR, 2)]);
    let closed = [(0, active(0)), (3, write(0)), (10, read_auto(0))];
    leaves(&settings, &closed, &[4]);
    // tWR is 30: the difference would be below 0 at 20, one pair at 35.
    for cycle in [20, 33, 34, 35, 36] {
        leaves(&settings, &and(&closed, (cycle, precharge(0))), &[4]);
        leaves(&settings, &and(&closed, (cycle, PRECHARGE_ALL)), &[4]);
    }
}

#[test]
fn a_write_from_before_the_active_is_not_cut() {
    let settings = with(CASE, &[BL_8, (T_WR, 30), (T_WTR, 2)]);
    let opened = [
        (0, active(0)),
        (3, write(0)),
        (10, read_auto(0)),
        (17, active(0)),
    ];
    for cycle in [24, 34, 35, 36] {
        leaves(&settings, &and(&opened, (cycle, precharge(0))), &[4]);
    }
    breaks_newer(9, &settings, &and(&opened, (23, precharge(0))));
    // A READ still cuts it, which asks for no bank.
    let slow = with(settings, &[(T_WTR, 18)]);
    let other = [(0, active(0)), (3, write_to(0, 8)), (35, precharge(0))];
    leaves(&slow, &other, &[1]);
    let read_late = [(0, active(0)), (2, active(1)), (3, write(0)), (24, read(1))];
    leaves(&slow, &read_late, &[2]);
}

#[test]
fn a_precharge_of_another_bank_cuts_nothing() {
    let settings = with(CASE, &[BL_8]);
    let both = [(0, active(0)), (2, active(1)), (5, write(0))];
    leaves(&settings, &and(&both, (10, precharge(1))), &[4]);
    leaves(&settings, &and(&both, (10, precharge(2))), &[4]);
    leaves(&settings, &and(&both, (10, precharge(0))), &[1]);
}

#[test]
fn a_cut_never_gives_pairs_back() {
    let settings = with(CASE, &[BL_16]);
    let cut = [(0, active(0)), (3, write(0)), (6, read(0))];
    leaves(&settings, &cut, &[1]);
    leaves(&settings, &and(&cut, (9, read(0))), &[1]);
    leaves(&settings, &and(&cut, (20, precharge(0))), &[1]);
}

#[test]
fn waits_that_begin_before_cycle_0() {
    // t - tWTR - k - 1 is far below 0.
    let settings = with(CASE, &[(T_WTR, 10_000), (T_WR, 10_000)]);
    let written = [(0, active(0)), (3, write(0))];
    breaks_newer(11, &settings, &and(&written, (4, read(0))));
    breaks_newer(11, &settings, &and(&written, (8_999, read(0))));
    breaks_newer(10, &settings, &and(&written, (8_999, precharge(0))));
    let rare = with(settings, &[(13, 2_000)]);
    leaves(&rare, &and(&written, (10_005, read(0))), &[1]);
    breaks_newer(11, &rare, &and(&written, (10_004, read(0))));
    leaves(&rare, &and(&written, (10_005, precharge(0))), &[1]);
    breaks_newer(10, &rare, &and(&written, (10_004, precharge(0))));
}

#[test]
fn a_read_sees_what_the_write_keeps_in_the_end() {
    let events = [
        (0, active(0)),
        (3, write(0)),
        (9, read(0)),
        (12, precharge(0)),
    ];
    let capture = of_edition(One, &TWO_CUTS, &events);
    let mut word = 0;
    let outcome = replay(&capture, &|_| 0xabcd, &mut || {
        word += 1;
        (word, 0)
    })
    .expect("clean");
    assert_eq!(outcome.words_read, [1, 2, 3, 4, 0xabcd, 0xabcd]);
    assert_eq!(outcome.stored.len(), 4);
    assert_eq!(word, 16, "a word is taken for every beat, kept or not");
}

#[test]
fn schedules_stay_in_edition_0() {
    for policy in [OPEN_ROWS, CLOSED_ROWS] {
        let mut out = vec![7; 200];
        let answer = schedule(&CASE, &[1 << 31, 0], policy, &mut out);
        let written = answer.expect("a schedule") as usize;
        assert_eq!(out[EDITION_AT..EDITION_AT + 4], [0; 4]);
        assert_eq!(Capture::read(&out[..written]).map(|c| c.edition), Ok(Zero));
    }
}

// Generated captures.

const INPUTS: usize = 20_000;

fn captures() -> impl Iterator<Item = Capture> {
    let mut dice = Dice::new(3);
    (0..INPUTS).filter_map(move |_| match input(&mut dice) {
        Input::Capture(bytes) => Capture::read(&bytes).ok(),
        Input::Requests { .. } => None,
    })
}

/// Settings as the words they were read from; tRC, which no rule asks for, is 1.
fn words_of(settings: &Settings) -> Vec<u32> {
    let times = [
        settings.t_rcd,
        settings.t_rp,
        settings.t_ras,
        1,
        settings.t_rrd,
        settings.t_wr,
        settings.t_wtr,
        settings.t_rfc,
        settings.t_mrd,
        settings.t_refi,
    ];
    let wake = settings
        .wake
        .map_or(vec![], |wake| vec![wake.t_xp, wake.t_xsr]);
    let first = [
        settings.lane_code,
        settings.row_bits,
        settings.column_bits,
        settings.mode.0,
    ];
    let times = times.into_iter().chain(wake).map(|time| time as u32);
    first.into_iter().chain(times).collect()
}

fn as_edition(capture: &Capture, edition: Edition) -> Vec<u8> {
    bytes_of_edition(
        edition.word(),
        &words_of(&capture.settings),
        &capture.events,
    )
}

fn cell_list(capture: &[u8]) -> Option<Vec<u32>> {
    let mut out = vec![0; 16 * 8_000];
    let written = cells(capture, &mut out).ok()?;
    out.truncate(written as usize);
    Some(out)
}

/// How many events are judged.
fn judged(answer: Answer) -> u32 {
    match answer {
        Answer::Clean { judged } | Answer::Broken { judged, .. } => judged,
        Answer::Refused { .. } => unreachable!("the capture was read"),
    }
}

#[test]
fn what_edition_0_lets_pass_edition_1_does_too() {
    let (mut clean_in_both, mut later) = (0, 0);
    for capture in captures() {
        let [older, newer] = [Zero, One].map(|edition| as_edition(&capture, edition));
        let (of_older, of_newer) = (judge(&older), judge(&newer));
        assert!(judged(of_older) <= judged(of_newer));
        later += u32::from(judged(of_older) < judged(of_newer));
        if let Answer::Clean { .. } = of_older {
            // Whoever waits for the whole data cuts nothing.
            assert_eq!(of_newer, of_older);
            assert!(cell_list(&newer) == cell_list(&older));
            clean_in_both += 1;
        }
    }
    assert!(clean_in_both > 1_000 && later > 1_000);
}

#[test]
fn without_writes_that_may_be_cut_the_edition_is_nothing() {
    let mut tried = 0;
    for mut capture in captures() {
        capture.events.retain(|event| {
            !matches!(
                event.asked().command,
                Command::Write {
                    auto_precharge: false,
                    ..
                }
            )
        });
        let [older, newer] = [Zero, One].map(|edition| as_edition(&capture, edition));
        assert_eq!(judge(&newer), judge(&older));
        assert!(cell_list(&newer) == cell_list(&older));
        tried += 1;
    }
    assert!(tried > 5_000);
}

#[test]
fn the_literal_version_agrees() {
    for capture in captures().filter(|capture| capture.events.len() < 200) {
        let bytes = as_edition(&capture, One);
        assert_eq!(judge_literally(&bytes), judge(&bytes));
        let mut out = vec![0; 16 * 200];
        let written = cells_literally(&bytes, &mut out).ok();
        out.truncate(written.unwrap_or(0) as usize);
        assert_eq!(written.map(|_| out), cell_list(&bytes));
    }
}

/// The pairs that a write keeps in the end, by looking at the events behind it: as far as
/// k + 1 + h and the longer of the two waits.
fn looked_ahead(capture: &Capture, place: usize, write: &Burst) -> u64 {
    let settings = &capture.settings;
    let longer = settings.t_wr.max(settings.t_wtr);
    let end = write.given + 1 + write.mode.pairs() + longer;
    // Whether no WRITE has come, no READ, and the row is open and not written again.
    let (mut unwritten, mut unread, mut unwritten_row) = (true, true, true);
    let mut kept = write.mode.pairs();
    for event in &capture.events[place + 1..] {
        let cycle = u64::from(event.cycle);
        if cycle >= end || !(unwritten_row || unwritten && unread) {
            break;
        }
        match event.asked().command {
            Command::Write { bank, .. } => {
                if unwritten && cycle < write.whole_end() {
                    kept = kept.min(cycle - write.given);
                }
                unwritten = false;
                unwritten_row &= bank != write.bank;
            }
            Command::Read {
                bank,
                auto_precharge,
                ..
            } => {
                if unwritten && unread {
                    kept = kept.min(cycle - settings.t_wtr - write.given - 1);
                }
                unread = false;
                unwritten_row &= !(auto_precharge && bank == write.bank);
            }
            Command::Precharge { banks } if unwritten_row && banks.names(write.bank) => {
                kept = kept.min(cycle - settings.t_wr - write.given - 1);
                unwritten_row = false;
            }
            _ => {}
        }
    }
    kept
}

#[test]
fn looking_ahead_finds_the_same_pairs() {
    let mut cut = 0;
    for capture in captures() {
        let Ok(part) = part_after(&as_edition(&capture, One), LookBack::Running) else {
            continue;
        };
        for write in part.bursts.iter().filter(|burst| is_write(burst)) {
            if write.auto_precharge {
                assert_eq!(write.kept, write.mode.pairs());
                continue;
            }
            let given = write.given as u32;
            let place = capture
                .events
                .binary_search_by_key(&given, |event| event.cycle)
                .expect("the write's event");
            assert_eq!(looked_ahead(&capture, place, write), write.kept);
            cut += u32::from(write.kept < write.mode.pairs());
        }
    }
    assert!(cut > 1_000, "{cut} writes were cut");
}
