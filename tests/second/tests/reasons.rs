//! Why a rule is broken: each row of the table by an example, and all of them held to the rules
//! themselves, asked at every cycle around.

mod common;

use common::*;
use second::capture::{bytes_of_edition, Capture, Edition, Event};
use second::command::Asked;
use second::command::Command::{self, AutoRefresh, BurstTerminate, Nop};
use second::generate::{input, Dice, Input};
use second::part::{LookBack, Part};
use second::rules::RULES;
use second::why::{NONE, NUMBERS};
use second::{cells, judge, kept, why, Answer};

const SLEEPY: [u32; 16] = [1, 13, 10, 0x32, 3, 3, 7, 10, 2, 3, 1, 12, 2, 1000, 2, 20];

#[track_caller]
fn told<A: Into<Asked> + Copy>(settings: &[u32], events: &[(u32, A)], expected: [u32; NUMBERS]) {
    let capture = capture(settings, events);
    let mut out = [5; NUMBERS + 1];
    assert_eq!(why(&capture, &mut out), judge(&capture));
    assert_eq!(out[..NUMBERS], expected);
    assert_eq!(out[NUMBERS], 5);
}

#[test]
fn a_row_too_early() {
    told(
        &CASE,
        &[(0, active(0)), (2, read(0))],
        [2, 1, 3, 3, 4, 0, 0, 0],
    );
}

#[test]
fn a_write_before_a_read() {
    let events = [(0, active(1)), (3, write(1)), (6, read(1))];
    told(&CASE, &events, [6, 1, 7, 7, 10, 6, 1, 1]);
}

#[test]
fn rule_3_by_what_closed_the_bank() {
    let events = [(0, active(2)), (3, read_auto(2)), (9, read(2))];
    told(&CASE, &events, [9, 0, NONE, NONE, NONE, 3, 1, 2]);
    told(
        &CASE,
        &[(9, read(2))],
        [9, 0, NONE, NONE, NONE, NONE, NONE, 2],
    );
    told(
        &CASE,
        &[(0, active(2)), (30, AutoRefresh)],
        [30, 0, NONE, NONE, NONE, 0, 0, 2],
    );
}

#[test]
fn precharge_cycles_are_no_events() {
    let events = [(0, active(0)), (3, read_auto(0)), (9, active(0))];
    told(&CASE, &events, [9, 1, 10, 10, 5, 7, 1, 0]);
}

#[test]
fn the_ninth_refresh() {
    told(
        &CASE,
        &[(9500, Nop)],
        [9500, 2, 9000, NONE, 13, 0, NONE, NONE],
    );
    let events = [(1500, AutoRefresh), (10_100, Nop)];
    told(&CASE, &events, [10_100, 2, 10_000, NONE, 13, 0, 0, NONE]);
}

#[test]
fn asleep_and_woken() {
    let low = [(0, Nop.low()), (5, active(0).low())];
    told(&SLEEPY, &low, [5, 0, NONE, NONE, NONE, 0, 0, NONE]);
    let woken = [(0, Nop.low()), (5, Nop.into()), (6, Asked::from(active(0)))];
    told(&SLEEPY, &woken, [6, 1, 7, 7, 14, 5, 1, NONE]);
    told(
        &SLEEPY,
        &[(4, BurstTerminate.low())],
        [4, 0, NONE, NONE, NONE, NONE, NONE, NONE],
    );
}

#[test]
fn only_a_broken_rule_is_explained() {
    let broken = capture(&CASE, &[(0, active(0)), (2, read(0))]);
    let mut out = [5; NUMBERS];
    let refused = |number, place| Answer::Refused { number, place };
    assert_eq!(why(&broken, &mut out[..7]), refused(7, 8));
    assert_eq!(why(&broken[1..], &mut out[..7]), refused(1, 0));
    let clean = capture::<Command>(&CASE, &[]);
    assert_eq!(why(&clean, &mut out[..7]), Answer::Clean { judged: 0 });
    assert_eq!(out, [5; NUMBERS]);
}

/// Each generated capture that is broken: the three cycles by asking the rules at every cycle
/// from the event's own on, up to a good way behind what is told.
#[test]
fn held_to_the_rules() {
    let mut dice = Dice::new(37);
    let mut explained = [0; 16];
    for _ in 0..60_000 {
        let Input::Capture(bytes) = input(&mut dice) else {
            continue;
        };
        let mut out = [0; NUMBERS];
        let Answer::Broken { rule, event, .. } = why(&bytes, &mut out) else {
            continue;
        };
        let capture = Capture::read(&bytes).expect("it was judged");
        hold(&capture, rule, event as usize, out);
        explained[rule as usize] += 1;
    }
    for (rule, count) in explained.iter().enumerate() {
        assert!(
            *count > 20 || rule == 0 || rule == 6,
            "rule {rule}: {count}"
        );
    }
}

fn hold(capture: &Capture, rule: u32, event: usize, out: [u32; NUMBERS]) {
    let mut part = Part::new(capture.edition, capture.settings, LookBack::Running);
    for event in &capture.events[..event] {
        part.apply(u64::from(event.cycle), event.asked());
    }
    let broken = capture.events[event];
    let asked = broken.asked();
    let [cycle, kind, allowed, clean, ..] = out;
    assert_eq!(cycle, broken.cycle);
    let (_, keeps) = RULES
        .into_iter()
        .find(|&(number, _)| number == rule)
        .expect("a rule");
    let told_up_to = [allowed, clean]
        .into_iter()
        .filter(|&told| told != NONE)
        .max();
    let last = u64::from(told_up_to.unwrap_or(0).max(cycle)) + 40;
    if last > u64::from(cycle) + 30_000 {
        return;
    }
    let mut first_clean = NONE;
    for x in u64::from(cycle)..last {
        let kept = keeps(&part, x, asked);
        match kind {
            0 => assert!(!kept),
            1 => assert_eq!(kept, u64::from(allowed) <= x),
            _ => assert_eq!(kept, x < u64::from(allowed)),
        }
        let all = RULES.iter().all(|(_, keeps)| keeps(&part, x, asked));
        if all && first_clean == NONE {
            first_clean = x as u32;
        }
    }
    assert_eq!(clean, first_clean);
}

#[test]
fn pairs_of_the_judged_bursts() {
    let events = [
        (0, active(0)),
        (3, read(0)),
        (4, read_from(0, 8)),
        (20, write(0)),
        (20 + 3, read(0)),
    ];
    let mut out = [9; 4];
    assert_eq!(kept(&capture(&CASE, &events), &mut out), Ok(3));
    assert_eq!(out, [1, 2, 2, 9]);
    let settings = with(CASE, &[(3, 0x34), (9, 6)]);
    let events = [
        (0, active(0)),
        (3, write(0)),
        (9, read(0)),
        (12, precharge(0)),
    ];
    let newer = bytes_of_edition(1, &settings, &events_of(&events));
    assert_eq!(kept(&newer, &mut out), Ok(2));
    assert_eq!(out[..2], [2, 3]);
}

/// Of a clean capture twice their sum is the length of its burst list.
#[test]
fn pairs_and_cells() {
    let mut dice = Dice::new(38);
    let mut clean = 0;
    for _ in 0..5_000 {
        let Input::Capture(bytes) = input(&mut dice) else {
            continue;
        };
        let mut out = vec![0; 128_000];
        let Ok(listed) = cells(&bytes, &mut out) else {
            continue;
        };
        let bursts = kept(&bytes, &mut out).expect("it is clean");
        assert_eq!(2 * out[..bursts as usize].iter().sum::<u32>(), listed);
        clean += 1;
    }
    assert!(clean > 500, "{clean}");
}

/// The judged events alone are a clean capture with the same bursts.
#[test]
fn the_judged_events_are_a_capture() {
    let mut dice = Dice::new(39);
    let mut broken = 0;
    for _ in 0..5_000 {
        let Input::Capture(bytes) = input(&mut dice) else {
            continue;
        };
        let Answer::Broken { judged, .. } = judge(&bytes) else {
            continue;
        };
        let capture = Capture::read(&bytes).expect("it was judged");
        let settings = settings_words(&bytes);
        let events: Vec<Event> = capture.events[..judged as usize].to_vec();
        let edition = if capture.edition == Edition::One {
            1
        } else {
            0
        };
        let alone = bytes_of_edition(edition, &settings, &events);
        assert_eq!(judge(&alone), Answer::Clean { judged });
        let (mut one, mut other) = (vec![0; 8_000], vec![0; 8_000]);
        assert_eq!(kept(&bytes, &mut one), kept(&alone, &mut other));
        assert_eq!(one, other);
        broken += 1;
    }
    assert!(broken > 500, "{broken}");
}

fn settings_words(bytes: &[u8]) -> Vec<u32> {
    let count = second::capture::settings_of_layout(bytes);
    second::capture::words(&bytes[24..second::capture::events_at(count)])
}
