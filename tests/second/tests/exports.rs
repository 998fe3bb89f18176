//! Exports of the handheld analyser: the worked lines, every refusal, and both round trips on
//! generated inputs, with every clause reached.

mod common;

use common::*;
use second::capture::{bytes_of, bytes_of_edition, Capture, Event, T_REFI_SETTING};
use second::command::Command::{self, Nop};
use second::export::{bytes_of_records, export_of, with_nops, Record, REACH};
use second::generate::{export, far_capture, settings_of, Dice, ExportTally};
use second::part::{LookBack, Part};
use second::rules::RULES;
use second::{judge, read_export, write_export, Answer, Refusal};

const INPUTS: usize = 20_000;
const ROOM: usize = 64_088;
/// A pin that there is not.
const HIGH: u32 = 1 << 20;

fn nop(stamp: u16) -> Record {
    pins(stamp, Nop.pins())
}

fn pins(stamp: u16, pins: u32) -> Record {
    Record { stamp, pins }
}

fn read(records: &[Record]) -> Result<Vec<u8>, Refusal> {
    read_as(&bytes_of_records(records), &CASE, 0)
}

fn read_as(records: &[u8], settings: &[u32], edition: u32) -> Result<Vec<u8>, Refusal> {
    let mut out = vec![0; ROOM];
    let written = read_export(records, settings, edition, &mut out)?;
    out.truncate(written as usize);
    Ok(out)
}

fn written(capture: &[u8]) -> Result<Vec<u8>, Refusal> {
    let mut out = vec![0; ROOM];
    let written = write_export(capture, &mut out)?;
    out.truncate(written as usize);
    Ok(out)
}

fn refused(number: u32, place: u32) -> Result<Vec<u8>, Refusal> {
    Err(Refusal { number, place })
}

/// Under the settings of the cases, with a tREFI that nothing outlasts.
fn patient(cycles: &[u32]) -> Vec<u8> {
    let events: Vec<(u32, Command)> = cycles.iter().map(|&cycle| (cycle, Nop)).collect();
    capture(&with(CASE, &[(T_REFI_SETTING, 1_000_000)]), &events)
}

fn nops_at(cycles: &[u32]) -> Vec<Event> {
    let events: Vec<(u32, Command)> = cycles.iter().map(|&cycle| (cycle, Nop)).collect();
    events_of(&events)
}

#[test]
fn cycles_from_stamps() {
    let three = read(&[nop(65_000), nop(100), nop(99)]).expect("it is read");
    assert_eq!(three, bytes_of(&CASE, &nops_at(&[65_000, 65_636, 131_171])));
    assert_eq!(read(&[]), Ok(bytes_of(&CASE, &[])));
    let one = read_as(&bytes_of_records(&[nop(7)]), &CASE, 1);
    assert_eq!(one, Ok(bytes_of_edition(1, &CASE, &nops_at(&[7]))));
}

#[test]
fn refusals_of_the_reader() {
    assert_eq!(read_as(&[0; 7], &CASE, 0), refused(11, 0));
    assert_eq!(read(&[nop(5), nop(5)]), refused(11, 1));
    assert_eq!(read(&[pins(5, HIGH), nop(5)]), refused(11, 1));
    assert_eq!(read(&[nop(5), pins(6, HIGH)]), refused(4, 1));
    assert_eq!(read_as(&[0; 48_006], &CASE, 0), refused(11, 8_000));
    assert_eq!(read_as(&[], &CASE, 2), refused(2, 0));
    assert_eq!(read_as(&[], &CASE[..13], 0), refused(2, 0));
    assert_eq!(read_as(&[], &with(CASE, &[(7, 11)]), 0), refused(3, 7));
    assert_eq!(read_as(&[0; 7], &with(CASE, &[(7, 11)]), 2), refused(2, 0));
    let three = bytes_of_records(&[nop(65_000), nop(100), nop(99)]);
    let mut short = vec![9; 103];
    assert_eq!(
        read_export(&three, &CASE, 0, &mut short),
        Err(Refusal {
            number: 7,
            place: 104
        })
    );
    assert_eq!(short, vec![9; 103]);
}

#[test]
fn nops_between_far_events() {
    let bridged = |cycles: &[u32]| written(&patient(cycles)).expect("it is written");
    let records = |cycles: &[u32]| export_of(&nops_at(cycles));
    assert_eq!(bridged(&[0, 65_535]), records(&[0, 65_535]));
    assert_eq!(bridged(&[0, 65_536]), records(&[0, 65_535, 65_536]));
    assert_eq!(
        bridged(&[5, 131_076]),
        records(&[5, 65_540, 131_075, 131_076])
    );
    assert_eq!(bridged(&[0, 131_070]), records(&[0, 65_535, 131_070]));
    assert_eq!(
        bridged(&[0, 131_071]),
        records(&[0, 65_535, 131_070, 131_071])
    );
    assert_eq!(bridged(&[]), []);
}

#[test]
fn refusals_of_the_writer() {
    assert_eq!(written(&patient(&[65_536])), refused(12, 0));
    assert!(written(&patient(&[65_535])).is_ok());
    assert_eq!(written(&patient(&[0, 2_000_000_000])), refused(12, 0));
    let most = 7_999 * REACH;
    assert!(written(&patient(&[0, most])).is_ok());
    assert_eq!(written(&patient(&[0, most + 1])), refused(12, 0));
    let sleepy = [&CASE[..], &[2, 20]].concat();
    assert_eq!(written(&bytes_of(&sleepy, &[])), refused(12, 0));
    assert_eq!(written(&[]), refused(1, 0));
    assert_eq!(written(&bytes_of_edition(2, &CASE, &[])), refused(2, 0));
    let falling = bytes_of(&CASE, &nops_at(&[70_000, 5]));
    assert_eq!(written(&falling), refused(4, 1));
}

/// With a tREFI: the rule, event and cycle that are reported, before and read back.
fn reported(t_refi: u32) -> [(u32, u32, u32); 2] {
    let settings = with(CASE, &[(T_REFI_SETTING, t_refi)]);
    let before = capture(&settings, &[(0, Nop), (70_000, common::read(0))]);
    let export = written(&before).expect("it is written");
    let after = read_as(&export, &settings, 0).expect("it is read");
    [before, after].map(|capture| match judge(&capture) {
        Answer::Broken {
            rule, event, cycle, ..
        } => (rule, event, cycle),
        other => panic!("{other:?}"),
    })
}

#[test]
fn a_nop_may_be_late() {
    assert_eq!(reported(1_000_000), [(3, 1, 70_000), (3, 2, 70_000)]);
    assert_eq!(reported(7_500), [(3, 1, 70_000), (3, 2, 70_000)]);
    assert_eq!(reported(1_000), [(3, 1, 70_000), (14, 1, 65_535)]);
}

/// Whether the event that is reported breaks rule 14 as well.
fn breaks_rule_14(capture: &Capture, event: usize) -> bool {
    let mut part = Part::new(capture.edition, capture.settings, LookBack::Running);
    for before in &capture.events[..event] {
        part.apply(u64::from(before.cycle), before.asked());
    }
    let (_, keeps) = RULES[12];
    assert_eq!(RULES[12].0, 14);
    let event = &capture.events[event];
    !keeps(&part, u64::from(event.cycle), event.asked())
}

/// What may be said of a capture read back, by what was said of it.
fn same_but_for_nops(capture: &Capture, before: Answer, after: Answer) {
    let all = with_nops(&capture.events);
    let (rule, event, cycle) = match before {
        Answer::Clean { .. } => {
            let judged = all.len() as u32;
            return assert_eq!(after, Answer::Clean { judged });
        }
        Answer::Broken {
            rule, event, cycle, ..
        } => (rule, event as usize, cycle),
        Answer::Refused { .. } => panic!("a capture that was written is refused"),
    };
    let at = all
        .iter()
        .position(|event| event.cycle == cycle)
        .expect("every event is kept") as u32;
    let moved = Answer::Broken {
        rule,
        event: at,
        cycle,
        judged: at,
    };
    if after == moved {
        return;
    }
    assert!(breaks_rule_14(capture, event), "{before:?} {after:?}");
    let Answer::Broken {
        rule: 14,
        event: nop,
        cycle: when,
        judged,
    } = after
    else {
        panic!("{before:?} {after:?}");
    };
    let last = event
        .checked_sub(1)
        .map_or(0, |last| capture.events[last].cycle);
    assert!(last < when && when < cycle && nop < at && judged == nop);
    assert_eq!((when - last) % REACH, 0);
}

#[test]
fn both_ways_and_every_clause() {
    let mut dice = Dice::new(1);
    let mut tally = ExportTally::default();
    for _ in 0..INPUTS {
        let given = export(&mut dice);
        let mut out = vec![0; dice.pick(&[ROOM, ROOM, 200])];
        let answer = read_export(&given.records, &given.settings, given.edition, &mut out);
        tally.count_read(&given, answer);
        if let Ok(length) = answer {
            let capture = &out[..length as usize];
            assert!(Capture::read(capture).is_ok());
            assert_eq!(written(capture), Ok(given.records));
        }
        let capture = far_capture(&mut dice);
        let mut out = vec![0; dice.pick(&[ROOM, ROOM, 40])];
        let answer = write_export(&capture, &mut out);
        tally.count_written(&capture, answer);
        if let Ok(length) = answer {
            let (settings, edition) = settings_of(&capture);
            let export = &out[..length as usize];
            let back = read_as(export, &settings, edition).expect("it is read back");
            let read = Capture::read(&capture).expect("it was written");
            let whole = bytes_of_edition(edition, &settings, &with_nops(&read.events));
            assert_eq!(back, whole);
            assert_eq!(back == capture, with_nops(&read.events) == read.events);
            let (before, after) = (judge(&capture), judge(&back));
            same_but_for_nops(&read, before, after);
            tally.count_back(before, after);
        }
    }
    println!("{tally}");
    // Captures that refusals 1 to 4 turn down come from another generator.
    assert_eq!(tally.missing(), ["exports: Refused1To4"]);
}
