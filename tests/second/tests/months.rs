//! The month in numbers: its worked lines, and where the stream ends.

mod common;

use common::*;
use second::command::Command;
use second::month;

fn clean_capture() -> Vec<u8> {
    let events = [
        (0, active(0)),
        (3, read_from(0, 5)),
        (4, read_from(0, 8)),
        (20, write(0)),
    ];
    capture(&CASE, &events)
}

fn broken_capture() -> Vec<u8> {
    capture(&CASE, &[(0, active(0)), (2, read(0))])
}

fn empty_capture() -> Vec<u8> {
    capture::<Command>(&CASE, &[])
}

const NOTHING: &str = "all captures 0 clean 0 broken 0 refused 0 events 0 judged 0 \
                       read 0 written 0 bus 0 over 0\n";
const REFUSED: &str =
    "capture 0 events 0 judged 0 refused 1 place 0 read 0 written 0 bus 0 over 0\n\
                       stream ends at capture 0\n\
                       all captures 1 clean 0 broken 0 refused 1 events 0 judged 0 \
                       read 0 written 0 bus 0 over 0\n";

#[test]
fn the_worked_lines() {
    let lanes = capture::<Command>(&with(CASE, &[(0, 3)]), &[]);
    let stream = [clean_capture(), broken_capture(), lanes, empty_capture()].concat();
    let expected = "\
capture 0 events 4 judged 4 clean read 6 written 4 bus 10 over 40
capture 1 events 2 judged 1 broken rule 8 event 1 cycle 2 read 0 written 0 bus 0 over 0
capture 2 events 0 judged 0 refused 3 place 0 read 0 written 0 bus 0 over 0
capture 3 events 0 judged 0 clean read 0 written 0 bus 0 over 0
all captures 4 clean 2 broken 1 refused 1 events 6 judged 5 read 6 written 4 bus 10 over 40
";
    assert_eq!(month(&stream), expected);
}

#[test]
fn an_empty_stream() {
    assert_eq!(month(&[]), NOTHING);
}

#[test]
fn a_refusal_1_ends_the_stream() {
    for bytes in 1..4 {
        assert_eq!(month(&vec![0x50; bytes]), REFUSED);
    }
    let good = empty_capture();
    for total in [0, 1, 3, 4, 79, 64_089, u32::MAX] {
        let mut bytes = [good.clone(), good.clone()].concat();
        bytes[..4].copy_from_slice(&total.to_le_bytes());
        assert_eq!(month(&bytes), REFUSED, "{total}");
    }
    assert_eq!(month(&good[..79]), REFUSED);
}

#[test]
fn captures_before_it_count() {
    let stream = [clean_capture(), vec![0; 100]].concat();
    let expected = "\
capture 0 events 4 judged 4 clean read 6 written 4 bus 10 over 40
capture 1 events 0 judged 0 refused 1 place 0 read 0 written 0 bus 0 over 0
stream ends at capture 1
all captures 2 clean 1 broken 0 refused 1 events 4 judged 4 read 6 written 4 bus 10 over 40
";
    assert_eq!(month(&stream), expected);
}

#[test]
fn ten_thousand_captures() {
    let full: Vec<u8> = empty_capture().repeat(10_000);
    let text = month(&full);
    assert_eq!(text.lines().count(), 10_001);
    assert!(text.ends_with(
        "all captures 10000 clean 10000 broken 0 refused 0 events 0 judged 0 \
         read 0 written 0 bus 0 over 0\n"
    ));
    let more = month(&[full.clone(), vec![1]].concat());
    assert_eq!(more.lines().count(), 10_001);
    assert!(more.ends_with("\nrefused 14 place 10000\n"));
    // A refusal 1 of the last one ends the stream before anything can be behind it.
    let mut last = full;
    let at = last.len() - 80;
    last[at] = 0;
    let ended = month(&[last, vec![1]].concat());
    assert_eq!(ended.lines().count(), 10_002);
    assert!(ended.contains("\nstream ends at capture 9999\nall captures 10000 clean 9999 "));
}
