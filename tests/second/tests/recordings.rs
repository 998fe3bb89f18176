//! Recordings: any number of events, and limits of any number.

mod common;

use common::*;
use second::capture::{
    bytes_of, total_bytes, Event, HEADER_BYTES, MOST_EVENTS, SETTINGS, SLEEP_SETTINGS,
};
use second::command::Command::Nop;
use second::generate::{input, long_recording, Dice, Input};
use second::verdict::judge_to;
use second::{judge, judge_recording, Answer};

const SLEEPY: [u32; SLEEP_SETTINGS] = [1, 13, 10, 0x32, 3, 3, 7, 10, 2, 3, 1, 12, 2, 1000, 2, 20];

const TOO_LONG: Answer = Answer::Refused {
    number: 1,
    place: 0,
};
const BAD_HEADER: Answer = Answer::Refused {
    number: 2,
    place: 0,
};

/// So many events that say nothing, one a cycle.
fn quiet(settings: &[u32], events: u32) -> Vec<u8> {
    let pins = Nop.pins();
    let events: Vec<Event> = (0..events).map(|cycle| Event { cycle, pins }).collect();
    bytes_of(settings, &events)
}

fn with_word(mut bytes: Vec<u8>, at: usize, value: u32) -> Vec<u8> {
    bytes[at..at + 4].copy_from_slice(&value.to_le_bytes());
    bytes
}

#[test]
fn a_limit_is_reached_and_not_passed() {
    for settings in [&CASE[..], &SLEEPY[..]] {
        for most in [0, 1, 2, 3, 40] {
            let full = Answer::Clean { judged: most };
            assert_eq!(judge_to(&quiet(settings, most), Some(most)), full);
            assert_eq!(judge_to(&quiet(settings, most + 1), Some(most)), TOO_LONG);
            let one_more = with_word(quiet(settings, most), 12, most + 1);
            assert_eq!(judge_to(&one_more, Some(most)), BAD_HEADER);
        }
    }
}

#[test]
fn a_recording_has_no_limit() {
    let long_refreshed = with(CASE, &[(13, 1_000_000)]);
    for settings in [&long_refreshed[..], &with(SLEEPY, &[(13, 1_000_000)])[..]] {
        for events in [0, MOST_EVENTS, MOST_EVENTS + 1, 100_000] {
            let recording = quiet(settings, events);
            let judged = Answer::Clean { judged: events };
            assert_eq!(judge_recording(&recording), judged);
            let as_capture = if events > MOST_EVENTS {
                TOO_LONG
            } else {
                judged
            };
            assert_eq!(judge(&recording), as_capture);
        }
    }
}

#[test]
fn a_recording_is_as_long_as_it_says() {
    let recording = quiet(&CASE, 9);
    let longer = [&recording[..], &[0]].concat();
    let shorter = recording[..recording.len() - 1].to_vec();
    for wrong in [longer, shorter, vec![], vec![0; HEADER_BYTES]] {
        assert_eq!(judge_recording(&wrong), TOO_LONG);
    }
    // With 16 settings the shortest is longer.
    let short = with_word(with_word(quiet(&CASE, 0), 4, 16), 16, 88);
    assert_eq!(judge_recording(&short), TOO_LONG);
}

#[test]
fn no_total_wraps() {
    let wrapping = [1 << 29, 1 << 30, 7 << 29];
    for (settings, events) in [(&CASE[..], 0), (&CASE[..], 5), (&SLEEPY[..], 5)] {
        for more in wrapping {
            let recording = with_word(quiet(settings, events), 12, events + more);
            assert_eq!(judge_recording(&recording), BAD_HEADER);
        }
    }
}

/// The totals of the longest recordings still fit a word.
#[test]
fn the_longest_totals_are_words() {
    let fits = |settings, events| u32::try_from(total_bytes(settings, events)).is_ok();
    assert!(fits(SETTINGS, 536_870_901) && !fits(SETTINGS, 536_870_902));
    assert!(fits(SLEEP_SETTINGS, 536_870_900) && !fits(SLEEP_SETTINGS, 536_870_901));
}

#[test]
fn every_event_is_looked_at_before_one_is_judged() {
    let events = [(0, active(0)), (2, read(0)), (5, Nop), (5, Nop)];
    let refused = Answer::Refused {
        number: 4,
        place: 3,
    };
    assert_eq!(judge_recording(&capture(&CASE, &events)), refused);
    let broken = Answer::Broken {
        rule: 8,
        event: 1,
        cycle: 2,
        judged: 1,
    };
    assert_eq!(judge_recording(&capture(&CASE, &events[..3])), broken);
}

/// What is no longer than a capture may be gets one answer, refusals too; what is longer is
/// refused as a capture.
#[test]
fn both_calls_agree_on_captures() {
    let mut dice = Dice::new(36);
    for _ in 0..20_000 {
        let Input::Capture(bytes) = input(&mut dice) else {
            continue;
        };
        let settings = second::capture::settings_of_layout(&bytes);
        if bytes.len() as u64 <= total_bytes(settings, MOST_EVENTS) {
            assert_eq!(judge(&bytes), judge_recording(&bytes));
        } else {
            assert_eq!(judge(&bytes), TOO_LONG);
        }
    }
}

#[test]
fn long_recordings_are_judged_to_their_end() {
    let mut dice = Dice::new(36);
    let (mut clean, mut broken, mut refused) = (0, 0, 0);
    for _ in 0..40 {
        let recording = long_recording(&mut dice);
        assert_eq!(judge(&recording), TOO_LONG);
        match judge_recording(&recording) {
            Answer::Clean { judged } => clean += u32::from(judged > MOST_EVENTS),
            Answer::Broken { event, .. } => broken += u32::from(event > MOST_EVENTS),
            Answer::Refused { number, .. } => refused += u32::from(number == 4),
        }
    }
    assert!(clean > 0 && broken > 0 && refused > 0);
    assert_eq!(clean + broken + refused, 40);
}
