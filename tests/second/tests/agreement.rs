//! Implementations held against each other on generated inputs: the literal one, the one
//! that looks only at running bursts, and the C.

use second::capture::{
    bytes_of_edition, word, Capture, Edition, Refusal, HEADER_BYTES, SETTINGS, SLEEP_SETTINGS,
};
use second::generate::{input, long_recording, other_addresses, Dice, Input, Tally, NO_RULE};
use second::openings::Record;
use second::schedule::schedule_literally;
use second::verdict::{cells_literally, judge_literally};
use second::{
    blank, c, cells, judge, judge_recording, open_row, packed, plain, replay, schedule, Answer,
};

const SEED: u64 = 1;
const INPUTS: usize = 40_000;
/// Room for any answer, and some behind it.
const CELL_ROOM: usize = 16 * 8_000 + 5;
const BYTE_ROOM: usize = 64_080 + 5;
const UNTOUCHED_WORD: u32 = 0xa5a5_a5a5;
const UNTOUCHED_BYTE: u8 = 0xa5;

fn inputs(count: usize) -> impl Iterator<Item = Input> {
    let mut dice = Dice::new(SEED);
    (0..count).map(move |_| input(&mut dice))
}

/// Buffer lengths around what an answer needs.
fn lengths(needed: Option<usize>, room: usize) -> Vec<usize> {
    match needed {
        Some(needed) => vec![0, needed.saturating_sub(1), needed, needed + 3, room],
        None => vec![0, room],
    }
}

fn needed(answer: Result<u32, Refusal>) -> Option<usize> {
    answer.ok().map(|count| count as usize)
}

type CellsOf<'a> = &'a dyn Fn(&[u8], &mut [u32]) -> u64;
type ScheduleOf<'a> = &'a dyn Fn(&[u32], &[u32], u32, &mut [u8]) -> u64;

/// The answer and the buffer afterwards.
fn tried_cells(cells: CellsOf, capture: &[u8], length: usize) -> (u64, Vec<u32>) {
    let mut out = vec![UNTOUCHED_WORD; length];
    (cells(capture, &mut out), out)
}

fn tried_schedule(
    schedule: ScheduleOf,
    settings: &[u32],
    requests: &[u32],
    policy: u32,
    length: usize,
) -> (u64, Vec<u8>) {
    let mut out = vec![UNTOUCHED_BYTE; length];
    (schedule(settings, requests, policy, &mut out), out)
}

/// A question about open rows, with three records or four and a short index or a long one.
fn count_row(tally: &mut Tally, dice: &mut Dice, capture: &[u8]) {
    let events = Capture::read(capture).map_or(0, |read| read.events.len()) as u32;
    let (bank, event) = (dice.below(5), dice.below(events + 1));
    let mut records = [Record {
        before: 0,
        count: 0,
    }; 4];
    let lent = if dice.once_in(8) { 3 } else { 4 };
    let mut index = vec![0; if dice.once_in(4) { 8 } else { 24_000 }];
    let answer = open_row(capture, bank, event, &mut records[..lent], &mut index);
    tally.count_row(capture, [bank, event], answer, &records, &index);
}

#[test]
fn everything_comes_up() {
    let mut tally = Tally::default();
    let mut full_and_clean = 0;
    let mut dice = Dice::new(4);
    for input in inputs(INPUTS) {
        match input {
            Input::Capture(capture) => {
                let answer = judge(&capture);
                tally.count_answer(&capture, answer);
                full_and_clean += u32::from(answer == Answer::Clean { judged: 8_000 });
                tally.count_recording(&capture, judge_recording(&capture));
                tally.count_cells(&capture, cells(&capture, &mut [0; 40]));
                tally.count_blank(&capture, blank(&capture, &mut [0; 300]));
                count_row(&mut tally, &mut dice, &capture);
                if let Ok(read) = Capture::read(&capture) {
                    let other = other_addresses(&mut dice, &capture, &read);
                    tally.count_addresses(&capture, &read, &other);
                }
            }
            Input::Requests {
                settings,
                requests,
                policy,
            } => {
                let answer = schedule(&settings, &requests, policy, &mut [0; 2_000]);
                tally.count_schedule(&settings, policy, answer);
            }
        }
    }
    for _ in 0..20 {
        let recording = long_recording(&mut dice);
        tally.count_recording(&recording, judge_recording(&recording));
    }
    println!("{tally}");
    assert_eq!(tally.missing(), [""; 0]);
    for edition in [Edition::Zero, Edition::One] {
        for (settings, rules) in [(SETTINGS, 14), (SLEEP_SETTINGS, 15)] {
            let counts = tally.of((settings, Some(edition)));
            for (rule, &count) in (1..).zip(&counts.rules[..rules]) {
                if rule == NO_RULE {
                    assert_eq!(count, 0, "there is no rule {rule}");
                } else {
                    assert!(count >= 30, "rule {rule} came up {count} times");
                }
            }
            if edition == Edition::Zero {
                assert_eq!(counts.interrupted, 0, "only edition 1 cuts writes so");
            } else {
                assert!(counts.interrupted >= 100, "too few writes are cut short");
            }
        }
    }
    assert!(full_and_clean >= 3, "too few full captures are clean");
}

#[test]
fn looking_at_running_bursts_only_changes_nothing() {
    for input in inputs(INPUTS / 4) {
        match input {
            Input::Capture(capture) if capture.len() < 10_000 => {
                assert_eq!(judge(&capture), judge_literally(&capture));
                let expected = tried_cells(
                    &|capture, out| packed::of_count(cells_literally(capture, out)),
                    &capture,
                    CELL_ROOM,
                );
                let found = tried_cells(
                    &|capture, out| packed::of_count(cells(capture, out)),
                    &capture,
                    CELL_ROOM,
                );
                assert!(found == expected);
            }
            Input::Requests {
                settings,
                requests,
                policy,
            } if requests.len() <= 50 => {
                let mut expected = vec![UNTOUCHED_BYTE; BYTE_ROOM];
                let mut found = expected.clone();
                assert_eq!(
                    schedule(&settings, &requests, policy, &mut found),
                    schedule_literally(&settings, &requests, policy, &mut expected)
                );
                assert!(found == expected);
            }
            _ => {}
        }
    }
}

#[test]
fn the_judge_in_c_agrees() {
    for input in inputs(INPUTS) {
        if let Input::Capture(capture) = input {
            assert_eq!(c::judge(&capture), packed::of_answer(judge(&capture)));
        }
    }
}

#[test]
fn the_burst_list_in_c_agrees() {
    let rust: CellsOf = &|capture, out| packed::of_count(cells(capture, out));
    let c: CellsOf = &|capture, out| c::cells(capture, out);
    for input in inputs(INPUTS / 2) {
        if let Input::Capture(capture) = input {
            let needed = needed(cells(&capture, &mut vec![0; CELL_ROOM]));
            for length in lengths(needed, CELL_ROOM) {
                let expected = tried_cells(rust, &capture, length);
                assert!(tried_cells(c, &capture, length) == expected);
            }
        }
    }
}

#[test]
fn the_schedule_in_c_agrees() {
    let rust: ScheduleOf = &|s, r, p, out| packed::of_count(schedule(s, r, p, out));
    let c: ScheduleOf = &|s, r, p, out| c::schedule(s, r, p, out);
    for input in inputs(INPUTS) {
        if let Input::Requests {
            settings,
            requests,
            policy,
        } = input
        {
            let mut room = vec![0; BYTE_ROOM];
            let needed = needed(schedule(&settings, &requests, policy, &mut room));
            for length in lengths(needed, BYTE_ROOM) {
                let expected = tried_schedule(rust, &settings, &requests, policy, length);
                assert!(tried_schedule(c, &settings, &requests, policy, length) == expected);
            }
        }
    }
}

/// Words and masks as the writes ask for them, the same for the same seed.
fn supply(seed: u64) -> impl FnMut() -> (u32, u32) {
    let mut dice = Dice::new(seed);
    move || (dice.word(), dice.below(16))
}

#[test]
fn schedules_are_clean_and_replay_as_plain_memory() {
    let contents = |cell: u32| cell.wrapping_mul(0x9e37_79b1);
    let mut tried = 0;
    for (seed, input) in (0..).zip(inputs(INPUTS)) {
        let Input::Requests {
            settings,
            requests,
            policy,
        } = input
        else {
            continue;
        };
        let mut out = vec![0; BYTE_ROOM];
        let Ok(total) = schedule(&settings, &requests, policy, &mut out) else {
            continue;
        };
        let capture = &out[..total as usize];
        assert_eq!(
            judge(capture),
            Answer::Clean {
                judged: word(capture, 12)
            }
        );
        let replayed = replay(capture, &contents, &mut supply(seed));
        assert_eq!(
            replayed,
            plain(&settings, &requests, &contents, &mut supply(seed))
        );
        tried += 1;
    }
    assert!(tried > 1_000);
}

#[test]
fn two_settings_more_change_nothing_while_cke_is_high() {
    for input in inputs(INPUTS / 4) {
        let Input::Capture(bytes) = input else {
            continue;
        };
        let Ok(capture) = Capture::read(&bytes) else {
            continue;
        };
        if capture.settings.wake.is_none() {
            let settings = (0..SETTINGS).map(|place| word(&bytes, HEADER_BYTES + 4 * place));
            let list: Vec<u32> = settings.chain([1, 1]).collect();
            let sleepy = bytes_of_edition(capture.edition.word(), &list, &capture.events);
            assert_eq!(judge(&sleepy), judge(&bytes));
            let written = tried_cells(
                &|c, out| packed::of_count(cells(c, out)),
                &sleepy,
                CELL_ROOM,
            );
            let expected =
                tried_cells(&|c, out| packed::of_count(cells(c, out)), &bytes, CELL_ROOM);
            assert!(written == expected);
        }
    }
}
