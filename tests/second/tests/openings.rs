//! Which row was open: the worked lines of request K9.

mod common;

use common::*;
use second::capture::{bytes_of, Event};
use second::command::{Command, LOW};
use second::openings::Record;
use second::{open_row, Refusal};

const SLEEPY: [u32; 16] = [1, 13, 10, 0x32, 3, 3, 7, 10, 2, 3, 1, 12, 2, 1000, 2, 20];
const NINE: Record = Record {
    before: 9,
    count: 9,
};

fn at(cycle: u32, command: Command) -> Event {
    Event {
        cycle,
        pins: command.pins(),
    }
}

fn on_row(bank: usize, row: u32) -> Command {
    Command::Active { bank, row }
}

fn record(before: u32, count: u32) -> Record {
    Record { before, count }
}

/// The answer, the records and the index, with a record and a word behind them.
fn asked(
    capture: &[u8],
    bank: u32,
    event: u32,
) -> (Result<Option<u32>, Refusal>, Vec<Record>, Vec<u32>) {
    let mut records = vec![NINE; 5];
    let mut index = vec![9; 30];
    let answer = open_row(capture, bank, event, &mut records, &mut index);
    (answer, records, index)
}

fn reopened() -> Vec<u8> {
    bytes_of(
        &CASE,
        &[
            at(0, on_row(0, 5)),
            at(2, on_row(1, 6)),
            at(5, read(0)),
            at(9, precharge(0)),
            at(12, on_row(0, 7)),
            at(13, Command::Nop),
        ],
    )
}

#[test]
fn two_openings_of_a_bank_and_one_of_another() {
    let capture = reopened();
    for (bank, event, row) in [(0, 2, Some(5)), (0, 3, None), (0, 4, Some(7)), (1, 0, None)] {
        let (answer, records, index) = asked(&capture, bank, event);
        assert_eq!(answer, Ok(row));
        let four = [record(0, 2), record(2, 1), record(3, 0), record(3, 0), NINE];
        assert_eq!(records, four);
        assert_eq!(index[..10], [5, 0, 2, 7, 4, 5, 6, 1, 5, 9]);
    }
}

#[test]
fn auto_precharge_and_precharge_of_all() {
    let events = [
        at(0, on_row(0, 5)),
        at(3, read_auto(0)),
        at(10, on_row(0, 6)),
        at(14, write(0)),
        at(30, PRECHARGE_ALL),
    ];
    let (answer, _, index) = asked(&bytes_of(&CASE, &events), 0, 1);
    assert_eq!(answer, Ok(None));
    assert_eq!(index[..7], [5, 0, 0, 6, 2, 3, 9]);
}

#[test]
fn a_row_stays_open_in_power_down() {
    let low = Event {
        cycle: 1,
        pins: Command::Nop.pins() | LOW,
    };
    let events = [
        at(0, on_row(2, 9)),
        low,
        at(8, Command::Nop),
        at(10, precharge(2)),
    ];
    let (answer, _, index) = asked(&bytes_of(&SLEEPY, &events), 2, 2);
    assert_eq!(answer, Ok(Some(9)));
    assert_eq!(index[..4], [9, 0, 2, 9]);
}

#[test]
fn what_is_refused_and_leaves_both_buffers() {
    let broken = bytes_of(&CASE, &[at(0, on_row(0, 0)), at(2, read(0))]);
    let none = bytes_of(&CASE, &[]);
    let capture = reopened();
    for (capture, bank, event, records, words, number, place) in [
        (&broken, 4, 9, 0, 0, 8, 1),
        (&capture, 4, 0, 0, 0, 13, 0),
        (&capture, 0, 6, 0, 0, 13, 0),
        (&none, 0, 0, 4, 0, 13, 0),
        (&capture, 0, 2, 3, 0, 7, 4),
        (&capture, 0, 2, 4, 8, 7, 9),
    ] {
        let mut lent = vec![NINE; records];
        let mut index = vec![9; words];
        let answer = open_row(capture, bank, event, &mut lent, &mut index);
        assert_eq!(answer, Err(Refusal { number, place }));
        assert!(lent.iter().all(|&record| record == NINE) && index.iter().all(|&word| word == 9));
    }
}
