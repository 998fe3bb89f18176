//! The bench player: its worked lines, its refusals, and that it is the replay on its window.

mod common;

use common::*;
use second::capture::{bytes_of_edition, Capture};
use second::generate::{input, Dice, Input};
use second::part::{Direction, LookBack};
use second::verdict::part_after;
use second::{judge, play, replay, Answer, Refusal};

const WINDOW: [u32; 8] = [
    0xaaaa_0000,
    0xaaaa_0001,
    0xaaaa_0002,
    0xaaaa_0003,
    0xaaaa_0004,
    0xaaaa_0005,
    0xaaaa_0006,
    0xaaaa_0007,
];

fn one_write_and_its_read(settings: &[u32]) -> Vec<u8> {
    let events = [(0, active(0)), (3, write_to(0, 1)), (7, read(0))];
    capture(settings, &events)
}

fn words_with_masks(masks: [u32; 4]) -> Vec<u32> {
    let words = [0x1111_1111, 0x2222_2222, 0x3333_3333, 0x4444_4444];
    words
        .into_iter()
        .zip(masks)
        .flat_map(|(word, mask)| [word, mask])
        .collect()
}

fn refusal(number: u32, place: u32) -> Result<u32, Refusal> {
    Err(Refusal { number, place })
}

#[test]
fn two_lanes() {
    let (mut window, mut reads) = (WINDOW, [9; 6]);
    let writes = words_with_masks([0, 1, 2, 3]);
    let played = play(
        &one_write_and_its_read(&CASE),
        0,
        &mut window,
        &writes,
        &mut reads,
    );
    assert_eq!(played, Ok(4));
    assert_eq!(
        window[..4],
        [0xaaaa_0000, 0xaaaa_1111, 0xaaaa_2202, 0xaaaa_0033]
    );
    assert_eq!(window[4..], WINDOW[4..]);
    assert_eq!(reads, [0x0000, 0x1111, 0x2202, 0x0033, 9, 9]);
}

#[test]
fn four_lanes() {
    let settings = with(CASE, &[(0, 2)]);
    let (mut window, mut reads) = (WINDOW, [9; 4]);
    let writes = words_with_masks([0, 1, 6, 15]);
    let played = play(
        &one_write_and_its_read(&settings),
        0,
        &mut window,
        &writes,
        &mut reads,
    );
    assert_eq!(played, Ok(4));
    assert_eq!(
        window[..4],
        [0xaaaa_0000, 0x1111_1111, 0x2222_2202, 0x33aa_0033]
    );
    assert_eq!(window[4..], WINDOW[4..]);
    assert_eq!(reads, window[..4]);
}

/// Whatever is refused leaves window and reads.
#[track_caller]
fn refuses_to_play(
    expected: Result<u32, Refusal>,
    capture: &[u8],
    first: u32,
    size: usize,
    writes: &[u32],
    reads: usize,
) {
    let (mut window, mut read) = (vec![7; size], vec![9; reads]);
    assert_eq!(
        play(capture, first, &mut window, writes, &mut read),
        expected
    );
    assert_eq!((window, read), (vec![7; size], vec![9; reads]));
}

#[test]
fn refusals_in_their_order() {
    let good = one_write_and_its_read(&CASE);
    let writes = words_with_masks([0; 4]);
    refuses_to_play(refusal(7, 4), &good, 0, 8, &writes, 3);
    refuses_to_play(refusal(15, 1), &good, 0, 8, &writes[..7], 4);
    refuses_to_play(refusal(15, 1), &good, 0, 8, &writes[..6], 4);
    refuses_to_play(refusal(15, 1), &good, 2, 8, &writes, 4);
    refuses_to_play(refusal(15, 0), &good, 0xffff_ffff, 8, &writes, 0);
    refuses_to_play(refusal(15, 0), &good, 0, 16_385, &writes, 0);
    refuses_to_play(refusal(15, 0), &good, 33_554_428, 5, &[], 0);
    refuses_to_play(refusal(15, 1), &good, 33_554_428, 4, &[], 0);
    let broken = capture(&CASE, &[(0, active(0)), (2, read(0))]);
    refuses_to_play(refusal(8, 1), &broken, 0xffff_ffff, 16_385, &[], 0);
    refuses_to_play(refusal(1, 0), &broken[1..], 0xffff_ffff, 16_385, &[], 0);
    // The window holds the write and not the read behind it.
    let two_rows = [(0, active(0)), (3, write_to(0, 8)), (8, read(0))];
    refuses_to_play(refusal(15, 2), &capture(&CASE, &two_rows), 8, 4, &writes, 4);
}

#[test]
fn a_cut_write_takes_all_its_words() {
    let events = [
        (0, active(0)),
        (3, write(0)),
        (4, write_to(0, 8)),
        (8, read(0)),
    ];
    let writes: Vec<u32> = (0x100..0x108).flat_map(|word| [word, 0]).collect();
    let (mut window, mut reads) = ([0; 12], [0; 4]);
    let played = play(
        &capture(&CASE, &events),
        0,
        &mut window,
        &writes,
        &mut reads,
    );
    assert_eq!(played, Ok(4));
    assert_eq!(window[..4], [0x100, 0x101, 0, 0]);
    assert_eq!(window[8..], [0x104, 0x105, 0x106, 0x107]);
    assert_eq!(reads, [0x100, 0x101, 0, 0]);
}

/// In edition 1 a later PRECHARGE takes pairs that a READ before it saw on the bus: the replay has
/// what is kept in the end.
#[test]
fn pairs_are_those_in_the_end() {
    let settings = with(CASE, &[(3, 0x34), (9, 6)]);
    let events = [
        (0, active(0)),
        (3, write(0)),
        (9, read(0)),
        (12, precharge(0)),
    ];
    let capture = bytes_of_edition(1, &settings, &events_of(&events));
    assert_eq!(judge(&capture), Answer::Clean { judged: 4 });
    let writes: Vec<u32> = (1..17).flat_map(|word| [word, 0]).collect();
    let (mut window, mut reads) = ([0; 16], [9; 16]);
    let read = play(&capture, 0, &mut window, &writes, &mut reads);
    assert_eq!(window[..6], [1, 2, 3, 4, 0, 0]);
    assert_eq!(reads[..6], [1, 2, 3, 4, 0, 0]);
    assert_eq!(read, Ok(6));
}

/// A window around the cells that a clean capture touches is what the replay leaves there.
#[test]
fn a_window_of_the_replay() {
    let mut dice = Dice::new(12);
    let mut played = 0;
    for _ in 0..9_000 {
        let Input::Capture(capture) = input(&mut dice) else {
            continue;
        };
        let Ok(part) = part_after(&capture, LookBack::Running) else {
            continue;
        };
        let touched = part
            .bursts
            .iter()
            .flat_map(|burst| (0..burst.kept_beats()).map(|beat| burst.cell(&part.settings, beat)));
        let (Some(least), Some(most)) = (touched.clone().min(), touched.max()) else {
            continue;
        };
        if most - least >= 16_384 {
            continue;
        }
        let taken: u32 = part
            .bursts
            .iter()
            .filter(|burst| burst.direction == Direction::Write)
            .map(|burst| burst.mode.burst_length())
            .sum();
        let writes: Vec<u32> = (0..2 * taken).map(|_| dice.word()).collect();
        let contents = |cell: u32| cell.wrapping_mul(0x9e37_79b9);
        let mut window: Vec<u32> = (least..=most).map(contents).collect();
        let mut reads = vec![0; 128_000];
        let read = play(&capture, least, &mut window, &writes, &mut reads).expect("playable");
        let mut supply = writes.chunks(2).map(|pair| (pair[0], pair[1]));
        let replayed = replay(&capture, &contents, &mut || supply.next().expect("enough"))
            .expect("a clean capture");
        assert_eq!(reads[..read as usize], replayed.words_read);
        let lanes = if part.settings.lane_code == 1 {
            0xffff
        } else {
            u32::MAX
        };
        for (cell, word) in (least..).zip(&window) {
            let held = replayed
                .stored
                .get(&cell)
                .copied()
                .unwrap_or(contents(cell));
            assert_eq!(word & lanes, held & lanes);
            assert_eq!(word & !lanes, contents(cell) & !lanes);
        }
        played += u32::from(Capture::read(&capture).expect("clean").events.len() > 10);
    }
    assert!(played > 100, "{played}");
}
