//! The month in numbers: captures one behind another, a line for each and their sums.

use std::fmt::Write;

use crate::capture::{settings_of_layout, total_bytes, word, Capture, MOST_EVENTS};
use crate::part::{Burst, Direction, LookBack};
use crate::verdict::{judge, part_after, Answer};

/// The most captures of a month.
pub const MOST_CAPTURES: usize = 10_000;

/// What is told of one capture, and what the totals add up.
#[derive(Clone, Copy, Debug, Default, PartialEq, Eq)]
struct Sums {
    captures: u64,
    clean: u64,
    broken: u64,
    refused: u64,
    events: u64,
    judged: u64,
    read: u64,
    written: u64,
    /// Twice the last event's cycle.
    cycles: u64,
}

/// The whole text of a month.
pub fn month(mut stream: &[u8]) -> String {
    let mut text = String::new();
    let mut all = Sums::default();
    while !stream.is_empty() {
        if all.captures == MOST_CAPTURES as u64 {
            return text + "refused 14 place 10000\n";
        }
        let number = all.captures;
        let (capture, behind) = parted(stream);
        let (answer, sums) = line(capture);
        let verdict = verdict(answer);
        let Sums { events, judged, .. } = sums;
        writeln!(
            text,
            "capture {number} events {events} judged {judged} {verdict} {}",
            bus(&sums)
        )
        .expect("a text takes all");
        all.add(&sums);
        if matches!(answer, Answer::Refused { number: 1, .. }) {
            writeln!(text, "stream ends at capture {number}").expect("a text takes all");
            break;
        }
        stream = behind;
    }
    let Sums {
        captures,
        clean,
        broken,
        refused,
        events,
        judged,
        ..
    } = all;
    text + &format!(
        "all captures {captures} clean {clean} broken {broken} refused {refused} \
         events {events} judged {judged} {}\n",
        bus(&all)
    )
}

/// The first capture of a stream and what lies behind it, by its total word. Where no capture has
/// that total, or too few bytes are left, the rest of the stream is one input, refused for its
/// length.
fn parted(stream: &[u8]) -> (&[u8], &[u8]) {
    if stream.len() < 4 {
        return (stream, &[]);
    }
    let total = word(stream, 0) as usize;
    if total > stream.len() || total == 0 {
        return (stream, &[]);
    }
    stream.split_at(total)
}

fn line(capture: &[u8]) -> (Answer, Sums) {
    let answer = if longest_is_passed(capture) {
        Answer::Refused {
            number: 1,
            place: 0,
        }
    } else {
        judge(capture)
    };
    let mut sums = Sums {
        captures: 1,
        ..Sums::default()
    };
    match answer {
        Answer::Refused { .. } => sums.refused = 1,
        Answer::Broken { judged, .. } => {
            sums.broken = 1;
            sums.events = events_of(capture).len() as u64;
            sums.judged = u64::from(judged);
        }
        Answer::Clean { judged } => {
            let part = part_after(capture, LookBack::Running).expect("it is clean");
            let events = events_of(capture);
            let beats = |direction| {
                part.bursts
                    .iter()
                    .filter(|burst: &&Burst| burst.direction == direction)
                    .map(|burst| u64::from(burst.kept_beats()))
                    .sum()
            };
            sums.clean = 1;
            sums.events = events.len() as u64;
            sums.judged = u64::from(judged);
            sums.read = beats(Direction::Read);
            sums.written = beats(Direction::Write);
            sums.cycles = 2 * events.last().map_or(0, |event| u64::from(event.cycle));
        }
    }
    (answer, sums)
}

/// The judge says the same; here no long stream is gone through for it.
fn longest_is_passed(capture: &[u8]) -> bool {
    capture.len() as u64 > total_bytes(settings_of_layout(capture), MOST_EVENTS)
}

fn events_of(capture: &[u8]) -> Vec<crate::capture::Event> {
    Capture::read(capture).expect("it is not refused").events
}

fn verdict(answer: Answer) -> String {
    match answer {
        Answer::Refused { number, place } => format!("refused {number} place {place}"),
        Answer::Clean { .. } => "clean".to_string(),
        Answer::Broken {
            rule, event, cycle, ..
        } => format!("broken rule {rule} event {event} cycle {cycle}"),
    }
}

/// The share of the bus: beats over twice the last cycle, not reduced.
fn bus(sums: &Sums) -> String {
    let Sums {
        read,
        written,
        cycles,
        ..
    } = sums;
    format!(
        "read {read} written {written} bus {} over {cycles}",
        read + written
    )
}

impl Sums {
    fn add(&mut self, one: &Sums) {
        self.captures += one.captures;
        self.clean += one.clean;
        self.broken += one.broken;
        self.refused += one.refused;
        self.events += one.events;
        self.judged += one.judged;
        self.read += one.read;
        self.written += one.written;
        self.cycles += one.cycles;
    }
}
