//! The judge and the burst list.

use crate::capture::{refused, Capture, Event, Refusal, MOST_EVENTS};
use crate::part::{LookBack, Part};
use crate::rules::lowest_broken;

/// The judge's answer. Events are counted from 0.
#[derive(Clone, Copy, Debug, PartialEq, Eq)]
pub enum Answer {
    Refused {
        number: u32,
        place: u32,
    },
    Clean {
        judged: u32,
    },
    Broken {
        rule: u32,
        event: u32,
        cycle: u32,
        judged: u32,
    },
}

pub fn judge(capture: &[u8]) -> Answer {
    judge_to(capture, Some(MOST_EVENTS))
}

/// A recording is judged as a capture is, however many events it has.
pub fn judge_recording(recording: &[u8]) -> Answer {
    judge_to(recording, None)
}

/// With at most so many events, or any number.
pub fn judge_to(capture: &[u8], most: Option<u32>) -> Answer {
    judge_looking_back(capture, most, LookBack::Running)
}

/// The judge with every burst in view, however long ago it was.
pub fn judge_literally(capture: &[u8]) -> Answer {
    judge_looking_back(capture, Some(MOST_EVENTS), LookBack::All)
}

fn judge_looking_back(capture: &[u8], most: Option<u32>, look_back: LookBack) -> Answer {
    match Capture::read_to(capture, most) {
        Err(Refusal { number, place }) => Answer::Refused { number, place },
        Ok(capture) => match walk(&capture, look_back) {
            Ok(_) => Answer::Clean {
                judged: capture.events.len() as u32,
            },
            Err(broken) => broken.answer(&capture.events),
        },
    }
}

/// The first event that breaks a rule, and the lowest rule it breaks.
struct Broken {
    rule: u32,
    event: usize,
}

impl Broken {
    fn answer(&self, events: &[Event]) -> Answer {
        Answer::Broken {
            rule: self.rule,
            event: self.event as u32,
            cycle: events[self.event].cycle,
            judged: self.event as u32,
        }
    }
}

/// The part after all events, or where they first break a rule.
fn walk(capture: &Capture, look_back: LookBack) -> Result<Part, Broken> {
    let mut part = Part::new(capture.edition, capture.settings, look_back);
    for (number, event) in capture.events.iter().enumerate() {
        let cycle = u64::from(event.cycle);
        let asked = event.asked();
        if let Some(rule) = lowest_broken(&part, cycle, asked) {
            return Err(Broken {
                rule,
                event: number,
            });
        }
        part.apply(cycle, asked);
    }
    Ok(part)
}

/// The part after all events of a clean capture; refusals 1 to 4, then 8.
pub fn part_after(capture: &[u8], look_back: LookBack) -> Result<Part, Refusal> {
    let capture = Capture::read(capture)?;
    walk(&capture, look_back).or_else(|broken| refused(8, broken.event as u32))
}

/// Writes the cells of all kept beats, and answers how many they are.
pub fn cells(capture: &[u8], out: &mut [u32]) -> Result<u32, Refusal> {
    cells_looking_back(capture, out, LookBack::Running)
}

/// The burst list with every burst in view.
pub fn cells_literally(capture: &[u8], out: &mut [u32]) -> Result<u32, Refusal> {
    cells_looking_back(capture, out, LookBack::All)
}

fn cells_looking_back(
    capture: &[u8],
    out: &mut [u32],
    look_back: LookBack,
) -> Result<u32, Refusal> {
    let part = part_after(capture, look_back)?;
    let cells: Vec<u32> = part
        .bursts
        .iter()
        .flat_map(|burst| {
            let settings = &part.settings;
            (0..burst.kept_beats()).map(move |beat| burst.cell(settings, beat))
        })
        .collect();
    if out.len() < cells.len() {
        return refused(7, cells.len() as u32);
    }
    out[..cells.len()].copy_from_slice(&cells);
    Ok(cells.len() as u32)
}
