//! The bench player: a clean capture played against a window of lent cells.

use crate::capture::{refused, Capture, Refusal, Settings};
use crate::memory::{lane_bits, lanes};
use crate::part::{Burst, Direction, LookBack};
use crate::verdict::part_after;

/// The most words that a window may have.
pub const MOST_WINDOW: usize = 16_384;

/// Plays the capture. `writes` holds word and mask in turn; the words read go to `reads`, and
/// the answer counts them. Refusals 1 to 4, then 8, then 15, then 7.
pub fn play(
    capture: &[u8],
    first: u32,
    window: &mut [u32],
    writes: &[u32],
    reads: &mut [u32],
) -> Result<u32, Refusal> {
    let part = part_after(capture, LookBack::Running)?;
    let settings = &part.settings;
    let cells = Cells {
        first: u64::from(first),
        size: window.len() as u64,
    };
    if window.len() > MOST_WINDOW || cells.end() > settings.cells() {
        return refused(15, 0);
    }
    // A word without a mask is none.
    let supply: Vec<&[u32]> = writes.chunks_exact(2).collect();
    let mut taken = 0;
    for burst in &part.bursts {
        let inside = kept_cells(burst, settings).all(|cell| cells.hold(cell));
        if !inside || supply.len() - taken < words_taken(burst) {
            return refused(15, event_of(capture, burst));
        }
        taken += words_taken(burst);
    }
    let read: u32 = part
        .bursts
        .iter()
        .filter(|burst| burst.direction == Direction::Read)
        .map(Burst::kept_beats)
        .sum();
    if reads.len() < read as usize {
        return refused(7, read);
    }
    let mut supply = supply.into_iter();
    let mut returned = reads.iter_mut();
    for burst in &part.bursts {
        let data: Vec<&[u32]> = supply.by_ref().take(words_taken(burst)).collect();
        for (beat, cell) in kept_cells(burst, settings).enumerate() {
            let held = &mut window[cells.place(cell)];
            match burst.direction {
                Direction::Read => {
                    let word = returned.next().expect("counted before");
                    *word = *held & all_lanes(settings);
                }
                Direction::Write => *held = stored(settings, *held, data[beat][0], data[beat][1]),
            }
        }
    }
    Ok(read)
}

/// The cells that a window holds. Sums in 64 bits do not wrap.
struct Cells {
    first: u64,
    size: u64,
}

impl Cells {
    fn end(&self) -> u64 {
        self.first + self.size
    }

    fn hold(&self, cell: u32) -> bool {
        (self.first..self.end()).contains(&u64::from(cell))
    }

    fn place(&self, cell: u32) -> usize {
        (u64::from(cell) - self.first) as usize
    }
}

/// The cells of the beats that a burst keeps in the end, in their order.
fn kept_cells<'a>(burst: &'a Burst, settings: &'a Settings) -> impl Iterator<Item = u32> + 'a {
    (0..burst.kept_beats()).map(move |beat| burst.cell(settings, beat))
}

/// A WRITE takes BL words, kept or not.
fn words_taken(burst: &Burst) -> usize {
    match burst.direction {
        Direction::Read => 0,
        Direction::Write => burst.mode.burst_length() as usize,
    }
}

/// The event that gave a burst: no two stand at one cycle.
fn event_of(capture: &[u8], burst: &Burst) -> u32 {
    let events = Capture::read(capture).expect("it was read before").events;
    let given = |event: &crate::capture::Event| u64::from(event.cycle) == burst.given;
    events
        .iter()
        .position(given)
        .expect("bursts are given by events") as u32
}

fn all_lanes(settings: &Settings) -> u32 {
    (0..lanes(settings)).fold(0, |all, lane| all | lane_bits(lane))
}

/// A word with the lanes of another whose mask bit is 0; what lies above the lanes stays.
fn stored(settings: &Settings, held: u32, word: u32, mask: u32) -> u32 {
    (0..lanes(settings))
        .filter(|lane| mask >> lane & 1 == 0)
        .fold(held, |held, lane| {
            held & !lane_bits(lane) | word & lane_bits(lane)
        })
}
