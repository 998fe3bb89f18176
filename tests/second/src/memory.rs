//! What reads return and writes store: the part replayed, and the plain memory.

use std::collections::HashMap;

use crate::capture::{Refusal, Settings};
use crate::part::{Burst, Direction, LookBack};
use crate::schedule::{read_requests, Request};
use crate::verdict::part_after;

/// The words that reads returned, in order, and every cell a write stored to.
#[derive(Clone, Debug, Default, PartialEq, Eq)]
pub struct Outcome {
    pub words_read: Vec<u32>,
    pub stored: HashMap<u32, u32>,
}

/// Cells that start with given contents and take writes lane by lane.
struct Memory<'a> {
    lanes: u32,
    contents: &'a dyn Fn(u32) -> u32,
    outcome: Outcome,
}

impl<'a> Memory<'a> {
    fn new(settings: &Settings, contents: &'a dyn Fn(u32) -> u32) -> Memory<'a> {
        Memory {
            lanes: lanes(settings),
            contents,
            outcome: Outcome::default(),
        }
    }

    /// The word a cell holds; bytes beyond its lanes are no part of it.
    fn word(&self, cell: u32) -> u32 {
        let word = match self.outcome.stored.get(&cell) {
            Some(&word) => word,
            None => (self.contents)(cell),
        };
        (0..self.lanes).fold(0, |whole, lane| whole | word & lane_bits(lane))
    }

    fn load(&mut self, cell: u32) {
        let word = self.word(cell);
        self.outcome.words_read.push(word);
    }

    /// A mask bit of 0 stores its lane, 1 leaves it.
    fn store(&mut self, cell: u32, word: u32, mask: u32) {
        let mut held = self.word(cell);
        for lane in (0..self.lanes).filter(|lane| mask >> lane & 1 == 0) {
            held = held & !lane_bits(lane) | word & lane_bits(lane);
        }
        self.outcome.stored.insert(cell, held);
    }

    fn run(&mut self, burst: &Burst, settings: &Settings, supply: &mut dyn FnMut() -> (u32, u32)) {
        for beat in 0..burst.mode.burst_length() {
            let cell = burst.cell(settings, beat);
            let kept = beat < burst.kept_beats();
            match burst.direction {
                Direction::Read if kept => self.load(cell),
                Direction::Read => {}
                Direction::Write => {
                    // A word and a mask are taken for every beat, kept or not.
                    let (word, mask) = supply();
                    if kept {
                        self.store(cell, word, mask);
                    }
                }
            }
        }
    }
}

/// How many bytes a cell has.
pub fn lanes(settings: &Settings) -> u32 {
    if settings.lane_code == 1 {
        2
    } else {
        4
    }
}

/// The bits of a byte in its cell's word.
pub fn lane_bits(lane: u32) -> u32 {
    0xff << (8 * lane)
}

/// Replays a clean capture from starting contents. `supply` gives the words and masks of
/// the writes, beat by beat. Refusals 1 to 4, then 8.
pub fn replay(
    capture: &[u8],
    contents: &dyn Fn(u32) -> u32,
    supply: &mut dyn FnMut() -> (u32, u32),
) -> Result<Outcome, Refusal> {
    let part = part_after(capture, LookBack::Running)?;
    let mut memory = Memory::new(&part.settings, contents);
    for burst in &part.bursts {
        memory.run(burst, &part.settings, supply);
    }
    Ok(memory.outcome)
}

/// Does the requests one after another, whole bursts only. Refusals 2, 3 and 5.
pub fn plain(
    settings: &[u32],
    requests: &[u32],
    contents: &dyn Fn(u32) -> u32,
    supply: &mut dyn FnMut() -> (u32, u32),
) -> Result<Outcome, Refusal> {
    let settings = Settings::read_awake(settings)?;
    let requests = read_requests(requests, &settings)?;
    let mut memory = Memory::new(&settings, contents);
    for request in &requests {
        memory.run(&whole_burst(request, &settings), &settings, supply);
    }
    Ok(memory.outcome)
}

fn whole_burst(request: &Request, settings: &Settings) -> Burst {
    let direction = if request.write {
        Direction::Write
    } else {
        Direction::Read
    };
    Burst {
        direction,
        bank: request.bank(settings),
        row: request.row(settings),
        column: request.column(settings),
        given: 0,
        mode: settings.mode,
        auto_precharge: true,
        kept: settings.mode.pairs(),
    }
}
