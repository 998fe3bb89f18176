//! Windows and words to play a capture with, and counts of what plays showed, so that a run can
//! tell that every clause came up.

use std::collections::BTreeMap;
use std::fmt;

use super::Dice;
use crate::capture::Refusal;
use crate::part::{Direction, LookBack, Part};
use crate::play::MOST_WINDOW;
use crate::verdict::part_after;

/// What a capture is played with: the first cell, the words of the window, words and masks.
#[derive(Clone, Debug)]
pub struct Play {
    pub first: u32,
    pub window: Vec<u32>,
    pub writes: Vec<u32>,
    fault: Fault,
}

/// What was made wrong on purpose; by the order of refusals another reason may come first.
#[derive(Clone, Copy, Debug, PartialEq)]
enum Fault {
    Nothing,
    /// The window begins behind, or ends before, a cell that is touched.
    Outside,
    OddList,
    FewWords,
    TooLarge,
    LeavesThePart,
    FarAway,
}

/// A window around the cells that a clean capture touches, and enough words, more often than not.
pub fn play_of(dice: &mut Dice, capture: &[u8]) -> Play {
    let Ok(part) = part_after(capture, LookBack::Running) else {
        return any_play(dice);
    };
    let (least, most) = touched(&part);
    let (fault, all) = (fault(dice), part.settings.cells() as u32);
    let spare = dice.below(9).min(least);
    let ample = if dice.once_in(8) {
        MOST_WINDOW as u32
    } else {
        dice.below(9)
    };
    let wide = (most - least + spare + ample).min(MOST_WINDOW as u32 - 1) + 1;
    let size = wide.min(all - (least - spare));
    let (first, size) = match fault {
        Fault::Outside if dice.once_in(2) => (least + 1, size),
        Fault::Outside => (least - spare, (most - least + spare).min(size)),
        Fault::TooLarge => (least - spare, MOST_WINDOW as u32 + 1),
        Fault::LeavesThePart => (all - size.min(all) + 1, size),
        Fault::FarAway => (u32::MAX - dice.below(2), size),
        _ => (least - spare, size),
    };
    let needed: usize = part.bursts.iter().map(words_taken).sum();
    let pairs = match fault {
        Fault::FewWords => needed.saturating_sub(1 + dice.below(4) as usize),
        _ => needed + dice.below(3) as usize,
    };
    let elements = match fault {
        Fault::OddList => (2 * needed).saturating_sub(1),
        _ => 2 * pairs + dice.below(2) as usize,
    };
    Play {
        first,
        window: words(dice, size as usize),
        writes: words_and_masks(dice, elements),
        fault,
    }
}

fn any_play(dice: &mut Dice) -> Play {
    let (size, elements) = (dice.below(64) as usize, dice.below(64) as usize);
    Play {
        first: dice.pick(&[0, 1, 1024, u32::MAX]),
        window: words(dice, size),
        writes: words_and_masks(dice, elements),
        fault: Fault::Nothing,
    }
}

fn fault(dice: &mut Dice) -> Fault {
    match dice.below(24) {
        0 | 1 => Fault::Outside,
        2 => Fault::OddList,
        3 => Fault::FewWords,
        4 => Fault::TooLarge,
        5 => Fault::LeavesThePart,
        6 => Fault::FarAway,
        _ => Fault::Nothing,
    }
}

/// The lowest and the highest cell of a kept beat; cell 0 where there is none.
fn touched(part: &Part) -> (u32, u32) {
    let cells = part
        .bursts
        .iter()
        .flat_map(|burst| (0..burst.kept_beats()).map(|beat| burst.cell(&part.settings, beat)));
    (cells.clone().min().unwrap_or(0), cells.max().unwrap_or(0))
}

fn words_taken(burst: &crate::part::Burst) -> usize {
    match burst.direction {
        Direction::Write => burst.mode.burst_length() as usize,
        Direction::Read => 0,
    }
}

fn words(dice: &mut Dice, count: usize) -> Vec<u32> {
    (0..count).map(|_| dice.word()).collect()
}

/// Masks of any lanes, and now and then with bits above them.
fn words_and_masks(dice: &mut Dice, elements: usize) -> Vec<u32> {
    (0..elements)
        .map(|place| match place % 2 {
            0 => dice.word(),
            _ if dice.once_in(8) => dice.word(),
            _ => dice.below(16),
        })
        .collect()
}

#[derive(Clone, Copy, Debug, PartialEq, Eq, PartialOrd, Ord)]
pub enum PlayShown {
    Nothing,
    Reads,
    Writes,
    CutWrite,
    TwoLanes,
    FourLanes,
    EditionOne,
    Sleeps,
    WholeWindow,
    Refused1To4,
    Unclean,
    TooLarge,
    Leaves,
    FarAway,
    Outside,
    /// The first event with a burst, and a later one.
    OutsideLater,
    OddList,
    FewWords,
    NoRoom,
}

use PlayShown::*;

pub const ALL: [PlayShown; 19] = [
    Nothing,
    Reads,
    Writes,
    CutWrite,
    TwoLanes,
    FourLanes,
    EditionOne,
    Sleeps,
    WholeWindow,
    Refused1To4,
    Unclean,
    TooLarge,
    Leaves,
    FarAway,
    Outside,
    OutsideLater,
    OddList,
    FewWords,
    NoRoom,
];

#[derive(Clone, Debug, Default)]
pub struct PlayTally(BTreeMap<PlayShown, u64>);

impl PlayTally {
    fn show(&mut self, shown: PlayShown, holds: bool) {
        if holds {
            *self.0.entry(shown).or_default() += 1;
        }
    }

    pub fn count(&mut self, capture: &[u8], play: &Play, answer: Result<u32, Refusal>) {
        let refusal = answer.err().map(|refusal| (refusal.number, refusal.place));
        match refusal {
            None => self.count_played(capture, play),
            Some((number @ 1..=4, _)) => self.show(Refused1To4, number < 5),
            Some((8, _)) => self.show(Unclean, true),
            Some((15, place)) => self.count_unplayed(capture, play, place),
            Some((number, _)) => self.show(NoRoom, number == 7),
        }
    }

    fn count_played(&mut self, capture: &[u8], play: &Play) {
        let part = part_after(capture, LookBack::Running).expect("it was played");
        let is = |direction: Direction| part.bursts.iter().any(|b| b.direction == direction);
        let cut = |b: &crate::part::Burst| b.kept < b.mode.pairs();
        self.show(Nothing, part.bursts.is_empty());
        self.show(Reads, is(Direction::Read));
        self.show(Writes, is(Direction::Write));
        let mut writes = part
            .bursts
            .iter()
            .filter(|b| b.direction == Direction::Write);
        self.show(CutWrite, writes.any(cut));
        self.show(TwoLanes, part.settings.lane_code == 1);
        self.show(FourLanes, part.settings.lane_code == 2);
        self.show(EditionOne, capture[20] == 1);
        self.show(Sleeps, capture[4] == 16);
        self.show(WholeWindow, play.window.len() == MOST_WINDOW);
    }

    fn count_unplayed(&mut self, capture: &[u8], play: &Play, place: u32) {
        let part = part_after(capture, LookBack::Running).expect("it is clean");
        let end = u64::from(play.first) + play.window.len() as u64;
        let large = play.window.len() > MOST_WINDOW;
        let leaves = end > part.settings.cells();
        self.show(TooLarge, large && place == 0);
        self.show(
            Leaves,
            play.fault == Fault::LeavesThePart && leaves && place == 0,
        );
        self.show(
            FarAway,
            play.fault == Fault::FarAway && leaves && place == 0,
        );
        let by_event = !large && !leaves;
        self.show(Outside, by_event && play.fault == Fault::Outside);
        self.show(
            OutsideLater,
            by_event && play.fault == Fault::Outside && place > 3,
        );
        self.show(OddList, by_event && play.fault == Fault::OddList);
        self.show(FewWords, by_event && play.fault == Fault::FewWords);
    }

    /// What never came up.
    pub fn missing(&self) -> Vec<String> {
        ALL.iter()
            .filter(|shown| !self.0.contains_key(shown))
            .map(|shown| format!("plays: {shown:?}"))
            .collect()
    }
}

impl fmt::Display for PlayTally {
    fn fmt(&self, f: &mut fmt::Formatter<'_>) -> fmt::Result {
        let count = |shown: &PlayShown| self.0.get(shown).copied().unwrap_or(0);
        let lines: Vec<String> = ALL
            .iter()
            .map(|shown| format!("plays, {shown:?}: {}", count(shown)))
            .collect();
        write!(f, "{}", lines.join("\n"))
    }
}
