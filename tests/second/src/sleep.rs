//! Sleep by CKE, and rule 15: the customers' first request.

use crate::capture::Settings;
use crate::command::{Asked, Command};
use crate::part::{Burst, Direction, Part};

#[derive(Clone, Copy, Debug, PartialEq, Eq, PartialOrd, Ord)]
pub enum Sleep {
    PowerDown,
    SelfRefresh,
}

impl Sleep {
    /// tXP or tXSR: how long what follows this sleep waits from its end.
    fn wait(self, settings: &Settings) -> u64 {
        let wake = settings.wake.expect("only 16 settings let CKE fall");
        match self {
            Sleep::PowerDown => wake.t_xp,
            Sleep::SelfRefresh => wake.t_xsr,
        }
    }
}

/// CKE holds between events, so it is low exactly while the part is asleep.
#[derive(Clone, Copy, Debug, PartialEq, Eq)]
pub enum State {
    /// With the last sleep and the cycle of the event that ended it.
    Awake {
        left: Option<(Sleep, u64)>,
    },
    Asleep(Sleep),
}

impl State {
    pub fn is_awake(self) -> bool {
        matches!(self, State::Awake { .. })
    }

    /// Whether CKE falls at an event.
    pub fn falls_asleep(self, asked: Asked) -> bool {
        self.is_awake() && asked.low
    }

    /// The state after an event that broke no rule.
    pub fn after(self, cycle: u64, asked: Asked) -> State {
        match self {
            State::Awake { .. } if asked.low => State::Asleep(entered_by(asked.command)),
            State::Asleep(sleep) if !asked.low => State::Awake {
                left: Some((sleep, cycle)),
            },
            _ => self,
        }
    }
}

/// The sleep that CKE falling with a command enters.
fn entered_by(command: Command) -> Sleep {
    match command {
        Command::AutoRefresh => Sleep::SelfRefresh,
        _ => Sleep::PowerDown,
    }
}

/// What rule 15 finds wrong with an event.
#[derive(Clone, Copy, Debug, PartialEq, Eq, PartialOrd, Ord)]
pub enum Wrong {
    /// CKE falls with another command than NOP, DESELECT and AUTO REFRESH.
    EntryCommand,
    /// CKE falls before k + CL + n of the last read.
    EntryInRead,
    /// CKE falls before the data end of the last write.
    EntryInWrite,
    /// CKE falls before tXP or tXSR is over.
    EarlyEntry(Sleep),
    /// A command comes before tXP or tXSR is over.
    EarlyCommand(Sleep),
    /// A command comes while CKE stays low.
    CommandWhileLow(Sleep),
    /// CKE rises with a command.
    ExitCommand(Sleep),
}

pub fn wrong(part: &Part, cycle: u64, asked: Asked) -> Option<Wrong> {
    match (part.sleep, asked.low) {
        (State::Awake { left }, true) => wrong_entry(part, cycle, asked.command)
            .or_else(|| too_early(part, cycle, left).map(Wrong::EarlyEntry)),
        (_, _) if asked.command.is_quiet() => None,
        (State::Awake { left }, false) => too_early(part, cycle, left).map(Wrong::EarlyCommand),
        (State::Asleep(sleep), true) => Some(Wrong::CommandWhileLow(sleep)),
        (State::Asleep(sleep), false) => Some(Wrong::ExitCommand(sleep)),
    }
}

fn wrong_entry(part: &Part, cycle: u64, command: Command) -> Option<Wrong> {
    let read_end = part.last_burst(Direction::Read).map(Burst::bus_free);
    let data_end = part.last_burst(Direction::Write).map(Burst::data_end);
    if !command.is_quiet() && command != Command::AutoRefresh {
        Some(Wrong::EntryCommand)
    } else if read_end.is_some_and(|end| cycle < end) {
        Some(Wrong::EntryInRead)
    } else if data_end.is_some_and(|end| cycle < end) {
        Some(Wrong::EntryInWrite)
    } else {
        None
    }
}

/// The sleep whose wait is not over.
fn too_early(part: &Part, cycle: u64, left: Option<(Sleep, u64)>) -> Option<Sleep> {
    let (sleep, end) = left?;
    (cycle < end + sleep.wait(&part.settings)).then_some(sleep)
}
