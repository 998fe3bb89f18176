//! Rules 1 to 15 without 6, one function each. Every one says whether an event at a cycle keeps it,
//! given the part as the events before have left it.

use crate::capture::Mode;
use crate::command::{Asked, Command, BANKS, EXTENDED_REGISTER, MODE_REGISTER};
use crate::part::{Bank, Burst, Direction, Part};
use crate::refresh::MOST_OWED;
use crate::sleep::{self, Sleep, State};

type Rule = fn(&Part, u64, Asked) -> bool;

/// The rules with their numbers, the lowest first. There is no rule 6 any more.
pub const RULES: [(u32, Rule); 14] = [
    (1, rule_1),
    (2, rule_2),
    (3, rule_3),
    (4, rule_4),
    (5, rule_5),
    (7, rule_7),
    (8, rule_8),
    (9, rule_9),
    (10, rule_10),
    (11, rule_11),
    (12, rule_12),
    (13, rule_13),
    (14, rule_14),
    (15, rule_15),
];

/// The lowest rule that an event breaks.
pub fn lowest_broken(part: &Part, cycle: u64, asked: Asked) -> Option<u32> {
    let breaks = |&&(_, keeps): &&(u32, Rule)| !keeps(part, cycle, asked);
    RULES.iter().find(breaks).map(|&(rule, _)| rule)
}

/// Whether all rules but 14 pass an event, which is what schedules ask: they
/// never sleep, so rule 15 passes all of theirs.
pub fn pass_but_refresh(part: &Part, cycle: u64, asked: Asked) -> bool {
    RULES
        .iter()
        .all(|&(rule, keeps)| rule == 14 || keeps(part, cycle, asked))
}

/// At least `time` cycles after something, or it never happened.
fn waited(cycle: u64, time: u64, since: Option<u64>) -> bool {
    since.is_none_or(|since| cycle >= since + time)
}

fn asks_all_banks(command: Command) -> bool {
    matches!(
        command,
        Command::AutoRefresh | Command::ModeRegisterSet { .. }
    )
}

/// Row pins the part lacks stay 0.
fn rule_1(part: &Part, _: u64, asked: Asked) -> bool {
    match asked.command {
        Command::Active { row, .. } => row >> part.settings.row_bits == 0,
        _ => true,
    }
}

/// Only valid mode words, or the extended register.
fn rule_2(_: &Part, _: u64, asked: Asked) -> bool {
    match asked.command {
        Command::ModeRegisterSet {
            register: MODE_REGISTER,
            address,
        } => address >> 7 == 0 && Mode(address).is_valid(),
        Command::ModeRegisterSet { register, .. } => register == EXTENDED_REGISTER,
        _ => true,
    }
}

/// Banks idle or open as the command wants.
fn rule_3(part: &Part, _: u64, asked: Asked) -> bool {
    match asked.command {
        Command::Active { bank, .. } => !part.banks[bank].is_open(),
        Command::Read { bank, .. } | Command::Write { bank, .. } => part.banks[bank].is_open(),
        _ if asks_all_banks(asked.command) => part.banks.iter().all(|bank| !bank.is_open()),
        _ => true,
    }
}

/// tRFC after a refresh and tMRD after a mode register set, whatever the register. NOP and
/// DESELECT need not wait, unless they put the part to sleep.
fn rule_4(part: &Part, cycle: u64, asked: Asked) -> bool {
    if asked.command.is_quiet() && !part.sleep.falls_asleep(asked) {
        return true;
    }
    waited(cycle, part.settings.t_rfc, part.refresh)
        && waited(cycle, part.settings.t_mrd, part.mode_set)
}

/// tRP after the precharge.
fn rule_5(part: &Part, cycle: u64, asked: Asked) -> bool {
    let precharged = |bank: &Bank| waited(cycle, part.settings.t_rp, bank.precharge);
    match asked.command {
        Command::Active { bank, .. } => precharged(&part.banks[bank]),
        _ if asks_all_banks(asked.command) => part.banks.iter().all(precharged),
        _ => true,
    }
}

/// tRRD from ACTIVE to ACTIVE of two banks.
fn rule_7(part: &Part, cycle: u64, asked: Asked) -> bool {
    match asked.command {
        Command::Active { bank, .. } => (0..BANKS)
            .filter(|&other| other != bank)
            .all(|other| waited(cycle, part.settings.t_rrd, part.banks[other].active)),
        _ => true,
    }
}

/// tRCD from ACTIVE to READ or WRITE.
fn rule_8(part: &Part, cycle: u64, asked: Asked) -> bool {
    match asked.command {
        Command::Read { bank, .. } | Command::Write { bank, .. } => {
            waited(cycle, part.settings.t_rcd, part.banks[bank].active)
        }
        _ => true,
    }
}

/// Whether all open banks that a PRECHARGE names pass a test; other commands pass.
fn precharged_banks_pass(part: &Part, command: Command, test: impl Fn(usize) -> bool) -> bool {
    match command {
        Command::Precharge { banks } => (0..BANKS)
            .filter(|&bank| part.closes(banks, bank))
            .all(test),
        _ => true,
    }
}

/// tRAS from ACTIVE to PRECHARGE.
fn rule_9(part: &Part, cycle: u64, asked: Asked) -> bool {
    precharged_banks_pass(part, asked.command, |bank| {
        waited(cycle, part.settings.t_ras, part.banks[bank].active)
    })
}

/// tWR from the row's last write to PRECHARGE.
fn rule_10(part: &Part, cycle: u64, asked: Asked) -> bool {
    precharged_banks_pass(part, asked.command, |bank| {
        waited_after_write(
            part,
            cycle,
            part.settings.t_wr,
            part.last_write_of_row(bank),
        )
    })
}

/// tWTR from the last write, whatever its bank, to READ.
fn rule_11(part: &Part, cycle: u64, asked: Asked) -> bool {
    match asked.command {
        Command::Read { .. } => {
            let last = part.last_burst(Direction::Write);
            waited_after_write(part, cycle, part.settings.t_wtr, last)
        }
        _ => true,
    }
}

/// From its data end, or in edition 1 from its first pair if it may be cut.
fn waited_after_write(part: &Part, cycle: u64, time: u64, write: Option<&Burst>) -> bool {
    waited(
        cycle,
        time,
        write.map(|write| write.waited_from(part.edition)),
    )
}

/// The last read has left the bus.
fn rule_12(part: &Part, cycle: u64, asked: Asked) -> bool {
    match asked.command {
        Command::Write { .. } | Command::AutoRefresh | Command::ModeRegisterSet { .. } => {
            let free = part.last_burst(Direction::Read).map(Burst::bus_free);
            waited(cycle, 0, free)
        }
        _ => true,
    }
}

/// Auto precharge bursts and writes run undisturbed.
fn rule_13(part: &Part, cycle: u64, asked: Asked) -> bool {
    part.bursts_at(cycle)
        .iter()
        .all(|burst| !disturbs(asked.command, cycle, burst))
}

fn disturbs(command: Command, cycle: u64, burst: &Burst) -> bool {
    let whole_runs = cycle < burst.whole_end();
    match (command, burst.direction) {
        (Command::Read { .. }, Direction::Read) => burst.auto_precharge && whole_runs,
        (Command::Write { .. }, Direction::Write) => burst.auto_precharge && whole_runs,
        (Command::BurstTerminate, Direction::Read) => {
            burst.auto_precharge && burst.given <= cycle && whole_runs
        }
        (Command::BurstTerminate, Direction::Write) => {
            burst.given <= cycle && cycle < burst.data_end()
        }
        _ => false,
    }
}

/// At most eight refreshes are owed; in self refresh, and of the event that ends it, this is
/// not asked.
fn rule_14(part: &Part, cycle: u64, _: Asked) -> bool {
    part.sleep == State::Asleep(Sleep::SelfRefresh) || part.owed.at(cycle) <= MOST_OWED
}

/// CKE falls, stays low and rises as it may, and what follows sleep waits.
fn rule_15(part: &Part, cycle: u64, asked: Asked) -> bool {
    sleep::wrong(part, cycle, asked).is_none()
}
