//! The part as document 01 tells it: banks, the mode word, and a record of every burst.

use crate::capture::{Edition, Mode, Settings};
use crate::command::{column_of, Asked, Command, Named, BANKS, MODE_REGISTER};
use crate::refresh::Owed;
use crate::sleep::{Sleep, State};

#[derive(Clone, Copy, Debug, PartialEq, Eq)]
pub enum Direction {
    Read,
    Write,
}

/// A READ or WRITE and what is left of it.
#[derive(Clone, Copy, Debug, PartialEq, Eq)]
pub struct Burst {
    pub direction: Direction,
    pub bank: usize,
    pub row: u32,
    pub column: u32,
    /// k, the cycle it was given at.
    pub given: u64,
    /// The mode word when it was given: a later one does not touch it.
    pub mode: Mode,
    pub auto_precharge: bool,
    /// n, the pairs kept so far.
    pub kept: u64,
}

impl Burst {
    /// k + h.
    pub fn whole_end(&self) -> u64 {
        self.given + self.mode.pairs()
    }

    /// The data end of a write, k + 1 + n.
    pub fn data_end(&self) -> u64 {
        self.given + 1 + self.kept
    }

    /// k + CL + n of a read.
    pub fn bus_free(&self) -> u64 {
        self.given + self.mode.latency() + self.kept
    }

    pub fn kept_beats(&self) -> u32 {
        2 * self.kept as u32
    }

    /// The cell that beat j reads or stores.
    pub fn cell(&self, settings: &Settings, beat: u32) -> u32 {
        let length = self.mode.burst_length();
        let block = self.column - self.column % length;
        let place = if self.mode.is_interleaved() {
            (self.column % length) ^ beat
        } else {
            (self.column + beat) % length
        };
        let bank_and_row = ((self.bank as u32) << settings.row_bits) + self.row;
        (bank_and_row << settings.column_bits) + block + place
    }

    fn cut_at(&mut self, cycle: u64) {
        if !self.auto_precharge && cycle < self.whole_end() {
            self.kept = self.kept.min(cycle - self.given);
        }
    }

    /// Where a write's wait for a READ or PRECHARGE begins. In edition 1 one pair has to be
    /// in, of a write that may be cut; the data end otherwise.
    pub fn waited_from(&self, edition: Edition) -> u64 {
        if self.may_be_interrupted(edition) {
            self.given + 2
        } else {
            self.data_end()
        }
    }

    /// Cuts a write to the pairs that are in before a wait that ends at a cycle.
    fn interrupt_at(&mut self, cycle: u64, wait: u64, edition: Edition) {
        if self.may_be_interrupted(edition) {
            let pairs = cycle
                .checked_sub(wait + self.given + 1)
                .expect("rules 10 and 11 want a pair to be in");
            self.kept = self.kept.min(pairs);
        }
    }

    fn may_be_interrupted(&self, edition: Edition) -> bool {
        edition == Edition::One && self.direction == Direction::Write && !self.auto_precharge
    }
}

#[derive(Clone, Copy, Debug, Default, PartialEq, Eq)]
pub struct Bank {
    /// The open row; none while the bank is idle.
    pub row: Option<u32>,
    /// The last ACTIVE of this bank.
    pub active: Option<u64>,
    pub precharge: Option<u64>,
}

impl Bank {
    pub fn is_open(&self) -> bool {
        self.row.is_some()
    }

    fn close(&mut self, cycle: u64) {
        self.row = None;
        self.precharge = Some(cycle);
    }
}

/// Which bursts an event looks at when it cuts, and rule 13 when it asks.
#[derive(Clone, Copy, Debug, PartialEq, Eq)]
pub enum LookBack {
    /// Every burst given so far, as document 01 says it.
    All,
    /// Only those given so lately that they may still run. Long captures need this to be
    /// judged in good time; a test holds it against `All`.
    Running,
}

/// No burst, nor a write's data, lasts longer than this from the cycle it was given at:
/// 1 + h for the longest burst.
const LONGEST_RUN: u64 = 9;

#[derive(Clone, Debug, PartialEq, Eq)]
pub struct Part {
    pub edition: Edition,
    pub settings: Settings,
    pub mode: Mode,
    pub banks: [Bank; BANKS],
    /// The last AUTO REFRESH, for rule 4.
    pub refresh: Option<u64>,
    /// The refreshes that rule 14 asks about.
    pub owed: Owed,
    pub mode_set: Option<u64>,
    pub sleep: State,
    /// In the order they were given.
    pub bursts: Vec<Burst>,
    look_back: LookBack,
}

impl Part {
    pub fn new(edition: Edition, settings: Settings, look_back: LookBack) -> Part {
        Part {
            edition,
            settings,
            mode: settings.mode,
            banks: [Bank::default(); BANKS],
            refresh: None,
            owed: Owed::none_at(0, settings.t_refi),
            mode_set: None,
            sleep: State::Awake { left: None },
            bursts: Vec::new(),
            look_back,
        }
    }

    /// The bursts that may matter at a cycle.
    pub fn bursts_at(&self, cycle: u64) -> &[Burst] {
        &self.bursts[self.first_at(cycle)..]
    }

    fn first_at(&self, cycle: u64) -> usize {
        match self.look_back {
            LookBack::All => 0,
            LookBack::Running => {
                let over = |burst: &Burst| burst.given + LONGEST_RUN <= cycle;
                self.bursts
                    .iter()
                    .rposition(over)
                    .map_or(0, |last| last + 1)
            }
        }
    }

    pub fn last_burst(&self, direction: Direction) -> Option<&Burst> {
        self.last_place(direction).map(|place| &self.bursts[place])
    }

    fn last_place(&self, direction: Direction) -> Option<usize> {
        self.bursts
            .iter()
            .rposition(|burst| burst.direction == direction)
    }

    /// The last write to a bank since the bank's ACTIVE.
    pub fn last_write_of_row(&self, bank: usize) -> Option<&Burst> {
        self.row_write_place(bank).map(|place| &self.bursts[place])
    }

    fn row_write_place(&self, bank: usize) -> Option<usize> {
        let active = self.banks[bank].active?;
        (0..self.bursts.len())
            .rev()
            .take_while(|&place| self.bursts[place].given > active)
            .find(|&place| {
                let burst = &self.bursts[place];
                burst.direction == Direction::Write && burst.bank == bank
            })
    }

    /// Whether some write keeps fewer pairs than the writes after it have left it.
    pub fn has_interrupted_write(&self) -> bool {
        let writes: Vec<&Burst> = self
            .bursts
            .iter()
            .filter(|burst| burst.direction == Direction::Write)
            .collect();
        let pairs = |burst: &Burst| burst.mode.pairs();
        let shorter = |pair: &[&Burst]| {
            let until_next = pair[1].given - pair[0].given;
            pair[0].kept < pairs(pair[0]).min(until_next)
        };
        writes.windows(2).any(shorter) || writes.last().is_some_and(|last| last.kept < pairs(last))
    }

    /// What an event does, once the rules have passed it.
    pub fn apply(&mut self, cycle: u64, asked: Asked) {
        if self.sleep == State::Asleep(Sleep::SelfRefresh) && !asked.low {
            self.owed = Owed::none_at(cycle, self.settings.t_refi);
        }
        // What puts the part to sleep or wakes it, or comes in between, does nothing else.
        if self.sleep.is_awake() && !asked.low {
            self.apply_awake(cycle, asked.command);
        }
        self.sleep = self.sleep.after(cycle, asked);
    }

    fn apply_awake(&mut self, cycle: u64, command: Command) {
        self.cut_bursts(cycle, command);
        self.interrupt_writes(cycle, command);
        match command {
            Command::Deselect | Command::Nop | Command::BurstTerminate => {}
            Command::Active { bank, row } => {
                self.banks[bank].row = Some(row);
                self.banks[bank].active = Some(cycle);
            }
            Command::Read {
                bank,
                address,
                auto_precharge,
            } => {
                self.start_burst(cycle, Direction::Read, bank, address, auto_precharge);
            }
            Command::Write {
                bank,
                address,
                auto_precharge,
            } => {
                self.start_burst(cycle, Direction::Write, bank, address, auto_precharge);
            }
            Command::Precharge { banks } => self.precharge(cycle, banks),
            Command::AutoRefresh => {
                self.refresh = Some(cycle);
                self.owed.refresh(cycle);
            }
            Command::ModeRegisterSet { register, address } => {
                self.mode_set = Some(cycle);
                if register == MODE_REGISTER {
                    self.mode = Mode(address);
                }
            }
        }
    }

    fn cut_bursts(&mut self, cycle: u64, command: Command) {
        let first = self.first_at(cycle);
        for burst in &mut self.bursts[first..] {
            if cuts(command, burst) {
                burst.cut_at(cycle);
            }
        }
    }

    /// In edition 1 a READ cuts the last write, of whatever bank, and a PRECHARGE the last
    /// write of each row that it closes.
    fn interrupt_writes(&mut self, cycle: u64, command: Command) {
        let (places, wait) = match command {
            Command::Read { .. } => {
                let last = self.last_place(Direction::Write);
                (Vec::from_iter(last), self.settings.t_wtr)
            }
            Command::Precharge { banks } => {
                let closed = (0..BANKS).filter(|&bank| self.closes(banks, bank));
                let last = closed.filter_map(|bank| self.row_write_place(bank));
                (last.collect(), self.settings.t_wr)
            }
            _ => return,
        };
        for place in places {
            self.bursts[place].interrupt_at(cycle, wait, self.edition);
        }
    }

    /// Whether a PRECHARGE of the banks named closes a row of this one.
    pub fn closes(&self, named: Named, bank: usize) -> bool {
        named.names(bank) && self.banks[bank].is_open()
    }

    /// Whether no burst would lose a pair to an event, in edition 0.
    pub fn keeps_all(&self, cycle: u64, asked: Asked) -> bool {
        self.bursts_at(cycle).iter().all(|burst| {
            let mut after = *burst;
            if cuts(asked.command, burst) {
                after.cut_at(cycle);
            }
            after.kept == burst.kept
        })
    }

    fn start_burst(
        &mut self,
        cycle: u64,
        direction: Direction,
        bank: usize,
        address: u32,
        auto_precharge: bool,
    ) {
        let row = self.banks[bank].row.expect("rule 3 wants the bank open");
        self.bursts.push(Burst {
            direction,
            bank,
            row,
            column: column_of(address, self.settings.column_bits),
            given: cycle,
            mode: self.mode,
            auto_precharge,
            kept: self.mode.pairs(),
        });
        if auto_precharge {
            let precharge = self.auto_precharge_cycle(cycle, direction, bank);
            self.banks[bank].close(precharge);
        }
    }

    fn auto_precharge_cycle(&self, given: u64, direction: Direction, bank: usize) -> u64 {
        let active = self.banks[bank]
            .active
            .expect("an open bank has had an ACTIVE");
        let burst_over = match direction {
            Direction::Read => given + self.mode.pairs(),
            Direction::Write => given + 1 + self.mode.pairs() + self.settings.t_wr,
        };
        burst_over.max(active + self.settings.t_ras)
    }

    fn precharge(&mut self, cycle: u64, named: Named) {
        for bank in 0..BANKS {
            if self.closes(named, bank) {
                self.banks[bank].close(cycle);
            }
        }
    }
}

/// Whether a command is one that cuts an earlier burst still running.
fn cuts(command: Command, burst: &Burst) -> bool {
    match (command, burst.direction) {
        (Command::Read { .. } | Command::BurstTerminate, Direction::Read) => true,
        (Command::Precharge { banks }, Direction::Read) => banks.names(burst.bank),
        (Command::Write { .. }, Direction::Write) => true,
        _ => false,
    }
}
