//! Captures built command by command, most of them legal, with at most one planned fault.

use super::settings::{self, Kind};
use super::{Dice, NO_RULE};
use crate::capture::{
    bytes_of_edition, Edition, Event, Settings, LAST_CYCLE, MOST_EVENTS, T_REFI_SETTING,
};
use crate::command::{Asked, Command, Named, BANKS, EXTENDED_REGISTER, LOW, MODE_REGISTER};
use crate::part::{Burst, Direction, LookBack, Part};
use crate::refresh::MOST_OWED;
use crate::rules::lowest_broken;
use crate::schedule::earliest;
use crate::sleep::{Sleep, State};

/// Pin bits that every capture may use.
const PINS: u32 = 0xf_ffff;

/// How many events are tried in search of one that breaks the rule drawn.
const FAULT_TRIES: u32 = 16;

/// A capture that no refusal turns down, of either edition: clean, or broken somewhere.
pub fn guided_capture(dice: &mut Dice) -> Vec<u8> {
    let edition = dice.pick(&[Edition::Zero, Edition::One]);
    match dice.below(1_000) {
        0..=29 => random_capture(dice, edition),
        30..=32 => late_capture(dice, edition),
        33..=36 => full_capture(dice, edition),
        37..=299 => hasty_capture(dice, edition),
        _ => usual_capture(dice, edition),
    }
}

/// A full, clean capture with given settings, whose tREFI must leave room for refreshes.
pub fn busy_capture(dice: &mut Dice, edition: Edition, list: &[u32]) -> Vec<u8> {
    build(dice, edition, list, MOST_EVENTS, 0)
}

fn usual_capture(dice: &mut Dice, edition: Edition) -> Vec<u8> {
    let kind = settings::kind(dice);
    let list = settings::capture_settings(dice, edition, kind);
    let wanted = match (kind, dice.below(40)) {
        (Kind::Limits, _) => dice.below(10),
        (_, 0) => 0,
        (_, 1) => dice.between(200, 600),
        (_, 2..=11) => dice.between(40, 150),
        _ => dice.between(1, 40),
    };
    let fault_once_in = dice.pick(&[0, 0, 1, 2, 3, 5, 10, 20]);
    build(dice, edition, &list, wanted, fault_once_in)
}

/// As many events as a capture may hold.
fn full_capture(dice: &mut Dice, edition: Edition) -> Vec<u8> {
    let kind = dice.pick(&[Kind::Short, Kind::RealPart]);
    // Edition 1 may draw waits of thousands of cycles, which take too long to try so often.
    let mut list = settings::capture_settings(dice, Edition::Zero, kind);
    list[T_REFI_SETTING] = dice.between(200, 10_000);
    let fault_once_in = dice.pick(&[0, 0, 2_000]);
    build(dice, edition, &list, MOST_EVENTS, fault_once_in)
}

/// More events than a capture may hold, clean or broken behind them; now and then with an event
/// behind the broken one that does not fit.
pub fn long_recording(dice: &mut Dice) -> Vec<u8> {
    let edition = dice.pick(&[Edition::Zero, Edition::One]);
    let kind = dice.pick(&[Kind::Short, Kind::RealPart]);
    let mut list = settings::capture_settings(dice, Edition::Zero, kind);
    list[T_REFI_SETTING] = dice.between(200, 10_000);
    let clean = MOST_EVENTS + dice.between(1, 1_500);
    let mut builder = Builder::new(dice, edition, &list);
    builder.fill(clean, 0);
    if builder.dice.percent(60) {
        builder.fill(clean + 200, 2);
    }
    if builder.dice.percent(20) {
        let cycle = builder.events.last().map_or(0, |event| event.cycle);
        let pins = Command::Nop.pins();
        builder.events.push(Event { cycle, pins });
    }
    builder.bytes(&list)
}

/// Refreshes up to the last cycles that a capture may name, and some commands there.
fn late_capture(dice: &mut Dice, edition: Edition) -> Vec<u8> {
    let kind = dice.pick(&[Kind::Short, Kind::RealPart, Kind::Limits]);
    let mut list = settings::capture_settings(dice, edition, kind);
    let t_refi = 1_000_000;
    list[T_REFI_SETTING] = t_refi;
    let multiples = LAST_CYCLE / t_refi - 1;
    let fault_once_in = dice.pick(&[0, 5]);
    let wanted = multiples + dice.between(2, 20);
    let mut builder = Builder::new(dice, edition, &list);
    builder.refresh_before_multiples(multiples);
    builder.go_to_the_end();
    builder.fill(wanted, fault_once_in);
    builder.bytes(&list)
}

fn build(
    dice: &mut Dice,
    edition: Edition,
    list: &[u32],
    wanted: u32,
    fault_once_in: u32,
) -> Vec<u8> {
    let mut builder = Builder::new(dice, edition, list);
    builder.fill(wanted, fault_once_in);
    builder.bytes(list)
}

/// Commands a few cycles apart, whether or not the rules have them wait longer. What breaks
/// a rule is mostly put right, and else ends the capture.
fn hasty_capture(dice: &mut Dice, edition: Edition) -> Vec<u8> {
    let list = settings::capture_settings(dice, edition, Kind::Tight);
    let wanted = dice.between(1, 80);
    let mut builder = Builder::new(dice, edition, &list);
    while builder.events.len() < wanted as usize {
        let spares = edition == Edition::One && builder.dice.percent(10);
        let added = if spares {
            builder.add_spared_write()
        } else {
            builder.add_hasty()
        };
        if !added {
            builder.add_random_tail(wanted);
            break;
        }
    }
    builder.bytes(&list)
}

/// Any pins on rising cycles.
fn random_capture(dice: &mut Dice, edition: Edition) -> Vec<u8> {
    let kind = settings::kind(dice);
    let list = settings::capture_settings(dice, edition, kind);
    let mut builder = Builder::new(dice, edition, &list);
    builder.add_random_tail(40);
    builder.bytes(&list)
}

/// What makes one capture differ from the next in manner.
struct Style {
    banks: u32,
    auto_precharge_percent: u32,
    prompt_percent: u32,
    /// How often the next event puts the part to sleep; never without settings for it.
    sleep_percent: u32,
    /// How many refreshes stay owed once some are paid back.
    left_owed: u64,
    /// The rule that a fault, if there is one, breaks.
    fault_rule: u32,
}

impl Style {
    fn new(dice: &mut Dice, sleeps: bool) -> Style {
        Style {
            banks: dice.between(1, BANKS as u32),
            auto_precharge_percent: dice.pick(&[0, 20, 50, 90]),
            prompt_percent: dice.pick(&[50, 80, 100]),
            sleep_percent: if sleeps {
                dice.pick(&[0, 5, 10, 30])
            } else {
                0
            },
            left_owed: dice.pick(&[0, 1, 4, 7, 8]),
            fault_rule: fault_rule(dice, sleeps),
        }
    }
}

/// The rule to break; 15 has more ways to be broken than any other.
fn fault_rule(dice: &mut Dice, sleeps: bool) -> u32 {
    let most = if sleeps { 18 } else { 14 };
    match dice.between(1, most).min(15) {
        NO_RULE => 5,
        rule => rule,
    }
}

#[derive(Clone, Copy)]
enum Fault {
    Early,
    RowTooHigh,
    BadRegister,
    WrongState,
    TooLate,
    TerminateAtOnce,
    EarlySleep,
    SleepAtOnce,
    LateSleep,
    SleepByCommand,
    Anything,
}

const FAULTS: [Fault; 10] = [
    Fault::Early,
    Fault::Early,
    Fault::Early,
    Fault::Early,
    Fault::RowTooHigh,
    Fault::BadRegister,
    Fault::WrongState,
    Fault::TooLate,
    Fault::TerminateAtOnce,
    Fault::Anything,
];

/// These besides, where the part may sleep.
const SLEEP_FAULTS: [Fault; 8] = [
    Fault::EarlySleep,
    Fault::EarlySleep,
    Fault::EarlySleep,
    Fault::EarlySleep,
    Fault::EarlySleep,
    Fault::SleepAtOnce,
    Fault::LateSleep,
    Fault::SleepByCommand,
];

struct Builder<'a> {
    dice: &'a mut Dice,
    style: Style,
    part: Part,
    events: Vec<Event>,
    /// The first cycle that the next event may have.
    next: u64,
    /// Whether refreshes go out until few are owed.
    paying_back: bool,
}

impl<'a> Builder<'a> {
    fn new(dice: &'a mut Dice, edition: Edition, list: &[u32]) -> Builder<'a> {
        let settings = Settings::read(list).expect("the generated settings are valid");
        let style = Style::new(dice, settings.wake.is_some());
        let part = Part::new(edition, settings, LookBack::Running);
        Builder {
            dice,
            style,
            part,
            events: Vec::new(),
            next: 0,
            paying_back: false,
        }
    }

    fn bytes(&self, list: &[u32]) -> Vec<u8> {
        bytes_of_edition(self.part.edition.word(), list, &self.events)
    }

    /// A refresh before each of so many multiples of tREFI but the first, some of which
    /// are left out and stay owed.
    fn refresh_before_multiples(&mut self, multiples: u32) {
        let t_refi = self.part.settings.t_refi;
        let left_out = self.dice.between(0, MOST_OWED as u32);
        let before: u64 = self.dice.pick(&[1, 1, 1_000]);
        for count in left_out + 1..=multiples {
            self.push_applied(
                u64::from(count) * t_refi - before,
                Command::AutoRefresh.into(),
            );
        }
    }

    /// Legal events up to the wanted count, or up to a fault and a random tail.
    fn fill(&mut self, wanted: u32, fault_once_in: u32) {
        while self.events.len() < wanted as usize {
            if self.dice.once_in(fault_once_in) && self.add_fault() {
                return self.add_random_tail(wanted);
            }
            if !self.add_legal() {
                return;
            }
        }
    }

    /// Perhaps one refresh more, and the next event so late that few fit before the last
    /// cycle.
    fn go_to_the_end(&mut self) {
        let last = u64::from(LAST_CYCLE);
        let refresh = last - u64::from(self.dice.between(25_000, 60_000));
        if self.dice.percent(50) {
            self.push_applied(refresh, Command::AutoRefresh.into());
        }
        let left = self.dice.pick(&[30, 400, 12_000]);
        self.next = last - u64::from(self.dice.between(0, left));
    }

    fn push(&mut self, cycle: u64, pins: u32) {
        self.events.push(Event {
            cycle: cycle as u32,
            pins,
        });
        self.next = cycle + 1;
    }

    fn push_applied(&mut self, cycle: u64, asked: Asked) {
        let pins = self.pins_with_noise(asked);
        self.push(cycle, pins);
        self.part.apply(cycle, asked);
    }

    /// The event's pins, those that its command does not look at being anything.
    fn pins_with_noise(&mut self, asked: Asked) -> u32 {
        let free = match asked.command {
            Command::Deselect => PINS,
            Command::Nop | Command::BurstTerminate | Command::AutoRefresh => 0xffff,
            Command::Precharge { banks: Named::All } => 0xffff,
            Command::Precharge {
                banks: Named::One(_),
            } => 0x3bff,
            _ => 0,
        };
        asked.pins() | self.dice.word() & free
    }

    /// The last cycle that rule 14 lets pass.
    fn due(&self) -> u64 {
        match self.part.sleep {
            State::Asleep(Sleep::SelfRefresh) => u64::MAX,
            _ => self.part.owed.too_many_from() - 1,
        }
    }

    fn may_sleep(&self) -> bool {
        self.part.settings.wake.is_some()
    }

    fn any_pins(&mut self) -> u32 {
        let cke = if self.may_sleep() { LOW } else { 0 };
        self.dice.word() & (PINS | cke)
    }

    /// Adds an event that breaks nothing. False where the capture must end instead.
    fn add_legal(&mut self) -> bool {
        let refreshing = self.is_refreshing();
        let asked = if refreshing {
            self.refreshing_event()
        } else {
            self.usual_event()
        };
        let soonest = earliest(&self.part, self.next, asked);
        let slack = if refreshing { 0 } else { self.slack() };
        let mut cycle = soonest + slack;
        let refreshes = asked.command == Command::AutoRefresh;
        if refreshes && soonest <= self.due() && self.dice.percent(40) {
            cycle = self.telling_cycle(soonest);
        }
        if self.part.edition == Edition::One && self.dice.percent(40) {
            cycle = self.cutting_cycle(asked.command, cycle);
        }
        if cycle > self.due() || cycle > u64::from(LAST_CYCLE) {
            return false;
        }
        self.push_applied(cycle, asked);
        true
    }

    /// Where a refresh tells most: when it is due, at a multiple of tREFI, or just before.
    fn telling_cycle(&mut self, soonest: u64) -> u64 {
        let multiple = self.part.owed.next_multiple(soonest);
        let cycles = [self.due(), self.due(), multiple, multiple - 1];
        self.dice.pick(&cycles).min(self.due())
    }

    /// From the soonest on, a cycle at which a READ leaves the last write some of its pairs, or a
    /// PRECHARGE the last one of a bank, whether or not that has been closed since.
    fn cutting_cycle(&mut self, command: Command, soonest: u64) -> u64 {
        let settings = &self.part.settings;
        let (named, wait) = match command {
            Command::Read { .. } => (Named::All, settings.t_wtr),
            Command::Precharge { banks } => (banks, settings.t_wr),
            _ => return soonest,
        };
        let written =
            |burst: &&Burst| burst.direction == Direction::Write && named.names(burst.bank);
        let Some(write) = self.part.bursts.iter().rev().find(written) else {
            return soonest;
        };
        let (one_pair, pairs) = (write.given + 2 + wait, write.mode.pairs() as u32);
        soonest.max(one_pair + u64::from(self.dice.below(pairs)))
    }

    /// Closes a row that has been written by a READ with auto precharge, perhaps opens it
    /// again, and precharges it when that would cut the write. False where the capture must
    /// end.
    fn add_spared_write(&mut self) -> bool {
        let bank = self.bank();
        let written = self.part.banks[bank].is_open()
            && self.part.sleep.is_awake()
            && self.part.last_write_of_row(bank).is_some();
        if !written {
            return self.add_hasty();
        }
        let close = Command::Read {
            bank,
            address: 0,
            auto_precharge: true,
        };
        let mut commands = vec![close];
        if self.dice.percent(60) {
            commands.push(self.active(bank));
        }
        let one = Named::One(bank);
        let banks = self.dice.pick(&[one, one, Named::All]);
        commands.push(Command::Precharge { banks });
        for command in commands {
            let soonest = earliest(&self.part, self.next, command.into());
            let cycle = self.cutting_cycle(command, soonest);
            if cycle > self.due() {
                return false;
            }
            self.push_applied(cycle, command.into());
        }
        true
    }

    /// Adds an event soon after the one before. False where the capture must end.
    fn add_hasty(&mut self) -> bool {
        let asked = self.usual_event();
        let wait = self.dice.pick(&[0, 0, 0, 1, 2, 3]);
        let mut cycle = self.next + wait;
        if lowest_broken(&self.part, cycle, asked).is_some() {
            if self.dice.percent(25) {
                let pins = self.pins_with_noise(asked);
                self.push(cycle, pins);
                return false;
            }
            cycle = earliest(&self.part, self.next, asked);
        }
        if self.part.edition == Edition::One && self.dice.percent(40) {
            cycle = self.cutting_cycle(asked.command, cycle);
        }
        if cycle > self.due() {
            return false;
        }
        self.push_applied(cycle, asked);
        true
    }

    fn slack(&mut self) -> u64 {
        if self.part.sleep == State::Asleep(Sleep::SelfRefresh) && self.dice.percent(30) {
            let t_refi = self.part.settings.t_refi as u32;
            return u64::from(self.dice.below(20 * t_refi));
        }
        if self.dice.percent(self.style.prompt_percent) {
            return 0;
        }
        let most = self.dice.pick(&[1, 2, 4, 20]);
        u64::from(self.dice.between(0, most))
    }

    /// Whether closing all banks and refreshing should start now to be in time.
    fn is_refresh_near(&self) -> bool {
        let settings = &self.part.settings;
        let closing = settings.t_ras + settings.t_wr + settings.t_rp + 40;
        let worth_it = 4 * settings.t_refi > closing + settings.t_mrd;
        worth_it && settings.t_refi > settings.t_rfc && self.next + closing > self.due()
    }

    /// Whether a refresh should come next: one is near, or more are paid back after it.
    fn is_refreshing(&mut self) -> bool {
        let owed = self.part.owed.at(self.next);
        self.paying_back &= owed > self.style.left_owed && self.part.sleep.is_awake();
        self.paying_back |= self.is_refresh_near();
        self.paying_back
    }

    fn refreshing_event(&mut self) -> Asked {
        let command = if !self.part.sleep.is_awake() {
            Command::Nop
        } else if self.all_idle() {
            Command::AutoRefresh
        } else {
            Command::Precharge { banks: Named::All }
        };
        command.into()
    }

    fn all_idle(&self) -> bool {
        self.part.banks.iter().all(|bank| !bank.is_open())
    }

    /// An event that fits the part as it is, so that it passes after some wait.
    fn usual_event(&mut self) -> Asked {
        if !self.part.sleep.is_awake() {
            let low = self.dice.percent(40);
            let command = self.idle_command();
            return Asked { command, low };
        }
        if self.may_sleep() && self.dice.percent(self.style.sleep_percent) {
            return self.entry();
        }
        self.usual_command().into()
    }

    /// By any command that may enter sleep, whether or not the banks are idle.
    fn any_entry(&mut self) -> Asked {
        let quiet = self.idle_command();
        self.dice.pick(&[quiet, Command::AutoRefresh]).low()
    }

    /// Power-down, or self refresh where all banks are idle.
    fn entry(&mut self) -> Asked {
        let command = if self.all_idle() && self.dice.percent(50) {
            Command::AutoRefresh
        } else {
            self.idle_command()
        };
        command.low()
    }

    /// A command that fits the banks as they are, so that it passes after some wait.
    fn usual_command(&mut self) -> Command {
        let bank = self.bank();
        if self.part.banks[bank].is_open() {
            self.command_for_open(bank)
        } else if self.all_idle() && self.dice.percent(25) {
            self.command_for_all_idle()
        } else {
            self.command_for_idle(bank)
        }
    }

    fn bank(&mut self) -> usize {
        self.dice.below(self.style.banks) as usize
    }

    fn command_for_open(&mut self, bank: usize) -> Command {
        match self.dice.below(100) {
            0..=33 => self.read(bank),
            34..=67 => self.write(bank),
            68..=79 => Command::Precharge {
                banks: Named::One(bank),
            },
            80..=85 => Command::Precharge { banks: Named::All },
            86..=94 => Command::BurstTerminate,
            _ => self.idle_command(),
        }
    }

    fn command_for_idle(&mut self, bank: usize) -> Command {
        match self.dice.below(100) {
            0..=75 => self.active(bank),
            76..=80 => Command::Precharge {
                banks: Named::One(bank),
            },
            81..=86 => Command::Precharge { banks: Named::All },
            87..=94 => Command::BurstTerminate,
            _ => self.idle_command(),
        }
    }

    fn command_for_all_idle(&mut self) -> Command {
        match self.dice.below(10) {
            0..=4 => Command::AutoRefresh,
            5..=7 => Command::ModeRegisterSet {
                register: MODE_REGISTER,
                address: settings::mode(self.dice),
            },
            _ => Command::ModeRegisterSet {
                register: EXTENDED_REGISTER,
                address: self.address(),
            },
        }
    }

    fn idle_command(&mut self) -> Command {
        self.dice.pick(&[Command::Nop, Command::Deselect])
    }

    fn address(&mut self) -> u32 {
        self.dice.below(1 << 14)
    }

    fn active(&mut self, bank: usize) -> Command {
        let rows = 1 << self.part.settings.row_bits;
        let any = self.dice.below(rows);
        let row = self.dice.pick(&[any, any, 0, rows - 1]);
        Command::Active { bank, row }
    }

    fn read(&mut self, bank: usize) -> Command {
        let auto_precharge = self.dice.percent(self.style.auto_precharge_percent);
        // A10 is the auto precharge flag, never part of the address.
        Command::Read {
            bank,
            address: self.address() & !(1 << 10),
            auto_precharge,
        }
    }

    fn write(&mut self, bank: usize) -> Command {
        let auto_precharge = self.dice.percent(self.style.auto_precharge_percent);
        Command::Write {
            bank,
            address: self.address() & !(1 << 10),
            auto_precharge,
        }
    }

    /// Adds an event whose lowest broken rule is the one drawn for this capture, so that
    /// rare rules come up nearly as often as others. False if none was found here.
    fn add_fault(&mut self) -> bool {
        for _ in 0..FAULT_TRIES {
            let Some((cycle, pins)) = self.faulty_event() else {
                continue;
            };
            let rule = lowest_broken(&self.part, cycle, Asked::of_pins(pins));
            if rule == Some(self.style.fault_rule) && cycle <= u64::from(LAST_CYCLE) {
                self.push(cycle, pins);
                return true;
            }
        }
        false
    }

    fn faulty_event(&mut self) -> Option<(u64, u32)> {
        if !self.part.sleep.is_awake() {
            return Some(self.event_asleep());
        }
        if !self.may_sleep() {
            let fault = self.dice.pick(&FAULTS);
            return self.event_with(fault);
        }
        let faults = [&FAULTS[..], &SLEEP_FAULTS].concat();
        let fault = self.dice.pick(&faults);
        let (cycle, pins) = self.event_with(fault)?;
        let cke = if self.dice.percent(10) { LOW } else { 0 };
        Some((cycle, pins | cke))
    }

    fn event_with(&mut self, fault: Fault) -> Option<(u64, u32)> {
        match fault {
            Fault::Early => {
                let command = self.command_to_hurry();
                self.early_event(command.into())
            }
            Fault::EarlySleep => {
                let entry = self.entry();
                self.early_event(entry)
            }
            Fault::SleepAtOnce => {
                let wait = u64::from(self.dice.below(4));
                Some((self.next + wait, self.any_entry().pins()))
            }
            Fault::LateSleep => {
                let cycle = self.next.max(self.due() + 1);
                Some((cycle, self.any_entry().pins()))
            }
            Fault::SleepByCommand => {
                let command = self.usual_command();
                let cycle = earliest(&self.part, self.next, command.into());
                Some((cycle, self.pins_with_noise(command.low())))
            }
            Fault::RowTooHigh => self.high_row_event(),
            Fault::BadRegister => Some(self.bad_register_event()),
            Fault::WrongState => Some(self.wrong_state_event()),
            Fault::TooLate => Some(self.late_event()),
            Fault::TerminateAtOnce => Some((self.next, Command::BurstTerminate.pins())),
            Fault::Anything => {
                let wait = u64::from(self.dice.below(4));
                Some((self.next + wait, self.any_pins()))
            }
        }
    }

    /// A command of any kind in sleep, soon or after the refresh is due.
    fn event_asleep(&mut self) -> (u64, u32) {
        let soon = self.next + u64::from(self.dice.below(30));
        let late = self.part.owed.too_many_from();
        let cycle = self.dice.pick(&[soon, soon, late.max(self.next)]);
        let quiet = self.idle_command().pins();
        let fitting = self.usual_command().pins();
        let (_, unfit) = self.wrong_state_event();
        let (_, bad_register) = self.bad_register_event();
        let any = self.dice.word() & PINS;
        let pins = self
            .dice
            .pick(&[quiet, fitting, fitting, unfit, bad_register, any]);
        let cke = self.dice.pick(&[0, LOW]);
        (cycle, pins | cke)
    }

    /// An event one cycle too early, or some cycles.
    fn early_event(&mut self, asked: Asked) -> Option<(u64, u32)> {
        let soonest = earliest(&self.part, self.next, asked);
        if soonest == self.next {
            return None;
        }
        let cycle = if self.dice.percent(75) {
            soonest - 1
        } else {
            self.next + self.dice.roll() % (soonest - self.next)
        };
        Some((cycle, self.pins_with_noise(asked)))
    }

    /// PRECHARGE more often than usual, as its waits are soon over.
    fn command_to_hurry(&mut self) -> Command {
        let bank = self.bank();
        if self.part.banks[bank].is_open() && self.dice.percent(40) {
            let one = Named::One(bank);
            let banks = self.dice.pick(&[one, one, Named::All]);
            return Command::Precharge { banks };
        }
        self.usual_command()
    }

    /// A row the part lacks, on an otherwise good ACTIVE where a bank is idle.
    fn high_row_event(&mut self) -> Option<(u64, u32)> {
        let row_bits = self.part.settings.row_bits;
        let high_pins = 0x3fff >> row_bits << row_bits;
        let bank = self.bank();
        if self.part.banks[bank].is_open() || high_pins == 0 {
            return None;
        }
        let command = self.active(bank);
        let cycle = earliest(&self.part, self.next, command.into());
        let lowest_high_pin = 1 << row_bits;
        let high = self.dice.pick(&[lowest_high_pin, high_pins, 1 << 13]);
        Some((cycle, command.pins() | high))
    }

    fn bad_register_event(&mut self) -> (u64, u32) {
        let good = settings::mode(self.dice);
        let high_pin = 1 << self.dice.between(7, 13);
        let any = self.address();
        let (register, address) = self.dice.pick(&[
            (0b01, good),
            (0b11, good),
            (MODE_REGISTER, good & !7),
            (MODE_REGISTER, good & !7 | 5),
            (MODE_REGISTER, good & 0xf),
            (MODE_REGISTER, good | 0x40),
            (MODE_REGISTER, good | high_pin),
            (MODE_REGISTER, any),
        ]);
        let wait = u64::from(self.dice.below(30));
        (
            self.next + wait,
            Command::ModeRegisterSet { register, address }.pins(),
        )
    }

    /// A command that the banks are not open or idle for.
    fn wrong_state_event(&mut self) -> (u64, u32) {
        let bank = self.dice.below(BANKS as u32) as usize;
        let command = match (self.part.banks[bank].is_open(), self.dice.below(3)) {
            (true, 0) => self.active(bank),
            (true, 1) => Command::AutoRefresh,
            (true, _) => Command::ModeRegisterSet {
                register: MODE_REGISTER,
                address: settings::mode(self.dice),
            },
            (false, 0) => self.write(bank),
            (false, _) => self.read(bank),
        };
        let wait = u64::from(self.dice.below(30));
        (self.next + wait, command.pins())
    }

    /// A command after the refresh is due, and after its own waits.
    fn late_event(&mut self) -> (u64, u32) {
        let command = self.usual_command();
        let from = self.next.max(self.due() + 1);
        let wait = self.dice.pick(&[0, 0, 0, 7]);
        (
            earliest(&self.part, from, command.into()) + wait,
            self.pins_with_noise(command.into()),
        )
    }

    /// Up to 20 events of any kind, which the judge must not look at after a fault.
    fn add_random_tail(&mut self, wanted: u32) {
        let room = wanted.saturating_sub(self.events.len() as u32).min(20);
        for _ in 0..self.dice.between(0, room) {
            let cycle = self.next + u64::from(self.dice.below(5));
            if cycle > u64::from(LAST_CYCLE) {
                return;
            }
            let pins = self.any_pins();
            self.push(cycle, pins);
        }
    }
}
