//! Why an event breaks its rule: from when it would have been allowed, since what, of which
//! bank; and the pairs that the judged bursts keep.

use crate::capture::{refused, Capture, Event, Refusal};
use crate::command::{Asked, Command, BANKS};
use crate::part::{Burst, Direction, LookBack, Part};
use crate::rules::lowest_broken;
use crate::sleep::{Sleep, State};
use crate::verdict::{judge, Answer};

/// A value that does not exist.
pub const NONE: u32 = u32::MAX;
/// How many numbers an explanation has.
pub const NUMBERS: usize = 8;

const T_RCD: u32 = 4;
const T_RP: u32 = 5;
const T_RAS: u32 = 6;
const T_RRD: u32 = 8;
const T_WR: u32 = 9;
const T_WTR: u32 = 10;
const T_RFC: u32 = 11;
const T_MRD: u32 = 12;
const T_REFI: u32 = 13;
const T_XP: u32 = 14;
const T_XSR: u32 = 15;

/// The judge's answer, with the explanation in `out` where a rule is broken; refusal 7 where
/// it does not fit.
pub fn why(capture: &[u8], out: &mut [u32]) -> Answer {
    let answer = judge(capture);
    let Answer::Broken { rule, event, .. } = answer else {
        return answer;
    };
    if out.len() < NUMBERS {
        let place = NUMBERS as u32;
        return Answer::Refused { number: 7, place };
    }
    let history = History::of(capture, event as usize);
    out[..NUMBERS].copy_from_slice(&history.numbers(rule));
    answer
}

/// The pairs that each READ and WRITE among the judged events keeps, in their order.
pub fn kept(capture: &[u8], out: &mut [u32]) -> Result<u32, Refusal> {
    let judged = match judge(capture) {
        Answer::Refused { number, place } => return refused(number, place),
        Answer::Clean { judged } | Answer::Broken { judged, .. } => judged,
    };
    let read = Capture::read(capture)?;
    let part = part_of(&read, judged as usize);
    let bursts = part.bursts.len();
    if out.len() < bursts {
        return refused(7, bursts as u32);
    }
    for (element, burst) in out.iter_mut().zip(&part.bursts) {
        *element = burst.kept as u32;
    }
    Ok(bursts as u32)
}

fn part_of(capture: &Capture, judged: usize) -> Part {
    let mut part = Part::new(capture.edition, capture.settings, LookBack::Running);
    for event in &capture.events[..judged] {
        part.apply(u64::from(event.cycle), event.asked());
    }
    part
}

/// What an event waits for.
#[derive(Clone, Copy, Debug)]
struct Wait {
    /// The first cycle at which it is over.
    till: u64,
    setting: u32,
    since: u64,
    event: u32,
    bank: u32,
}

/// The judged events, the part after them, and the event that breaks a rule.
struct History {
    judged: Vec<Event>,
    part: Part,
    /// The event that found each bank open and left it idle.
    closed_by: [u32; BANKS],
    /// The event with which CKE fell last.
    asleep_by: u32,
    cycle: u64,
    asked: Asked,
}

impl History {
    fn of(capture: &[u8], event: usize) -> History {
        let capture = Capture::read(capture).expect("it was judged");
        let mut part = Part::new(capture.edition, capture.settings, LookBack::Running);
        let mut closed_by = [NONE; BANKS];
        let mut asleep_by = NONE;
        for (number, event) in (0..).zip(&capture.events[..event]) {
            let before = part.clone();
            part.apply(u64::from(event.cycle), event.asked());
            for (bank, closed_by) in closed_by.iter_mut().enumerate() {
                if before.banks[bank].is_open() && !part.banks[bank].is_open() {
                    *closed_by = number;
                }
            }
            if before.sleep.is_awake() && !part.sleep.is_awake() {
                asleep_by = number;
            }
        }
        let broken = capture.events[event];
        History {
            judged: capture.events[..event].to_vec(),
            part,
            closed_by,
            asleep_by,
            cycle: u64::from(broken.cycle),
            asked: broken.asked(),
        }
    }

    fn numbers(&self, rule: u32) -> [u32; NUMBERS] {
        let [kind, allowed, setting, since, event, bank] = match self.waits(rule) {
            _ if rule == 14 => self.late(),
            Some(waits) => early(&waits),
            None => self.hopeless(rule),
        };
        let clean = self.first_clean().map_or(NONE, word);
        [
            word(self.cycle),
            kind,
            allowed,
            clean,
            setting,
            since,
            event,
            bank,
        ]
    }

    /// Kind 2: the ninth refresh is owed.
    fn late(&self) -> [u32; 6] {
        let owed = &self.part.owed;
        let paid_by = self
            .part
            .refresh
            .filter(|&cycle| cycle >= owed.from)
            .map_or(NONE, |cycle| self.event_at(cycle));
        [
            2,
            word(owed.too_many_from()),
            T_REFI,
            word(owed.from),
            paid_by,
            NONE,
        ]
    }

    /// Kind 0: waiting does not mend it.
    fn hopeless(&self, rule: u32) -> [u32; 6] {
        let (event, bank) = match (rule, self.asked.command) {
            (3, Command::Read { bank, .. } | Command::Write { bank, .. }) => {
                (self.closed_by[bank], bank as u32)
            }
            (3, Command::Active { bank, .. }) => (self.active_of(bank), bank as u32),
            (3, _) => {
                let open = (0..BANKS).find(|&bank| self.part.banks[bank].is_open());
                let bank = open.expect("rule 3 is broken by an open bank");
                (self.active_of(bank), bank as u32)
            }
            (15, _) if !self.part.sleep.is_awake() => (self.asleep_by, NONE),
            _ => (NONE, NONE),
        };
        let since = match event {
            NONE => NONE,
            event => self.judged[event as usize].cycle,
        };
        [0, NONE, NONE, since, event, bank]
    }

    fn active_of(&self, bank: usize) -> u32 {
        let cycle = self.part.banks[bank].active.expect("it is open");
        self.event_at(cycle)
    }

    /// The event at a cycle; no two stand at one.
    fn event_at(&self, cycle: u64) -> u32 {
        let at = |event: &Event| u64::from(event.cycle) == cycle;
        let place = self.judged.iter().position(at);
        place.expect("something happened there") as u32
    }

    /// The first cycle from the event's own on at which it breaks no rule. Each rule but 14 is
    /// kept from the end of its waits on or never, so it is one of these ends.
    fn first_clean(&self) -> Option<u64> {
        let rules = [4, 5, 7, 8, 9, 10, 11, 12, 13, 15];
        let mut ends: Vec<u64> = rules
            .iter()
            .flat_map(|&rule| self.waits(rule).unwrap_or_default())
            .map(|wait| wait.till)
            .filter(|&till| till > self.cycle)
            .collect();
        ends.push(self.cycle);
        ends.sort_unstable();
        ends.into_iter()
            .find(|&end| lowest_broken(&self.part, end, self.asked).is_none())
    }

    /// What a rule makes the event wait for; none where waiting does not mend it.
    fn waits(&self, rule: u32) -> Option<Vec<Wait>> {
        let part = &self.part;
        let settings = &part.settings;
        let waits = match (rule, self.asked.command) {
            (4, command) => {
                if command.is_quiet() && !part.sleep.falls_asleep(self.asked) {
                    vec![]
                } else {
                    let refresh = self.since_event(part.refresh, settings.t_rfc, T_RFC, NONE);
                    let set = self.since_event(part.mode_set, settings.t_mrd, T_MRD, NONE);
                    refresh.into_iter().chain(set).collect()
                }
            }
            (5, Command::Active { bank, .. }) => self.precharged(bank).into_iter().collect(),
            (5, Command::AutoRefresh | Command::ModeRegisterSet { .. }) => (0..BANKS)
                .filter_map(|bank| self.precharged(bank))
                .collect(),
            (7, Command::Active { bank, .. }) => (0..BANKS)
                .filter(|&other| other != bank)
                .filter_map(|other| self.active(other, settings.t_rrd, T_RRD))
                .collect(),
            (8, Command::Read { bank, .. } | Command::Write { bank, .. }) => {
                let wait = self.active(bank, settings.t_rcd, T_RCD);
                wait.into_iter().collect()
            }
            (9, Command::Precharge { banks }) => (0..BANKS)
                .filter(|&bank| part.closes(banks, bank))
                .filter_map(|bank| self.active(bank, settings.t_ras, T_RAS))
                .collect(),
            (10, Command::Precharge { banks }) => (0..BANKS)
                .filter(|&bank| part.closes(banks, bank))
                .filter_map(|bank| part.last_write_of_row(bank))
                .map(|write| self.written(write, settings.t_wr, T_WR))
                .collect(),
            (11, Command::Read { .. }) => part
                .last_burst(Direction::Write)
                .map(|write| self.written(write, settings.t_wtr, T_WTR))
                .into_iter()
                .collect(),
            (
                12,
                Command::Write { .. } | Command::AutoRefresh | Command::ModeRegisterSet { .. },
            ) => self.read_over().into_iter().collect(),
            (13, command) => self.undisturbed(command),
            (15, command) => return self.awake_waits(command),
            (1..=3, _) => return None,
            _ => vec![],
        };
        Some(waits)
    }

    /// Of rule 15.
    fn awake_waits(&self, command: Command) -> Option<Vec<Wait>> {
        let State::Awake { left } = self.part.sleep else {
            return command.is_quiet().then(Vec::new);
        };
        let settings = &self.part.settings;
        let woken = left.and_then(|(sleep, cycle)| {
            let wake = settings.wake.expect("it slept");
            let (time, setting) = match sleep {
                Sleep::PowerDown => (wake.t_xp, T_XP),
                Sleep::SelfRefresh => (wake.t_xsr, T_XSR),
            };
            self.since_event(Some(cycle), time, setting, NONE)
        });
        if !self.asked.low {
            let waits = !command.is_quiet();
            return Some(woken.filter(|_| waits).into_iter().collect());
        }
        if !command.is_quiet() && command != Command::AutoRefresh {
            return None;
        }
        let write = self.part.last_burst(Direction::Write);
        let write_over = write.map(|write| self.until(write, write.data_end()));
        let all = [self.read_over(), write_over, woken];
        Some(all.into_iter().flatten().collect())
    }

    /// Of rule 13.
    fn undisturbed(&self, command: Command) -> Vec<Wait> {
        let end = |burst: &Burst| match (command, burst.direction) {
            (Command::Read { .. } | Command::BurstTerminate, Direction::Read)
            | (Command::Write { .. }, Direction::Write) => {
                burst.auto_precharge.then(|| burst.whole_end())
            }
            (Command::BurstTerminate, Direction::Write) => Some(burst.data_end()),
            _ => None,
        };
        let bursts = self.part.bursts.iter();
        bursts
            .filter_map(|burst| end(burst).map(|end| self.until(burst, end)))
            .collect()
    }

    fn since_event(&self, cycle: Option<u64>, time: u64, setting: u32, bank: u32) -> Option<Wait> {
        cycle.map(|cycle| Wait {
            till: cycle + time,
            setting,
            since: cycle,
            event: self.event_at(cycle),
            bank,
        })
    }

    fn active(&self, bank: usize, time: u64, setting: u32) -> Option<Wait> {
        self.since_event(self.part.banks[bank].active, time, setting, bank as u32)
    }

    /// A precharge cycle need not be an event's: what closed the bank is told.
    fn precharged(&self, bank: usize) -> Option<Wait> {
        self.part.banks[bank].precharge.map(|cycle| Wait {
            till: cycle + self.part.settings.t_rp,
            setting: T_RP,
            since: cycle,
            event: self.closed_by[bank],
            bank: bank as u32,
        })
    }

    fn written(&self, write: &Burst, time: u64, setting: u32) -> Wait {
        let since = write.waited_from(self.part.edition);
        Wait {
            till: since + time,
            setting,
            since,
            event: self.event_at(write.given),
            bank: write.bank as u32,
        }
    }

    fn read_over(&self) -> Option<Wait> {
        let read = self.part.last_burst(Direction::Read)?;
        Some(self.until(read, read.bus_free()))
    }

    /// Until a burst's end, which is no setting's.
    fn until(&self, burst: &Burst, end: u64) -> Wait {
        Wait {
            till: end,
            setting: NONE,
            since: burst.given,
            event: self.event_at(burst.given),
            bank: burst.bank as u32,
        }
    }
}

/// Kind 1: the wait that ends last, of the lowest bank.
fn early(waits: &[Wait]) -> [u32; 6] {
    let last = waits
        .iter()
        .min_by_key(|wait| (std::cmp::Reverse(wait.till), wait.bank))
        .expect("a broken rule waits for something");
    let Wait {
        till,
        setting,
        since,
        event,
        bank,
    } = *last;
    [1, word(till), setting, word(since), event, bank]
}

fn word(cycle: u64) -> u32 {
    u32::try_from(cycle).expect("cycles are far below 2^32")
}
