//! What the generator reaches of sleep, of owed refreshes and of interrupted writes: every
//! clause of the customers' first, third and tenth request, in as many inputs as the other
//! tests compare.

use std::collections::BTreeMap;

use second::capture::{Capture, Edition, Event, EDITION_AT};
use second::command::{Asked, Command, Named, BANKS};
use second::generate::{input, Dice, Input};
use second::part::{Bank, Burst, Direction, LookBack, Part};
use second::refresh::MOST_OWED;
use second::rules::lowest_broken;
use second::sleep::{wrong, Sleep, State, Wrong};

const SEED: u64 = 1;
const INPUTS: usize = 40_000;

#[derive(Clone, Copy, Debug, PartialEq, Eq, PartialOrd, Ord)]
enum Clause {
    Entry(Sleep),
    StaysLow(Sleep),
    Exit(Sleep),
    /// An entry after a sleep, when its wait is over.
    EntryAgain(Sleep),
    PowerDownWithOpenBank,
    /// Later than rule 14 allows anything else.
    LongSelfRefresh,
    Rule15(Wrong),
    Rule3OfSelfRefresh,
    Rule4OfNop,
    Rule5OfSelfRefresh,
    Rule12OfSelfRefresh,
    Rule14OfSelfRefresh,
    Rule14InPowerDown,
    Rule14AfterSelfRefresh,
    LowerRuleWhileLow(Sleep),
    LowerRuleAtExit(Sleep),
    /// An AUTO REFRESH with so many owed.
    RefreshWithOwed(u64),
    /// The second AUTO REFRESH of two for which nothing came to be owed in between.
    PaidBack,
    /// An AUTO REFRESH at a multiple, which it pays back at once.
    RefreshAtMultiple,
    /// The same a cycle earlier, with none owed.
    RefreshBeforeMultiple,
    Rule14OfRefresh,
    Rule14OfNop,
    /// A write of edition 1 loses pairs.
    Cut(By, Cutting),
    /// A PRECHARGE takes pairs from a write that a READ had cut, or the other way round.
    CutFurther(By),
    /// The same while another row that the PRECHARGE closes has been written too.
    OneOfSeveralRows,
    /// A PRECHARGE of an idle bank, or of a row opened since, after a write that it would
    /// leave fewer pairs, or none.
    Spared(Sparing, Left),
    /// A READ when tWTR after the data of an auto precharge write is just over.
    ReadAfterAutoWrite,
    /// BURST TERMINATE, or an entry, before the data of a cut write would have ended.
    TerminateAfterCut(By),
    EntryAfterCut(Sleep),
    /// A cycle too early, by one PRECHARGE or READ.
    Rule10OneEarly,
    Rule10OfAll,
    Rule11OneEarly,
    /// A READ that keeps the newer rule 11 after an auto precharge write, for which the older
    /// one is asked.
    Rule11OfAutoWrite,
    /// BURST TERMINATE in the data of a write of edition 1.
    Rule13OfWrite,
    /// A capture refused for its sixth word alone.
    NoEdition,
}

#[derive(Clone, Copy, Debug, PartialEq, Eq, PartialOrd, Ord)]
enum By {
    Read,
    Precharge,
    PrechargeAll,
}

/// What is said of a write as it is cut.
#[derive(Clone, Copy, Debug, PartialEq, Eq, PartialOrd, Ord)]
enum Cutting {
    ToOnePair,
    ToMorePairs,
    /// Its data had ended on the bus.
    AfterData,
    /// Its wait, tWTR or tWR, is of a thousand cycles or more.
    AfterLongWait,
    /// The READ is of another bank.
    FromOtherBank,
    /// Its row has been closed.
    WhenClosed,
    /// Another write was given before it.
    LastOfSeveral,
    /// Another write was given after it.
    OlderThanTheLast,
}

#[derive(Clone, Copy, Debug, PartialEq, Eq, PartialOrd, Ord)]
enum Sparing {
    IdleBank,
    OpenedSince,
}

#[derive(Clone, Copy, Debug, PartialEq, Eq, PartialOrd, Ord)]
enum Left {
    SomePairs,
    /// The difference is 0 or below.
    Nothing,
}

use Clause::*;
use Cutting::*;
use Sleep::{PowerDown, SelfRefresh};

fn all_clauses() -> Vec<Clause> {
    let mut clauses = vec![
        PowerDownWithOpenBank,
        LongSelfRefresh,
        Rule15(Wrong::EntryCommand),
        Rule15(Wrong::EntryInRead),
        Rule15(Wrong::EntryInWrite),
        Rule3OfSelfRefresh,
        Rule4OfNop,
        Rule5OfSelfRefresh,
        Rule12OfSelfRefresh,
        Rule14OfSelfRefresh,
        Rule14InPowerDown,
        Rule14AfterSelfRefresh,
        PaidBack,
        RefreshAtMultiple,
        RefreshBeforeMultiple,
        Rule14OfRefresh,
        Rule14OfNop,
    ];
    clauses.extend((0..=MOST_OWED).map(RefreshWithOwed));
    clauses.extend(interruptions());
    for sleep in [PowerDown, SelfRefresh] {
        clauses.extend([
            Entry(sleep),
            StaysLow(sleep),
            Exit(sleep),
            EntryAgain(sleep),
            Rule15(Wrong::EarlyEntry(sleep)),
            Rule15(Wrong::EarlyCommand(sleep)),
            Rule15(Wrong::CommandWhileLow(sleep)),
            Rule15(Wrong::ExitCommand(sleep)),
            LowerRuleWhileLow(sleep),
            LowerRuleAtExit(sleep),
        ]);
    }
    clauses
}

fn interruptions() -> Vec<Clause> {
    let mut clauses = vec![
        CutFurther(By::Read),
        CutFurther(By::Precharge),
        OneOfSeveralRows,
        ReadAfterAutoWrite,
        TerminateAfterCut(By::Read),
        TerminateAfterCut(By::Precharge),
        Rule10OneEarly,
        Rule10OfAll,
        Rule11OneEarly,
        Rule11OfAutoWrite,
        Rule13OfWrite,
        NoEdition,
        Cut(By::Read, FromOtherBank),
        Cut(By::Read, WhenClosed),
        Cut(By::Precharge, OlderThanTheLast),
        Cut(By::PrechargeAll, OlderThanTheLast),
    ];
    for by in [By::Read, By::Precharge, By::PrechargeAll] {
        clauses.extend(
            [
                ToOnePair,
                ToMorePairs,
                AfterData,
                AfterLongWait,
                LastOfSeveral,
            ]
            .map(|cutting| Cut(by, cutting)),
        );
    }
    for sparing in [Sparing::IdleBank, Sparing::OpenedSince] {
        clauses.extend([Left::SomePairs, Left::Nothing].map(|left| Spared(sparing, left)));
    }
    clauses.extend([PowerDown, SelfRefresh].map(EntryAfterCut));
    clauses
}

/// The clauses that an event shows which breaks no rule.
fn kept(part: &Part, cycle: u64, asked: Asked) -> Vec<Clause> {
    let late = part.owed.at(cycle) > MOST_OWED;
    let open = part.banks.iter().any(|bank| bank.is_open());
    let refreshes = asked.command == Command::AutoRefresh;
    match (part.sleep, asked.low) {
        (State::Awake { left }, true) => {
            let entered = if refreshes { SelfRefresh } else { PowerDown };
            let again = left.map(|(sleep, _)| EntryAgain(sleep));
            let with_open_bank = open.then_some(PowerDownWithOpenBank);
            let clauses = [Some(Entry(entered)), again, with_open_bank];
            clauses.into_iter().flatten().collect()
        }
        (State::Awake { .. }, false) if refreshes => refreshed(part, cycle),
        (State::Awake { .. }, false) => vec![],
        (State::Asleep(sleep), low) => {
            let clause = if low { StaysLow(sleep) } else { Exit(sleep) };
            let long = late.then_some(LongSelfRefresh);
            [Some(clause), long].into_iter().flatten().collect()
        }
    }
}

/// The clauses that an AUTO REFRESH shows.
fn refreshed(part: &Part, cycle: u64) -> Vec<Clause> {
    let (owed, from, t_refi) = (part.owed.at(cycle), part.owed.from, part.settings.t_refi);
    let same_multiple =
        |last: u64| last > from && (last - from) / t_refi == (cycle - from) / t_refi;
    let paid_back = owed > 0 && part.refresh.is_some_and(same_multiple);
    let at_multiple = cycle > from && (cycle - from) % t_refi == 0;
    let before_multiple = owed == 0 && cycle + 1 == part.owed.next_multiple(cycle);
    let clauses = [
        Some(RefreshWithOwed(owed)),
        paid_back.then_some(PaidBack),
        at_multiple.then_some(RefreshAtMultiple),
        before_multiple.then_some(RefreshBeforeMultiple),
    ];
    clauses.into_iter().flatten().collect()
}

fn writes(part: &Part) -> impl DoubleEndedIterator<Item = (usize, &Burst)> {
    let write = |(_, burst): &(usize, &Burst)| burst.direction == Direction::Write;
    part.bursts.iter().enumerate().filter(write)
}

/// A READ or PRECHARGE of edition 1, with the wait that it asks for.
struct Cutter {
    cycle: u64,
    command: Command,
    by: By,
    wait: u64,
}

impl Cutter {
    fn new(part: &Part, cycle: u64, command: Command) -> Option<Cutter> {
        let (by, wait) = match command {
            Command::Read { .. } => (By::Read, part.settings.t_wtr),
            Command::Precharge { banks: Named::All } => (By::PrechargeAll, part.settings.t_wr),
            Command::Precharge { .. } => (By::Precharge, part.settings.t_wr),
            _ => return None,
        };
        Some(Cutter {
            cycle,
            command,
            by,
            wait,
        })
    }

    fn is_of_another_bank(&self, write: &Burst) -> bool {
        matches!(self.command, Command::Read { bank, .. } if bank != write.bank)
    }

    fn precharges(&self, write: &Burst) -> bool {
        matches!(self.command, Command::Precharge { banks } if banks.names(write.bank))
    }
}

/// The part before such an event, as far as that may cut a write.
struct Before {
    banks: [Bank; BANKS],
    several_rows: bool,
    /// The last write of any bank and the last of each, by their places.
    writes: Vec<(usize, Burst)>,
}

impl Before {
    fn new(part: &Part) -> Before {
        let last = writes(part).next_back();
        let of_banks =
            (0..BANKS).filter_map(|bank| writes(part).rev().find(|(_, burst)| burst.bank == bank));
        let mut candidates: Vec<(usize, Burst)> = of_banks
            .chain(last)
            .map(|(place, &burst)| (place, burst))
            .collect();
        candidates.sort_by_key(|&(place, _)| place);
        candidates.dedup();
        let written =
            |&bank: &usize| part.banks[bank].is_open() && part.last_write_of_row(bank).is_some();
        Before {
            banks: part.banks,
            several_rows: (0..BANKS).filter(written).count() > 1,
            writes: candidates,
        }
    }

    /// The clauses that the event has shown, by what it has left of the writes.
    fn compared_with(&self, after: &Part, cutter: &Cutter) -> Vec<Clause> {
        let mut clauses = Vec::new();
        for &(place, write) in &self.writes {
            let kept = after.bursts[place].kept;
            if kept < write.kept {
                clauses.extend(self.cut(place, &write, after, cutter));
            } else if !write.auto_precharge && cutter.precharges(&write) {
                clauses.extend(self.spared(&write, cutter));
            }
        }
        clauses
    }

    fn cut(&self, place: usize, write: &Burst, after: &Part, cutter: &Cutter) -> Vec<Clause> {
        let bank = &self.banks[write.bank];
        let opened_since = bank.active.is_some_and(|active| active > write.given);
        let one_pair = after.bursts[place].kept == 1;
        let next = writes(after).find(|&(other, _)| other > place);
        let has_before = writes(after).any(|(other, _)| other < place);
        let said = [
            Some(if one_pair { ToOnePair } else { ToMorePairs }),
            (write.data_end() <= cutter.cycle).then_some(AfterData),
            (cutter.wait >= 1_000).then_some(AfterLongWait),
            cutter.is_of_another_bank(write).then_some(FromOtherBank),
            (!bank.is_open() || opened_since).then_some(WhenClosed),
            (has_before && next.is_none()).then_some(LastOfSeveral),
            next.is_some().then_some(OlderThanTheLast),
        ];
        let by = cutter.by;
        let mut clauses: Vec<Clause> = said
            .into_iter()
            .flatten()
            .map(|said| Cut(by, said))
            .collect();
        // Pairs that no WRITE took: a READ or PRECHARGE has cut it before.
        let until_next = next.map_or(u64::MAX, |(_, next)| next.given - write.given);
        if write.kept < write.mode.pairs().min(until_next) {
            let further = if by == By::Read { by } else { By::Precharge };
            clauses.push(CutFurther(further));
        }
        if by == By::PrechargeAll && self.several_rows {
            clauses.push(OneOfSeveralRows);
        }
        clauses
    }

    fn spared(&self, write: &Burst, cutter: &Cutter) -> Option<Clause> {
        let bank = &self.banks[write.bank];
        let opened_since = bank.active.is_some_and(|active| active > write.given);
        let sparing = match bank.is_open() {
            false => Sparing::IdleBank,
            true if opened_since => Sparing::OpenedSince,
            true => return None,
        };
        let begun = cutter.wait + write.given + 1;
        if cutter.cycle <= begun {
            Some(Spared(sparing, Left::Nothing))
        } else {
            (cutter.cycle - begun < write.kept).then_some(Spared(sparing, Left::SomePairs))
        }
    }
}

/// The clauses of edition 1 that an event shows which breaks no rule and cuts nothing.
fn kept_of_edition_1(part: &Part, cycle: u64, asked: Asked) -> Vec<Clause> {
    let Some(last) = part.last_burst(Direction::Write) else {
        return vec![];
    };
    let runs_whole = cycle < last.given + 1 + last.mode.pairs();
    let read_since = part
        .last_burst(Direction::Read)
        .is_some_and(|read| read.given > last.given);
    let by = if read_since { By::Read } else { By::Precharge };
    let clause = match (asked.command, asked.low) {
        (Command::Read { .. }, false) if last.auto_precharge => {
            let soonest = last.data_end() + part.settings.t_wtr;
            (cycle == soonest).then_some(ReadAfterAutoWrite)
        }
        (Command::BurstTerminate, false) => runs_whole.then_some(TerminateAfterCut(by)),
        (command, true) if part.sleep.is_awake() && runs_whole => {
            let refreshes = command == Command::AutoRefresh;
            Some(EntryAfterCut(if refreshes {
                SelfRefresh
            } else {
                PowerDown
            }))
        }
        _ => None,
    };
    clause.into_iter().collect()
}

/// The clauses of edition 1 that an event shows which breaks a rule.
fn broken_of_edition_1(part: &Part, cycle: u64, asked: Asked, rule: u32) -> Vec<Clause> {
    let last = part.last_burst(Direction::Write);
    let clauses = match (rule, asked.command) {
        (10, Command::Precharge { banks: Named::All }) => [Some(Rule10OfAll), None],
        (
            10,
            Command::Precharge {
                banks: Named::One(bank),
            },
        ) => {
            let write = part
                .last_write_of_row(bank)
                .expect("rule 10 asks of a write");
            let soonest = write.given + 2 + part.settings.t_wr;
            [(cycle + 1 == soonest).then_some(Rule10OneEarly), None]
        }
        (11, Command::Read { .. }) => {
            let write = last.expect("rule 11 asks of a write");
            let soonest = write.given + 2 + part.settings.t_wtr;
            let one_early = !write.auto_precharge && cycle + 1 == soonest;
            let of_auto = write.auto_precharge && cycle >= soonest;
            [
                one_early.then_some(Rule11OneEarly),
                of_auto.then_some(Rule11OfAutoWrite),
            ]
        }
        (13, Command::BurstTerminate) => {
            let in_write = last.is_some_and(|write| cycle < write.data_end());
            [in_write.then_some(Rule13OfWrite), None]
        }
        _ => [None, None],
    };
    clauses.into_iter().flatten().collect()
}

/// The clause that an event shows which breaks a rule.
fn broken(part: &Part, cycle: u64, asked: Asked, rule: u32) -> Option<Clause> {
    let refreshes = asked.command == Command::AutoRefresh;
    match (part.sleep, asked.low, rule) {
        (_, _, 15) => wrong(part, cycle, asked).map(Rule15),
        (State::Awake { .. }, true, 3) if refreshes => Some(Rule3OfSelfRefresh),
        (State::Awake { .. }, true, 4) if asked.command == Command::Nop => Some(Rule4OfNop),
        (State::Awake { .. }, true, 5) if refreshes => Some(Rule5OfSelfRefresh),
        (State::Awake { .. }, true, 12) if refreshes => Some(Rule12OfSelfRefresh),
        (State::Awake { .. }, true, 14) if refreshes => Some(Rule14OfSelfRefresh),
        (State::Awake { .. }, _, 14) if part.owed.from > 0 => Some(Rule14AfterSelfRefresh),
        (State::Awake { .. }, _, 14) if refreshes => Some(Rule14OfRefresh),
        (State::Awake { .. }, _, 14) if asked.command == Command::Nop => Some(Rule14OfNop),
        (State::Asleep(PowerDown), _, 14) => Some(Rule14InPowerDown),
        (State::Asleep(sleep), true, _) => Some(LowerRuleWhileLow(sleep)),
        (State::Asleep(sleep), false, _) => Some(LowerRuleAtExit(sleep)),
        _ => None,
    }
}

fn clauses_of(capture: &Capture) -> Vec<Clause> {
    let mut part = Part::new(capture.edition, capture.settings, LookBack::Running);
    let mut clauses = Vec::new();
    for event in &capture.events {
        let (cycle, asked) = (u64::from(event.cycle), Event::asked(event));
        let newer = part.edition == Edition::One;
        if let Some(rule) = lowest_broken(&part, cycle, asked) {
            clauses.extend(broken(&part, cycle, asked, rule));
            if newer {
                clauses.extend(broken_of_edition_1(&part, cycle, asked, rule));
            }
            return clauses;
        }
        clauses.extend(kept(&part, cycle, asked));
        let cutter = Cutter::new(&part, cycle, asked.command).filter(|_| newer);
        let before = cutter.map(|cutter| (Before::new(&part), cutter));
        if newer {
            clauses.extend(kept_of_edition_1(&part, cycle, asked));
        }
        part.apply(cycle, asked);
        if let Some((before, cutter)) = before {
            clauses.extend(before.compared_with(&part, &cutter));
        }
    }
    clauses
}

/// Whether a capture is refused, and would not be if its sixth word were 0.
fn is_of_no_edition(bytes: &[u8]) -> bool {
    let mut older = bytes.to_vec();
    if let Some(word) = older.get_mut(EDITION_AT..EDITION_AT + 4) {
        word.fill(0);
    }
    Capture::read(bytes).is_err() && Capture::read(&older).is_ok()
}

#[test]
fn every_clause_comes_up() {
    let mut dice = Dice::new(SEED);
    let mut captures: BTreeMap<Clause, u32> = BTreeMap::new();
    for _ in 0..INPUTS {
        let Input::Capture(bytes) = input(&mut dice) else {
            continue;
        };
        let mut clauses = match Capture::read(&bytes) {
            Ok(capture) => clauses_of(&capture),
            Err(_) if is_of_no_edition(&bytes) => vec![NoEdition],
            Err(_) => vec![],
        };
        clauses.sort();
        clauses.dedup();
        for clause in clauses {
            *captures.entry(clause).or_default() += 1;
        }
    }
    println!("{captures:#?}");
    for clause in all_clauses() {
        let count = captures.get(&clause).copied().unwrap_or(0);
        assert!(count >= 3, "{clause:?} came up in {count} captures");
    }
}
