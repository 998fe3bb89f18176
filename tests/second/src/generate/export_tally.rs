//! Counts of what exports showed, so that a run can tell that every clause came up.

use std::collections::BTreeMap;
use std::fmt;

use super::Export;
use crate::capture::{Capture, Refusal, SETTINGS};
use crate::export::{with_nops, MOST_RECORDS, REACH, RECORD_BYTES};
use crate::verdict::Answer;

#[derive(Clone, Copy, Debug, PartialEq, Eq, PartialOrd, Ord)]
pub enum Shown {
    Read,
    ReadNothing,
    ReadMost,
    ReadEditionOne,
    /// A stamp below the one before.
    GoesRound,
    Count,
    NoEdition,
    Setting,
    Uneven,
    TooMany,
    Stands,
    /// With pins that there are not besides, in a lower record.
    StandsBeforePins,
    HighPins,
    ReadShort,
    Written,
    WrittenNothing,
    /// None was needed, or some were; two in a row.
    NoNop,
    Nop,
    Nops,
    /// An event exactly as far away as a stamp can tell.
    AtReach,
    Refused1To4,
    Sleeps,
    FirstTooLate,
    TooManyRecords,
    WriteShort,
    BackClean,
    /// A rule but 14, moved up by some NOPs.
    BackMovedUp,
    /// Rule 14 of the event itself.
    BackLateEvent,
    /// A NOP is reported, where the event broke rule 14, and where it broke a lower rule too.
    BackLateNop,
    BackLateNopOfLowerRule,
}

use Shown::*;

pub const ALL: [Shown; 30] = [
    Read,
    ReadNothing,
    ReadMost,
    ReadEditionOne,
    GoesRound,
    Count,
    NoEdition,
    Setting,
    Uneven,
    TooMany,
    Stands,
    StandsBeforePins,
    HighPins,
    ReadShort,
    Written,
    WrittenNothing,
    NoNop,
    Nop,
    Nops,
    AtReach,
    Refused1To4,
    Sleeps,
    FirstTooLate,
    TooManyRecords,
    WriteShort,
    BackClean,
    BackMovedUp,
    BackLateEvent,
    BackLateNop,
    BackLateNopOfLowerRule,
];

#[derive(Clone, Debug, Default)]
pub struct ExportTally(BTreeMap<Shown, u64>);

impl ExportTally {
    fn show(&mut self, shown: Shown, when: bool) {
        if when {
            *self.0.entry(shown).or_default() += 1;
        }
    }

    pub fn count_read(&mut self, export: &Export, answer: Result<u32, Refusal>) {
        match answer {
            Ok(_) => self.count_records(export),
            Err(refusal) => self.count_read_refused(export, refusal),
        }
    }

    fn count_records(&mut self, export: &Export) {
        let stamps = stamps(&export.records);
        self.show(Read, true);
        self.show(ReadNothing, stamps.is_empty());
        self.show(ReadMost, stamps.len() == MOST_RECORDS);
        self.show(ReadEditionOne, export.edition == 1);
        self.show(GoesRound, stamps.windows(2).any(|pair| pair[1] < pair[0]));
    }

    fn count_read_refused(&mut self, export: &Export, refusal: Refusal) {
        let fourteen = export.settings.len() == SETTINGS;
        self.show(Count, refusal.number == 2 && !fourteen);
        self.show(NoEdition, refusal.number == 2 && fourteen);
        self.show(Setting, refusal.number == 3);
        let uneven = export.records.len() % RECORD_BYTES != 0;
        let many = export.records.len() / RECORD_BYTES > MOST_RECORDS;
        let of_records = refusal.number == 11;
        self.show(Uneven, of_records && uneven);
        self.show(TooMany, of_records && !uneven && many);
        let stands = of_records && !uneven && !many;
        self.show(Stands, stands);
        let place = refusal.place as usize;
        let high = |record: &[u8]| record[4] >> 4 != 0 || record[5] != 0;
        let behind = RECORD_BYTES * place.min(export.records.len() / RECORD_BYTES);
        let high_before = export.records[..behind].chunks(RECORD_BYTES).any(high);
        self.show(StandsBeforePins, stands && high_before);
        self.show(HighPins, refusal.number == 4);
        self.show(ReadShort, refusal.number == 7);
    }

    pub fn count_written(&mut self, capture: &[u8], answer: Result<u32, Refusal>) {
        let Ok(read) = Capture::read(capture) else {
            self.show(Refused1To4, true);
            return;
        };
        let first = read.events.first().map_or(0, |event| event.cycle);
        match answer {
            Ok(_) => {
                let nops = with_nops(&read.events).len() - read.events.len();
                self.show(Written, true);
                self.show(WrittenNothing, read.events.is_empty());
                self.show(NoNop, nops == 0);
                self.show(Nop, nops > 0);
                let gap = |pair: &[crate::capture::Event]| pair[1].cycle - pair[0].cycle;
                self.show(
                    Nops,
                    read.events.windows(2).any(|pair| gap(pair) > 2 * REACH),
                );
                self.show(
                    AtReach,
                    read.events.windows(2).any(|pair| gap(pair) == REACH),
                );
            }
            Err(refusal) => {
                let twelve = refusal.number == 12;
                let sleeps = read.settings.wake.is_some();
                self.show(Sleeps, twelve && sleeps);
                self.show(FirstTooLate, twelve && !sleeps && first > REACH);
                self.show(TooManyRecords, twelve && !sleeps && first <= REACH);
                self.show(WriteShort, refusal.number == 7);
            }
        }
    }

    /// The verdict on a capture, and on what was written of it and read back.
    pub fn count_back(&mut self, before: Answer, after: Answer) {
        let (
            Answer::Broken { rule, event, .. },
            Answer::Broken {
                rule: now,
                event: at,
                cycle,
                ..
            },
        ) = (before, after)
        else {
            self.show(BackClean, matches!(after, Answer::Clean { .. }));
            return;
        };
        let Answer::Broken { cycle: then, .. } = before else {
            return;
        };
        let same_event = cycle == then;
        self.show(
            BackMovedUp,
            same_event && now == rule && rule != 14 && at > event,
        );
        self.show(BackLateEvent, same_event && now == 14);
        self.show(BackLateNop, !same_event && rule == 14);
        self.show(BackLateNopOfLowerRule, !same_event && rule != 14);
    }

    /// What never came up.
    pub fn missing(&self) -> Vec<String> {
        ALL.iter()
            .filter(|shown| !self.0.contains_key(shown))
            .map(|shown| format!("exports: {shown:?}"))
            .collect()
    }
}

fn stamps(records: &[u8]) -> Vec<u16> {
    records
        .chunks(RECORD_BYTES)
        .map(|record| u16::from_le_bytes([record[0], record[1]]))
        .collect()
}

impl fmt::Display for ExportTally {
    fn fmt(&self, f: &mut fmt::Formatter<'_>) -> fmt::Result {
        let count = |shown: &Shown| self.0.get(shown).copied().unwrap_or(0);
        let lines: Vec<String> = ALL
            .iter()
            .map(|shown| format!("exports, {shown:?}: {}", count(shown)))
            .collect();
        write!(f, "{}", lines.join("\n"))
    }
}
