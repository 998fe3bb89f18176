//! Counts of answers, so that a run can show that it tried everything. A burst list and a
//! schedule may be asked for several times, with buffers of different lengths.

use std::collections::BTreeMap;
use std::fmt;

use crate::blank::hidden;
use crate::capture::{
    events_at, settings_of_layout, word, words, Capture, Edition, Event, Refusal, EDITION_AT,
    HEADER_BYTES, LIMITS, SETTINGS, SLEEP_SETTINGS, T_RC_SETTING,
};
use crate::command::{Asked, Command, A10, ADDRESS_PINS};
use crate::openings::Record;
use crate::part::LookBack;
use crate::schedule::{CLOSED_ROWS, OPEN_ROWS};
use crate::verdict::{cells, part_after, Answer};

pub const RULES: usize = 15;
/// The most cells that a burst list has.
pub const MOST_CELLS: usize = 16 * 8_000;
/// A number below them that no rule has any more.
pub const NO_RULE: u32 = 6;

/// The refusals that document 01's table has for each question, in its order.
const OF_JUDGE: [u32; 4] = [1, 2, 3, 4];
const OF_CELLS: [u32; 6] = [1, 2, 3, 4, 8, 7];
const OF_SCHEDULE: [u32; 5] = [2, 3, 5, 6, 7];
const OF_NO_POLICY: [u32; 3] = [2, 3, 10];
/// Those of a capture whose sixth word is no edition.
const OF_NO_EDITION: [u32; 1] = [2];
const OF_BLANK: [u32; 5] = [1, 2, 3, 4, 7];
const OF_ROW: [u32; 7] = [1, 2, 3, 4, 8, 13, 7];

/// What captures that are blanked have to show.
const SHOWN: [&str; 6] = [
    "a column",
    "a row",
    "a row that the part lacks",
    "DESELECT that looks like ACTIVE, READ or WRITE",
    "an address on another command",
    "a column or a row with CKE low",
];

/// What questions about open rows have to show; the last only where the part may sleep.
const ROW_SHOWN: [&str; 9] = [
    "a bank above 3",
    "an event at or above N",
    "no events to ask about",
    "too few records",
    "too short an index",
    "an opening of one event, closed",
    "a bank opened again",
    "a row open at the end",
    "a row open with CKE low",
];

/// What recordings that are too long for captures have to show.
const LONG: [&str; 3] = ["clean", "broken", "refusal 4"];

/// How often a question was answered, refused with each number, and refused for settings
/// that contradict each other.
#[derive(Clone, Debug, Default)]
pub struct Answers {
    pub given: u64,
    refused: BTreeMap<u32, u64>,
    contradictions: u64,
}

impl Answers {
    fn count(&mut self, refusal: Option<Refusal>, settings: &[u32]) {
        match refusal {
            None => self.given += 1,
            Some(refusal) => {
                *self.refused.entry(refusal.number).or_default() += 1;
                self.contradictions += u64::from(is_contradiction(refusal, settings));
            }
        }
    }

    fn of(&self, number: u32) -> u64 {
        self.refused.get(&number).copied().unwrap_or(0)
    }
}

/// What a capture is laid out for: so many settings, and its edition if its sixth word is one.
type Layout = (usize, Option<Edition>);

#[derive(Clone, Debug, Default)]
pub struct Tally {
    captures: BTreeMap<Layout, OfCaptures>,
    pub recordings: Answers,
    /// Of recordings with more events than a capture may have: clean, broken, refused with 4.
    pub long_recordings: [u64; LONG.len()],
    pub open: Answers,
    pub closed: Answers,
    pub no_policy: Answers,
}

/// Of captures of one layout.
#[derive(Clone, Debug, Default)]
pub struct OfCaptures {
    pub rules: [u64; RULES],
    pub verdicts: Answers,
    pub cell_lists: Answers,
    /// Of the burst lists written, those with a write cut short by READ or PRECHARGE.
    pub interrupted: u64,
    pub blanks: Answers,
    pub rows: Answers,
    /// Of the questions answered, those about a bank that is idle.
    pub idle: u64,
    pub row_shown: [u64; ROW_SHOWN.len()],
    pub shown: [u64; SHOWN.len()],
    /// Clean captures whose burst cells are others under other addresses.
    pub other_cells: u64,
}

impl OfCaptures {
    fn counts(&self, (settings, edition): Layout) -> Vec<(String, u64)> {
        let (name, counts) = match edition {
            Some(edition) => (
                format!("edition {}", edition.word()),
                self.accepted_counts(settings, edition),
            ),
            None => ("another edition".to_string(), self.refused_counts()),
        };
        counts
            .into_iter()
            .map(|(what, count)| (format!("{settings} settings, {name}, {what}"), count))
            .collect()
    }

    /// Rule 15 cannot be broken with 14 settings, and only edition 1 has interrupted writes.
    fn accepted_counts(&self, settings: usize, edition: Edition) -> Vec<(String, u64)> {
        let rules = if settings == SETTINGS { 14 } else { RULES };
        let mut counts = vec![("judge: clean".to_string(), self.verdicts.given)];
        for (rule, &count) in (1..).zip(&self.rules[..rules]) {
            if rule != NO_RULE {
                counts.push((format!("judge: rule {rule}"), count));
            }
        }
        counts.extend(refusals("judge", &self.verdicts, &OF_JUDGE));
        counts.push(contradictions("judge", &self.verdicts));
        counts.push(("cells: written".to_string(), self.cell_lists.given));
        if edition == Edition::One {
            counts.push(("cells: a write cut short".to_string(), self.interrupted));
        }
        counts.extend(refusals("cells", &self.cell_lists, &OF_CELLS));
        counts.push(contradictions("cells", &self.cell_lists));
        counts.push(("blank: written".to_string(), self.blanks.given));
        counts.extend(refusals("blank", &self.blanks, &OF_BLANK));
        // CKE is never low with 14 settings.
        let shown = SHOWN.len() - usize::from(settings == SETTINGS);
        for (name, &count) in SHOWN.iter().zip(&self.shown).take(shown) {
            counts.push((format!("blank: {name}"), count));
        }
        counts.push(("blank: other burst cells".to_string(), self.other_cells));
        counts.push(("open row: open".to_string(), self.rows.given - self.idle));
        counts.push(("open row: idle".to_string(), self.idle));
        counts.extend(refusals("open row", &self.rows, &OF_ROW));
        let shown = ROW_SHOWN.len() - usize::from(settings == SETTINGS);
        for (name, &count) in ROW_SHOWN.iter().zip(&self.row_shown).take(shown) {
            counts.push((format!("open row: {name}"), count));
        }
        counts
    }

    fn refused_counts(&self) -> Vec<(String, u64)> {
        let mut counts = refusals("judge", &self.verdicts, &OF_NO_EDITION);
        counts.extend(refusals("cells", &self.cell_lists, &OF_NO_EDITION));
        counts.extend(refusals("blank", &self.blanks, &OF_NO_EDITION));
        counts.extend(refusals("open row", &self.rows, &OF_NO_EDITION));
        counts
    }
}

impl Tally {
    /// What was counted of captures of a layout.
    pub fn of(&self, layout: Layout) -> OfCaptures {
        self.captures.get(&layout).cloned().unwrap_or_default()
    }

    fn of_capture(&mut self, capture: &[u8]) -> &mut OfCaptures {
        self.captures.entry(layout_of(capture)).or_default()
    }

    pub fn count_answer(&mut self, capture: &[u8], answer: Answer) {
        let counts = self.of_capture(capture);
        let settings = first_settings(capture);
        match answer {
            Answer::Clean { .. } => counts.verdicts.count(None, &settings),
            Answer::Broken { rule, .. } => counts.rules[rule as usize - 1] += 1,
            Answer::Refused { number, place } => {
                let refusal = Refusal { number, place };
                counts.verdicts.count(Some(refusal), &settings);
            }
        }
    }

    pub fn count_recording(&mut self, recording: &[u8], answer: Answer) {
        let long = Capture::read(recording).is_err_and(|refusal| refusal.number == 1);
        let shown = match answer {
            Answer::Clean { .. } => Some(0),
            Answer::Broken { .. } => Some(1),
            Answer::Refused { number: 4, .. } => Some(2),
            Answer::Refused { .. } => None,
        };
        if let Some(shown) = shown.filter(|_| long) {
            self.long_recordings[shown] += 1;
        }
        let refusal = match answer {
            Answer::Refused { number, place } => Some(Refusal { number, place }),
            _ => None,
        };
        self.recordings.count(refusal, &first_settings(recording));
    }

    pub fn count_cells(&mut self, capture: &[u8], answer: Result<u32, Refusal>) {
        let interrupted = answer.is_ok()
            && part_after(capture, LookBack::Running)
                .is_ok_and(|part| part.has_interrupted_write());
        let counts = self.of_capture(capture);
        counts
            .cell_lists
            .count(answer.err(), &first_settings(capture));
        counts.interrupted += u64::from(interrupted);
    }

    /// With the index as it was left.
    pub fn count_row(
        &mut self,
        capture: &[u8],
        asked: [u32; 2],
        answer: Result<Option<u32>, Refusal>,
        records: &[Record],
        index: &[u32],
    ) {
        let counts = self.of_capture(capture);
        counts.idle += u64::from(answer == Ok(None));
        if let Ok(read) = Capture::read(capture) {
            let shows = row_shows(&read.events, asked, answer, records, index);
            for (count, shows) in counts.row_shown.iter_mut().zip(shows) {
                *count += u64::from(shows);
            }
        }
        counts.rows.count(answer.err(), &first_settings(capture));
    }

    pub fn count_blank(&mut self, capture: &[u8], answer: Result<u32, Refusal>) {
        self.of_capture(capture)
            .blanks
            .count(answer.err(), &first_settings(capture));
    }

    /// What the events of an accepted capture show of blanking, and whether it has other
    /// burst cells with other addresses.
    pub fn count_addresses(&mut self, bytes: &[u8], capture: &Capture, other: &[u8]) {
        let counts = self.of_capture(bytes);
        for event in &capture.events {
            for (count, shows) in counts.shown.iter_mut().zip(shows(capture, event.pins)) {
                *count += u64::from(shows);
            }
        }
        counts.other_cells += u64::from(burst_list(bytes) != burst_list(other));
    }

    pub fn count_schedule(&mut self, settings: &[u32], policy: u32, answer: Result<u32, Refusal>) {
        let counts = match policy {
            OPEN_ROWS => &mut self.open,
            CLOSED_ROWS => &mut self.closed,
            _ => &mut self.no_policy,
        };
        counts.count(answer.err(), settings);
    }

    /// What was counted, by name.
    fn counts(&self) -> Vec<(String, u64)> {
        let mut counts = Vec::new();
        for settings in [SETTINGS, SLEEP_SETTINGS] {
            for edition in [Some(Edition::Zero), Some(Edition::One), None] {
                let layout = (settings, edition);
                counts.extend(self.of(layout).counts(layout));
            }
        }
        counts.push(("recording: judged".to_string(), self.recordings.given));
        counts.extend(refusals("recording", &self.recordings, &OF_JUDGE));
        counts.push(contradictions("recording", &self.recordings));
        for (name, count) in LONG.iter().zip(self.long_recordings) {
            counts.push((format!("recording of over 8,000 events: {name}"), count));
        }
        for (rows, answers) in [("open rows", &self.open), ("closed rows", &self.closed)] {
            counts.push((format!("{rows}: written"), answers.given));
            counts.extend(refusals(rows, answers, &OF_SCHEDULE));
            counts.push(contradictions(rows, answers));
        }
        counts.extend(refusals("no policy", &self.no_policy, &OF_NO_POLICY));
        counts.push(contradictions("no policy", &self.no_policy));
        counts
    }

    /// What never came up.
    pub fn missing(&self) -> Vec<String> {
        self.counts()
            .into_iter()
            .filter(|&(_, count)| count == 0)
            .map(|(name, _)| name)
            .collect()
    }
}

/// Bytes that end before the sixth word have edition 0: they are refused for their length.
fn layout_of(capture: &[u8]) -> Layout {
    let edition = if capture.len() < HEADER_BYTES {
        Some(Edition::Zero)
    } else {
        Edition::read(word(capture, EDITION_AT))
    };
    (settings_of_layout(capture), edition)
}

/// What a pin word shows of blanking, in the order of SHOWN.
fn shows(capture: &Capture, pins: u32) -> [bool; SHOWN.len()] {
    let asked = Asked::of_pins(pins);
    let names_column = |pins| {
        matches!(
            Command::of_pins(pins),
            Command::Read { .. } | Command::Write { .. }
        )
    };
    let names_row = |pins| matches!(Command::of_pins(pins), Command::Active { .. });
    let hides = hidden(&capture.settings, pins) & pins != 0;
    let selected = pins & !Command::Deselect.pins();
    [
        names_column(pins) && hides,
        names_row(pins) && hides,
        names_row(pins) && hidden(&capture.settings, pins) == 0,
        asked.command == Command::Deselect && (names_column(selected) || names_row(selected)),
        !names_column(pins) && !names_row(pins) && pins & ADDRESS_PINS & !A10 != 0,
        asked.low && hides,
    ]
}

/// The cells of a clean capture.
fn burst_list(capture: &[u8]) -> Vec<u32> {
    let mut list = vec![0; MOST_CELLS];
    let written = cells(capture, &mut list).unwrap_or(0);
    list.truncate(written as usize);
    list
}

/// The 14 settings that every capture has; none where the bytes end before.
fn first_settings(capture: &[u8]) -> Vec<u32> {
    let bytes = capture.get(HEADER_BYTES..events_at(SETTINGS));
    words(bytes.unwrap_or_default())
}

/// Whether tRC is refused though it is in its range.
fn is_contradiction(refusal: Refusal, settings: &[u32]) -> bool {
    let (least, most) = LIMITS[T_RC_SETTING];
    let of_t_rc = (refusal.number, refusal.place as usize) == (3, T_RC_SETTING);
    of_t_rc && (least..=most).contains(&settings[T_RC_SETTING])
}

fn contradictions(question: &str, answers: &Answers) -> (String, u64) {
    let name = format!("{question}: settings that contradict each other");
    (name, answers.contradictions)
}

fn refusals(question: &str, answers: &Answers, numbers: &[u32]) -> Vec<(String, u64)> {
    numbers
        .iter()
        .map(|&number| (format!("{question}: refusal {number}"), answers.of(number)))
        .collect()
}

impl fmt::Display for Tally {
    fn fmt(&self, f: &mut fmt::Formatter<'_>) -> fmt::Result {
        let lines: Vec<String> = self
            .counts()
            .iter()
            .map(|(name, count)| format!("{name}: {count}"))
            .collect();
        write!(f, "{}", lines.join("\n"))
    }
}

/// Which of the things in `ROW_SHOWN` a question to an accepted capture shows.
fn row_shows(
    events: &[Event],
    [bank, event]: [u32; 2],
    answer: Result<Option<u32>, Refusal>,
    records: &[Record],
    index: &[u32],
) -> [bool; ROW_SHOWN.len()] {
    let refused = |number| answer.is_err_and(|refusal| refusal.number == number);
    let count = |bank: usize| records[bank].count as usize;
    let openings = if answer.is_ok() {
        3 * (0..4).map(count).sum::<usize>()
    } else {
        0
    };
    let mut openings = index[..openings].chunks(3);
    let last = (events.len() as u32).wrapping_sub(1);
    let place = answer.err().map_or(0, |refusal| refusal.place);
    [
        refused(13) && bank > 3 && !events.is_empty(),
        refused(13) && bank <= 3 && !events.is_empty(),
        refused(13) && events.is_empty(),
        refused(7) && place == 4,
        refused(7) && place != 4,
        openings
            .clone()
            .any(|own| own[1] == own[2] && own[2] != last),
        answer.is_ok() && (0..4).any(|bank| count(bank) > 1),
        openings.any(|own| own[2] == last),
        matches!(answer, Ok(Some(_))) && events[event as usize].asked().low,
    ]
}
