//! Captures as bytes: the header, the settings, the events, and refusals 1 to 4.

use crate::command::Asked;

/// The settings of a part that never sleeps, and of one that does.
pub const SETTINGS: usize = 14;
pub const SLEEP_SETTINGS: usize = 16;
pub const HEADER_BYTES: usize = 24;
/// The byte at which the header's sixth word starts, the edition.
pub const EDITION_AT: usize = 20;
pub const EVENT_BYTES: usize = 8;
pub const MOST_EVENTS: u32 = 8_000;
pub const LAST_CYCLE: u32 = 2_000_000_000;

/// The setting that holds the mode word at cycle 0.
pub const MODE_SETTING: usize = 3;
/// The settings that may not contradict each other.
pub const T_RP_SETTING: usize = 5;
pub const T_RAS_SETTING: usize = 6;
pub const T_RC_SETTING: usize = 7;
/// The setting that holds tREFI.
pub const T_REFI_SETTING: usize = 13;

/// Least and most of each setting, in order.
pub const LIMITS: [(u32, u32); SLEEP_SETTINGS] = [
    (1, 2),
    (12, 14),
    (8, 11),
    (0, 127),
    (1, 10_000),
    (1, 10_000),
    (1, 10_000),
    (1, 10_000),
    (1, 10_000),
    (1, 10_000),
    (1, 10_000),
    (1, 10_000),
    (1, 10_000),
    (1, 1_000_000),
    (1, 10_000),
    (1, 10_000),
];

/// Where the events start behind so many settings: byte 80 or 88.
pub fn events_at(settings: usize) -> usize {
    HEADER_BYTES + 4 * settings
}

/// The length of a capture with so many settings and events.
pub fn total_bytes(settings: usize, events: u32) -> u64 {
    events_at(settings) as u64 + EVENT_BYTES as u64 * u64::from(events)
}

/// The rules that a capture is held to, by its sixth header word.
#[derive(Clone, Copy, Debug, PartialEq, Eq, PartialOrd, Ord)]
pub enum Edition {
    /// Document 01's.
    Zero,
    /// The newer sheets': a READ or PRECHARGE may cut a write short.
    One,
}

impl Edition {
    pub fn read(word: u32) -> Option<Edition> {
        match word {
            0 => Some(Edition::Zero),
            1 => Some(Edition::One),
            _ => None,
        }
    }

    pub fn word(self) -> u32 {
        match self {
            Edition::Zero => 0,
            Edition::One => 1,
        }
    }
}

/// The settings that a capture is laid out for: 16 where its count word is 16, else 14.
pub fn settings_of_layout(bytes: &[u8]) -> usize {
    let counted = (bytes.len() >= HEADER_BYTES).then(|| word(bytes, 4));
    if counted == Some(SLEEP_SETTINGS as u32) {
        SLEEP_SETTINGS
    } else {
        SETTINGS
    }
}

/// Why a call was turned down: a number of document 01's table and its place.
#[derive(Clone, Copy, Debug, PartialEq, Eq)]
pub struct Refusal {
    pub number: u32,
    pub place: u32,
}

pub fn refused<T>(number: u32, place: u32) -> Result<T, Refusal> {
    Err(Refusal { number, place })
}

/// A mode word: burst length, order and latency.
#[derive(Clone, Copy, Debug, PartialEq, Eq)]
pub struct Mode(pub u32);

impl Mode {
    pub fn is_valid(self) -> bool {
        let length_code = self.0 & 7;
        let latency = self.0 >> 4;
        (1..=4).contains(&length_code) && (2..=3).contains(&latency)
    }

    /// BL.
    pub fn burst_length(self) -> u32 {
        match self.0 & 7 {
            1 => 2,
            2 => 4,
            3 => 8,
            4 => 16,
            code => unreachable!("burst length code {code} is never accepted"),
        }
    }

    /// h, the pairs of beats in a whole burst.
    pub fn pairs(self) -> u64 {
        u64::from(self.burst_length() / 2)
    }

    pub fn is_interleaved(self) -> bool {
        self.0 & 8 != 0
    }

    /// CL.
    pub fn latency(self) -> u64 {
        u64::from(self.0 >> 4 & 7)
    }
}

/// The settings of a part, times in cycles.
#[derive(Clone, Copy, Debug, PartialEq, Eq)]
pub struct Settings {
    pub lane_code: u32,
    pub row_bits: u32,
    pub column_bits: u32,
    pub mode: Mode,
    pub t_rcd: u64,
    pub t_rp: u64,
    pub t_ras: u64,
    pub t_rrd: u64,
    pub t_wr: u64,
    pub t_wtr: u64,
    pub t_rfc: u64,
    pub t_mrd: u64,
    pub t_refi: u64,
    /// None with 14 settings.
    pub wake: Option<Wake>,
}

/// The waits after sleep.
#[derive(Clone, Copy, Debug, PartialEq, Eq)]
pub struct Wake {
    pub t_xp: u64,
    pub t_xsr: u64,
}

impl Settings {
    /// The settings of a request list, which never sleeps.
    pub fn read_awake(list: &[u32]) -> Result<Settings, Refusal> {
        if list.len() != SETTINGS {
            return refused(2, 0);
        }
        Settings::read(list)
    }

    /// Refusal 2 for a list of another length, refusal 3 for its lowest bad setting, or for
    /// tRC where each is good by itself.
    pub fn read(list: &[u32]) -> Result<Settings, Refusal> {
        if list.len() != SETTINGS && list.len() != SLEEP_SETTINGS {
            return refused(2, 0);
        }
        for (place, &value) in list.iter().enumerate() {
            if !setting_is_good(place, value) {
                return refused(3, place as u32);
            }
        }
        if contradict(list) {
            return refused(3, T_RC_SETTING as u32);
        }
        let time = |place: usize| u64::from(list[place]);
        Ok(Settings {
            lane_code: list[0],
            row_bits: list[1],
            column_bits: list[2],
            mode: Mode(list[MODE_SETTING]),
            t_rcd: time(4),
            t_rp: time(T_RP_SETTING),
            t_ras: time(T_RAS_SETTING),
            t_rrd: time(8),
            t_wr: time(9),
            t_wtr: time(10),
            t_rfc: time(11),
            t_mrd: time(12),
            t_refi: time(T_REFI_SETTING),
            wake: (list.len() == SLEEP_SETTINGS).then(|| Wake {
                t_xp: time(14),
                t_xsr: time(15),
            }),
        })
    }

    /// How many rows a bank has.
    pub fn rows(&self) -> u32 {
        1 << self.row_bits
    }

    /// How many cells the four banks have together.
    pub fn cells(&self) -> u64 {
        4 << (self.row_bits + self.column_bits)
    }
}

fn setting_is_good(place: usize, value: u32) -> bool {
    let (least, most) = LIMITS[place];
    let in_range = least <= value && value <= most;
    in_range && (place != MODE_SETTING || Mode(value).is_valid())
}

/// Whether tRC is above tRAS + tRP; each is in its range, so the sum cannot wrap.
fn contradict(list: &[u32]) -> bool {
    list[T_RC_SETTING] > list[T_RAS_SETTING] + list[T_RP_SETTING]
}

/// One event: the cycle it stands at and what its pins ask for.
#[derive(Clone, Copy, Debug, PartialEq, Eq)]
pub struct Event {
    pub cycle: u32,
    pub pins: u32,
}

impl Event {
    pub fn asked(&self) -> Asked {
        Asked::of_pins(self.pins)
    }
}

/// A capture, or a recording, that none of refusals 1 to 4 turns down.
#[derive(Clone, Debug, PartialEq, Eq)]
pub struct Capture {
    pub edition: Edition,
    pub settings: Settings,
    pub events: Vec<Event>,
}

impl Capture {
    pub fn read(bytes: &[u8]) -> Result<Capture, Refusal> {
        Capture::read_to(bytes, Some(MOST_EVENTS))
    }

    /// With at most so many events; a recording has no such limit.
    pub fn read_to(bytes: &[u8], most: Option<u32>) -> Result<Capture, Refusal> {
        check_length(bytes, most)?;
        let edition = check_header(bytes, most)?;
        let events_at = events_at(settings_of_layout(bytes));
        let settings = Settings::read(&words(&bytes[HEADER_BYTES..events_at]))?;
        let events = read_events(&bytes[events_at..], pin_bits(&settings))?;
        Ok(Capture {
            edition,
            settings,
            events,
        })
    }
}

/// Refusal 1.
fn check_length(bytes: &[u8], most: Option<u32>) -> Result<(), Refusal> {
    let settings = settings_of_layout(bytes);
    let length = bytes.len() as u64;
    let too_long = most.is_some_and(|most| length > total_bytes(settings, most));
    if length < total_bytes(settings, 0) || too_long {
        return refused(1, 0);
    }
    if length != u64::from(word(bytes, 0)) {
        return refused(1, 0);
    }
    Ok(())
}

/// Refusal 2, or the edition.
fn check_header(bytes: &[u8], most: Option<u32>) -> Result<Edition, Refusal> {
    let header = words(&bytes[..HEADER_BYTES]);
    let [total, settings_count, settings_at, events_count, events_at, edition] = header[..] else {
        unreachable!("the header is six words");
    };
    let settings = settings_of_layout(bytes);
    let as_stated = settings_count == settings as u32
        && settings_at == HEADER_BYTES as u32
        && most.is_none_or(|most| events_count <= most)
        && events_at as usize == self::events_at(settings);
    // In 64 bits, so that no event count wraps round to a fitting total.
    let total_fits = u64::from(total) == total_bytes(settings, events_count);
    match Edition::read(edition) {
        Some(edition) if as_stated && total_fits => Ok(edition),
        _ => refused(2, 0),
    }
}

/// The lowest pin bits, those that an event may use: CKE is one of them with 16 settings.
fn pin_bits(settings: &Settings) -> u32 {
    if settings.wake.is_some() {
        21
    } else {
        20
    }
}

/// Refusal 4, or the events.
fn read_events(bytes: &[u8], pin_bits: u32) -> Result<Vec<Event>, Refusal> {
    let mut events: Vec<Event> = Vec::new();
    for (place, event) in bytes.chunks(EVENT_BYTES).enumerate() {
        let event = Event {
            cycle: word(event, 0),
            pins: word(event, 4),
        };
        let spare_pins_clear = event.pins >> pin_bits == 0;
        let cycle_fits = event.cycle <= LAST_CYCLE;
        let rises = events
            .last()
            .is_none_or(|before| event.cycle > before.cycle);
        if !(spare_pins_clear && cycle_fits && rises) {
            return refused(4, place as u32);
        }
        events.push(event);
    }
    Ok(events)
}

/// The little-endian word at a byte offset.
pub fn word(bytes: &[u8], at: usize) -> u32 {
    u32::from_le_bytes([bytes[at], bytes[at + 1], bytes[at + 2], bytes[at + 3]])
}

pub fn words(bytes: &[u8]) -> Vec<u32> {
    (0..bytes.len() / 4).map(|i| word(bytes, 4 * i)).collect()
}

/// The bytes of a capture of edition 0, laid out for as many settings as there are. Nothing
/// is checked, so bad captures can be written too.
pub fn bytes_of(settings: &[u32], events: &[Event]) -> Vec<u8> {
    bytes_of_edition(Edition::Zero.word(), settings, events)
}

/// The same with any sixth header word.
pub fn bytes_of_edition(edition: u32, settings: &[u32], events: &[Event]) -> Vec<u8> {
    let count = events.len() as u32;
    let header = [
        total_bytes(settings.len(), count) as u32,
        settings.len() as u32,
        HEADER_BYTES as u32,
        count,
        events_at(settings.len()) as u32,
        edition,
    ];
    let events = events.iter().flat_map(|event| [event.cycle, event.pins]);
    header
        .into_iter()
        .chain(settings.iter().copied())
        .chain(events)
        .flat_map(u32::to_le_bytes)
        .collect()
}
