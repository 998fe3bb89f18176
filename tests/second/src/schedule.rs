//! The schedule of a request list, each command found by trying cycle after cycle.

use crate::capture::{bytes_of, refused, Edition, Event, Refusal, Settings};
use crate::command::{address_of, Asked, Command, Named};
use crate::part::{LookBack, Part};
use crate::refresh::MOST_OWED;
use crate::rules::pass_but_refresh;

pub const MOST_REQUESTS: usize = 2_000;

/// The row policies by their numbers.
pub const OPEN_ROWS: u32 = 0;
pub const CLOSED_ROWS: u32 = 1;

/// What becomes of a row behind its burst.
#[derive(Clone, Copy, Debug, PartialEq, Eq)]
enum Rows {
    Open,
    Closed,
}

impl Rows {
    /// Or refusal 10.
    fn of(policy: u32) -> Result<Rows, Refusal> {
        match policy {
            OPEN_ROWS => Ok(Rows::Open),
            CLOSED_ROWS => Ok(Rows::Closed),
            _ => refused(10, 0),
        }
    }
}

/// One burst to be read or written, from a cell on.
#[derive(Clone, Copy, Debug, PartialEq, Eq)]
pub struct Request {
    pub write: bool,
    pub cell: u32,
}

impl Request {
    fn read(word: u32, settings: &Settings) -> Option<Request> {
        let spare_bits_clear = word >> 27 & 0xf == 0;
        let cell = word & 0x07ff_ffff;
        let exists = u64::from(cell) < settings.cells();
        (spare_bits_clear && exists).then_some(Request {
            write: word >> 31 == 1,
            cell,
        })
    }

    pub fn column(&self, settings: &Settings) -> u32 {
        self.cell % (1 << settings.column_bits)
    }

    pub fn row(&self, settings: &Settings) -> u32 {
        (self.cell >> settings.column_bits) % (1 << settings.row_bits)
    }

    pub fn bank(&self, settings: &Settings) -> usize {
        (self.cell >> (settings.column_bits + settings.row_bits)) as usize
    }

    fn active(&self, settings: &Settings) -> Command {
        Command::Active {
            bank: self.bank(settings),
            row: self.row(settings),
        }
    }

    fn access(&self, settings: &Settings, rows: Rows) -> Command {
        let bank = self.bank(settings);
        let address = address_of(self.column(settings));
        let auto_precharge = rows == Rows::Closed;
        if self.write {
            Command::Write {
                bank,
                address,
                auto_precharge,
            }
        } else {
            Command::Read {
                bank,
                address,
                auto_precharge,
            }
        }
    }
}

/// The requests, or refusal 5.
pub fn read_requests(words: &[u32], settings: &Settings) -> Result<Vec<Request>, Refusal> {
    if words.len() > MOST_REQUESTS {
        return refused(5, MOST_REQUESTS as u32);
    }
    let mut requests = Vec::new();
    for (place, &word) in words.iter().enumerate() {
        match Request::read(word, settings) {
            Some(request) => requests.push(request),
            None => return refused(5, place as u32),
        }
    }
    Ok(requests)
}

/// Writes the schedule as a capture, and answers how many bytes it has.
pub fn schedule(
    settings: &[u32],
    requests: &[u32],
    policy: u32,
    out: &mut [u8],
) -> Result<u32, Refusal> {
    schedule_looking_back(settings, requests, policy, out, LookBack::Running)
}

/// The schedule with every burst in view.
pub fn schedule_literally(
    settings: &[u32],
    requests: &[u32],
    policy: u32,
    out: &mut [u8],
) -> Result<u32, Refusal> {
    schedule_looking_back(settings, requests, policy, out, LookBack::All)
}

fn schedule_looking_back(
    setting_words: &[u32],
    request_words: &[u32],
    policy: u32,
    out: &mut [u8],
    look_back: LookBack,
) -> Result<u32, Refusal> {
    let settings = Settings::read_awake(setting_words)?;
    let rows = Rows::of(policy)?;
    let requests = read_requests(request_words, &settings)?;
    let mut plan = Plan::new(settings, rows, look_back);
    for (place, request) in requests.iter().enumerate() {
        match plan.with_request(request) {
            Some(longer) => plan = longer,
            None => return refused(6, place as u32),
        }
    }
    let capture = bytes_of(setting_words, &plan.events);
    if out.len() < capture.len() {
        return refused(7, capture.len() as u32);
    }
    out[..capture.len()].copy_from_slice(&capture);
    Ok(capture.len() as u32)
}

/// The events placed so far and the part after them.
#[derive(Clone)]
struct Plan {
    rows: Rows,
    part: Part,
    events: Vec<Event>,
}

impl Plan {
    fn new(settings: Settings, rows: Rows, look_back: LookBack) -> Plan {
        Plan {
            rows,
            part: Part::new(Edition::Zero, settings, look_back),
            events: Vec::new(),
        }
    }

    /// The request alone if a refresh still comes in time after it, else with a refresh
    /// before it; none if that is too late as well.
    fn with_request(&self, request: &Request) -> Option<Plan> {
        let mut alone = self.clone();
        alone.place_request(request);
        if alone.refresh_comes_in_time() {
            return Some(alone);
        }
        let mut refreshed = self.clone();
        refreshed.place_refresh();
        refreshed.place_request(request);
        refreshed.refresh_comes_in_time().then_some(refreshed)
    }

    fn place_request(&mut self, request: &Request) {
        let settings = self.part.settings;
        let bank = request.bank(&settings);
        if self.part.banks[bank].row != Some(request.row(&settings)) {
            if self.part.banks[bank].is_open() {
                let banks = Named::One(bank);
                self.place(Command::Precharge { banks });
            }
            self.place(request.active(&settings));
        }
        self.place(request.access(&settings, self.rows));
    }

    fn place_refresh(&mut self) {
        if self.part.banks.iter().any(|bank| bank.is_open()) {
            self.place(Command::Precharge { banks: Named::All });
        }
        self.place(Command::AutoRefresh);
    }

    fn place(&mut self, command: Command) {
        let cycle = self.earliest(command);
        self.part.apply(cycle, command.into());
        let cycle = u32::try_from(cycle).expect("schedules end long before the last cycle");
        self.events.push(Event {
            cycle,
            pins: command.pins(),
        });
    }

    fn earliest(&self, command: Command) -> u64 {
        let from = self
            .events
            .last()
            .map_or(0, |event| u64::from(event.cycle) + 1);
        (from..)
            .find(|&cycle| self.part.goes(cycle, command.into()))
            .expect("every wait ends")
    }

    fn refresh_comes_in_time(&self) -> bool {
        let mut refreshed = self.clone();
        refreshed.place_refresh();
        let refresh = refreshed.events.last().expect("an AUTO REFRESH").cycle;
        self.part.owed.at(u64::from(refresh)) <= MOST_OWED
    }
}

impl Part {
    /// Whether all rules but 14 pass an event, and it cuts no burst short.
    fn goes(&self, cycle: u64, asked: Asked) -> bool {
        pass_but_refresh(self, cycle, asked) && self.keeps_all(cycle, asked)
    }
}

/// The earliest cycle from `from` on at which all rules but 14 pass an event, cuts or not.
/// There must be one: no amount of waiting keeps rules 1 to 3, or wakes a part.
pub fn earliest(part: &Part, from: u64, asked: Asked) -> u64 {
    (from..)
        .find(|&cycle| pass_but_refresh(part, cycle, asked))
        .expect("every wait ends")
}
