//! The captures and the requests on which `bench/run` compares the archive with the C.
//!
//!     bench_inputs FOLDER
//!
//! Writes them into the folder. Every capture is clean, so that all of it is judged; but for one of far events, which is
//! written as an export alone.

use std::path::Path;
use std::{env, fs, io};

use second::capture::Edition::{self, One, Zero};
use second::capture::{bytes_of_edition, Event, Settings, SETTINGS};
use second::command::Named::All;
use second::command::{Asked, Command};
use second::export::REACH;
use second::generate::{busy_capture, Dice};
use second::part::{LookBack, Part};
use second::schedule::{earliest, CLOSED_ROWS};
use second::{judge, schedule, Answer};

/// A real part: 64M x 16 at 6 ns.
const PART: [u32; SETTINGS] = [1, 14, 10, 0x32, 3, 3, 7, 10, 2, 3, 1, 12, 2, 1_300];
const BL_2: u32 = 0x31;
const BL_4: u32 = 0x32;
const BL_16: u32 = 0x34;
/// Its tXP and tXSR.
const WAKE: [u32; 2] = [2, 20];

fn main() {
    let folder = env::args().nth(1).expect("a folder to write in");
    write_inputs(Path::new(&folder)).expect("a folder to write in");
}

fn write_inputs(folder: &Path) -> io::Result<()> {
    for (name, capture) in captures() {
        assert!(
            matches!(judge(&capture), Answer::Clean { .. }),
            "{name} is not clean"
        );
        fs::write(folder.join(format!("{name}.capture")), capture)?;
    }
    let (_, longest) = captures().swap_remove(4);
    for events in [500, 1_000, 2_000, 4_000] {
        let name = format!("random commands, {events} events.capture");
        fs::write(folder.join(name), first_of(&longest, events))?;
    }
    fs::write(folder.join("far apart.far"), far_apart())?;
    for count in [500, 1_000, 2_000] {
        let list = PART.into_iter().chain(requests().into_iter().take(count));
        let bytes: Vec<u8> = list.flat_map(u32::to_le_bytes).collect();
        fs::write(folder.join(format!("{count} requests.list")), bytes)?;
    }
    Ok(())
}

/// 1,000 events, each seven NOPs behind the one before where it is written as an export.
fn far_apart() -> Vec<u8> {
    let apart = 7 * REACH + 1;
    let events: Vec<Event> = (0..1_000)
        .map(|place| Event {
            cycle: place * apart,
            pins: Command::Nop.pins(),
        })
        .collect();
    bytes_of_edition(0, &PART, &events)
}

/// The same capture with its first events alone.
fn first_of(capture: &[u8], events: u32) -> Vec<u8> {
    let total = 80 + 8 * events;
    let mut shorter = capture[..total as usize].to_vec();
    shorter[..4].copy_from_slice(&total.to_le_bytes());
    shorter[12..16].copy_from_slice(&events.to_le_bytes());
    shorter
}

fn captures() -> Vec<(&'static str, Vec<u8>)> {
    let mut dice = Dice::new(1);
    vec![
        (
            "NOP alone",
            repeated(Zero, &PART, &[], &[Command::Nop.into()]),
        ),
        ("one open row, reads", streaming(Zero, PART, false)),
        (
            "one open row, reads and writes",
            streaming(Zero, with_mode(BL_16), true),
        ),
        ("a schedule", schedule_capture()),
        ("random commands", busy_capture(&mut dice, Zero, &PART)),
        (
            "random commands, BL 16",
            busy_capture(&mut dice, Zero, &with_mode(BL_16)),
        ),
        ("power-down between frames", power_down()),
        ("self refresh between frames", self_refresh()),
        ("asleep, NOP alone", asleep()),
        ("four rows opened and closed", rows_opened()),
        (
            "edition 1, reads and writes",
            streaming(One, with_mode(BL_16), true),
        ),
        (
            "edition 1, random, BL 16",
            busy_capture(&mut dice, One, &with_mode(BL_16)),
        ),
        (
            "edition 1, writes in one tWR",
            writes_within_t_wr(BL_2, &[]),
        ),
        (
            "edition 1, whole writes in one tWR",
            writes_within_t_wr(BL_4, &[Command::Nop.into()]),
        ),
    ]
}

fn with_mode(mode: u32) -> [u32; SETTINGS] {
    let mut settings = PART;
    settings[3] = mode;
    settings
}

fn that_sleeps() -> Vec<u32> {
    [&PART[..], &WAKE].concat()
}

/// Some events, then others over and over, each as early as it may be.
fn repeated(edition: Edition, settings: &[u32], first: &[Asked], then: &[Asked]) -> Vec<u8> {
    let read = Settings::read(settings).expect("valid settings");
    let mut part = Part::new(edition, read, LookBack::Running);
    let mut events = Vec::new();
    let mut next = 0;
    for &asked in first.iter().chain(then.iter().cycle()).take(8_000) {
        let cycle = earliest(&part, next, asked);
        part.apply(cycle, asked);
        events.push(Event {
            cycle: cycle as u32,
            pins: asked.pins(),
        });
        next = cycle + 1;
    }
    bytes_of_edition(edition.word(), settings, &events)
}

/// A few reads of one row, which is closed again.
fn frame() -> Vec<Asked> {
    let read = |column: u32| Command::Read {
        bank: 1,
        address: 16 * column,
        auto_precharge: false,
    };
    let mut commands = vec![Command::Active { bank: 1, row: 77 }];
    commands.extend((0..8).map(read));
    commands.push(Command::Precharge { banks: All });
    commands.into_iter().map(Asked::from).collect()
}

fn power_down() -> Vec<u8> {
    let mut events = frame();
    events.extend([
        Command::AutoRefresh.into(),
        Command::Nop.low(),
        Command::Nop.low(),
        Command::Nop.into(),
    ]);
    repeated(Zero, &that_sleeps(), &[], &events)
}

fn self_refresh() -> Vec<u8> {
    let mut events = frame();
    events.extend([
        Command::AutoRefresh.low(),
        Command::Nop.low(),
        Command::Nop.into(),
    ]);
    repeated(Zero, &that_sleeps(), &[], &events)
}

/// As many openings as 8,000 events can have: a PRECHARGE closes four rows, so 6,400. The
/// times are the shortest, and tREFI is so long that nothing is refreshed.
fn rows_opened() -> Vec<u8> {
    let mut settings = PART;
    settings[4..13].fill(1);
    settings[13] = 1_000_000;
    let mut group: Vec<Asked> = (0..4)
        .map(|bank| Command::Active { bank, row: 77 }.into())
        .collect();
    group.push(Command::Precharge { banks: All }.into());
    repeated(Zero, &settings, &[], &group)
}

fn asleep() -> Vec<u8> {
    let entry = Command::AutoRefresh.low();
    repeated(Zero, &that_sleeps(), &[entry], &[Command::Nop.low()])
}

/// Bursts in one row, closed and refreshed now and then. In edition 1 each read comes as soon
/// as one pair of the write before it is in, and so does the PRECHARGE.
fn streaming(edition: Edition, settings: [u32; SETTINGS], with_writes: bool) -> Vec<u8> {
    let mut commands = vec![Command::Active { bank: 1, row: 77 }];
    for column in 0..60 {
        let address = 16 * column;
        let read = Command::Read {
            bank: 1,
            address,
            auto_precharge: false,
        };
        let write = Command::Write {
            bank: 1,
            address,
            auto_precharge: false,
        };
        commands.push(if with_writes && column % 2 == 1 {
            write
        } else {
            read
        });
    }
    commands.extend([Command::Precharge { banks: All }, Command::AutoRefresh]);
    let events: Vec<Asked> = commands.into_iter().map(Asked::from).collect();
    repeated(edition, &settings, &[], &events)
}

/// Writes of four rows in turn, with a tWR that none of them sees the end of: a burst list
/// that looks ahead for a PRECHARGE as long as one could cut looks through all of them from
/// each. `mode` and what stands between two of them decide whether they are whole.
fn writes_within_t_wr(mode: u32, between: &[Asked]) -> Vec<u8> {
    let mut settings = with_mode(mode);
    settings[9] = 10_000;
    let open = [0, 1, 2, 3].map(|bank| Command::Active { bank, row: 77 }.into());
    let mut writes = Vec::new();
    for bank in 0..4 {
        let write = Command::Write {
            bank,
            address: 0,
            auto_precharge: false,
        };
        writes.push(write.into());
        writes.extend(between);
    }
    repeated(One, &settings, &open, &writes)
}

fn requests() -> Vec<u32> {
    let mut dice = Dice::new(2);
    (0..2_000)
        .map(|_| dice.below(1 << 26) | dice.below(2) << 31)
        .collect()
}

fn schedule_capture() -> Vec<u8> {
    let mut out = vec![0; 64_080];
    let total = schedule(&PART, &requests(), CLOSED_ROWS, &mut out).expect("a schedule");
    out.truncate(total as usize);
    out
}
