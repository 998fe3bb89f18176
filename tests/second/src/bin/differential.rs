//! Holds the verified library against this crate on generated inputs.
//!
//!     differential INPUTS SEED BUILD
//!
//! Ends with 1 if an answer or any element of a buffer differs, or if the run was too small
//! for every rule and every refusal to come up.

use std::process::ExitCode;
use std::{env, fmt, io};

use second::archive::Archive;
use second::capture::{bytes_of_edition, Capture, Refusal};
use second::export::with_nops;
use second::generate::{
    export, far_capture, input, long_recording, other_addresses, play_of, settings_of, Dice,
    Export, ExportTally, Input, PlayTally, Tally, MOST_CELLS,
};
use second::openings::Record;
use second::{
    blank, cells, judge, judge_recording, open_row, packed, play, read_export, schedule,
    write_export,
};

/// What fills buffers beforehand, so that an element written by mistake shows.
const UNTOUCHED: u32 = 0xa5c3_965a;
/// Elements behind every lent buffer that nothing may touch either.
const FENCE: usize = 32;
/// The most bytes that any answer needs.
const MOST_BYTES: usize = 64_088;
/// One input in so many is followed by a recording that is too long for a capture.
const LONG_ONCE_IN: u32 = 1_000;
/// The most words that an index has.
const MOST_WORDS: usize = 3 * 8_000;

fn main() -> ExitCode {
    match asked().and_then(|(inputs, seed, build)| run(inputs, seed, &build)) {
        Ok(()) => ExitCode::SUCCESS,
        Err(reason) => {
            eprintln!("{reason}");
            ExitCode::FAILURE
        }
    }
}

fn asked() -> Result<(u64, u64, String), String> {
    let arguments: Vec<String> = env::args().skip(1).collect();
    if let [inputs, seed, build] = arguments.as_slice() {
        if let (Ok(inputs), Ok(seed)) = (inputs.parse(), seed.parse()) {
            return Ok((inputs, seed, build.clone()));
        }
    }
    Err("usage: differential INPUTS SEED BUILD".to_string())
}

fn run(inputs: u64, seed: u64, build: &str) -> Result<(), String> {
    let mut comparison = Comparison {
        dice: Dice::new(seed),
        tally: Tally::default(),
        exports: ExportTally::default(),
        plays: PlayTally::default(),
        archive: Archive::start(build).map_err(|error| format!("the archive: {error}"))?,
    };
    for number in 0..inputs {
        comparison
            .compare_next()
            .map_err(|difference| format!("input {number} of seed {seed}: {difference}"))?;
    }
    let Comparison {
        tally,
        exports,
        plays,
        archive,
        ..
    } = comparison;
    archive.finish().map_err(|error| error.to_string())?;
    println!("{inputs} inputs of seed {seed}, {build} build: no difference");
    println!("{tally}");
    println!("{exports}");
    println!("{plays}");
    let missing = [tally.missing(), exports.missing(), plays.missing()].concat();
    if missing.is_empty() {
        Ok(())
    } else {
        Err(format!("never came up: {}", missing.join(", ")))
    }
}

/// Where two implementations part, with the input that shows it.
struct Difference {
    question: &'static str,
    what: String,
    input: String,
}

impl fmt::Display for Difference {
    fn fmt(&self, f: &mut fmt::Formatter<'_>) -> fmt::Result {
        write!(f, "{}, {}\n{}", self.question, self.what, self.input)
    }
}

/// An answer and the buffer it left.
struct Left<T> {
    answer: u64,
    buffer: Vec<T>,
}

struct Comparison {
    dice: Dice,
    tally: Tally,
    exports: ExportTally,
    plays: PlayTally,
    archive: Archive,
}

impl Comparison {
    /// One in eight is an export, or a capture for one.
    fn compare_next(&mut self) -> Result<(), Difference> {
        if self.dice.once_in(LONG_ONCE_IN) {
            let recording = long_recording(&mut self.dice);
            self.compare_recordings(&recording)?;
        }
        match self.dice.below(16) {
            0 => {
                let export = export(&mut self.dice);
                return self.compare_reads(&export);
            }
            1 => {
                let capture = far_capture(&mut self.dice);
                return self.compare_writes(&capture);
            }
            _ => {}
        }
        match input(&mut self.dice) {
            Input::Capture(capture) => {
                self.compare_judges(&capture)?;
                self.compare_recordings(&capture)?;
                self.compare_cells(&capture)?;
                self.compare_blanks(&capture)?;
                self.compare_rows(&capture)?;
                self.compare_plays(&capture)?;
                self.compare_addresses(&capture)?;
                self.compare_writes(&capture)
            }
            Input::Requests {
                settings,
                requests,
                policy,
            } => self.compare_schedules(&settings, &requests, policy),
        }
    }

    fn compare_judges(&mut self, capture: &[u8]) -> Result<(), Difference> {
        let answer = judge(capture);
        self.tally.count_answer(capture, answer);
        let expected = Left {
            answer: packed::of_answer(answer),
            buffer: Vec::<u8>::new(),
        };
        let found = self.archive.judge(capture).map(|answer| Left {
            answer,
            buffer: Vec::new(),
        });
        same("judge", &expected, found, || hex(capture))
    }

    fn compare_recordings(&mut self, recording: &[u8]) -> Result<(), Difference> {
        let answer = judge_recording(recording);
        self.tally.count_recording(recording, answer);
        let expected = Left {
            answer: packed::of_answer(answer),
            buffer: Vec::<u8>::new(),
        };
        let found = self.archive.recording(recording).map(|answer| Left {
            answer,
            buffer: Vec::new(),
        });
        same("recording", &expected, found, || hex(recording))
    }

    fn compare_cells(&mut self, capture: &[u8]) -> Result<(), Difference> {
        let needed = needed(cells(capture, &mut vec![UNTOUCHED; MOST_CELLS]));
        for length in self.lengths(needed, MOST_CELLS) {
            let mut buffer = vec![UNTOUCHED; length + FENCE];
            let answer = cells(capture, &mut buffer[..length]);
            self.tally.count_cells(capture, answer);
            let expected = Left {
                answer: packed::of_count(answer),
                buffer,
            };
            let mut buffer = vec![UNTOUCHED; length + FENCE];
            let answer = self.archive.cells(capture, &mut buffer, length);
            let found = answer.map(|answer| Left { answer, buffer });
            same("cells", &expected, found, || hex(capture))?;
        }
        Ok(())
    }

    fn compare_blanks(&mut self, capture: &[u8]) -> Result<(), Difference> {
        let untouched = UNTOUCHED as u8;
        let needed = needed(blank(capture, &mut vec![untouched; MOST_BYTES]));
        for length in self.lengths(needed, MOST_BYTES) {
            let mut buffer = vec![untouched; length + FENCE];
            let answer = blank(capture, &mut buffer[..length]);
            self.tally.count_blank(capture, answer);
            let expected = Left {
                answer: packed::of_count(answer),
                buffer,
            };
            let mut buffer = vec![untouched; length + FENCE];
            let answer = self.archive.blank(capture, &mut buffer, length);
            let found = answer.map(|answer| Left { answer, buffer });
            same("blank", &expected, found, || hex(capture))?;
        }
        Ok(())
    }

    /// A question that fits more often than not, and three records now and then.
    fn compare_rows(&mut self, capture: &[u8]) -> Result<(), Difference> {
        let events = Capture::read(capture).map_or(0, |read| read.events.len()) as u32;
        let untouched = Record {
            before: UNTOUCHED,
            count: UNTOUCHED,
        };
        let index = &mut vec![UNTOUCHED; MOST_WORDS];
        let needed = match open_row(capture, 0, 0, &mut [untouched; 4], index) {
            Ok(_) => index.iter().position(|&word| word == UNTOUCHED),
            Err(_) => None,
        };
        for length in self.lengths(needed, MOST_WORDS) {
            let bank = self.dice.below(5);
            let event = self.dice.below(events + 1);
            let lent = if self.dice.once_in(8) {
                3
            } else {
                4 + self.dice.below(3) as usize
            };
            let mut records = vec![untouched; lent + FENCE];
            let mut buffer = vec![UNTOUCHED; length + FENCE];
            let (mine, words) = (&mut records[..lent], &mut buffer[..length]);
            let answer = open_row(capture, bank, event, mine, words);
            self.tally
                .count_row(capture, [bank, event], answer, &records, &buffer);
            let expected = Left {
                answer: packed::of_row(answer),
                buffer: told(&records, &buffer),
            };
            let mut records = vec![untouched; lent + FENCE];
            let mut buffer = vec![UNTOUCHED; length + FENCE];
            let asked = [bank, event];
            let answer = self
                .archive
                .open_row(capture, asked, &mut records, &mut buffer, FENCE);
            let found = answer.map(|answer| Left {
                answer,
                buffer: told(&records, &buffer),
            });
            let shown = || format!("bank {bank} event {event} of {}", hex(capture));
            same("open row", &expected, found, shown)?;
        }
        Ok(())
    }

    /// A play that can be played more often than not; window and words read are held together.
    fn compare_plays(&mut self, capture: &[u8]) -> Result<(), Difference> {
        let with = play_of(&mut self.dice, capture);
        let reads = &mut vec![UNTOUCHED; MOST_CELLS];
        let whole = play(
            capture,
            with.first,
            &mut with.window.clone(),
            &with.writes,
            reads,
        );
        for length in self.lengths(needed(whole), MOST_CELLS) {
            let fenced = [&with.window[..], &[UNTOUCHED; FENCE]].concat();
            let lent = with.window.len();
            let (mut window, mut reads) = (fenced.clone(), vec![UNTOUCHED; length + FENCE]);
            let mine = (&mut window[..lent], &mut reads[..length]);
            let answer = play(capture, with.first, mine.0, &with.writes, mine.1);
            self.plays.count(capture, &with, answer);
            let expected = Left {
                answer: packed::of_count(answer),
                buffer: [window, reads].concat(),
            };
            let (mut window, mut reads) = (fenced, vec![UNTOUCHED; length + FENCE]);
            let asked = &mut self.archive;
            let answer = asked.play(
                capture,
                with.first,
                &mut window,
                &with.writes,
                &mut reads,
                FENCE,
            );
            let found = answer.map(|answer| Left {
                answer,
                buffer: [window, reads].concat(),
            });
            same("play", &expected, found, || {
                format!("{with:?} of {}", hex(capture))
            })?;
        }
        Ok(())
    }

    /// Of an accepted capture: with other addresses, and blanked, the archive judges it alike;
    /// with other addresses it is blanked to the same bytes.
    fn compare_addresses(&mut self, capture: &[u8]) -> Result<(), Difference> {
        let Ok(read) = Capture::read(capture) else {
            return Ok(());
        };
        let other = other_addresses(&mut self.dice, capture, &read);
        let shown = || format!("{} and {}", hex(capture), hex(&other));
        let judged = |archive: &mut Archive, capture: &[u8]| {
            archive.judge(capture).map(|answer| Left {
                answer,
                buffer: Vec::<u8>::new(),
            })
        };
        let blanked = |archive: &mut Archive, capture: &[u8]| {
            let mut buffer = vec![0; capture.len()];
            let answer = archive.blank(capture, &mut buffer, capture.len());
            answer.map(|answer| Left { answer, buffer })
        };
        let archive = &mut self.archive;
        let verdict = judged(archive, capture).map_err(|error| ended("judge", &error, shown()))?;
        let bytes = blanked(archive, capture).map_err(|error| ended("blank", &error, shown()))?;
        same(
            "judge, other addresses",
            &verdict,
            judged(archive, &other),
            shown,
        )?;
        same(
            "judge, blanked",
            &verdict,
            judged(archive, &bytes.buffer),
            shown,
        )?;
        same(
            "blank, other addresses",
            &bytes,
            blanked(archive, &other),
            shown,
        )?;
        self.tally.count_addresses(capture, &read, &other);
        Ok(())
    }

    fn compare_schedules(
        &mut self,
        settings: &[u32],
        requests: &[u32],
        policy: u32,
    ) -> Result<(), Difference> {
        let untouched = UNTOUCHED as u8;
        let needed = needed(schedule(
            settings,
            requests,
            policy,
            &mut vec![untouched; MOST_BYTES],
        ));
        for length in self.lengths(needed, MOST_BYTES) {
            let mut buffer = vec![untouched; length + FENCE];
            let answer = schedule(settings, requests, policy, &mut buffer[..length]);
            self.tally.count_schedule(settings, policy, answer);
            let expected = Left {
                answer: packed::of_count(answer),
                buffer,
            };
            let mut buffer = vec![untouched; length + FENCE];
            let answer = self
                .archive
                .schedule(settings, requests, policy, &mut buffer, length);
            let found = answer.map(|answer| Left { answer, buffer });
            let shown = || format!("settings {settings:?} requests {requests:?} policy {policy}");
            same("schedule", &expected, found, shown)?;
        }
        Ok(())
    }

    /// The archive reads an export as this crate does; and where it is read, what was read is
    /// accepted, and written again it is the export, byte for byte.
    fn compare_reads(&mut self, export: &Export) -> Result<(), Difference> {
        let untouched = UNTOUCHED as u8;
        let Export {
            records,
            settings,
            edition,
        } = export;
        let shown = || format!("{} settings {settings:?} edition {edition}", hex(records));
        let read = |buffer: &mut [u8]| read_export(records, settings, *edition, buffer);
        let needed = needed(read(&mut vec![untouched; MOST_BYTES]));
        for length in self.lengths(needed, MOST_BYTES) {
            let mut buffer = vec![untouched; length + FENCE];
            let answer = read(&mut buffer[..length]);
            self.exports.count_read(export, answer);
            let expected = Left {
                answer: packed::of_count(answer),
                buffer,
            };
            let mut buffer = vec![untouched; length + FENCE];
            let asked = &mut self.archive;
            let answer = asked.read_export(records, settings, *edition, &mut buffer, length);
            let found = answer.map(|answer| Left { answer, buffer });
            same("read_export", &expected, found, shown)?;
            if answer_is_written(expected.answer) {
                let capture = &expected.buffer[..expected.answer as usize];
                let back = Left {
                    answer: records.len() as u64,
                    buffer: records.clone(),
                };
                let mut buffer = vec![untouched; records.len()];
                let answer = asked.write_export(capture, &mut buffer, records.len());
                let found = answer.map(|answer| Left { answer, buffer });
                same("write_export of what was read", &back, found, shown)?;
            }
        }
        Ok(())
    }

    /// The archive writes a capture as this crate does; and where it is written, what was
    /// written is read back as the capture with NOPs, and judged as that is.
    fn compare_writes(&mut self, capture: &[u8]) -> Result<(), Difference> {
        let untouched = UNTOUCHED as u8;
        let needed = needed(write_export(capture, &mut vec![untouched; MOST_BYTES]));
        for length in self.lengths(needed, MOST_BYTES) {
            let mut buffer = vec![untouched; length + FENCE];
            let answer = write_export(capture, &mut buffer[..length]);
            self.exports.count_written(capture, answer);
            let expected = Left {
                answer: packed::of_count(answer),
                buffer,
            };
            let mut buffer = vec![untouched; length + FENCE];
            let answer = self.archive.write_export(capture, &mut buffer, length);
            let found = answer.map(|answer| Left { answer, buffer });
            same("write_export", &expected, found, || hex(capture))?;
            if answer_is_written(expected.answer) {
                let export = &expected.buffer[..expected.answer as usize];
                self.compare_back(capture, export)?;
            }
        }
        Ok(())
    }

    fn compare_back(&mut self, capture: &[u8], export: &[u8]) -> Result<(), Difference> {
        let shown = || hex(capture);
        let (settings, edition) = settings_of(capture);
        let read = Capture::read(capture).expect("what is written was accepted");
        let whole = bytes_of_edition(edition, &settings, &with_nops(&read.events));
        let back = Left {
            answer: whole.len() as u64,
            buffer: whole.clone(),
        };
        let mut buffer = vec![0; whole.len()];
        let length = buffer.len();
        let asked = &mut self.archive;
        let answer = asked.read_export(export, &settings, edition, &mut buffer, length);
        let found = answer.map(|answer| Left { answer, buffer });
        same("read_export of what was written", &back, found, shown)?;
        let (before, after) = (judge(capture), judge(&whole));
        self.exports.count_back(before, after);
        let expected = Left {
            answer: packed::of_answer(after),
            buffer: Vec::<u8>::new(),
        };
        let found = self.archive.judge(&whole).map(|answer| Left {
            answer,
            buffer: Vec::new(),
        });
        same("judge of what was read back", &expected, found, shown)
    }

    /// Two buffer lengths to try: one with room behind the answer, one just long enough or
    /// too short. A refused call gets a short one, and now and then one of any length.
    fn lengths(&mut self, needed: Option<usize>, most: usize) -> [usize; 2] {
        let spare = self.dice.below(20) as usize;
        match needed {
            Some(needed) => {
                let shorter = self.dice.below(needed as u32 + 1) as usize;
                let one_short = needed.saturating_sub(1);
                [
                    needed + spare,
                    self.dice.pick(&[needed, one_short, one_short, shorter, 0]),
                ]
            }
            None => {
                let longest = if self.dice.once_in(20) { most } else { 400 };
                [spare, self.dice.below(longest as u32) as usize]
            }
        }
    }
}

/// Whether an answer counts what was written.
fn answer_is_written(answer: u64) -> bool {
    answer >> 32 == 0
}

/// What the records and the index hold.
fn told(records: &[Record], index: &[u32]) -> Vec<u32> {
    let pairs = records
        .iter()
        .flat_map(|record| [record.before, record.count]);
    pairs.chain(index.iter().copied()).collect()
}

fn needed(answer: Result<u32, Refusal>) -> Option<usize> {
    answer.ok().map(|count| count as usize)
}

fn same<T: PartialEq>(
    question: &'static str,
    expected: &Left<T>,
    found: io::Result<Left<T>>,
    shown: impl Fn() -> String,
) -> Result<(), Difference> {
    let found = found.map_err(|error| ended(question, &error, shown()))?;
    match difference(expected, &found) {
        None => Ok(()),
        Some(what) => Err(Difference {
            question,
            what,
            input: shown(),
        }),
    }
}

fn ended(question: &'static str, error: &io::Error, input: String) -> Difference {
    Difference {
        question,
        what: format!("the archive's program ended: {error}"),
        input,
    }
}

fn difference<T: PartialEq>(expected: &Left<T>, found: &Left<T>) -> Option<String> {
    if expected.answer != found.answer {
        return Some(format!(
            "expected {:#018x}, found {:#018x}",
            expected.answer, found.answer
        ));
    }
    let mut pairs = expected.buffer.iter().zip(&found.buffer);
    let element = pairs.position(|(expected, found)| expected != found)?;
    Some(format!("the buffers part at element {element}"))
}

fn hex(capture: &[u8]) -> String {
    capture.iter().map(|byte| format!("{byte:02x}")).collect()
}
