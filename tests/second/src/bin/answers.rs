//! The questions of `people/ask.c`, answered by this crate: the command for people says the same
//! over it as over the verified library. `answers month` is the program `month` of it, and
//! `answers generate SEED COUNT` writes captures for its tests, each behind a word with its length.

use std::io::{self, BufWriter, Read, Write};
use std::os::unix::ffi::OsStrExt;

use second::capture::{word, words, Refusal};
use second::generate::{damaged_capture, guided_capture, Dice};
use second::openings::Record;
use second::packed;
use second::{
    blank, cells, judge, judge_recording, kept, month, open_row, play, read_export, schedule, why,
    write_export, Answer,
};

/// One byte more than the longest capture.
const ROOM: u64 = 64_089;
/// The version that the library states; it is told of, and not answered for here.
const VERSION: &str = "MORGAZELL_VERSION";
/// What can be asked besides: explanations, and playing; a rehearsal may hide some.
const ABLE: &str = "MORGAZELL_ABLE";

fn main() -> io::Result<()> {
    let arguments: Vec<String> = std::env::args().skip(1).collect();
    match arguments.iter().map(String::as_str).collect::<Vec<_>>()[..] {
        [] => answer_all(),
        ["month"] => {
            let mut stream = Vec::new();
            io::stdin().read_to_end(&mut stream)?;
            io::stdout().write_all(month(&stream).as_bytes())
        }
        ["generate", seed, count] => generate(number(seed), number(count)),
        _ => panic!("usage: answers [month | generate SEED COUNT]"),
    }
}

fn number(text: &str) -> u64 {
    text.parse().expect("a number")
}

/// One in five is damaged.
fn generate(seed: u64, count: u64) -> io::Result<()> {
    let mut dice = Dice::new(seed);
    let mut out = BufWriter::new(io::stdout().lock());
    for turn in 0..count {
        let capture = match turn % 5 {
            0 => damaged_capture(&mut dice),
            _ => guided_capture(&mut dice),
        };
        out.write_all(&(capture.len() as u32).to_le_bytes())?;
        out.write_all(&capture)?;
    }
    out.flush()
}

fn answer_all() -> io::Result<()> {
    let mut questions = io::stdin().lock();
    let mut answers = BufWriter::new(io::stdout().lock());
    let mut head = [0; 24];
    while questions.read_exact(&mut head).is_ok() {
        let head = words(&head);
        let mut first = vec![0; head[1] as usize];
        questions.read_exact(&mut first)?;
        let mut second = vec![0; head[2] as usize];
        questions.read_exact(&mut second)?;
        let (number, behind) = answer(head[0], &first, &second, &head[3..]);
        answers.write_all(&number.to_le_bytes())?;
        answers.write_all(&(behind.len() as u32).to_le_bytes())?;
        answers.write_all(&behind)?;
        answers.flush()?;
    }
    Ok(())
}

fn answer(asked: u32, first: &[u8], second: &[u8], numbers: &[u32]) -> (u64, Vec<u8>) {
    match asked {
        1 => (version(), vec![]),
        2 => (packed::of_answer(judge(first)), vec![]),
        3 => judge_file(first, ROOM, judge),
        4 => of_words(128_000, |out| cells(first, out)),
        5 => of_bytes(|out| schedule(&words(first), &words(second), numbers[0], out)),
        6 => of_bytes(|out| blank(first, out)),
        7 => explained(first),
        8 => of_words(8_000, |out| kept(first, out)),
        9 => opened(first, numbers[0], numbers[1]),
        10 => of_bytes(|out| read_export(first, &words(second), numbers[0], out)),
        11 => of_bytes(|out| write_export(first, out)),
        12 => played(first, &words(second), numbers[0], numbers[1] as usize),
        13 => (able(), vec![]),
        14 => judge_file(first, u64::MAX, judge_recording),
        _ => panic!("nobody asks that: {asked}"),
    }
}

fn version() -> u64 {
    let version = std::env::var(VERSION).unwrap_or_default();
    version
        .split('.')
        .fold(0, |number, part| 100 * number + part.parse().unwrap_or(0))
}

fn able() -> u64 {
    let able = std::env::var(ABLE).ok();
    able.and_then(|able| able.parse().ok()).unwrap_or(3)
}

fn of_words(most: usize, fill: impl FnOnce(&mut [u32]) -> Result<u32, Refusal>) -> (u64, Vec<u8>) {
    let mut out = vec![0; most];
    let answer = fill(&mut out);
    out.truncate(answer.unwrap_or(0) as usize);
    (packed::of_count(answer), bytes_of(&out))
}

fn of_bytes(fill: impl FnOnce(&mut [u8]) -> Result<u32, Refusal>) -> (u64, Vec<u8>) {
    let mut out = vec![0; 64_088];
    let answer = fill(&mut out);
    out.truncate(answer.unwrap_or(0) as usize);
    (packed::of_count(answer), out)
}

fn bytes_of(words: &[u32]) -> Vec<u8> {
    words.iter().flat_map(|word| word.to_le_bytes()).collect()
}

fn judge_file(name: &[u8], room: u64, judge: impl Fn(&[u8]) -> Answer) -> (u64, Vec<u8>) {
    let name = std::ffi::OsStr::from_bytes(name);
    let mut bytes = Vec::new();
    let read = std::fs::File::open(name).and_then(|file| file.take(room).read_to_end(&mut bytes));
    let (mut number, mut told) = (0, [0; 3]);
    match read {
        Err(error) => told[0] = error.raw_os_error().unwrap_or(-1) as u32,
        Ok(_) => {
            let answer = judge(&bytes);
            number = packed::of_answer(answer);
            if number >> 56 == 0 {
                told[1] = word(&bytes, 12);
            }
            if let Answer::Broken { cycle, .. } = answer {
                told[2] = cycle;
            }
        }
    }
    (number, bytes_of(&told))
}

fn explained(capture: &[u8]) -> (u64, Vec<u8>) {
    let mut out = vec![0; 8];
    let answer = why(capture, &mut out);
    if !matches!(answer, Answer::Broken { .. }) {
        out.clear();
    }
    (packed::of_answer(answer), bytes_of(&out))
}

/// The four records, then the index.
fn opened(capture: &[u8], bank: u32, event: u32) -> (u64, Vec<u8>) {
    let none = Record {
        before: 0,
        count: 0,
    };
    let (mut records, mut index) = ([none; 4], vec![0; 24_000]);
    let answer = open_row(capture, bank, event, &mut records, &mut index);
    let mut out = Vec::new();
    if answer.is_ok() {
        index.truncate(3 * (records[3].before + records[3].count) as usize);
        out.extend(records.iter().flat_map(|one| [one.before, one.count]));
        out.extend(index);
    }
    (packed::of_row(answer), bytes_of(&out))
}

/// The window comes first, the words to write behind it; so do the window and the words read.
fn played(capture: &[u8], told: &[u32], first: u32, size: usize) -> (u64, Vec<u8>) {
    let (window, writes) = told.split_at(size);
    let (mut window, mut reads) = (window.to_vec(), vec![0; 128_000]);
    let answer = play(capture, first, &mut window, writes, &mut reads);
    match answer {
        Ok(count) => {
            reads.truncate(count as usize);
            window.extend(reads);
        }
        Err(_) => window.clear(),
    }
    (packed::of_count(answer), bytes_of(&window))
}
