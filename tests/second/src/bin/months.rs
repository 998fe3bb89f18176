//! Streams of captures, and what the second implementation says of a stream.
//!
//!     months FILE                    the text of the stream in FILE
//!     months SEED COUNT FOLDER       COUNT streams, 0.stream and so on, and their texts, 0.text
//!
//! Most captures are guided, some damaged, and some streams end in the middle of one.

use std::path::Path;
use std::{env, fs, io};

use second::generate::{damaged_capture, guided_capture, Dice};
use second::month;

fn main() -> io::Result<()> {
    let words: Vec<String> = env::args().skip(1).collect();
    match &words[..] {
        [file] => print!("{}", month(&fs::read(file)?)),
        [seed, count, folder] => {
            let mut dice = Dice::new(number(seed));
            write_streams(&mut dice, number(count), Path::new(folder))?;
        }
        _ => panic!("months FILE, or months SEED COUNT FOLDER"),
    }
    Ok(())
}

fn number(text: &str) -> u64 {
    text.parse().expect("a number")
}

fn write_streams(dice: &mut Dice, count: u64, folder: &Path) -> io::Result<()> {
    for i in 0..count {
        let bytes = stream(dice);
        fs::write(folder.join(format!("{i}.text")), month(&bytes))?;
        fs::write(folder.join(format!("{i}.stream")), bytes)?;
    }
    Ok(())
}

fn stream(dice: &mut Dice) -> Vec<u8> {
    let captures = dice.below(12);
    let mut bytes = Vec::new();
    for _ in 0..captures {
        let next = match dice.below(8) {
            0 => damaged_capture(dice),
            _ => guided_capture(dice),
        };
        bytes.extend(stated(dice, next));
    }
    if dice.below(3) == 0 {
        let cut = dice.below(100) as usize;
        bytes.truncate(bytes.len().saturating_sub(cut));
    }
    bytes
}

/// Mostly with its own length as the total word, so that what lies behind it is reached.
fn stated(dice: &mut Dice, mut capture: Vec<u8>) -> Vec<u8> {
    if capture.len() >= 4 && dice.below(4) != 0 {
        let total = u32::try_from(capture.len()).expect("a short capture");
        capture[..4].copy_from_slice(&total.to_le_bytes());
    }
    capture
}
