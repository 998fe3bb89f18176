//! Why each capture of a folder breaks its rule, as the second implementation explains it.
//!
//!     reasons FOLDER COUNT
//!
//! Reads 0.capture and so on, and prints a line each: the eight numbers, or nothing where there
//! is nothing to explain.

use std::path::Path;
use std::{env, fs, io};

use second::why::why;
use second::Answer;

fn main() -> io::Result<()> {
    let words: Vec<String> = env::args().skip(1).collect();
    let [folder, count] = &words[..] else {
        panic!("reasons FOLDER COUNT");
    };
    let count: usize = count.parse().expect("a number");
    for i in 0..count {
        let capture = fs::read(Path::new(folder).join(format!("{i}.capture")))?;
        println!("{}", line(&capture));
    }
    Ok(())
}

fn line(capture: &[u8]) -> String {
    let mut told = [0; 8];
    match why(capture, &mut told) {
        Answer::Broken { .. } => told.map(|number| number.to_string()).join(" "),
        _ => String::new(),
    }
}
