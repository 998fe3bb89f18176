//! The verified library, asked through pipes: `tests/c/serve.c` calls it, on another
//! processor under an emulator. Answers are packed numbers.
//!
//! A buffer is passed with what lies behind it: the library is lent the first `lent`
//! elements, and all of them come back as they are after the call.

use std::io::{self, BufReader, Read, Write};
use std::process::{Child, ChildStdin, ChildStdout, Command, Stdio};

use crate::capture::words;
use crate::openings::Record;

const RUNNER: &str = concat!(env!("CARGO_MANIFEST_DIR"), "/../x86");
const SERVERS: &str = concat!(env!("CARGO_MANIFEST_DIR"), "/../../target/c");

#[derive(Clone, Copy)]
enum Function {
    Judge = 1,
    Cells = 2,
    Schedule = 3,
    Blank = 4,
    Recording = 5,
    ReadExport = 6,
    WriteExport = 7,
    OpenRow = 8,
    Play = 9,
}

pub struct Archive {
    process: Child,
    questions: ChildStdin,
    answers: BufReader<ChildStdout>,
}

impl Archive {
    /// Starts the program that `tests/c/build` made of that build.
    pub fn start(build: &str) -> io::Result<Archive> {
        let mut process = Command::new(RUNNER)
            .arg("run")
            .arg(format!("{SERVERS}/{build}/serve"))
            .stdin(Stdio::piped())
            .stdout(Stdio::piped())
            .spawn()?;
        let questions = process.stdin.take().expect("a pipe");
        let answers = BufReader::new(process.stdout.take().expect("a pipe"));
        Ok(Archive {
            process,
            questions,
            answers,
        })
    }

    pub fn judge(&mut self, capture: &[u8]) -> io::Result<u64> {
        let counts = [capture.len(), 0, 0, 0];
        self.ask(Function::Judge, counts, capture.to_vec(), &mut [])
    }

    pub fn recording(&mut self, recording: &[u8]) -> io::Result<u64> {
        let counts = [recording.len(), 0, 0, 0];
        self.ask(Function::Recording, counts, recording.to_vec(), &mut [])
    }

    pub fn cells(&mut self, capture: &[u8], out: &mut [u32], lent: usize) -> io::Result<u64> {
        let counts = [capture.len(), 0, lent, out.len() - lent];
        let mut bytes = bytes_of(out);
        let answer = self.ask(Function::Cells, counts, capture.to_vec(), &mut bytes)?;
        for (element, word) in out.iter_mut().zip(bytes.chunks_exact(4)) {
            *element = u32::from_le_bytes(word.try_into().expect("four bytes"));
        }
        Ok(answer)
    }

    pub fn schedule(
        &mut self,
        settings: &[u32],
        requests: &[u32],
        policy: u32,
        out: &mut [u8],
        lent: usize,
    ) -> io::Result<u64> {
        let counts = [settings.len(), requests.len(), lent, out.len() - lent];
        let inputs = [bytes_of(&[policy]), bytes_of(settings), bytes_of(requests)].concat();
        self.ask(Function::Schedule, counts, inputs, out)
    }

    pub fn blank(&mut self, capture: &[u8], out: &mut [u8], lent: usize) -> io::Result<u64> {
        let counts = [capture.len(), 0, lent, out.len() - lent];
        self.ask(Function::Blank, counts, capture.to_vec(), out)
    }

    pub fn read_export(
        &mut self,
        records: &[u8],
        settings: &[u32],
        edition: u32,
        out: &mut [u8],
        lent: usize,
    ) -> io::Result<u64> {
        let counts = [records.len(), settings.len(), lent, out.len() - lent];
        let inputs = [bytes_of(&[edition]), records.to_vec(), bytes_of(settings)].concat();
        self.ask(Function::ReadExport, counts, inputs, out)
    }

    pub fn write_export(&mut self, capture: &[u8], out: &mut [u8], lent: usize) -> io::Result<u64> {
        let counts = [capture.len(), 0, lent, out.len() - lent];
        self.ask(Function::WriteExport, counts, capture.to_vec(), out)
    }

    /// The records and the index come back with as many elements behind what is lent.
    pub fn open_row(
        &mut self,
        capture: &[u8],
        question: [u32; 2],
        records: &mut [Record],
        index: &mut [u32],
        behind: usize,
    ) -> io::Result<u64> {
        let counts = [
            capture.len(),
            records.len() - behind,
            index.len() - behind,
            behind,
        ];
        let inputs = [bytes_of(&question), capture.to_vec()].concat();
        let pairs: Vec<u32> = records.iter().flat_map(|r| [r.before, r.count]).collect();
        let mut bytes = [bytes_of(&pairs), bytes_of(index)].concat();
        let answer = self.ask(Function::OpenRow, counts, inputs, &mut bytes)?;
        let words = words(&bytes);
        for (record, pair) in records.iter_mut().zip(words.chunks_exact(2)) {
            *record = Record {
                before: pair[0],
                count: pair[1],
            };
        }
        index.copy_from_slice(&words[2 * records.len()..]);
        Ok(answer)
    }

    /// The window and the words read come back with as many elements behind what is lent.
    pub fn play(
        &mut self,
        capture: &[u8],
        first: u32,
        window: &mut [u32],
        writes: &[u32],
        reads: &mut [u32],
        behind: usize,
    ) -> io::Result<u64> {
        let counts = [
            capture.len(),
            window.len() - behind,
            reads.len() - behind,
            behind,
        ];
        let asked = [first, writes.len() as u32];
        let inputs = [bytes_of(&asked), capture.to_vec()].concat();
        let mut bytes = [bytes_of(window), bytes_of(reads)].concat();
        let answer = self.ask_with(
            Function::Play,
            counts,
            inputs,
            &mut bytes,
            &bytes_of(writes),
        )?;
        let words = words(&bytes);
        let (cells, read) = words.split_at(window.len());
        window.copy_from_slice(cells);
        reads.copy_from_slice(read);
        Ok(answer)
    }

    /// Ends the program, which must have nothing to complain of.
    pub fn finish(self) -> io::Result<()> {
        let Archive {
            mut process,
            questions,
            ..
        } = self;
        drop(questions);
        let status = process.wait()?;
        if status.success() {
            Ok(())
        } else {
            Err(io::Error::other(format!("the archive's program: {status}")))
        }
    }

    fn ask(
        &mut self,
        function: Function,
        counts: [usize; 4],
        inputs: Vec<u8>,
        buffer: &mut [u8],
    ) -> io::Result<u64> {
        self.ask_with(function, counts, inputs, buffer, &[])
    }

    /// The same, with what stands behind the buffer in the question and is not answered.
    fn ask_with(
        &mut self,
        function: Function,
        counts: [usize; 4],
        inputs: Vec<u8>,
        buffer: &mut [u8],
        last: &[u8],
    ) -> io::Result<u64> {
        let mut question = bytes_of(&[function as u32]);
        question.extend(bytes_of(&counts.map(|count| count as u32)));
        question.extend(inputs);
        question.extend_from_slice(buffer);
        question.extend_from_slice(last);
        self.questions.write_all(&question)?;
        let mut answer = [0; 8];
        self.answers.read_exact(&mut answer)?;
        self.answers.read_exact(buffer)?;
        Ok(u64::from_le_bytes(answer))
    }
}

fn bytes_of(words: &[u32]) -> Vec<u8> {
    words.iter().flat_map(|word| word.to_le_bytes()).collect()
}
