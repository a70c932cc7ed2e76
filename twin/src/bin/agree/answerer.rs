//! The verified library as a process of its own: the other end of answerer.c,
//! which says what goes over the pipes.

use std::io::{Read, Write};
use std::process::{exit, Child, ChildStdin, ChildStdout, Command, Stdio};

use twin::{SetupNumbers, Step};

use crate::compare::Make;

pub struct Answerer {
    child: Child,
    calls: ChildStdin,
    answers: ChildStdout,
    buffer: Vec<u8>,
}

impl Answerer {
    pub fn new(command: &str) -> Answerer {
        let mut words = command.split(' ').filter(|word| !word.is_empty());
        let program = words.next().unwrap_or_default();
        let piped = Command::new(program)
            .args(words)
            .stdin(Stdio::piped())
            .stdout(Stdio::piped())
            .spawn()
            .and_then(|mut child| {
                let pipes = child.stdin.take().zip(child.stdout.take());
                pipes
                    .map(|(calls, answers)| (child, calls, answers))
                    .ok_or_else(|| std::io::Error::other("no pipes to the answerer"))
            });
        match piped {
            Ok((child, calls, answers)) => Answerer { child, calls, answers, buffer: vec![] },
            Err(error) => {
                eprintln!("agree: {program}: {error}");
                exit(2);
            }
        }
    }

    /// One call; afterwards the buffer holds what was lent, in order.
    fn call(&mut self, function: u32, numbers: [u32; 7], lent: [&[u8]; 3]) -> u64 {
        self.buffer.clear();
        let lengths = lent.map(|bytes| bytes.len() as u32);
        for word in [function].into_iter().chain(numbers).chain(lengths) {
            self.buffer.extend_from_slice(&word.to_le_bytes());
        }
        for bytes in lent {
            self.buffer.extend_from_slice(bytes);
        }
        let mut answer = [0; 8];
        let sent = self.calls.write_all(&self.buffer).and_then(|()| self.calls.flush());
        self.buffer.resize(lent.iter().map(|bytes| bytes.len()).sum(), 0);
        let got = sent
            .and_then(|()| self.answers.read_exact(&mut answer))
            .and_then(|()| self.answers.read_exact(&mut self.buffer));
        if let Err(error) = got {
            self.ended(&error.to_string(), function, numbers);
        }
        u64::from_le_bytes(answer)
    }

    /// Without answers there is nothing to compare: a fault of its own.
    fn ended(&mut self, error: &str, function: u32, numbers: [u32; 7]) -> ! {
        let status = self.child.wait().map_or_else(|error| error.to_string(), |s| s.to_string());
        println!("function {function}, numbers {numbers:?}: {error}, the answerer's {status}");
        println!("0 passed, 1 failed");
        exit(1);
    }

    /// What was lent to be read must come back as it was.
    fn unchanged(&mut self, from: usize, bytes: &[u8], function: u32, numbers: [u32; 7]) {
        if self.buffer[from..from + bytes.len()] != *bytes {
            self.ended("bytes lent to be read were changed", function, numbers);
        }
    }
}

impl Make for Answerer {
    fn hall_setup(&mut self, hall: &mut [u8], numbers: SetupNumbers) -> u32 {
        let answer = self.call(1, numbers, [hall, &[], &[]]);
        hall.copy_from_slice(&self.buffer);
        answer as u32
    }

    fn hall_step(&mut self, hall: &mut [u8], step: Step) -> u32 {
        let answer = self.call(2, step, [hall, &[], &[]]);
        hall.copy_from_slice(&self.buffer);
        answer as u32
    }

    fn box_step(&mut self, row: &mut [u8], message: &[u8], sent: &mut [u8], step: Step) -> u32 {
        let answer = self.call(3, step, [row, message, sent]);
        self.unchanged(row.len(), message, 3, step);
        let (first, rest) = self.buffer.split_at(row.len());
        row.copy_from_slice(first);
        sent.copy_from_slice(&rest[message.len()..]);
        answer as u32
    }

    fn book(&mut self, blocks: &[u8], list: &mut [u32]) -> u64 {
        let bytes: Vec<u8> = list.iter().flat_map(|number| number.to_le_bytes()).collect();
        let answer = self.call(4, [0; 7], [blocks, &bytes, &[]]);
        self.unchanged(0, blocks, 4, [0; 7]);
        let (words, _) = self.buffer[blocks.len()..].as_chunks::<4>();
        for (number, word) in list.iter_mut().zip(words) {
            *number = u32::from_le_bytes(*word);
        }
        answer
    }
}
