//! The rehearsal: a hall played through line by line. Document 01,
//! "Rehearsal". Input comes in pieces of any size and is judged byte by byte,
//! so that a line may be longer than any buffer.

use std::io::{self, Write};

use crate::layout::*;
use crate::page::{line, line_of, LINE_ABSENT, LINE_NIL};
use crate::refusal::GRANTED;
use crate::{hall_setup, hall_step};

const FIELDS: usize = 7;

/// What has been read of a line so far.
#[derive(Clone, Copy, Default)]
struct Line {
    numbers: [u32; FIELDS],
    /// How many fields are ended by a space.
    ended: usize,
    /// The open field's value, and whether it has a digit yet.
    value: u64,
    digits: bool,
    unreadable: bool,
    /// Whether any byte stands on the line, so that the last may lack its LF.
    begun: bool,
}

impl Line {
    #[inline(always)]
    fn read(&mut self, byte: u8) {
        self.begun = true;
        match byte {
            b'0'..=b'9' => {
                self.digits = true;
                self.value = self.value * 10 + u64::from(byte - b'0');
                if self.value > u64::from(u32::MAX) {
                    self.unreadable = true;
                    self.value = 0;
                }
            }
            b' ' if self.digits && self.ended + 1 < FIELDS => {
                self.numbers[self.ended] = self.value as u32;
                self.ended += 1;
                self.value = 0;
                self.digits = false;
            }
            _ => self.unreadable = true,
        }
    }

    /// The line's seven numbers, if it has exactly that.
    fn numbers(&self) -> Option<[u32; FIELDS]> {
        if self.unreadable || !self.digits || self.ended + 1 != FIELDS {
            return None;
        }
        let mut numbers = self.numbers;
        numbers[self.ended] = self.value as u32;
        Some(numbers)
    }
}

#[derive(Clone, Copy, PartialEq, Eq)]
enum Stage {
    Setup,
    Steps,
    /// The setup line was refused or unreadable.
    Over,
}

pub struct Rehearsal {
    hall: [u8; HALL],
    line: Line,
    stage: Stage,
}

impl Rehearsal {
    #[allow(clippy::new_without_default)]
    pub fn new() -> Rehearsal {
        Rehearsal { hall: [0; HALL], line: Line::default(), stage: Stage::Setup }
    }

    /// Takes the next piece of input. Answers whether more is wanted.
    pub fn read(&mut self, input: &[u8], out: &mut impl Write) -> io::Result<bool> {
        for &byte in input {
            if byte == b'\n' {
                self.end_line(out)?;
                if self.stage == Stage::Over {
                    break;
                }
            } else {
                self.line.read(byte);
            }
        }
        Ok(self.stage != Stage::Over)
    }

    /// The input is at its end: the last line may lack its LF, then the pages.
    pub fn finish(&mut self, out: &mut impl Write) -> io::Result<()> {
        if self.line.begun && self.stage != Stage::Over {
            self.end_line(out)?;
        }
        if self.stage != Stage::Steps {
            return Ok(());
        }
        let (blocks, _) = self.hall.as_chunks::<BLOCK>();
        for reader in 0..blocks[0][READERS] {
            for rack in 0..blocks[0][RACKS] {
                out.write_all(b"L ")?;
                write_number(out, u32::from(reader), b' ')?;
                write_number(out, u32::from(rack), b' ')?;
                let row = &blocks[READERS_AT + usize::from(reader)];
                match line(row, line_of(PAGE, usize::from(rack))) {
                    LINE_ABSENT => out.write_all(b"-\n")?,
                    LINE_NIL => out.write_all(b"nil\n")?,
                    reading => write_number(out, reading, b'\n')?,
                }
            }
        }
        Ok(())
    }

    fn end_line(&mut self, out: &mut impl Write) -> io::Result<()> {
        let numbers = self.line.numbers();
        self.line = Line::default();
        let answer = match (self.stage, numbers) {
            (Stage::Over, _) => return Ok(()),
            (Stage::Setup, None) => {
                self.stage = Stage::Over;
                return out.write_all(b"?\n");
            }
            (Stage::Steps, None) => return out.write_all(b"?\n"),
            (Stage::Setup, Some(numbers)) => {
                let answer = hall_setup(&mut self.hall, numbers);
                self.stage = if answer == GRANTED { Stage::Steps } else { Stage::Over };
                answer
            }
            (Stage::Steps, Some(step)) => hall_step(&mut self.hall, step),
        };
        // Of a refused setup the hall is still all zero, so the count is 0.
        let count = u16::from_le_bytes([self.hall[BODY], self.hall[BODY + 1]]);
        write_number(out, answer, b' ')?;
        write_number(out, u32::from(count), b'\n')
    }
}

/// A decimal and the byte that ends it.
fn write_number(out: &mut impl Write, mut number: u32, end: u8) -> io::Result<()> {
    const LONGEST: usize = 10;
    let mut text = [end; LONGEST + 1];
    let mut from = LONGEST;
    loop {
        from -= 1;
        text[from] = b'0' + (number % 10) as u8;
        number /= 10;
        if number == 0 {
            break;
        }
    }
    out.write_all(&text[from..])
}
