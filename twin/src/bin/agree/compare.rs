//! Runs two makes of the exported functions on the same input and compares the
//! answer and every lent byte.

use std::fmt::Write;

use twin::calls::Calls;
use twin::layout::*;
use twin::{SetupNumbers, Step};

use crate::view;

/// The same bytes lent to both makes.
#[derive(Clone)]
pub struct Pair {
    pub left: Vec<u8>,
    pub right: Vec<u8>,
}

impl Pair {
    pub fn new(length: usize) -> Pair {
        Pair { left: vec![0; length], right: vec![0; length] }
    }

    pub fn copy_from(&mut self, bytes: &[u8]) {
        self.left[..bytes.len()].copy_from_slice(bytes);
        self.right[..bytes.len()].copy_from_slice(bytes);
    }

    /// Changes both alike.
    pub fn change(&mut self, change: impl FnOnce(&mut [u8])) {
        change(&mut self.right);
        self.left.copy_from_slice(&self.right);
    }
}

/// How often each answer was given, by what was called.
#[derive(Clone, Copy, Default)]
pub struct Tally {
    /// By step code; 0 stands for every code that isn't 1 to 13.
    pub hall_granted: [u64; 14],
    pub c_granted: [u64; 14],
    /// By answer, 0 to 11.
    pub hall_answers: [u64; 12],
    pub c_answers: [u64; 12],
    pub setup_answers: [u64; 12],
    pub book_answers: [u64; 12],
}

/// One make of the exported functions, in this process or in another.
pub trait Make {
    fn hall_setup(&mut self, hall: &mut [u8], numbers: SetupNumbers) -> u32;
    fn hall_step(&mut self, hall: &mut [u8], step: Step) -> u32;
    fn box_step(&mut self, row: &mut [u8], message: &[u8], sent: &mut [u8], step: Step) -> u32;
    fn book(&mut self, blocks: &[u8], list: &mut [u32]) -> u64;
}

impl Make for Calls {
    fn hall_setup(&mut self, hall: &mut [u8], numbers: SetupNumbers) -> u32 {
        Calls::hall_setup(self, hall, numbers)
    }

    fn hall_step(&mut self, hall: &mut [u8], step: Step) -> u32 {
        Calls::hall_step(self, hall, step)
    }

    fn box_step(&mut self, row: &mut [u8], message: &[u8], sent: &mut [u8], step: Step) -> u32 {
        Calls::box_step(self, row, message, sent, step)
    }

    fn book(&mut self, blocks: &[u8], list: &mut [u32]) -> u64 {
        Calls::book(self, blocks, list)
    }
}

pub struct Compare {
    left: Box<dyn Make>,
    right: Calls,
    pub inputs: u64,
    pub tally: Tally,
    /// What the last difference was, if the last input brought one.
    pub difference: Option<String>,
}

impl Compare {
    pub fn new(left: Box<dyn Make>, right: Calls) -> Compare {
        Compare { left, right, inputs: 0, tally: Tally::default(), difference: None }
    }

    /// Sets up both halls. Every comparison answers what the right one
    /// answered, or nothing where they differ.
    pub fn hall_setup(&mut self, halls: &mut Pair, numbers: SetupNumbers) -> Option<u32> {
        let left = self.left.hall_setup(&mut halls.left, numbers);
        let right = self.right.hall_setup(&mut halls.right, numbers);
        let what = || format!("hall_setup {numbers:?} on {} bytes", halls.right.len());
        let answer = self.judge(left.into(), right.into(), &[(&halls.left, &halls.right)], what)?;
        count(&mut self.tally.setup_answers, answer);
        Some(answer)
    }

    pub fn hall_step(&mut self, halls: &mut Pair, step: Step) -> Option<u32> {
        // What the step reads, kept for the report.
        let places = [0, view::row_place(&step, &halls.right), POST_AT + step[2] as usize];
        let kept = places.map(|place| block_at(&halls.right, place));
        let left = self.left.hall_step(&mut halls.left, step);
        let right = self.right.hall_step(&mut halls.right, step);
        let what = || {
            let mut text = format!("hall_step {step:?} on {} bytes", halls.right.len());
            for (place, block) in places.iter().zip(&kept) {
                let _ = write!(text, "\n  block {place} was {}", block.map_or("-".into(), hex));
            }
            text
        };
        let answer = self.judge(left.into(), right.into(), &[(&halls.left, &halls.right)], what)?;
        count(&mut self.tally.hall_answers, answer);
        if answer == 0 {
            self.tally.hall_granted[step[0] as usize] += 1;
        }
        Some(answer)
    }

    /// The C step on copies. What stood in the message sent before is given,
    /// so that a refusal can be seen to leave it.
    pub fn box_step(&mut self, row: &[u8], message: &[u8], sent: &[u8], step: Step) -> Option<u32> {
        let (mut left_row, mut right_row) = ([0; BLOCK + 1], [0; BLOCK + 1]);
        let (mut left_sent, mut right_sent) = ([0; BLOCK + 1], [0; BLOCK + 1]);
        let (left_row, right_row) = (&mut left_row[..row.len()], &mut right_row[..row.len()]);
        let (left_sent, right_sent) = (&mut left_sent[..sent.len()], &mut right_sent[..sent.len()]);
        left_row.copy_from_slice(row);
        right_row.copy_from_slice(row);
        left_sent.copy_from_slice(sent);
        right_sent.copy_from_slice(sent);
        let left = self.left.box_step(left_row, message, left_sent, step);
        let right = self.right.box_step(right_row, message, right_sent, step);
        let what = || {
            let lengths = (row.len(), message.len(), sent.len());
            let (row, message) = (block_at(row, 0), block_at(message, 0));
            let (row, message) = (row.map_or("-".into(), hex), message.map_or("-".into(), hex));
            format!("box_step {step:?} on {lengths:?} bytes\n  row was {row}\n  message {message}")
        };
        let lent: [(&[u8], &[u8]); 2] = [(left_row, right_row), (left_sent, right_sent)];
        let answer = self.judge(left.into(), right.into(), &lent, what)?;
        count(&mut self.tally.c_answers, answer);
        if answer == 0 {
            self.tally.c_granted[step[0] as usize] += 1;
        }
        Some(answer)
    }

    pub fn book(&mut self, blocks: &[u8], room: usize) -> Option<u32> {
        const UNTOUCHED: u32 = 0xa5a5_a5a5;
        let (mut left_list, mut right_list) = (vec![UNTOUCHED; room], vec![UNTOUCHED; room]);
        let left = self.left.book(blocks, &mut left_list);
        let right = self.right.book(blocks, &mut right_list);
        let bytes = |list: &[u32]| list.iter().flat_map(|n| n.to_le_bytes()).collect::<Vec<_>>();
        let what = || {
            let mut text = format!("book on {} bytes, room for {room}", blocks.len());
            for (place, block) in blocks.as_chunks::<BLOCK>().0.iter().enumerate() {
                let _ = write!(text, "\n  block {place} is {}", hex(*block));
            }
            text
        };
        let (left_bytes, right_bytes) = (bytes(&left_list), bytes(&right_list));
        let answer = self.judge(left, right, &[(&left_bytes, &right_bytes)], what)?;
        count(&mut self.tally.book_answers, answer);
        Some(answer)
    }

    fn judge(
        &mut self,
        left: u64,
        right: u64,
        lent: &[(&[u8], &[u8])],
        what: impl FnOnce() -> String,
    ) -> Option<u32> {
        self.inputs += 1;
        if left == right && lent.iter().all(|(left, right)| left == right) {
            return Some((right % 65_536) as u32);
        }
        let mut text = what();
        let _ = write!(text, "\n  answers {left} and {right}");
        for (buffer, (left, right)) in lent.iter().enumerate() {
            let at = left.iter().zip(*right).position(|(left, right)| left != right);
            if let Some(at) = at {
                let (left, right) = (left[at], right[at]);
                let (block, byte) = (at / BLOCK, at % BLOCK);
                let _ = write!(
                    text,
                    "\n  lent buffer {buffer}, block {block}, byte {byte}: {left} and {right}"
                );
            }
        }
        self.difference = Some(text);
        None
    }
}

fn count(answers: &mut [u64; 12], answer: u32) {
    if let Some(place) = answers.get_mut(answer as usize) {
        *place += 1;
    }
}

fn block_at(bytes: &[u8], place: usize) -> Option<Block> {
    bytes.as_chunks::<BLOCK>().0.get(place).copied()
}

/// A block in hex: up to the last byte that isn't zero, then the check words.
fn hex(block: Block) -> String {
    let body = &block[..FIRST_CHECK];
    let end = body.iter().rposition(|&byte| byte != 0).map_or(0, |last| last + 1);
    let digits = |bytes: &[u8]| bytes.iter().map(|byte| format!("{byte:02x}")).collect::<String>();
    format!("{} .. {}", digits(&body[..end]), digits(&block[FIRST_CHECK..]))
}
