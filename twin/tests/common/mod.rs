//! Blocks put together byte by byte, for tests whose answers are worked out
//! from document 01 by hand. Nothing of the twin is used to build them.

#![allow(dead_code)]

use twin::box_step;

pub const ZEROS: [u8; 512] = [0; 512];
pub const V: u32 = 459_602;
pub const W: u32 = 131_072;

/// P, A, C, L, c0, cf0 of most tests: two racks, three boxes, two
/// coordinators, two readers, round Zero fast for both racks.
pub const SETUP: [u8; 6] = [2, 3, 2, 2, 0, 3];
pub const INSTANCE: u16 = 5;
pub const ZERO: (u16, u8, u8) = (0, 0, 3);

pub const PROPOSE: u8 = 1;
pub const ONE_A: u8 = 2;
pub const ONE_B: u8 = 3;
pub const TWO_S: u8 = 4;
pub const TWO_A: u8 = 5;
pub const TWO_B: u8 = 6;
pub const HEAD: u8 = 16;
pub const COORDINATOR: u8 = 17;
pub const BOX: u8 = 18;
pub const RACK: u8 = 19;
pub const READER: u8 = 20;

/// A line of a page as tests write it.
#[derive(Clone, Copy)]
pub enum Line {
    Absent,
    Nil,
    Reading(u32),
}
pub use Line::{Absent, Nil, Reading};

pub type Round = (u16, u8, u8);

/// A block under construction; what is added goes to the next place.
#[derive(Clone)]
pub struct Build {
    bytes: [u8; 512],
    next: usize,
}

pub fn block(kind: u8, agent: u8) -> Build {
    block_of(INSTANCE, SETUP, kind, agent)
}

pub fn block_of(instance: u16, setup: [u8; 6], kind: u8, agent: u8) -> Build {
    let mut bytes = ZEROS;
    bytes[..2].copy_from_slice(&instance.to_le_bytes());
    bytes[2] = kind;
    bytes[3..9].copy_from_slice(&setup);
    bytes[9] = agent;
    Build { bytes, next: 10 }
}

impl Build {
    pub fn byte(mut self, byte: u8) -> Build {
        self.bytes[self.next] = byte;
        self.next += 1;
        self
    }

    pub fn word(self, word: u32) -> Build {
        word.to_le_bytes().into_iter().fold(self, Build::byte)
    }

    pub fn zeros(mut self, count: usize) -> Build {
        self.next += count;
        self
    }

    pub fn round(self, round: Round) -> Build {
        let [low, high] = round.0.to_le_bytes();
        self.byte(low).byte(high).byte(round.1).byte(round.2)
    }

    pub fn line(self, line: Line) -> Build {
        match line {
            Absent => self.byte(0).word(0),
            Nil => self.byte(1).word(0),
            Reading(reading) => self.byte(2).word(reading),
        }
    }

    /// A page of eight lines, of which the first are given.
    pub fn page(self, lines: &[Line]) -> Build {
        let rest = 8 - lines.len();
        lines.iter().fold(self, |build, &line| build.line(line)).zeros(rest * 5)
    }

    pub fn some(self, lines: &[Line]) -> Build {
        self.byte(1).page(lines)
    }

    pub fn none(self) -> Build {
        self.zeros(41)
    }

    /// A heard slot: filled, or with nothing in it.
    pub fn heard(self, vrnd: Round, vote: Option<&[Line]>) -> Build {
        let build = self.byte(1).round(vrnd);
        match vote {
            Some(lines) => build.some(lines),
            None => build.none(),
        }
    }

    pub fn no_heard(self) -> Build {
        self.zeros(46)
    }

    pub fn held(self, round: Round, lines: &[Line]) -> Build {
        self.byte(1).round(round).page(lines)
    }

    pub fn no_held(self) -> Build {
        self.zeros(45)
    }

    pub fn blank(self, round: Round) -> Build {
        self.byte(1).round(round)
    }

    pub fn no_blank(self) -> Build {
        self.zeros(5)
    }

    /// The block with its check words, as document 01 says them.
    pub fn done(self) -> [u8; 512] {
        sealed(self.bytes)
    }
}

pub fn sealed(mut bytes: [u8; 512]) -> [u8; 512] {
    let (mut first, mut second) = (1u32, 0u32);
    for at in (0..504).step_by(4) {
        let word = u32::from_le_bytes(bytes[at..at + 4].try_into().unwrap());
        first = first.wrapping_add(word);
        second = second.wrapping_add(first);
    }
    bytes[504..508].copy_from_slice(&first.to_le_bytes());
    bytes[508..].copy_from_slice(&second.to_le_bytes());
    bytes
}

/// The C step. On a refusal row and message sent must be as they were.
pub fn step(
    code: u32,
    row: &[u8; 512],
    message: &[u8; 512],
    [n, c, cf, reading]: [u32; 4],
) -> (u32, [u8; 512], [u8; 512]) {
    const BEFORE: [u8; 512] = [0xaa; 512];
    let (mut after, mut sent) = (*row, BEFORE);
    // Agent and message number are ignored, so they may be anything.
    let numbers = [code, 99, u32::MAX, n, c, cf, reading];
    let answer = box_step(&mut after, message, &mut sent, numbers);
    if answer != 0 {
        assert_eq!(after, *row, "a refused step changed the row");
        assert_eq!(sent, BEFORE, "a refused step changed the message sent");
    }
    (answer, after, sent)
}

/// A C step that names a message and no numbers.
pub fn on(code: u32, row: &[u8; 512], message: &[u8; 512]) -> (u32, [u8; 512], [u8; 512]) {
    step(code, row, message, [0; 4])
}

pub fn answer(code: u32, row: &[u8; 512], message: &[u8; 512]) -> u32 {
    on(code, row, message).0
}

/// Whether a block reads well: an offer on it is refused for another reason
/// than 2, or granted.
pub fn good(block: &[u8; 512]) -> bool {
    step(1, block, &ZEROS, [0, 0, 0, 65_536]).0 != 2
}

pub fn all_good(blocks: &[Build]) {
    for (place, block) in blocks.iter().enumerate() {
        assert!(good(&block.clone().done()), "block {place} should be good");
    }
}

pub fn all_bad(blocks: &[Build]) {
    for (place, block) in blocks.iter().enumerate() {
        assert!(!good(&block.clone().done()), "block {place} should be bad");
    }
}

// Rows and messages of the hall above.
pub fn propose(agent: u8, reading: u32) -> [u8; 512] {
    block(PROPOSE, agent).word(reading).done()
}

pub fn one_a(round: Round) -> [u8; 512] {
    block(ONE_A, round.1).round(round).done()
}

pub fn one_b(agent: u8, round: Round, vrnd: Round, vote: Option<&[Line]>) -> [u8; 512] {
    let build = block(ONE_B, agent).round(round).round(vrnd);
    match vote {
        Some(lines) => build.some(lines).done(),
        None => build.none().done(),
    }
}

pub fn two_s(round: Round, lines: &[Line]) -> [u8; 512] {
    block(TWO_S, round.1).round(round).page(lines).done()
}

pub fn two_a(agent: u8, round: Round, line: Line) -> [u8; 512] {
    block(TWO_A, agent).round(round).line(line).done()
}

pub fn two_b(agent: u8, round: Round, lines: &[Line]) -> [u8; 512] {
    block(TWO_B, agent).round(round).page(lines).done()
}

pub fn box_row(agent: u8, rnd: Round, vrnd: Round, vval: Option<&[Line]>) -> [u8; 512] {
    let build = block(BOX, agent).round(rnd).round(vrnd);
    match vval {
        Some(lines) => build.some(lines).done(),
        None => build.none().done(),
    }
}

pub fn rack_row(agent: u8, prnd: Round, pval: Line) -> [u8; 512] {
    block(RACK, agent).round(prnd).line(pval).done()
}
