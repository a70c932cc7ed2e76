//! The cases of the benchmark, with what they must answer and how many blocks
//! they cannot do without summing, writing or clearing.

use twin::layout::*;
use twin::{SetupNumbers, Step};

use crate::play::{self, Scene};

pub const NAMES: [&str; 13] = [
    "offer",
    "start",
    "join",
    "hear",
    "open",
    "prepare",
    "fast",
    "blank",
    "take page",
    "take reading",
    "note vote",
    "note blank",
    "learn",
];

/// What is lent to a call. The lengths are those lent, right or wrong.
pub enum Input {
    C { row: Vec<u8>, message: Vec<u8>, step: Step },
    Hall { hall: Vec<u8>, step: Step },
    Setup { numbers: SetupNumbers },
    Book { blocks: Vec<u8> },
    Instance { numbers: SetupNumbers, steps: Vec<Step> },
}

pub struct Case {
    pub name: String,
    pub input: Input,
    pub answer: u64,
    /// Blocks summed, and blocks written or cleared, by any code whatever.
    pub sums: usize,
    pub writes: usize,
}

/// What a step must touch: whether it reads a message, changes its row, sends.
fn needs(code: usize) -> (usize, usize, usize) {
    let reads = usize::from(![1, 2, 5, 13].contains(&code));
    let changes = usize::from(code != 1);
    let sends = usize::from(![4, 6, 11, 12, 13].contains(&code));
    (reads, changes, sends)
}

pub fn all() -> Vec<Case> {
    let mut cases = vec![];
    let (granted, refused) = (play::granted(), play::refused());
    for (code, scene) in (1..).zip(&granted) {
        let (reads, changes, sends) = needs(code);
        let name = format!("C step {code} {}, granted", NAMES[code - 1]);
        // The message sent is written, or cleared where none is sent.
        cases.push(Case::c(name, scene, 0, 1 + reads + changes + sends, 1));
    }
    for (code, scene) in (1..).zip(&refused) {
        let (reads, ..) = needs(code);
        let answer = [5, 6, 6, 7, 7, 6, 7, 7, 7, 6, 7, 7, 8][code - 1];
        let name = format!("C step {code} {}, refused late ({answer})", NAMES[code - 1]);
        let mut scene = scene.clone();
        if code == 1 {
            // An offer has no later refusal than a row of another sort.
            scene.hall.copy_within(BOXES_AT * BLOCK..(BOXES_AT + 1) * BLOCK, RACKS_AT * BLOCK);
            scene.step[1] = 0;
        }
        cases.push(Case::c(name, &scene, answer, 1 + reads, 0));
    }
    cases.extend(early_c(&granted));
    for (code, scene) in (1..).zip(&granted) {
        let (reads, changes, sends) = needs(code);
        let name = format!("hall step {code} {}, granted", NAMES[code - 1]);
        let sums = 2 + reads + changes + 2 * sends;
        cases.push(Case::hall(name, scene.clone(), 0, sums, sends));
    }
    for (code, scene) in (1..).zip(&refused) {
        let (reads, ..) = needs(code);
        let answer = [10, 6, 6, 7, 7, 6, 7, 7, 7, 6, 7, 7, 8][code - 1];
        let name = format!("hall step {code} {}, refused late ({answer})", NAMES[code - 1]);
        cases.push(Case::hall(name, scene.clone(), answer, 2 + reads, 0));
    }
    cases.extend(early_hall(&granted));
    cases.extend(wholes());
    cases
}

impl Case {
    fn c(name: String, scene: &Scene, answer: u64, sums: usize, writes: usize) -> Case {
        let step = scene.step;
        let block = |place: usize| &scene.hall[place * BLOCK..][..BLOCK];
        let row = block(row_place(&step)).to_vec();
        let message = block(POST_AT + step[2] as usize).to_vec();
        Case { name, input: Input::C { row, message, step }, answer, sums, writes }
    }

    fn hall(name: String, scene: Scene, answer: u64, sums: usize, writes: usize) -> Case {
        let Scene { hall, step } = scene;
        Case { name, input: Input::Hall { hall, step }, answer, sums, writes }
    }
}

/// The place of the row that a step is for.
pub fn row_place(step: &Step) -> usize {
    let first = match step[0] {
        2 | 4 | 5 => COORDINATORS_AT,
        3 | 9 | 10 => BOXES_AT,
        1 | 6..=8 => RACKS_AT,
        _ => READERS_AT,
    };
    first + step[1] as usize
}

/// Take reading on a hall that is spoilt at one place, or with another code.
fn early_c(granted: &[Scene]) -> Vec<Case> {
    let scene = &granted[9];
    let spoilt = |name: &str, place: usize, answer, sums| {
        let mut scene = scene.clone();
        scene.hall[place * BLOCK + FIRST_CHECK] ^= 1;
        Case::c(format!("C step refused early: {name} ({answer})"), &scene, answer, sums, 0)
    };
    let message = POST_AT + scene.step[2] as usize;
    let mut short = spoilt("a row of 511 bytes", 0, 1, 0);
    if let Input::C { row, .. } = &mut short.input {
        row.pop();
    }
    let mut code = spoilt("no such code", 0, 4, 0);
    if let Input::C { step, .. } = &mut code.input {
        step[0] = 14;
    }
    vec![
        short,
        code,
        spoilt("row's check", row_place(&scene.step), 2, 1),
        spoilt("message's check", message, 2, 2),
    ]
}

fn early_hall(granted: &[Scene]) -> Vec<Case> {
    let scene = &granted[9];
    let spoilt = |name: &str, place: usize, answer, sums| {
        let mut scene = scene.clone();
        scene.hall[place * BLOCK + FIRST_CHECK] ^= 1;
        Case::hall(format!("hall step refused early: {name} ({answer})"), scene, answer, sums, 0)
    };
    let message = POST_AT + scene.step[2] as usize;
    let mut short = spoilt("one byte short", 1, 1, 0);
    if let Input::Hall { hall, .. } = &mut short.input {
        hall.pop();
    }
    let mut code = spoilt("no such code", 1, 4, 1);
    if let Input::Hall { step, .. } = &mut code.input {
        step[0] = 14;
    }
    vec![
        short,
        spoilt("head's check", 0, 2, 1),
        code,
        spoilt("row's check", row_place(&scene.step), 2, 2),
        spoilt("message's check", message, 2, 3),
    ]
}

/// Setup, the book over 64 pages of eight readings that all differ and over 64
/// that repeat, and a whole instance.
fn wholes() -> Vec<Case> {
    let rows = 1 + 4 + 5 + 8 + 4;
    let setup = Case {
        name: "setup of a full hall".into(),
        input: Input::Setup { numbers: play::SETUP },
        answer: 0,
        sums: rows,
        writes: HALL_BLOCKS,
    };
    let book = |name: &str, different: u32| Case {
        name: format!("book over 64 blocks, {name}"),
        input: Input::Book { blocks: pages(different) },
        answer: 65_536 * u64::from(different.min(512)),
        sums: MAX_BOOK,
        writes: 0,
    };
    let steps = play::instance();
    let (mut sums, mut writes) = (rows, HALL_BLOCKS);
    for step in &steps {
        let (reads, changes, sends) = needs(step[0] as usize);
        sums += 2 + reads + changes + 2 * sends;
        writes += sends;
    }
    let name = format!("instance of 8 racks, 5 boxes, 4 readers: setup and {} steps", steps.len());
    let input = Input::Instance { numbers: play::SETUP, steps };
    let instance = Case { name, input, answer: 0, sums, writes };
    vec![setup, book("512 readings", 512), book("16 readings, repeated", 16), instance]
}

/// 64 reader blocks, each with eight readings, of which so many differ.
fn pages(different: u32) -> Vec<u8> {
    let mut hall = vec![0; HALL];
    let mut blocks = vec![];
    for instance in 0..MAX_BOOK as u32 {
        let mut numbers = play::SETUP;
        numbers[0] = instance;
        twin::hall_setup(&mut hall, numbers);
        let mut reader = [0; BLOCK];
        reader.copy_from_slice(&hall[READERS_AT * BLOCK..][..BLOCK]);
        for rack in 0..MAX_RACKS {
            let line = PAGE + rack * LINE_SIZE;
            let reading = (instance * MAX_RACKS as u32 + rack as u32) % different;
            reader[line] = READING;
            set_word(&mut reader, line + 1, 131_072 + reading * 65_537);
        }
        twin::check::seal::<{ twin::mistake::NONE }>(&mut reader);
        blocks.extend_from_slice(&reader);
    }
    blocks
}
