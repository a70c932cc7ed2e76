//! A whole instance of 8 racks, 5 boxes and 4 readers, played on the twin: the
//! steps of it, and out of it the fullest hall in which each step is granted.

use twin::layout::*;
use twin::{hall_setup, hall_step, SetupNumbers, Step};

pub const SETUP: SetupNumbers = [0, 8, 5, 4, 4, 0, 255];

/// Racks that speak at once; the others are blank.
const SPEAKING: u32 = 5;

/// A hall, and a step on it.
#[derive(Clone)]
pub struct Scene {
    pub hall: Vec<u8>,
    pub step: Step,
}

/// The steps of a page learned in round Zero by every reader: five racks speak
/// at once, three are blank, every box takes all five readings.
pub fn instance() -> Vec<Step> {
    let mut play = Play::new();
    play.round_zero();
    play.steps
}

/// For each step, 1 to 13 in order, a hall in which it is granted.
pub fn granted() -> Vec<Scene> {
    let mut play = Play::new();
    play.round_zero();
    play.next_round(1);
    play.next_round(2);
    // A start on a row that has heard all five boxes.
    play.take([2, 1, 0, 3, 0, 255, 0]);
    play.scenes.into_iter().flatten().collect()
}

/// For each step, a hall in which it is refused as late as can be: mostly
/// because it has just been taken.
pub fn refused() -> Vec<Scene> {
    let scenes = granted();
    let again = |code: usize| {
        let mut scene = scenes[code - 1].clone();
        hall_step(&mut scene.hall, scene.step);
        scene
    };
    (1..=13)
        .map(|code| match code {
            1 => full_post(again(1)),
            // The box has joined a higher round than that reading's.
            10 => Scene { step: scenes[9].step, ..again(3) },
            // No box is held at that round.
            13 => Scene { step: [13, 0, 0, 9, 1, 255, 0], ..again(13) },
            _ => again(code),
        })
        .collect()
}

/// Offers until the next one is refused.
fn full_post(mut scene: Scene) -> Scene {
    while hall_step(&mut scene.hall, scene.step) == 0 {}
    scene
}

struct Play {
    hall: Vec<u8>,
    steps: Vec<Step>,
    /// The last hall in which each step was granted; later ones are fuller.
    scenes: [Option<Scene>; 13],
}

impl Play {
    fn new() -> Play {
        let mut hall = vec![0; HALL];
        assert_eq!(hall_setup(&mut hall, SETUP), 0);
        Play { hall, steps: vec![], scenes: [const { None }; 13] }
    }

    /// Takes a step, which must be granted. Answers the number of the message
    /// that it sent, if it sent one.
    fn take(&mut self, step: Step) -> u32 {
        let number = u32::from(self.hall[BODY]);
        let scene = Scene { hall: self.hall.clone(), step };
        assert_eq!(hall_step(&mut self.hall, step), 0, "step {step:?}");
        self.scenes[step[0] as usize - 1] = Some(scene);
        self.steps.push(step);
        number
    }

    fn on(&mut self, code: u32, agent: u32, message: u32) -> u32 {
        self.take([code, agent, message, 0, 0, 0, 0])
    }

    fn round_zero(&mut self) {
        let [_, racks, boxes, _, readers, c0, cf0] = SETUP;
        let offers: Vec<_> = (0..SPEAKING)
            .map(|rack| self.take([1, rack, 0, 0, 0, 0, 459_602 + rack * 65_536]))
            .collect();
        let readings: Vec<_> =
            offers.iter().zip(0..).map(|(&offer, rack)| self.on(7, rack, offer)).collect();
        let blanks: Vec<_> = (SPEAKING..racks).map(|rack| self.on(8, rack, readings[0])).collect();
        let mut votes = vec![];
        for taking in 0..boxes {
            for &reading in &readings {
                votes.push(self.on(10, taking, reading));
            }
        }
        for reader in 0..readers {
            for &vote in &votes {
                self.on(11, reader, vote);
            }
            for &blank in &blanks {
                self.on(12, reader, blank);
            }
            self.take([13, reader, 0, 0, c0, cf0, 0]);
        }
    }

    /// Coordinator 1 opens a round on the votes of all boxes, and they vote
    /// for the page; all readers learn it again.
    fn next_round(&mut self, n: u32) {
        let [_, racks, boxes, _, readers, ..] = SETUP;
        let start = self.take([2, 1, 0, n, 0, 255, 0]);
        let joined: Vec<_> = (0..boxes).map(|joining| self.on(3, joining, start)).collect();
        for &vote in &joined {
            self.on(4, 1, vote);
        }
        let opened = self.take([5, 1, 0, 0, 0, 0, 0]);
        for rack in 0..racks {
            self.on(6, rack, opened);
        }
        let votes: Vec<_> = (0..boxes).map(|taking| self.on(9, taking, opened)).collect();
        for reader in 0..readers {
            for &vote in &votes {
                self.on(11, reader, vote);
            }
            self.take([13, reader, 0, n, 1, 255, 0]);
        }
    }
}
