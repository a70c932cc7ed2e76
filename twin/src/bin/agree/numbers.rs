//! Numbers for steps and setups: small ones, both sides of each edge, huge
//! ones, and fitting ones that are only wrong if they are narrowed first.

use twin::{SetupNumbers, Step};

use crate::rng::Rng;

#[rustfmt::skip]
const EDGES: [u32; 41] = [
    0, 1, 2, 3, 4, 5, 6, 7, 8, 9, 12, 13, 14, 15, 16, 31, 32,
    95, 96, 97, 127, 128, 254, 255, 256, 257, 511,
    65_534, 65_535, 65_536, 65_537, 131_072, 459_602,
    0x00ff_ffff, 0x0100_0000, 0x7fff_ffff, 0x8000_0000, 0x8000_0001, 0xffff_0000, 0xffff_fffe, 0xffff_ffff,
];

pub fn any(rng: &mut Rng) -> u32 {
    if rng.percent(70) {
        rng.pick(&EDGES)
    } else {
        rng.next() as u32 >> rng.below(32)
    }
}

/// Readings come from a small stock, so that racks and instances repeat them.
pub fn reading(rng: &mut Rng) -> u32 {
    match rng.below(10) {
        0 => 65_536,
        1 => u32::MAX,
        2 => (rng.next() as u32).max(65_536),
        _ => 459_602 + rng.below(24) as u32 * 65_537,
    }
}

/// A set of these racks, not empty; mostly all of them.
pub fn cf(rng: &mut Rng, racks: usize) -> u32 {
    let all = (1u32 << racks) - 1;
    if rng.percent(50) {
        return all;
    }
    match rng.next() as u32 & all {
        0 => 1 << rng.below(racks),
        some => some,
    }
}

/// A setup in range, with the interesting sizes more often.
pub fn setup(rng: &mut Rng) -> SetupNumbers {
    let instance = match rng.below(4) {
        0 => 0,
        1 => rng.pick(&[1, 2, 255, 256, 65_534, 65_535]),
        _ => rng.below(65_536) as u32,
    };
    let racks = rng.pick(&[1, 2, 2, 2, 3, 3, 4, 5, 6, 7, 8, 8]);
    let boxes = rng.pick(&[1, 2, 2, 3, 3, 3, 4, 4, 5, 5]);
    let coordinators = rng.pick(&[1, 2, 2, 3, 3, 4]);
    let readers = rng.pick(&[1, 2, 2, 3, 4]);
    let c0 = rng.below(coordinators) as u32;
    let cf0 = cf(rng, racks);
    [instance, racks as u32, boxes, coordinators as u32, readers, c0, cf0]
}

/// A setup of which one number, or all, may be out of range.
pub fn any_setup(rng: &mut Rng) -> SetupNumbers {
    let mut numbers = setup(rng);
    if rng.percent(10) {
        numbers = std::array::from_fn(|_| any(rng));
    }
    spoil(rng, &mut numbers);
    numbers
}

/// The places of a step's numbers that the step doesn't name. They are
/// ignored, so anything may stand there.
pub fn fill_unnamed(rng: &mut Rng, step: &mut Step) {
    let named: &[usize] = match step[0] {
        1 => &[1, 6],
        2 => &[1, 3, 5],
        5 => &[1],
        13 => &[1, 3, 4, 5],
        _ => &[1, 2],
    };
    for at in (1..7).filter(|at| !named.contains(at)) {
        step[at] = if rng.percent(50) { 0 } else { any(rng) };
    }
}

/// Puts one of the numbers that a step names at an edge of its range, which
/// the hall's sizes give: agents of the step's sort, racks, coordinators and
/// the message count.
pub fn edge(rng: &mut Rng, step: &mut Step, [agents, racks, coordinators, count]: [usize; 4]) {
    let all = (1u32 << racks) - 1;
    let rounds = [0, 1, 65_535, 65_536];
    let sets = [0, 1, all, all + 1, 255, 256, 256 + all];
    let (at, edges): (usize, &[u32]) = match (step[0], rng.below(4)) {
        (1, 0..=2) => (6, &[0, 65_535, 65_536, u32::MAX]),
        (2 | 13, 0) => (3, &rounds),
        (2 | 13, 1) => (5, &sets),
        (13, 2) => (4, &[0, coordinators as u32 - 1, coordinators as u32, 256]),
        (_, 3) => (1, &[0, agents as u32 - 1, agents as u32, 256]),
        _ => (2, &[0, (count as u32).wrapping_sub(1), count as u32, 96, 256, 65_536]),
    };
    step[at] = rng.pick(edges);
}

/// Changes one number: to any other, by one, or by what narrowing would drop.
pub fn spoil(rng: &mut Rng, numbers: &mut [u32; 7]) {
    let number = &mut numbers[rng.below(7)];
    *number = match rng.below(6) {
        0 | 1 => any(rng),
        2 => number.wrapping_add(1),
        3 => number.wrapping_sub(1),
        4 => number.wrapping_add(256 << (8 * rng.below(3))),
        _ => *number ^ 1 << rng.below(32),
    };
}
