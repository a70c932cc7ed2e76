//! The rules of every kind, both sides of each: document 01, "Blocks".

mod common;
use common::*;

fn rounded(kind: u8, agent: u8, round: Round) -> Build {
    block(kind, agent).round(round)
}

#[test]
fn a_zero_block_and_unknown_kinds_are_bad() {
    assert!(!good(&ZEROS));
    assert!(!good(&sealed(ZEROS)));
    for kind in (0..=255).filter(|kind| !matches!(kind, 1..=6 | 16..=20)) {
        all_bad(&[block(kind, 0).word(65_536), rounded(kind, 0, (1, 0, 3))]);
    }
}

#[test]
fn any_bit_flipped_is_bad() {
    // A bit of a word changes the first sum; one of a check word is compared.
    let whole = two_b(1, (2, 1, 3), &[Reading(V), Nil]);
    assert!(good(&whole));
    for bit in 0..512 * 8 {
        let mut flipped = whole;
        flipped[bit / 8] ^= 1 << (bit % 8);
        assert!(!good(&flipped), "bit {bit}");
    }
}

#[test]
fn setup_in_every_block() {
    let offer = |setup: [u8; 6]| block_of(0, setup, PROPOSE, 0).word(65_536);
    all_good(&[offer([1, 1, 1, 1, 0, 1]), offer([8, 5, 4, 4, 3, 255]), offer([2, 3, 2, 2, 1, 2])]);
    all_bad(&[
        offer([0, 3, 2, 2, 0, 3]),
        offer([9, 3, 2, 2, 0, 3]),
        offer([2, 0, 2, 2, 0, 3]),
        offer([2, 6, 2, 2, 0, 3]),
        offer([2, 3, 0, 2, 0, 3]),
        offer([2, 3, 5, 2, 0, 3]),
        offer([2, 3, 2, 0, 0, 3]),
        offer([2, 3, 2, 5, 0, 3]),
        offer([2, 3, 2, 2, 2, 3]),
        offer([2, 3, 2, 2, 0, 0]),
        offer([2, 3, 2, 2, 0, 4]),
        offer([255, 3, 2, 2, 0, 3]),
    ]);
}

#[test]
fn agents_exist() {
    // Two racks, three boxes, two coordinators, two readers.
    all_good(&[
        block(PROPOSE, 1).word(V),
        rounded(ONE_A, 1, (1, 1, 1)),
        rounded(ONE_B, 2, (1, 0, 1)).round(ZERO).none(),
        rounded(TWO_S, 1, (1, 1, 1)).page(&[]),
        rounded(TWO_A, 1, (1, 0, 2)).line(Nil),
        rounded(TWO_B, 2, (1, 0, 2)).page(&[Absent, Reading(V)]),
        block(HEAD, 0),
        rounded(COORDINATOR, 1, ZERO),
        rounded(BOX, 2, ZERO).round(ZERO),
        rounded(RACK, 1, ZERO),
        block(READER, 1),
    ]);
    all_bad(&[
        block(PROPOSE, 2).word(V),
        rounded(ONE_A, 2, (1, 2, 1)),
        rounded(ONE_B, 3, (1, 0, 1)).round(ZERO).none(),
        rounded(TWO_S, 2, (1, 2, 1)).page(&[]),
        rounded(TWO_A, 2, (1, 0, 7)).line(Nil),
        rounded(TWO_B, 3, (1, 0, 2)).page(&[Absent, Reading(V)]),
        block(HEAD, 1),
        rounded(COORDINATOR, 2, ZERO),
        rounded(BOX, 3, ZERO).round(ZERO),
        rounded(RACK, 2, ZERO),
        block(READER, 2),
    ]);
}

#[test]
fn rounds_lines_and_readings() {
    let rack = |round| rounded(RACK, 0, round);
    all_good(&[rack(ZERO), rack((1, 0, 1)), rack((65_535, 1, 3)), rack((1, 1, 2))]);
    all_bad(&[
        rack((0, 0, 0)),
        rack((0, 1, 3)),
        rack((0, 0, 1)),
        rack((1, 2, 3)),
        rack((1, 0, 0)),
        rack((1, 0, 4)),
    ]);
    all_good(&[rack(ZERO).line(Nil), rack(ZERO).line(Reading(65_536))]);
    all_bad(&[
        rack(ZERO).line(Reading(65_535)),
        rack(ZERO).line(Reading(0)),
        rack(ZERO).byte(3),
        rack(ZERO).byte(0).word(65_536),
        rack(ZERO).byte(1).word(1),
    ]);
    all_good(&[block(PROPOSE, 0).word(65_536), block(PROPOSE, 0).word(u32::MAX)]);
    all_bad(&[block(PROPOSE, 0).word(65_535), block(PROPOSE, 0)]);
}

#[test]
fn the_rest_is_zero() {
    let ends = [
        block(PROPOSE, 0).word(V),
        rounded(ONE_A, 0, (1, 0, 3)),
        rounded(ONE_B, 0, (1, 0, 3)).round(ZERO).none(),
        rounded(TWO_S, 0, (1, 0, 3)).page(&[]),
        rounded(TWO_A, 0, (1, 0, 3)).line(Nil),
        rounded(TWO_B, 0, (1, 0, 3)).page(&[Reading(V)]),
        block(HEAD, 0).zeros(2),
        rounded(COORDINATOR, 0, ZERO).none().zeros(5 * 46),
        rounded(BOX, 0, ZERO).round(ZERO).none(),
        rounded(RACK, 0, ZERO).line(Absent),
        block(READER, 0).page(&[]).zeros(5 * 45 + 8 * 5),
    ];
    let last = [14, 14, 59, 54, 19, 54, 12, 285, 59, 19, 315];
    for (build, end) in ends.into_iter().zip(last) {
        let whole = build.done();
        assert!(good(&whole));
        for at in end..504 {
            let mut spoilt = whole;
            spoilt[at] = 1;
            assert!(!good(&sealed(spoilt)), "kind {} byte {at}", whole[2]);
        }
    }
}

#[test]
fn messages() {
    let vote: &[Line] = &[Reading(V)];
    // 1A and 2S: n of 1 or more and c the agent.
    all_bad(&[rounded(ONE_A, 0, ZERO), rounded(ONE_A, 1, (1, 0, 3))]);
    all_bad(&[rounded(TWO_S, 0, ZERO), rounded(TWO_S, 1, (1, 0, 3))]);
    // 1B: vrnd below the round, by n and c; no vote means vrnd Zero.
    let one_b = |round, vrnd| rounded(ONE_B, 0, round).round(vrnd);
    all_good(&[
        one_b((1, 0, 3), ZERO).some(vote),
        one_b((1, 1, 3), (1, 0, 1)).some(vote),
        one_b((2, 0, 3), (1, 1, 1)).some(vote),
    ]);
    all_bad(&[
        one_b((1, 0, 3), (1, 0, 3)).some(vote),
        one_b((1, 0, 3), (1, 0, 1)).some(vote),
        one_b((1, 0, 3), (1, 1, 3)).some(vote),
        one_b(ZERO, ZERO).none(),
        one_b((2, 0, 3), (1, 0, 3)).none(),
        one_b((1, 0, 3), ZERO).some(&[Nil]),
        one_b((1, 0, 3), ZERO).some(&[]),
        one_b((1, 0, 3), ZERO).byte(2).page(vote),
        one_b((1, 0, 3), ZERO).byte(0).page(vote),
        one_b((1, 0, 3), ZERO).some(&[Reading(V), Nil, Nil]),
    ]);
    // 2S: empty, or complete and valued.
    let two_s = |lines: &[Line]| rounded(TWO_S, 0, (1, 0, 3)).page(lines);
    all_good(&[two_s(&[]), two_s(&[Nil, Reading(V)]), two_s(&[Reading(V), Reading(V)])]);
    all_bad(&[two_s(&[Reading(V)]), two_s(&[Nil, Nil]), two_s(&[Absent, Nil])]);
    // 2A: the rack in cf, the line not absent; round Zero may be.
    all_good(&[rounded(TWO_A, 1, ZERO).line(Reading(V)), rounded(TWO_A, 1, (1, 1, 2)).line(Nil)]);
    all_bad(&[
        rounded(TWO_A, 1, (1, 1, 1)).line(Nil),
        rounded(TWO_A, 0, (1, 1, 2)).line(Reading(V)),
        rounded(TWO_A, 0, (1, 1, 3)).line(Absent),
    ]);
    // 2B: valued, complete or not; c of its round may be any.
    let two_b = |lines: &[Line]| rounded(TWO_B, 0, ZERO).page(lines);
    all_good(&[two_b(&[Reading(V)]), two_b(&[Nil, Reading(V)])]);
    all_bad(&[two_b(&[]), two_b(&[Nil]), two_b(&[Nil, Nil]), two_b(&[Reading(V), Nil, Nil])]);
}
