//! Steps 2, 4 and 5, each refusal and the exact bytes of what is granted.

mod common;
use common::*;

const V0: &[Line] = &[Reading(V)];
const W1: &[Line] = &[Absent, Reading(W)];

fn row(crnd: Round) -> Build {
    block(COORDINATOR, 1).round(crnd)
}

/// Coordinator 1 in a round of its own, with these heard.
fn hearing(heard: &[(Round, Option<&[Line]>)]) -> [u8; 512] {
    let start = row((9, 1, 1)).none();
    heard.iter().fold(start, |row, &(vrnd, vote)| row.heard(vrnd, vote)).done()
}

/// What opening on these sends, after checking that cval is the same page.
fn opened(heard: &[(Round, Option<&[Line]>)]) -> [u8; 512] {
    let before = hearing(heard);
    let (answer, after, sent) = step(5, &before, &ZEROS, [0; 4]);
    assert_eq!(answer, 0);
    let mut expected = before;
    expected[14] = 1;
    expected[15..55].copy_from_slice(&sent[14..54]);
    assert_eq!(after, sealed(expected));
    sent
}

#[test]
fn start() {
    let before = row((4, 1, 1)).some(&[Nil, Reading(V)]).heard((3, 0, 3), Some(V0)).done();
    let start = |n, c, cf| step(2, &before, &ZEROS, [n, c, cf, 0]);
    for (n, cf) in [(0, 3), (65_536, 3), (u32::MAX, 3), (5, 0), (5, 4), (5, 257), (5, u32::MAX)] {
        assert_eq!(start(n, 1, cf).0, 11, "{n} {cf}");
    }
    for (n, cf) in [(1, 3), (3, 3), (4, 1), (4, 3)] {
        assert_eq!(start(n, 1, cf).0, 6, "{n} {cf}");
    }
    for (n, cf) in [(5, 1), (5, 3), (65_535, 2)] {
        let round = (n as u16, 1, cf as u8);
        let granted = (0, row(round).none().done(), one_a(round));
        // c is the agent; the number is ignored, also out of range.
        assert_eq!(start(n, 1, cf), granted);
        assert_eq!(start(n, 0, cf), granted);
        assert_eq!(start(n, u32::MAX, cf), granted);
    }
    // Zero is below every round of n 1, also below that of coordinator 0.
    let zero_of_1 = [2, 3, 2, 2, 1, 3];
    let fresh = block_of(INSTANCE, zero_of_1, COORDINATOR, 0).round((0, 1, 3)).done();
    assert_eq!(step(2, &fresh, &ZEROS, [1, 0, 3, 0]).0, 0);
}

#[test]
fn hear() {
    let crnd = (9, 1, 1);
    let message = one_b(1, crnd, (3, 0, 3), Some(V0));
    let before = row(crnd).none().done();
    let after = row(crnd).none().no_heard().heard((3, 0, 3), Some(V0)).done();
    assert_eq!(on(4, &before, &message), (0, after, ZEROS));
    assert_eq!(answer(4, &after, &message), 7);
    let other = one_b(1, crnd, ZERO, None);
    assert_eq!(answer(4, &after, &other), 7);
    // A slot with no vote holds vrnd Zero.
    let none = row(crnd).none().no_heard().heard(ZERO, None).done();
    assert_eq!(on(4, &before, &other), (0, none, ZEROS));
    for round in [(9, 1, 3), (9, 0, 1), (8, 1, 1), (10, 1, 1)] {
        assert_eq!(answer(4, &before, &one_b(1, round, ZERO, None)), 6);
    }
    // After opening nothing more is heard, and a wrong round is still 6.
    let opened = row(crnd).some(&[]).heard(ZERO, None).done();
    assert_eq!(answer(4, &opened, &message), 7);
    assert_eq!(answer(4, &opened, &one_b(1, (9, 1, 3), ZERO, None)), 6);
    assert_eq!(answer(4, &before, &two_b(1, crnd, V0)), 5);
}

#[test]
fn open_as_the_document_gives_it() {
    let round = (9, 1, 1);
    let at = (3, 0, 3);
    let both = [Reading(V), Reading(W)];
    assert_eq!(opened(&[(at, Some(V0)), (at, Some(W1))]), two_s(round, &both));
    assert_eq!(opened(&[(at, Some(V0)), (ZERO, None)]), two_s(round, &[Reading(V), Nil]));
    assert_eq!(opened(&[(ZERO, None), (ZERO, None)]), two_s(round, &[]));
    // crnd's cf has rack 0 alone: Nil goes over all racks all the same.
    assert_eq!(opened(&[(ZERO, Some(W1)), (ZERO, None)]), two_s(round, &[Nil, Reading(W)]));
}

#[test]
fn open_takes_the_highest_vrnd() {
    let round = (9, 1, 1);
    let (low, high) = ((3, 0, 3), (3, 1, 3));
    // A lower vote may even clash with the highest.
    let clash: &[Line] = &[Reading(W), Reading(W)];
    let sent = two_s(round, &[Reading(V), Nil]);
    assert_eq!(opened(&[(low, Some(clash)), (high, Some(V0))]), sent);
    assert_eq!(opened(&[(high, Some(V0)), (low, Some(clash)), (ZERO, None)]), sent);
    assert_eq!(opened(&[(ZERO, Some(clash)), (ZERO, None), (low, Some(V0))]), sent);
    let both = [Reading(V), Reading(W)];
    let heard: [(Round, Option<&[Line]>); 3] =
        [(high, Some(W1)), (low, Some(clash)), (high, Some(V0))];
    assert_eq!(opened(&heard), two_s(round, &both));
}

#[test]
fn open_refused() {
    let open = |row: [u8; 512]| step(5, &row, &ZEROS, [0; 4]).0;
    let at = (3, 0, 3);
    // Round Zero belongs to coordinator 0; coordinator 1 can't open it, and
    // coordinator 0 has it open from the start.
    assert_eq!(open(row(ZERO).none().done()), 6);
    assert_eq!(open(row(ZERO).some(&[]).done()), 6);
    assert_eq!(open(block(COORDINATOR, 0).round(ZERO).some(&[]).done()), 7);
    assert_eq!(open(block(COORDINATOR, 0).round(ZERO).none().done()), 8);
    // Two of three boxes are a majority, one is not.
    assert_eq!(open(hearing(&[])), 8);
    assert_eq!(open(hearing(&[(at, Some(V0))])), 8);
    assert_eq!(open(hearing(&[(at, Some(V0)), (ZERO, None)])), 0);
    // Already open: 7, before 8.
    assert_eq!(open(row((9, 1, 1)).some(&[]).done()), 7);
    // Votes of the highest vrnd that clash.
    assert_eq!(open(hearing(&[(at, Some(V0)), (at, Some(&[Reading(W)]))])), 9);
    assert_eq!(open(hearing(&[(at, Some(V0)), (at, Some(&[Nil, Reading(V)]))])), 9);
    // Any two votes whose vrnds share n and c and not cf: 6, before 7 and 8,
    // also where they are not the highest.
    let other = (3, 0, 1);
    assert_eq!(open(hearing(&[(at, Some(V0)), (other, Some(V0))])), 6);
    assert_eq!(open(hearing(&[(at, Some(V0)), (other, Some(V0)), ((8, 0, 3), Some(V0))])), 6);
    let done = row((9, 1, 1)).some(&[]).heard(at, Some(V0)).heard(other, Some(V0));
    assert_eq!(open(done.done()), 6);
}

#[test]
fn majority_of_1_to_5() {
    for (boxes, majority) in [(1, 1), (2, 2), (3, 2), (4, 3), (5, 3)] {
        for heard in 0..=boxes {
            let mut build = block_of(0, [2, boxes, 2, 2, 0, 3], COORDINATOR, 1);
            build = build.round((1, 1, 3)).none();
            for _ in 0..heard {
                build = build.heard(ZERO, None);
            }
            let expected = if heard >= majority { 0 } else { 8 };
            assert_eq!(step(5, &build.done(), &ZEROS, [0; 4]).0, expected, "{heard} of {boxes}");
        }
    }
}

#[test]
fn rows_of_another_sort() {
    for row in [box_row(0, ZERO, ZERO, None), rack_row(0, ZERO, Absent), block(HEAD, 0).done()] {
        assert_eq!(step(2, &row, &ZEROS, [5, 0, 3, 0]).0, 5);
        assert_eq!(answer(4, &row, &one_b(1, (9, 1, 1), ZERO, None)), 5);
        assert_eq!(step(5, &row, &ZEROS, [0; 4]).0, 5);
    }
}
