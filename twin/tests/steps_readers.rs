//! Steps 11, 12 and 13, each refusal and the exact bytes of what is granted.

mod common;
use common::*;

const V0: &[Line] = &[Reading(V)];
const W1: &[Line] = &[Absent, Reading(W)];
const BOTH: &[Line] = &[Reading(V), Reading(W)];

/// Reader 1 with this page and these held, in order of boxes.
fn reader(page: &[Line], held: &[(Round, &[Line])]) -> Build {
    let start = block(READER, 1).page(page);
    held.iter().fold(start, |row, &(round, lines)| row.held(round, lines))
}

/// The same, with blanks of racks 0 and 1.
fn blanked(page: &[Line], held: &[(Round, &[Line])], blanks: [Option<Round>; 2]) -> [u8; 512] {
    let start = reader(page, held).zeros((5 - held.len()) * 45);
    let add = |row: Build, blank| match blank {
        Some(round) => row.blank(round),
        None => row.no_blank(),
    };
    blanks.into_iter().fold(start, add).done()
}

fn learn(row: &[u8; 512], round: Round) -> (u32, [u8; 512], [u8; 512]) {
    step(13, row, &ZEROS, [round.0.into(), round.1.into(), round.2.into(), 0])
}

#[test]
fn note_vote() {
    let at = (3, 0, 3);
    let before = reader(&[], &[]).no_held().held(at, V0).done();
    let noted = |round, lines| reader(&[], &[]).no_held().held(round, lines).done();
    // Held none.
    let empty = reader(&[], &[]).done();
    assert_eq!(on(11, &empty, &two_b(1, at, V0)), (0, before, ZEROS));
    // Of a lower round: replaced, whatever it says.
    for round in [(3, 1, 3), (4, 0, 1)] {
        assert_eq!(on(11, &before, &two_b(1, round, W1)), (0, noted(round, W1), ZEROS));
    }
    // Higher held, or the same n and c under another cf.
    for round in [(2, 1, 3), ZERO, (3, 0, 1)] {
        assert_eq!(answer(11, &before, &two_b(1, round, V0)), 6);
    }
    // Same round.
    assert_eq!(on(11, &before, &two_b(1, at, BOTH)), (0, noted(at, BOTH), ZEROS));
    let extended: &[Line] = &[Reading(V), Nil];
    assert_eq!(on(11, &before, &two_b(1, at, extended)), (0, noted(at, extended), ZEROS));
    assert_eq!(answer(11, &before, &two_b(1, at, V0)), 7);
    assert_eq!(answer(11, &noted(at, BOTH), &two_b(1, at, V0)), 7);
    assert_eq!(answer(11, &before, &two_b(1, at, W1)), 9);
    assert_eq!(answer(11, &before, &two_b(1, at, &[Reading(W)])), 9);
    assert_eq!(answer(11, &before, &two_b(1, at, &[Nil, Reading(V)])), 9);
    // Another box has its own slot.
    let two = reader(&[], &[(at, V0), (at, V0)]).done();
    assert_eq!(on(11, &before, &two_b(0, at, V0)), (0, two, ZEROS));
    assert_eq!(answer(11, &empty, &two_s(at, BOTH)), 5);
}

#[test]
fn note_blank() {
    let at = (3, 0, 3);
    let empty = blanked(&[], &[], [None, None]);
    let noted = |round| blanked(&[], &[], [None, Some(round)]);
    assert_eq!(on(12, &empty, &two_a(1, at, Nil)), (0, noted(at), ZEROS));
    assert_eq!(on(12, &empty, &two_a(1, ZERO, Nil)), (0, noted(ZERO), ZEROS));
    for round in [(3, 1, 3), (4, 0, 2)] {
        assert_eq!(on(12, &noted(at), &two_a(1, round, Nil)), (0, noted(round), ZEROS));
    }
    assert_eq!(answer(12, &noted(at), &two_a(1, at, Nil)), 7);
    for round in [(2, 1, 3), ZERO, (3, 0, 2)] {
        assert_eq!(answer(12, &noted(at), &two_a(1, round, Nil)), 6);
    }
    assert_eq!(answer(12, &empty, &two_a(1, at, Reading(V))), 5);
    assert_eq!(answer(12, &empty, &propose(1, V)), 5);
}

#[test]
fn learn_as_the_document_gives_it() {
    let at = ZERO;
    let held: [(Round, &[Line]); 3] = [(at, BOTH), (at, V0), (at, W1)];
    let learned = reader(BOTH, &held).done();
    assert_eq!(learn(&reader(&[], &held).done(), at), (0, learned, ZEROS));
    let held: [(Round, &[Line]); 2] = [(at, V0), (at, W1)];
    let before = reader(&[], &held).done();
    assert_eq!(learn(&before, at), (0, before, ZEROS));
}

#[test]
fn learn_with_blanks() {
    let at = (3, 0, 3);
    let held: [(Round, &[Line]); 2] = [(at, V0), (at, V0)];
    let after = |page, blank| (0, blanked(page, &held, [None, blank]), ZEROS);
    let with = |blank| learn(&blanked(&[], &held, [None, blank]), at);
    assert_eq!(with(None), after(V0, None));
    assert_eq!(with(Some(at)), after(&[Reading(V), Nil], Some(at)));
    // Blanks of any other round do not count.
    for round in [(3, 0, 1), (3, 0, 2), (2, 0, 3), (4, 0, 3), ZERO] {
        assert_eq!(with(Some(round)), after(V0, Some(round)));
    }
    // Nor does that of a rack outside the round's cf.
    let narrow = (3, 0, 1);
    let held: [(Round, &[Line]); 2] = [(narrow, V0), (narrow, V0)];
    let before = blanked(&[], &held, [None, Some(narrow)]);
    assert_eq!(learn(&before, narrow), (0, blanked(V0, &held, [None, Some(narrow)]), ZEROS));
    // Nil comes first, then the prefix: a reading and a blank of one rack.
    let held: [(Round, &[Line]); 3] = [(at, BOTH), (at, BOTH), (at, V0)];
    let before = blanked(&[], &held, [None, Some(at)]);
    assert_eq!(learn(&before, at), (0, blanked(BOTH, &held, [None, Some(at)]), ZEROS));
}

#[test]
fn learn_needs_a_majority_at_exactly_that_round() {
    let at = (3, 0, 3);
    for other in [(3, 0, 1), (3, 1, 3), (2, 0, 3), (4, 0, 3)] {
        let row = reader(&[], &[(at, V0), (other, V0)]).done();
        assert_eq!(learn(&row, at).0, 8);
    }
    assert_eq!(learn(&reader(&[], &[(at, V0)]).done(), at).0, 8);
    let held: [(Round, &[Line]); 3] = [(at, V0), ((3, 0, 1), V0), (at, V0)];
    let row = reader(&[], &held).done();
    assert_eq!(learn(&row, at), (0, reader(V0, &held).done(), ZEROS));
}

#[test]
fn learn_clashes() {
    let at = (3, 0, 3);
    let held: [(Round, &[Line]); 2] = [(at, V0), (at, V0)];
    // Against the reader's page.
    for page in [&[Reading(W)] as &[Line], &[Nil], &[Nil, Reading(W)]] {
        assert_eq!(learn(&reader(page, &held).done(), at).0, 9);
    }
    let row = reader(&[Reading(V), Nil], &held).done();
    assert_eq!(learn(&row, at), (0, row, ZEROS));
    // A result of Nil alone: pages that agree on their Nil and not on the rest.
    let held: [(Round, &[Line]); 2] = [(at, &[Nil, Reading(V)]), (at, &[Nil, Reading(W)])];
    let row = reader(&[], &held).done();
    assert_eq!(learn(&row, at), (0, reader(&[Nil], &held).done(), ZEROS));
    assert_eq!(learn(&reader(&[Absent, Nil], &held).done(), at).0, 9);
}

#[test]
fn learn_out_of_range() {
    let at = (1, 0, 3);
    let row = reader(&[], &[(at, V0), (at, V0)]).done();
    let learn = |n, c, cf| step(13, &row, &ZEROS, [n, c, cf, 0]).0;
    assert_eq!(learn(1, 0, 3), 0);
    for (n, c, cf) in [
        (0, 1, 3),
        (0, 0, 1),
        (0, 0, 0),
        (1, 2, 3),
        (1, 256, 3),
        (1, 0, 0),
        (1, 0, 4),
        (1, 0, 259),
        (65_537, 0, 3),
        (u32::MAX, u32::MAX, u32::MAX),
    ] {
        assert_eq!(learn(n, c, cf), 11, "{n} {c} {cf}");
    }
    for (n, c, cf) in [(0, 0, 3), (65_535, 1, 2), (1, 1, 3), (1, 0, 1)] {
        assert_eq!(learn(n, c, cf), 8, "{n} {c} {cf}");
    }
}
