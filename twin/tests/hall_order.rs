//! The hall step's order of refusals, and what a granted step changes.

mod common;
use common::*;
use twin::{hall_setup, hall_step};

const HALL: usize = 60_416;

/// Blocks of a hall: rack 0, box 0, reader 0 and the first message.
const RACK_0: usize = 10;
const BOX_0: usize = 5;
const READER_0: usize = 18;
const POST: usize = 22;

fn fresh() -> Vec<u8> {
    let mut hall = vec![0; HALL];
    assert_eq!(hall_setup(&mut hall, [INSTANCE.into(), 2, 3, 2, 2, 0, 3]), 0);
    hall
}

/// The answer; a refused step must change no byte.
fn step(hall: &mut [u8], step: [u32; 7]) -> u32 {
    let before = hall.to_vec();
    let answer = hall_step(hall, step);
    assert!(answer == 0 || hall == before, "step {step:?} changed the hall");
    answer
}

fn put(hall: &mut [u8], place: usize, block: [u8; 512]) {
    hall[place * 512..][..512].copy_from_slice(&block);
}

fn get(hall: &[u8], place: usize) -> [u8; 512] {
    hall[place * 512..][..512].try_into().unwrap()
}

const OFFER: [u32; 7] = [1, 0, 0, 0, 0, 0, V];
const FAST: [u32; 7] = [7, 0, 0, 0, 0, 0, 0];

/// A fresh hall with one PROPOSE in its post.
fn offered() -> Vec<u8> {
    let mut hall = fresh();
    assert_eq!(step(&mut hall, OFFER), 0);
    hall
}

#[test]
fn length() {
    for length in [0, 511, 512, HALL - 1, HALL - 512, HALL + 1, HALL + 512] {
        assert_eq!(step(&mut vec![0; length], OFFER), 1);
    }
}

#[test]
fn head_comes_before_numbers() {
    let nonsense = [99, 99, 99, 0, 0, 0, 0];
    assert_eq!(step(&mut vec![0; HALL], nonsense), 2);
    let mut hall = fresh();
    assert_eq!(step(&mut hall, nonsense), 4);
    // A good block of another kind is no head.
    put(&mut hall, 0, block(READER, 0).done());
    assert_eq!(step(&mut hall, nonsense), 2);
    put(&mut hall, 0, block(HEAD, 1).done());
    assert_eq!(step(&mut hall, nonsense), 2);
    put(&mut hall, 0, block(HEAD, 0).byte(97).done());
    assert_eq!(step(&mut hall, nonsense), 2);
}

#[test]
fn no_such_step_agent_or_message() {
    let mut hall = offered();
    // Racks 2, boxes 3, coordinators 2, readers 2.
    let agents = [2, 2, 3, 2, 2, 2, 2, 2, 3, 3, 2, 2, 2];
    for (code, agents) in (1..).zip(agents) {
        let mut hall = hall.clone();
        let at = |agent, number| [code, agent, number, 0, 0, 0, 0];
        for agent in [agents, 255, 256, 65_536, u32::MAX] {
            assert_eq!(step(&mut hall, at(agent, 0)), 4, "step {code} agent {agent}");
        }
        assert_ne!(step(&mut hall.clone(), at(agents - 1, 0)), 4, "step {code}");
        let names = ![1, 2, 5, 13].contains(&code);
        for number in [1, 96, 256, 65_536, u32::MAX] {
            let refused = step(&mut hall, at(agents - 1, number)) == 4;
            assert_eq!(refused, names, "step {code} message {number}");
        }
    }
    for code in [0, 14, 257, u32::MAX] {
        assert_eq!(step(&mut hall, [code, 0, 0, 0, 0, 0, 0]), 4);
    }
    // 4 comes before 11.
    assert_eq!(step(&mut hall, [1, 2, 0, 0, 0, 0, 0]), 4);
    assert_eq!(step(&mut hall, [1, 1, 0, 0, 0, 0, 0]), 11);
}

#[test]
fn range_comes_before_the_row() {
    let mut hall = fresh();
    for place in 1..POST {
        put(&mut hall, place, ZEROS);
    }
    assert_eq!(step(&mut hall, [1, 0, 0, 0, 0, 0, 65_535]), 11);
    assert_eq!(step(&mut hall, OFFER), 2);
    assert_eq!(step(&mut hall, [2, 0, 0, 0, 0, 3, 0]), 11);
    assert_eq!(step(&mut hall, [2, 0, 0, 1, 9, 4, 0]), 11);
    assert_eq!(step(&mut hall, [2, 0, 0, 1, 9, 3, 0]), 2);
    assert_eq!(step(&mut hall, [13, 0, 0, 0, 0, 1, 0]), 11);
    assert_eq!(step(&mut hall, [13, 0, 0, 0, 0, 3, 0]), 2);
}

#[test]
fn row_message_hall_sort() {
    let mut hall = offered();
    let place = [7, 0, 0, 0, 0, 0, 0];
    // A message that is bad, of another instance, of another kind.
    put(&mut hall, POST, ZEROS);
    assert_eq!(step(&mut hall, place), 2);
    put(&mut hall, POST, block_of(6, SETUP, PROPOSE, 0).word(V).done());
    assert_eq!(step(&mut hall, place), 3);
    put(&mut hall, POST, block_of(6, SETUP, TWO_A, 0).round(ZERO).line(Nil).done());
    assert_eq!(step(&mut hall, place), 3);
    put(&mut hall, POST, two_a(0, ZERO, Nil));
    assert_eq!(step(&mut hall, place), 5);
    put(&mut hall, POST, block(HEAD, 0).done());
    assert_eq!(step(&mut hall, place), 5);
    // A message that is bad comes before a row of another instance.
    put(&mut hall, RACK_0, block_of(6, SETUP, RACK, 0).round(ZERO).done());
    assert_eq!(step(&mut hall, place), 3);
    put(&mut hall, POST, ZEROS);
    assert_eq!(step(&mut hall, place), 2);
}

#[test]
fn a_row_out_of_its_place() {
    let mut hall = offered();
    // Rack 1's row in rack 0's place.
    put(&mut hall, RACK_0, rack_row(1, ZERO, Absent));
    assert_eq!(step(&mut hall, FAST), 3);
    // A good block of any kind there: its agent number is judged first.
    put(&mut hall, RACK_0, box_row(1, ZERO, ZERO, None));
    assert_eq!(step(&mut hall, FAST), 3);
    put(&mut hall, RACK_0, box_row(0, ZERO, ZERO, None));
    assert_eq!(step(&mut hall, FAST), 5);
    put(&mut hall, RACK_0, propose(0, V));
    assert_eq!(step(&mut hall, FAST), 5);
    put(&mut hall, RACK_0, block(HEAD, 0).done());
    assert_eq!(step(&mut hall, OFFER), 5);
    // A row of another hall.
    put(&mut hall, RACK_0, block_of(INSTANCE, [2, 3, 2, 1, 0, 3], RACK, 0).round(ZERO).done());
    assert_eq!(step(&mut hall, OFFER), 3);
}

#[test]
fn a_granted_step_changes_row_message_and_head_alone() {
    let mut hall = offered();
    let mut expected = fresh();
    put(&mut expected, 0, block(HEAD, 0).byte(1).done());
    put(&mut expected, POST, propose(0, V));
    assert!(hall == expected);
    // What stood in the free block before doesn't matter.
    put(&mut hall, POST + 1, [0x99; 512]);
    assert_eq!(step(&mut hall, FAST), 0);
    put(&mut expected, 0, block(HEAD, 0).byte(2).done());
    put(&mut expected, RACK_0, rack_row(0, ZERO, Reading(V)));
    put(&mut expected, POST + 1, two_a(0, ZERO, Reading(V)));
    assert!(hall == expected);
    assert_eq!(step(&mut hall, [10, 0, 1, 0, 0, 0, 0]), 0);
    assert_eq!(get(&hall, BOX_0), box_row(0, ZERO, ZERO, Some(&[Reading(V)])));
    assert_eq!(get(&hall, POST + 2), two_b(0, ZERO, &[Reading(V)]));
    assert_eq!(step(&mut hall, [11, 0, 2, 0, 0, 0, 0]), 0);
    let noted = block(READER, 0).page(&[]).held(ZERO, &[Reading(V)]).done();
    assert_eq!(get(&hall, READER_0), noted);
    assert_eq!(get(&hall, 0), block(HEAD, 0).byte(3).done());
}

#[test]
fn message_96_fits_and_the_next_send_is_10() {
    let mut hall = offered();
    for _ in 1..95 {
        assert_eq!(step(&mut hall, OFFER), 0);
    }
    assert_eq!(get(&hall, 0), block(HEAD, 0).byte(95).done());
    assert_eq!(step(&mut hall, [7, 0, 95, 0, 0, 0, 0]), 4);
    assert_eq!(step(&mut hall, FAST), 0);
    assert_eq!(get(&hall, 117), two_a(0, ZERO, Reading(V)));
    assert_eq!(get(&hall, 0), block(HEAD, 0).byte(96).done());
    // 10 comes last: 11, 5, 6 and 7 are found before it.
    assert_eq!(step(&mut hall, OFFER), 10);
    assert_eq!(step(&mut hall, [1, 0, 0, 0, 0, 0, 65_535]), 11);
    assert_eq!(step(&mut hall, [7, 1, 95, 0, 0, 0, 0]), 5);
    assert_eq!(step(&mut hall, FAST), 7);
    assert_eq!(step(&mut hall, [7, 1, 0, 0, 0, 0, 0]), 10);
    assert_eq!(step(&mut hall, [8, 1, 95, 0, 0, 0, 0]), 10);
    assert_eq!(step(&mut hall, [10, 0, 95, 0, 0, 0, 0]), 10);
    assert_eq!(step(&mut hall, [2, 1, 0, 1, 0, 3, 0]), 10);
    assert_eq!(step(&mut hall, [5, 1, 0, 0, 0, 0, 0]), 6);
    assert_eq!(step(&mut hall, [5, 0, 0, 0, 0, 0, 0]), 7);
    // Steps that send nothing go on.
    put(&mut hall, 117, two_a(1, ZERO, Nil));
    assert_eq!(step(&mut hall, [12, 0, 95, 0, 0, 0, 0]), 0);
    assert_eq!(get(&hall, 0), block(HEAD, 0).byte(96).done());
}
