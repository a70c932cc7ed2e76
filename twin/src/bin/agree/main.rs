//! The agreement program: the verified library and the twin on the same
//! inputs, answer and every lent byte, and demand 3 watched along each
//! undamaged run.
//!
//! agree [--seed S] [--inputs N]   compares on at least N inputs
//! agree --turn T [--seed S]       replays one turn
//! agree --teeth [--seed S]        twins with a single mistake must be told apart
//!
//! Where the library is not linked in, CHINCHOR_ANSWERER may name the command
//! that runs it as a process of its own (answerer.c), under an emulator if need
//! be: words separated by spaces.

mod answerer;
mod books;
mod compare;
mod damage;
mod drive;
mod numbers;
mod rng;
mod runs;
mod synthetic;
mod teeth;
mod turns;
mod view;
mod watch;

use std::process::ExitCode;

use answerer::Answerer;
use compare::{Compare, Make, Tally};
use runs::Stop;
use turns::Seen;
use twin::calls::{IS_LINKED, LIBRARY, TWIN};

const SEED: u64 = 132;
const INPUTS: u64 = 1_000_000;

struct Asked {
    seed: u64,
    inputs: u64,
    turn: Option<u64>,
    teeth: bool,
}

fn main() -> ExitCode {
    let Some(asked) = asked(std::env::args().skip(1)) else {
        eprintln!("usage: agree [--seed S] [--inputs N | --turn T | --teeth]");
        return ExitCode::from(2);
    };
    println!("seed {}", asked.seed);
    let (passed, failed) = if asked.teeth { teeth::teeth(asked.seed) } else { compared(&asked) };
    println!("{passed} passed, {failed} failed");
    if failed == 0 {
        ExitCode::SUCCESS
    } else {
        ExitCode::FAILURE
    }
}

fn asked(mut words: impl Iterator<Item = String>) -> Option<Asked> {
    let mut asked = Asked { seed: SEED, inputs: INPUTS, turn: None, teeth: false };
    while let Some(word) = words.next() {
        let mut number = || words.next()?.parse().ok();
        match word.as_str() {
            "--seed" => asked.seed = number()?,
            "--inputs" => asked.inputs = number()?,
            "--turn" => asked.turn = Some(number()?),
            "--teeth" => asked.teeth = true,
            _ => return None,
        }
    }
    Some(asked)
}

/// Compares library and twin; answers how many inputs agreed, and how many
/// turns ended at a difference or a broken promise.
fn compared(asked: &Asked) -> (u64, u64) {
    let mut compare = Compare::new(library(), TWIN);
    let mut seen = Seen::default();
    let mut failed = 0;
    let turns = asked.turn.map_or(0..u64::MAX, |turn| turn..turn + 1);
    for turn in turns {
        if asked.turn.is_none() && compare.inputs >= asked.inputs {
            break;
        }
        let trouble = match turns::turn(&mut compare, asked.seed, turn) {
            Ok(watch) => {
                seen.add(&watch);
                continue;
            }
            Err(Stop::Differ) => compare.difference.take().unwrap_or_default(),
            Err(Stop::Broken(promise)) => format!("demand 3: {promise}"),
        };
        if failed == 0 {
            println!("turn {turn}, input {}: {trouble}", compare.inputs);
            println!("replay it with: agree --seed {} --turn {turn}", asked.seed);
        }
        failed += 1;
    }
    report(&compare.tally, &seen);
    (compare.inputs - failed.min(compare.inputs), failed)
}

/// The verified library, linked in or as a process of its own; with neither,
/// the twin stands in.
fn library() -> Box<dyn Make> {
    match std::env::var("CHINCHOR_ANSWERER") {
        Ok(command) if !IS_LINKED && !command.is_empty() => {
            println!("the verified library, as a process of its own, beside the twin");
            Box::new(Answerer::new(&command))
        }
        _ if IS_LINKED => {
            println!("the verified library, linked in, beside the twin");
            Box::new(LIBRARY)
        }
        _ => {
            println!("no library is linked: the twin beside itself");
            Box::new(LIBRARY)
        }
    }
}

fn report(tally: &Tally, seen: &Seen) {
    println!("hall steps granted, 1 to 13: {:?}", &tally.hall_granted[1..]);
    println!("C steps granted, 1 to 13:    {:?}", &tally.c_granted[1..]);
    println!("hall step answers, 0 to 11:  {:?}", tally.hall_answers);
    println!("C step answers, 0 to 11:     {:?}", tally.c_answers);
    println!("setup answers, 0 to 11:      {:?}", tally.setup_answers);
    println!("book answers, 0 to 11:       {:?}", tally.book_answers);
    println!(
        "demand 3 watched over {} steps of {} undamaged runs, {} steps granted, {} runs with votes \
         in several rounds: {} lines learned, {} of them readings, {} in rounds above Zero",
        seen.watched,
        seen.runs,
        seen.granted,
        seen.contested,
        seen.lines,
        seen.readings,
        seen.above_zero
    );
}
