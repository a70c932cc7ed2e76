//! The benchmark: the verified library beside the twin, in one run and by
//! turns, best of many, as Markdown tables. Then the stack of each call.

mod cases;
mod clock;
mod play;
mod rehearsals;
mod stack;

use cases::{Case, Input};
use clock::{best, floor, Floor};
use twin::calls::{Calls, IS_LINKED, LIBRARY, NOTHING, TWIN};
use twin::layout::*;

fn main() {
    if !IS_LINKED {
        println!("No library is linked: the twin stands in both columns.\n");
    }
    let cases = cases::all();
    let floor = floor();
    speed(&cases, &floor);
    println!();
    stacks(&cases);
}

/// ns per call. The floor is the time for summing and writing the blocks that
/// the case cannot do without, as measured in the last lines.
fn speed(cases: &[Case], floor: &Floor) {
    println!("| Case | Library, ns | Twin, ns | Ratio | Floor, ns |");
    println!("|---|---:|---:|---:|---:|");
    let mut logs = 0.0;
    let mut worst = (0.0, "");
    for case in cases {
        let best = best(case);
        let ratio = best.library / best.twin;
        logs += ratio.ln();
        if ratio > worst.0 {
            worst = (ratio, &case.name);
        }
        let least = case.sums as f64 * floor.sum + case.writes as f64 * floor.write;
        println!(
            "| {} | {:.0} | {:.0} | {ratio:.2} | {least:.0} |",
            case.name, best.library, best.twin
        );
    }
    let mean = (logs / cases.len() as f64).exp();
    println!("| geometric mean | | | {mean:.2} | |");
    println!("| highest: {} | | | {:.2} | |", worst.1, worst.0);
    println!("| floor: one block summed word by word | | | | {:.1} |", floor.sum);
    println!("| floor: one block summed in eight lanes | | | | {:.1} |", floor.sum_in_lanes);
    println!("| floor: one block cleared, of 118 in a row | | | | {:.1} |", floor.write);
    match rehearsals::best() {
        Ok((Some(library), twin)) => {
            let ratio = library / twin;
            println!("| rehearsal on 10 MB, in ms | {library:.0} | {twin:.0} | {ratio:.2} | |");
        }
        Ok((None, twin)) => println!("| rehearsal on 10 MB, in ms | - | {twin:.0} | - | |"),
        Err(error) => println!("| rehearsal on 10 MB: {error} | | | | |"),
    }
}

/// The deepest that the cases of each sort go, bytes below the caller.
fn stacks(cases: &[Case]) {
    println!("| Stack, bytes | Library | Twin |");
    println!("|---|---:|---:|");
    let rows = (1..=13).map(|code| format!("C step {code} ")).chain(
        ["C step refused early", "hall step", "setup", "book"].into_iter().map(String::from),
    );
    for name in rows {
        let deepest = |calls: &Calls| {
            let named = cases.iter().filter(|case| case.name.starts_with(&name));
            named.map(|case| depth(case, calls)).max().unwrap_or(0)
        };
        println!("| {} | {} | {} |", name.trim(), deepest(&LIBRARY), deepest(&TWIN));
    }
}

/// How much deeper a call goes than one to functions that do nothing.
fn depth(case: &Case, calls: &Calls) -> usize {
    used(case, calls).saturating_sub(used(case, &NOTHING))
}

/// The stack that a call uses, caller and all, after one that has settled what
/// happens only once.
fn used(case: &Case, calls: &Calls) -> usize {
    let measure = |call: &mut dyn FnMut()| {
        call();
        stack::used(call)
    };
    match &case.input {
        Input::C { row, message, step } => {
            let (mut lent, mut sent) = (row.clone(), [0; BLOCK]);
            measure(&mut || {
                lent.copy_from_slice(row);
                calls.box_step(&mut lent, message, &mut sent, *step);
            })
        }
        Input::Hall { hall, step } => {
            let mut lent = hall.clone();
            measure(&mut || {
                lent.copy_from_slice(hall);
                calls.hall_step(&mut lent, *step);
            })
        }
        Input::Setup { numbers } => {
            let mut hall = vec![0; HALL];
            measure(&mut || {
                calls.hall_setup(&mut hall, *numbers);
            })
        }
        Input::Book { blocks } => {
            let mut list = [0; MAX_BOOK * MAX_RACKS];
            measure(&mut || {
                calls.book(blocks, &mut list);
            })
        }
        Input::Instance { .. } => 0,
    }
}
