//! The rehearsal on 10 MB of lines: the program that CHINCHOR_REHEARSAL names
//! beside the twin's, by turns, each as its own process.

use std::env;
use std::fs::{self, File};
use std::io;
use std::path::Path;
use std::process::{Command, Stdio};
use std::time::{Duration, Instant};

const BYTES: usize = 10_000_000;
const TURNS: usize = 5;

/// ms for the whole input: the named program, if there is one, and the twin's.
pub fn best() -> io::Result<(Option<f64>, f64)> {
    let twin = env::current_exe()?.with_file_name("rehearse");
    let other = env::var_os("CHINCHOR_REHEARSAL");
    let input = env::temp_dir().join(format!("rehearsal-{}.txt", std::process::id()));
    fs::write(&input, lines())?;
    let mut least = [Duration::MAX; 2];
    for _ in 0..TURNS {
        if let Some(other) = &other {
            least[0] = least[0].min(time(Path::new(other), &input)?);
        }
        least[1] = least[1].min(time(&twin, &input)?);
    }
    fs::remove_file(&input)?;
    let [library, twin] = least.map(|spent| spent.as_secs_f64() * 1_000.0);
    Ok((other.map(|_| library), twin))
}

fn time(program: &Path, input: &Path) -> io::Result<Duration> {
    let began = Instant::now();
    let status = Command::new(program).stdin(File::open(input)?).stdout(Stdio::null()).status()?;
    let spent = began.elapsed();
    assert!(status.success(), "{} failed", program.display());
    Ok(spent)
}

/// A setup and steps with small numbers, of which some are granted and most
/// are refused for every reason that there is.
fn lines() -> Vec<u8> {
    let mut text = b"0 3 5 2 2 0 7\n".to_vec();
    let mut state = 132u64;
    let mut below = |bound: u64| {
        state =
            state.wrapping_mul(6_364_136_223_846_793_005).wrapping_add(1_442_695_040_888_963_407);
        (state >> 33) % bound
    };
    while text.len() < BYTES {
        let numbers = [1 + below(13), below(4), below(90), below(3), below(2), 7];
        for number in numbers {
            text.extend_from_slice(number.to_string().as_bytes());
            text.push(b' ');
        }
        text.extend_from_slice((459_602 + below(9) * 65_536).to_string().as_bytes());
        text.push(b'\n');
    }
    text
}
