//! The rehearsal program in plain Rust: standard input to standard output, in
//! fixed memory. Its speed is what the verified program's is compared with.

use std::io::{self, BufWriter, Read, Write};
use std::process::ExitCode;

use twin::rehearsal::Rehearsal;

const BUFFER: usize = 65_536;

fn main() -> ExitCode {
    match rehearse() {
        Ok(()) => ExitCode::SUCCESS,
        Err(error) => {
            eprintln!("rehearse: {error}");
            ExitCode::FAILURE
        }
    }
}

fn rehearse() -> io::Result<()> {
    let mut input = io::stdin().lock();
    let mut out = BufWriter::with_capacity(BUFFER, io::stdout().lock());
    let mut rehearsal = Rehearsal::new();
    let mut piece = [0; BUFFER];
    loop {
        let length = match input.read(&mut piece) {
            Ok(0) => break,
            Ok(length) => length,
            Err(error) if error.kind() == io::ErrorKind::Interrupted => continue,
            Err(error) => return Err(error),
        };
        if !rehearsal.read(&piece[..length], &mut out)? {
            break;
        }
    }
    rehearsal.finish(&mut out)?;
    out.flush()
}
