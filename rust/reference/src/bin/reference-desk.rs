//! The desk program of document 01.
//!
//! Use: `reference-desk` with frames on standard input. All input is read first, then all lines are
//! written to standard output. If reading or writing fails, the program says why and ends with
//! status 2.

use std::io::{self, Read, Write};
use std::process::ExitCode;

use reference::desk;

fn main() -> ExitCode {
    match run() {
        Ok(()) => ExitCode::SUCCESS,
        Err(error) => {
            eprintln!("reference-desk: {error}");
            ExitCode::from(2)
        }
    }
}

/// Reads the input and writes the lines.
fn run() -> io::Result<()> {
    let mut input = Vec::new();
    io::stdin().lock().read_to_end(&mut input)?;
    let mut output = io::stdout().lock();
    output.write_all(&desk::run(&input))?;
    output.flush()
}
