//! The program `reports`: reports of a soil laboratory in a file, taken and listed.
//!
//! `reports --help` lists the commands.

use std::env;
use std::ffi::OsString;
use std::io::{self, IsTerminal};
use std::process::ExitCode;

use reports::program::{run, Streams};
use reports::signals::ignore_file_size_signal;

fn main() -> ExitCode {
    ignore_file_size_signal();
    let arguments: Vec<OsString> = env::args_os().skip(1).collect();
    let mut streams = Streams {
        input: &mut io::stdin().lock(),
        output: &mut io::stdout().lock(),
        errors: &mut io::stderr().lock(),
        at_terminal: io::stdin().is_terminal(),
        progress: io::stderr().is_terminal(),
    };
    ExitCode::from(run(&arguments, &mut streams))
}
