//! Writes the questions and answers of the reference into two files.
//!
//! Use: `write-vectors DIR`. The questions go to `DIR/stdin` and the answers to `DIR/stdout`. Both
//! are first written whole under other names in the same folder and only then renamed, so that no
//! file is left half written. If anything fails, the program says what and ends with status 2.

use std::env;
use std::ffi::OsString;
use std::fs::{self, File};
use std::io::{self, Write};
use std::path::{Path, PathBuf};
use std::process::ExitCode;

use reference::vectors;

fn main() -> ExitCode {
    let arguments: Vec<OsString> = env::args_os().skip(1).collect();
    match run(&arguments) {
        Ok(report) => say(&report),
        Err(problem) => {
            eprintln!("write-vectors: {problem}");
            ExitCode::from(2)
        }
    }
}

/// Prints what was written. The files are in place by then, so an output that is closed is no
/// failure.
fn say(report: &str) -> ExitCode {
    let _ = io::stdout().write_all(report.as_bytes());
    ExitCode::SUCCESS
}

/// Writes both files and gives a text that says what was written, or a text that says what is
/// wrong.
fn run(arguments: &[OsString]) -> Result<String, String> {
    let folder = folder_of(arguments)?;
    let stdin = Output::new(folder, "stdin", vectors::all_questions());
    let stdout = Output::new(folder, "stdout", vectors::all_answers());
    let outputs = [&stdin, &stdout];
    for output in outputs {
        output.check_place()?;
    }
    let result = write_all(&outputs);
    if result.is_err() {
        outputs.iter().for_each(|output| output.remove_partial());
    }
    result?;
    Ok(format!("{}\n{}\n", stdin.report(), stdout.report()))
}

/// The folder named by the only argument.
fn folder_of(arguments: &[OsString]) -> Result<&Path, String> {
    let [argument] = arguments else {
        return Err(format!(
            "one argument is needed, the folder to write to; {} given",
            arguments.len()
        ));
    };
    let folder = Path::new(argument);
    match fs::metadata(folder) {
        Ok(data) if data.is_dir() => Ok(folder),
        Ok(_) => Err(format!("{} is not a folder", folder.display())),
        Err(error) => Err(format!(
            "the folder {} cannot be used: {error}",
            folder.display()
        )),
    }
}

/// Writes all outputs under their partial names, then gives all of them their names.
fn write_all(outputs: &[&Output]) -> Result<(), String> {
    for output in outputs {
        output.write_partial()?;
    }
    for output in outputs {
        output.rename_partial()?;
    }
    Ok(())
}

/// A file to be written.
struct Output {
    /// Where the file ends up.
    path: PathBuf,
    /// Where it is first written.
    partial: PathBuf,
    /// What it holds.
    content: Vec<u8>,
}

impl Output {
    fn new(folder: &Path, name: &str, content: Vec<u8>) -> Output {
        Output {
            path: folder.join(name),
            partial: folder.join(format!("{name}.partial")),
            content,
        }
    }

    /// Refuses a place that is taken by something other than a file.
    fn check_place(&self) -> Result<(), String> {
        match fs::symlink_metadata(&self.path) {
            Ok(data) if !data.is_file() => Err(format!(
                "{} is there and is not a file",
                self.path.display()
            )),
            _ => Ok(()),
        }
    }

    /// Writes the content under the partial name.
    fn write_partial(&self) -> Result<(), String> {
        let written = File::create(&self.partial).and_then(|mut file| {
            file.write_all(&self.content)?;
            file.sync_all()
        });
        written.map_err(|error| format!("cannot write {}: {error}", self.partial.display()))
    }

    /// Gives the written file its name. A file of that name is replaced.
    fn rename_partial(&self) -> Result<(), String> {
        fs::rename(&self.partial, &self.path).map_err(|error| {
            let (from, to) = (self.partial.display(), self.path.display());
            let warning = "stdin and stdout may now be of different runs";
            format!("cannot rename {from} to {to}: {error}; {warning}")
        })
    }

    /// Removes what stands under the partial name, if anything does.
    fn remove_partial(&self) {
        let _ = fs::remove_file(&self.partial);
    }

    /// Says what was written.
    fn report(&self) -> String {
        format!(
            "wrote {}: {} bytes",
            self.path.display(),
            self.content.len()
        )
    }
}
