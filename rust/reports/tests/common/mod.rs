//! What the tests share: folders of their own, and runs of the program.

#![allow(dead_code)]

use std::ffi::OsString;
use std::fs;
use std::io::{ErrorKind, Read, Write};
use std::path::{Path, PathBuf};
use std::process::{Child, Command, Output, Stdio};
use std::sync::atomic::{AtomicU32, Ordering};
use std::thread;

use reports::program::{self, Streams};

/// A folder for one test, which goes with it.
pub struct Folder {
    path: PathBuf,
}

impl Folder {
    /// A new, empty folder.
    pub fn new() -> Folder {
        static NUMBER: AtomicU32 = AtomicU32::new(0);
        let number = NUMBER.fetch_add(1, Ordering::Relaxed);
        let name = format!("reports-test-{}-{number}", std::process::id());
        let path = Path::new(env!("CARGO_TARGET_TMPDIR")).join(name);
        fs::create_dir_all(&path).expect("a folder for the test");
        Folder { path }
    }

    /// The path of the folder.
    pub fn path(&self) -> &Path {
        &self.path
    }

    /// The path of a file in the folder.
    pub fn file(&self, name: &str) -> PathBuf {
        self.path.join(name)
    }

    /// The bytes of a file in the folder.
    pub fn read(&self, name: &str) -> Vec<u8> {
        fs::read(self.file(name)).expect("the file can be read")
    }

    /// Writes a file in the folder.
    pub fn write(&self, name: &str, bytes: &[u8]) {
        fs::write(self.file(name), bytes).expect("the file can be written");
    }

    /// The names of all files in the folder, in order.
    pub fn names(&self) -> Vec<String> {
        let entries = fs::read_dir(&self.path).expect("the folder can be read");
        let name = |entry: fs::DirEntry| entry.file_name().into_string().unwrap();
        let mut names: Vec<String> = entries.map(|entry| name(entry.unwrap())).collect();
        names.sort();
        names
    }

    /// The program in this folder, with these arguments.
    pub fn command(&self, arguments: &[&str]) -> Command {
        let mut command = Command::new(env!("CARGO_BIN_EXE_reports"));
        command.current_dir(&self.path).args(arguments);
        command.stdin(Stdio::null());
        command.stdout(Stdio::piped()).stderr(Stdio::piped());
        command
    }

    /// Runs the program in this folder.
    pub fn run(&self, arguments: &[&str], input: &[u8]) -> Output {
        let mut command = self.command(arguments);
        run(command.stdin(Stdio::piped()), input)
    }

    /// Starts the program in this folder on a pipe.
    pub fn start(&self, arguments: &[&str]) -> Child {
        let mut command = self.command(arguments);
        command.stdin(Stdio::piped()).spawn().expect("it runs")
    }

    /// Runs the program and fails unless it ends with this exit code; gives its output.
    pub fn expect(&self, exit: i32, arguments: &[&str], input: &[u8]) -> String {
        let output = self.run(arguments, input);
        let errors = text(&output.stderr);
        assert_eq!(output.status.code(), Some(exit), "{arguments:?}: {errors}");
        text(&output.stdout)
    }

    /// Runs the program and fails unless it ends with this exit code; gives its standard error.
    pub fn expect_errors(&self, exit: i32, arguments: &[&str], input: &[u8]) -> String {
        let output = self.run(arguments, input);
        let errors = text(&output.stderr);
        assert_eq!(output.status.code(), Some(exit), "{arguments:?}: {errors}");
        errors
    }
}

impl Drop for Folder {
    fn drop(&mut self) {
        // A folder that is left behind does no harm.
        let _ = fs::remove_dir_all(&self.path);
    }
}

/// Runs the program on this file in the process of the test, which is faster; gives its exit code and
/// what it prints.
pub fn run_here(file: &Path, words: &[&str], input: &[u8]) -> (u8, Vec<u8>, Vec<u8>) {
    run_with(file, words, &mut &input[..])
}

/// The same, with any input.
pub fn run_with(file: &Path, words: &[&str], input: &mut dyn Read) -> (u8, Vec<u8>, Vec<u8>) {
    let mut arguments = vec![file.as_os_str().to_os_string()];
    arguments.extend(words.iter().map(OsString::from));
    let (mut output, mut errors) = (Vec::new(), Vec::new());
    let mut streams = Streams {
        input,
        output: &mut output,
        errors: &mut errors,
        at_terminal: false,
        progress: false,
    };
    let exit = program::run(&arguments, &mut streams);
    (exit, output, errors)
}

/// Runs a command whose streams are all pipes, with this input.
pub fn run(command: &mut Command, input: &[u8]) -> Output {
    let mut child = command.spawn().expect("the program can be run");
    let mut stdin = child.stdin.take().expect("an input");
    thread::scope(|scope| {
        scope.spawn(move || match stdin.write_all(input) {
            // The program may end before it has read all.
            Err(error) if error.kind() == ErrorKind::BrokenPipe => {}
            written => written.expect("the input can be written"),
        });
        child.wait_with_output().expect("the program ends")
    })
}

/// Bytes as text.
pub fn text(bytes: &[u8]) -> String {
    String::from_utf8(bytes.to_vec()).expect("the output is UTF-8")
}

/// The lines of a text.
pub fn lines(text: &str) -> Vec<&str> {
    text.lines().collect()
}
