//! The help, the man page and the completion, held to the table of commands.

mod common;

use std::path::Path;
use std::process::{Command, Stdio};

use common::{run, text, Folder};
use reports::commands::{Opt, COMMANDS};
use reports::help::OPTIONS;

fn file(name: &str) -> String {
    let path = Path::new(env!("CARGO_MANIFEST_DIR")).join(name);
    std::fs::read_to_string(path).expect("the file can be read")
}

/// The options of the program and of all commands.
fn all_options() -> Vec<&'static Opt> {
    let of_commands = COMMANDS.iter().flat_map(|command| command.options);
    OPTIONS.iter().chain(of_commands).collect()
}

/// A section of the man page, as plain text: without fonts and with plain dashes.
fn section(name: &str) -> String {
    let page = file("reports.1");
    let begin = page.find(&format!(".SH {name}\n")).expect("the section");
    let rest = &page[begin + 4..];
    let section = &rest[..rest.find("\n.SH").unwrap_or(rest.len())];
    let mut text = section.replace("\\-", "-");
    for font in ["\\fB", "\\fI", "\\fR"] {
        text = text.replace(font, "");
    }
    text
}

/// The first words of each entry of a section.
fn entries(section: &str) -> Vec<String> {
    let entries = section.split("\n.TP\n").skip(1);
    let first = |entry: &str| {
        let line = entry.lines().next().expect("a line");
        line.strip_prefix(".B ").unwrap_or(line).to_string()
    };
    entries.map(first).collect()
}

#[test]
fn the_help_lists_the_table() {
    let help = Folder::new().expect(0, &["--help"], b"");
    for command in &COMMANDS {
        let line = |line: &&str| {
            let rest = line
                .strip_prefix("  ")
                .and_then(|rest| rest.strip_prefix(&command.form()));
            rest.is_some_and(|rest| rest.trim_start() == command.help)
        };
        let lines: Vec<&str> = help.lines().filter(line).collect();
        assert_eq!(lines.len(), 1, "{}", command.name);
    }
    for option in all_options() {
        let line = |line: &str| {
            let rest = line.trim_start().strip_prefix(&option.usage());
            rest.is_some_and(|rest| rest.trim_start() == option.help)
        };
        assert!(help.lines().any(line), "{}", option.name);
    }
    assert!(help.lines().all(|line| line.len() <= 100), "{help}");
}

#[test]
fn the_man_page_has_the_commands_of_the_table() {
    let usages: Vec<String> = COMMANDS.iter().map(|command| command.usage()).collect();
    assert_eq!(entries(&section("COMMANDS")), usages);
    let usages: Vec<String> = OPTIONS.iter().map(Opt::usage).collect();
    assert_eq!(entries(&section("OPTIONS")), usages);
    assert_eq!(
        entries(&section("\"EXIT STATUS\"")),
        ["0", "1", "2", "3", "4", "5"]
    );
    let version = format!("\"reports {}\"", env!("CARGO_PKG_VERSION"));
    assert!(file("reports.1").lines().next().unwrap().contains(&version));
}

/// What bash offers for the last of these words.
fn offered(words: &[&str]) -> Vec<String> {
    let script = "source \"$0\" && COMP_WORDS=(\"$@\") COMP_CWORD=$(($# - 1)) && _reports && \
                  printf '%s\\n' \"${COMPREPLY[@]}\"";
    let completion = Path::new(env!("CARGO_MANIFEST_DIR")).join("reports.bash");
    let folder = Folder::new();
    folder.write("season", b"");
    let mut command = Command::new("bash");
    command
        .current_dir(folder.path())
        .args(["-c", script])
        .arg(completion)
        .args(words);
    command
        .stdin(Stdio::piped())
        .stdout(Stdio::piped())
        .stderr(Stdio::piped());
    let output = run(&mut command, b"");
    assert_eq!(text(&output.stderr), "", "{words:?}");
    let lines = text(&output.stdout);
    lines
        .lines()
        .filter(|line| !line.is_empty())
        .map(str::to_string)
        .collect()
}

#[test]
fn the_completion_offers_the_table() {
    let names: Vec<&str> = COMMANDS.iter().map(|command| command.name).collect();
    assert_eq!(offered(&["reports", "season", ""]), names);
    assert_eq!(
        offered(&["reports", "--wait", "1", "season", "re"]),
        ["report", "recover"]
    );
    let own: Vec<&str> = OPTIONS.iter().map(|option| option.name).collect();
    assert_eq!(offered(&["reports", "--"]), own);
    for command in &COMMANDS {
        let options = command.options.iter().map(|option| option.name);
        let options: Vec<&str> = own.iter().copied().chain(options).collect();
        assert_eq!(offered(&["reports", "season", command.name, "--"]), options);
    }
    for option in all_options().iter().filter(|option| option.value.is_some()) {
        assert_eq!(
            offered(&["reports", "season", "find", option.name, ""]),
            [""; 0]
        );
    }
    // Files, where a file belongs.
    assert_eq!(offered(&["reports", "s"]), ["season"]);
    assert_eq!(offered(&["reports", "season", "import", ""]), ["season"]);
    assert_eq!(offered(&["reports", "season", "find", ""]), [""; 0]);
}
