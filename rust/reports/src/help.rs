//! What `--help` and `--version` print, after the table of commands.

use std::fmt::Write;

use crate::commands::{Opt, COMMANDS};
use crate::log::head::{MAGIC, RULES};

/// The options of the program itself. They may stand before or behind the command.
pub static OPTIONS: [Opt; 4] = [
    Opt {
        name: "--wait",
        value: Some("SECONDS"),
        help: "how long to wait for another program that uses FILE (5)",
    },
    Opt {
        name: "--memory",
        value: Some("BYTES"),
        help: "the most memory of the index; K, M and G may follow (1G)",
    },
    Opt {
        name: "--help",
        value: None,
        help: "print this",
    },
    Opt {
        name: "--version",
        value: None,
        help: "print the version",
    },
];

/// The exit codes.
const EXIT_CODES: &str =
    "0 done, 1 nothing found, 2 not understood, 3 refused, 4 file damaged, 5 system";

/// How the program is used, in one line.
pub const USE: &str = "use: reports [OPTION...] FILE [COMMAND]";

/// The help. It ends without a line end.
pub fn help() -> String {
    let mut text = format!("{USE}\n\nCommands:\n");
    for command in &COMMANDS {
        push_row(&mut text, &command.form(), command.help);
        for option in command.options {
            push_row(&mut text, &format!("  {}", option.usage()), option.help);
        }
    }
    text.push_str("\nOptions:\n");
    for option in &OPTIONS {
        push_row(&mut text, &option.usage(), option.help);
    }
    text.push_str(
        "\nWithout a command, commands are read line by line: at a prompt on a terminal,\n\
         else from standard input. Behind -- nothing is an option. Exit codes:\n",
    );
    text.push_str(EXIT_CODES);
    text
}

/// The version of the program, of its log and of its rules.
pub fn version() -> String {
    format!(
        "reports {} (log {}, rules of change request {RULES})",
        env!("CARGO_PKG_VERSION"),
        String::from_utf8_lossy(&MAGIC)
    )
}

/// A line of the help.
fn push_row(text: &mut String, left: &str, right: &str) {
    let _ = writeln!(text, "  {left:26}{right}");
}
