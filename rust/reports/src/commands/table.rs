//! The one table of all commands.

use super::{export, import, info, list, new, recover, report, show, verify, Command, Needs, Opt};

const FROM: Opt = Opt {
    name: "--from",
    value: Some("N"),
    help: "begin at report N",
};

const LIMIT: Opt = Opt {
    name: "--limit",
    value: Some("N"),
    help: "list N reports at most",
};

const EXPECT: Opt = Opt {
    name: "--expect",
    value: Some("N"),
    help: "refuse the report unless N is the next number",
};

/// All commands, in the order of the help.
pub static COMMANDS: [Command; 11] = [
    Command {
        name: "new",
        arguments: "",
        words: 0..=0,
        options: &[],
        help: "make FILE, without a report",
        needs: Needs::NoFile,
        run: new::new,
    },
    Command {
        name: "report",
        arguments: "[TERM[=COUNT]...]",
        words: 0..=usize::MAX,
        options: &[EXPECT],
        help: "take a report and print its number",
        needs: Needs::LogToWrite,
        run: report::report,
    },
    Command {
        name: "find",
        arguments: "TERM",
        words: 1..=1,
        options: &[FROM, LIMIT],
        help: "list the reports with a term, number and count",
        needs: Needs::Log,
        run: list::find,
    },
    Command {
        name: "all",
        arguments: "TERM...",
        words: 1..=usize::MAX,
        options: &[FROM, LIMIT],
        help: "list the reports with all of the terms",
        needs: Needs::Log,
        run: list::all,
    },
    Command {
        name: "show",
        arguments: "NUMBER",
        words: 1..=1,
        options: &[],
        help: "print a report",
        needs: Needs::Log,
        run: show::show,
    },
    Command {
        name: "last",
        arguments: "",
        words: 0..=0,
        options: &[],
        help: "print the last report, its number first",
        needs: Needs::Log,
        run: show::last,
    },
    Command {
        name: "import",
        arguments: "[TEXT]",
        words: 0..=1,
        options: &[
            Opt {
                name: "--all-or-nothing",
                value: None,
                help: "take all of them or none",
            },
            Opt {
                name: "--keep-numbers",
                value: None,
                help: "take a report without lines in place of a refused one",
            },
        ],
        help: "take a report from each line of the file TEXT or of standard input",
        needs: Needs::LogToWrite,
        run: import::import,
    },
    Command {
        name: "export",
        arguments: "",
        words: 0..=0,
        options: &[Opt {
            name: "--frames",
            value: None,
            help: "print frames, not text",
        }],
        help: "print all reports, as import takes them",
        needs: Needs::Log,
        run: export::export,
    },
    Command {
        name: "info",
        arguments: "",
        words: 0..=0,
        options: &[],
        help: "say what FILE holds and whether it is sound",
        needs: Needs::File,
        run: info::info,
    },
    Command {
        name: "verify",
        arguments: "",
        words: 0..=0,
        options: &[],
        help: "read every byte, take every report again and list every term back",
        needs: Needs::Log,
        run: verify::verify,
    },
    Command {
        name: "recover",
        arguments: "NEW",
        words: 1..=1,
        options: &[],
        help: "write the sound part of FILE to the new file NEW",
        needs: Needs::File,
        run: recover::recover,
    },
];
