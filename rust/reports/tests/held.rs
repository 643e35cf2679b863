//! A file with a report that this library refuses, as one of a later change request may have: nothing
//! is listed and nothing is written, and the log can still be read, exported and taken elsewhere.

mod common;

use common::{text, Folder};
use reports::log::head;
use reports::log::record::{Record, REPORT};

const LONG: &str = "abcdefghijklmnopqrstuvwxyz0123456789-xyz";

/// A log of three reports, of which the second breaks rule 5.
fn season() -> Folder {
    let head = head::write();
    let mut log = head.to_vec();
    let mut crc = head::read(&head).unwrap().crc;
    let reports: [&[(&str, u32)]; 3] = [&[("zn", 3)], &[("cu", 1), (LONG, 2)], &[("zn", 5)]];
    for (number, lines) in (1..).zip(reports) {
        let record = Record {
            kind: REPORT,
            flags: 0,
            number,
            bytes: &report_index::frame::report(lines).unwrap(),
        };
        crc = record.write(&mut log, crc);
    }
    let folder = Folder::new();
    folder.write("season", &log);
    folder
}

const RULE: &str = "the held report 2: word 2, \"abcdefgh…\", has 40 bytes; a term has at most 36";

#[test]
fn what_needs_the_index_is_refused() {
    let folder = season();
    let before = folder.read("season");
    folder.write("lines", b"report zn\n");
    for arguments in [
        &["season", "find", "zn"][..],
        &["season", "all", "zn"],
        &["season", "verify"],
        &["season", "report", "zn"],
        &["season", "report", "zn", "--expect", "4"],
        &["season", "import", "lines"],
        &["season", "import", "lines", "--keep-numbers"],
        &["season", "import", "lines", "--all-or-nothing"],
    ] {
        let errors = folder.expect_errors(3, arguments, b"");
        assert_eq!(errors, format!("refused (5): {RULE}\n"), "{arguments:?}");
    }
    let out = folder.expect(3, &["season"], b"report zn\nfind zn\nshow 1\n");
    assert_eq!(
        out,
        format!("refused 5 {RULE}\nrefused 5 {RULE}\nok 1\nreport zn=3\n")
    );
    assert_eq!(folder.read("season"), before);
}

#[test]
fn what_needs_the_log_alone_goes_on() {
    let folder = season();
    let second = format!("report cu=1 {LONG}=2\n");
    assert_eq!(folder.expect(0, &["season", "show", "2"], b""), second);
    assert_eq!(
        folder.expect(0, &["season", "last"], b""),
        "3\treport zn=5\n"
    );
    let export = folder.expect(0, &["season", "export"], b"");
    assert_eq!(export, format!("report zn=3\n{second}report zn=5\n"));
    let info = folder.expect(0, &["season", "info"], b"");
    assert!(info.contains("reports\t3\nstate\tsound\n"), "{info}");
    assert_eq!(
        folder.expect(0, &["season", "recover", "copy"], b""),
        "3 reports in copy\n"
    );
    assert_eq!(folder.read("copy"), folder.read("season"));
}

#[test]
fn it_is_taken_elsewhere_under_the_same_numbers() {
    let folder = season();
    let export = folder.expect(0, &["season", "export"], b"");
    folder.expect(0, &["other", "new"], b"");
    let output = folder.run(&["other", "import", "--keep-numbers"], export.as_bytes());
    let told = "line 2: left out, report 2 has no lines: refused (5): word 2, \"abcdefgh…\", \
                has 40 bytes; a term has at most 36\n";
    assert_eq!(text(&output.stderr), told);
    assert_eq!(output.status.code(), Some(3));
    assert_eq!(
        folder.expect(0, &["other", "find", "zn"], b""),
        "1\t3\n3\t5\n"
    );
}

/// A term with bytes that no word can have is shown, and taken nowhere as another term.
#[test]
fn bytes_that_no_word_can_have() {
    let head = head::write();
    let mut log = head.to_vec();
    let frame = report_index::frame::report(&[(b"a b\n\x1B[1m\x85\xA0\xFC", 1)]).unwrap();
    let record = Record {
        kind: REPORT,
        flags: 0,
        number: 1,
        bytes: &frame,
    };
    record.write(&mut log, head::read(&head).unwrap().crc);
    let folder = Folder::new();
    folder.write("season", &log);
    let export = folder.expect(0, &["season", "export"], b"");
    assert_eq!(
        export,
        "report a\u{FFFD}b\u{FFFD}\u{FFFD}[1m\u{FFFD}\u{A0}\u{FC}=1\n"
    );
    folder.expect(0, &["other", "new"], b"");
    let errors = folder.expect_errors(3, &["other", "import"], export.as_bytes());
    assert!(
        errors.contains("has a character that is not in ISO 8859-1"),
        "{errors}"
    );
    folder.expect(1, &["other", "last"], b"");
}

/// A frame whose fields do not fit into it.
#[test]
fn a_report_that_is_no_text() {
    let head = head::write();
    let mut log = head.to_vec();
    let record = Record {
        kind: REPORT,
        flags: 0,
        number: 1,
        bytes: b"\x01\x00\x03\x01\x05z",
    };
    record.write(&mut log, head::read(&head).unwrap().crc);
    let folder = Folder::new();
    folder.write("season", &log);
    let told = "refused (4): the held report 1 has a field that runs past its end\n";
    for arguments in [
        &["season", "show", "1"][..],
        &["season", "export"],
        &["season", "last"],
    ] {
        assert_eq!(folder.expect_errors(3, arguments, b""), told);
    }
    let frames = folder.run(&["season", "export", "--frames"], b"").stdout;
    assert_eq!(frames, b"\x01\x00\x03\x01\x05z");
    folder.expect(3, &["season", "find", "zn"], b"");
}
