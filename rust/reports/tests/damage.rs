//! A short log with every fault: cut, flipped, with records left out, doubled or exchanged, with null
//! bytes behind it. What was answered is never missing without exit code 4.

mod common;

use std::fs;
use std::io::{self, Read};
use std::os::unix::fs::PermissionsExt;
use std::path::{Path, PathBuf};

use common::{run_here, run_with, Folder};
use reports::log::record::{Record, GROUP_GOES_ON, REPORT};
use reports::log::{head, Finding, Log};

/// The frames of the short log. The second and the third are a group.
fn frames() -> Vec<Vec<u8>> {
    let lines: [&[(&str, u32)]; 5] = [
        &[("zn", 3), ("P17", 1)],
        &[("zn", 4)],
        &[],
        &[("wheat", 0x0101_0000), ("zn", u32::MAX)],
        &[("cu", 256)],
    ];
    lines
        .iter()
        .map(|lines| report_index::frame::report(lines).unwrap())
        .collect()
}

/// The records of the short log, and the bytes of each.
fn records() -> (Vec<u8>, Vec<Vec<u8>>) {
    let head = head::write();
    let mut crc = head::read(&head).unwrap().crc;
    let mut records = Vec::new();
    for (place, frame) in frames().iter().enumerate() {
        let mut bytes = Vec::new();
        let record = Record {
            kind: REPORT,
            flags: if place == 1 { GROUP_GOES_ON } else { 0 },
            number: place as u32 + 1,
            bytes: frame,
        };
        crc = record.write(&mut bytes, crc);
        records.push(bytes);
    }
    (head.to_vec(), records)
}

/// The short log.
fn log() -> Vec<u8> {
    let (head, records) = records();
    [head, records.concat()].concat()
}

/// How many reports are held by a log of this many bytes; the group is held as a whole.
fn held(length: usize) -> usize {
    let (head, records) = records();
    let mut end = head.len();
    let mut held = 0;
    for (place, record) in records.iter().enumerate() {
        end += record.len();
        if length >= end && place != 1 {
            held = place + 1;
        }
    }
    held
}

/// What the program exports of these bytes, and its exit code.
fn exported(folder: &Folder, bytes: &[u8]) -> (u8, Vec<u8>) {
    folder.write("season", bytes);
    let (exit, out, _) = run_here(&folder.file("season"), &["export", "--frames"], b"");
    assert_eq!(folder.read("season"), bytes, "a reading command wrote");
    (exit, out)
}

fn read(bytes: &[u8]) -> Log {
    let mut log = Log::default();
    log.read_on(bytes);
    log
}

#[test]
fn the_short_log_is_sound() {
    let folder = Folder::new();
    assert_eq!(exported(&folder, &log()), (0, frames().concat()));
    let out = folder.expect(0, &["season", "verify"], b"");
    assert_eq!(
        out,
        format!("sound: 5 reports, 4 terms, {} bytes\n", log().len())
    );
}

#[test]
fn cut_at_every_byte() {
    let folder = Folder::new();
    for length in 0..log().len() {
        let (exit, out) = exported(&folder, &log()[..length]);
        let expected = match length {
            ..head::BYTES => (4, vec![]),
            _ => (0, frames()[..held(length)].concat()),
        };
        assert_eq!((exit, out), expected, "cut after {length}");
    }
}

/// After each cut, the next report is written behind the reports that are held, and a copy is kept of
/// the file with its torn end.
#[test]
fn cut_at_every_byte_and_written_on() {
    let (head, records) = records();
    let ends = [0, 1, 3, 4, 5].map(|held| head.len() + records[..held].concat().len());
    for length in head::BYTES..log().len() {
        let folder = Folder::new();
        let cut = &log()[..length];
        folder.write("season", cut);
        let held = held(length);
        let number = folder.expect(0, &["season", "report", "new=9"], b"");
        assert_eq!(number, format!("{}\n", held + 1), "cut after {length}");
        let export = folder.expect(0, &["season", "export"], b"");
        assert_eq!(export.lines().count(), held + 1, "cut after {length}");
        assert!(export.ends_with("report new=9\n"), "cut after {length}");
        let end = *ends.iter().rfind(|end| **end <= length).unwrap();
        if end == length {
            assert_eq!(folder.names(), ["season"]);
        } else {
            let copy = format!("season.torn-{end}");
            assert_eq!(folder.names(), ["season", &copy], "cut after {length}");
            assert_eq!(folder.read(&copy), cut, "cut after {length}");
        }
    }
}

#[test]
fn every_bit_flipped() {
    let folder = Folder::new();
    for bit in 0..log().len() * 8 {
        let mut bytes = log();
        bytes[bit / 8] ^= 1 << (bit % 8);
        assert_eq!(exported(&folder, &bytes), (4, vec![]), "bit {bit}");
    }
}

/// A command that writes changes a damaged file no more than one that reads.
#[test]
fn nothing_is_written_behind_damage() {
    let folder = Folder::new();
    for place in (0..log().len()).step_by(7) {
        let mut bytes = log();
        bytes[place] ^= 0x40;
        folder.write("season", &bytes);
        folder.write("lines", b"report zn\n");
        for arguments in [
            &["season", "report", "zn"][..],
            &["season", "import", "lines"],
            &["season", "find", "zn"],
            &["season", "verify"],
            &["season", "last"],
        ] {
            assert_eq!(folder.expect(4, arguments, b""), "", "byte {place}");
        }
        folder.expect(4, &["season"], b"report zn\n");
        assert_eq!(folder.read("season"), bytes, "byte {place}");
        assert_eq!(folder.names(), ["lines", "season"]);
    }
}

#[test]
fn two_bytes_changed() {
    // Without the program, since there are many.
    let bytes = log();
    for first in head::BYTES..bytes.len() {
        for second in first + 1..bytes.len() {
            let mut bytes = bytes.clone();
            bytes[first] ^= 0x11;
            bytes[second] ^= 0x11;
            let finding = read(&bytes).finding();
            assert!(
                matches!(finding, Finding::Damaged { .. }),
                "{first}, {second}"
            );
        }
    }
}

#[test]
fn records_left_out() {
    let folder = Folder::new();
    let (head, records) = records();
    // Without the last one, the log is one that was not written further.
    for place in 0..records.len() - 1 {
        let mut records = records.clone();
        records.remove(place);
        let bytes = [head.clone(), records.concat()].concat();
        assert_eq!(exported(&folder, &bytes), (4, vec![]), "record {place}");
    }
}

#[test]
fn records_doubled() {
    let folder = Folder::new();
    let (head, records) = records();
    for place in 0..records.len() {
        for behind in place..records.len() {
            let mut records = records.clone();
            records.insert(behind + 1, records[place].clone());
            let bytes = [head.clone(), records.concat()].concat();
            let name = format!("record {place} again behind {behind}");
            assert_eq!(exported(&folder, &bytes), (4, vec![]), "{name}");
        }
    }
}

#[test]
fn records_exchanged() {
    let folder = Folder::new();
    let (head, records) = records();
    for first in 0..records.len() {
        for second in first + 1..records.len() {
            let mut records = records.clone();
            records.swap(first, second);
            let bytes = [head.clone(), records.concat()].concat();
            let name = format!("records {first} and {second}");
            assert_eq!(exported(&folder, &bytes), (4, vec![]), "{name}");
        }
    }
}

#[test]
fn null_bytes_behind_the_end() {
    let folder = Folder::new();
    for nulls in [1, 11, 12, 13, 16, 100, 5_000] {
        let bytes = [log(), vec![0; nulls]].concat();
        assert_eq!(exported(&folder, &bytes), (0, frames().concat()));
        let out = folder.expect(0, &["season", "info"], b"");
        let state = format!("state\ttorn at byte {}: ", log().len());
        assert!(out.contains(&state), "{nulls} null bytes: {out}");
        // One byte that is not null among those that fill more than a head.
        if nulls >= 12 {
            for place in [0, nulls / 2, nulls - 1] {
                let mut bytes = bytes.clone();
                bytes[log().len() + place] = 1;
                let found = exported(&folder, &bytes);
                assert_eq!(found, (4, vec![]), "{nulls}, {place}");
            }
        }
    }
    // In the middle of a log.
    let (head, records) = records();
    let bytes = [&head, &records[0], &vec![0; 64], &records[1..].concat()];
    let bytes = bytes.map(|bytes| &bytes[..]).concat();
    assert_eq!(exported(&folder, &bytes), (4, vec![]));
}

#[test]
fn damage_names_the_byte_and_the_last_sound_report() {
    let folder = Folder::new();
    let mut bytes = log();
    let (head, records) = records();
    let third = head.len() + records[..2].concat().len();
    bytes[third + 5] ^= 1;
    folder.write("season", &bytes);
    let errors = folder.expect_errors(4, &["season", "export"], b"");
    let expected = format!(
        "season: damaged at byte {third}; the last sound report is 1; \
         recover NEW writes the sound part to a new file\n"
    );
    assert_eq!(errors, expected);
    let info = folder.expect(4, &["season", "info"], b"");
    assert!(info.contains("reports\t1\n"), "{info}");
    assert!(
        info.ends_with(&format!("state\tdamaged at byte {third}\n")),
        "{info}"
    );
}

#[test]
fn the_sound_part_is_recovered() {
    let (head, records) = records();
    for place in head::BYTES..log().len() {
        let folder = Folder::new();
        let mut bytes = log();
        bytes[place] ^= 0x80;
        folder.write("season", &bytes);
        let before = |held: &usize| head.len() + records[..*held].concat().len() <= place;
        let sound = [0, 1, 3, 4, 5].into_iter().rfind(before).unwrap();
        let out = folder.expect(0, &["season", "recover", "sound"], b"");
        assert_eq!(out, format!("{sound} reports in sound\n"), "byte {place}");
        let expected = [&head[..], &records[..sound].concat()].concat();
        assert_eq!(folder.read("sound"), expected, "byte {place}");
        assert_eq!(folder.read("season"), bytes, "byte {place}");
        assert_eq!(folder.names(), ["season", "sound"]);
        // A file that is there stays as it is.
        folder.expect(5, &["season", "recover", "sound"], b"");
        assert_eq!(folder.read("sound"), expected, "byte {place}");
    }
}

/// Nobody can read a copy or a recovered file who may not read the file itself.
#[test]
fn copies_are_as_private_as_the_file() {
    let folder = Folder::new();
    let torn = [log(), vec![1]].concat();
    let mode = |name: &str| {
        let about = fs::metadata(folder.file(name)).expect("the file");
        about.permissions().mode() & 0o777
    };
    for private in [0o600, 0o640] {
        folder.write("season", &torn);
        let permissions = fs::Permissions::from_mode(private);
        fs::set_permissions(folder.file("season"), permissions).expect("the mode");
        folder.expect(0, &["season", "recover", "sound"], b"");
        folder.expect(0, &["season", "report", "zn"], b"");
        let copy = format!("season.torn-{}", log().len());
        assert_eq!(
            (mode("season"), mode("sound"), mode(&copy)),
            (private, private, private)
        );
        for name in ["season", "sound", &copy] {
            fs::remove_file(folder.file(name)).expect("it can be removed");
        }
    }
}

/// A copy of the same name is used where it is the same, and left alone where it is another.
#[test]
fn a_copy_that_is_there_already() {
    let folder = Folder::new();
    let torn = [log(), vec![1]].concat();
    let copy = format!("season.torn-{}", log().len());
    folder.write(&copy, &torn);
    folder.write("season", &torn);
    folder.expect(0, &["season", "report", "zn"], b"");
    assert_eq!(folder.names(), ["season", &copy]);
    let other = [log(), vec![1, 2]].concat();
    folder.write("season", &other);
    folder.expect(0, &["season", "report", "zn"], b"");
    let second = format!("{copy}.2");
    assert_eq!(folder.names(), ["season", &copy, &second]);
    assert_eq!((folder.read(&copy), folder.read(&second)), (torn, other));
}

/// The records tell which head they belong to.
#[test]
fn what_stands_behind_a_damaged_head_is_recovered() {
    for bit in 0..head::BYTES * 8 {
        let folder = Folder::new();
        let mut bytes = log();
        bytes[bit / 8] ^= 1 << (bit % 8);
        folder.write("season", &bytes);
        let sound = folder.file("sound");
        let words = ["recover", sound.to_str().unwrap()];
        let (exit, _, errors) = run_here(&folder.file("season"), &words, b"");
        assert_eq!((exit, &errors[..]), (0, &b""[..]), "bit {bit}");
        assert_eq!(folder.read("sound"), log(), "bit {bit}");
        assert_eq!(folder.read("season"), bytes, "bit {bit}");
    }
    // Another file, and a head alone, have no sound part.
    for bytes in [&log()[1..], &log()[..8], &log()[16..], b"", &[1; 100]] {
        let folder = Folder::new();
        folder.write("season", bytes);
        let errors = folder.expect_errors(4, &["season", "recover", "sound"], b"");
        assert!(errors.contains("damaged at byte 0"), "{errors}");
        assert_eq!(folder.names(), ["season"]);
    }
}

/// The numbers do not tell these apart: only the CRCs, each of which goes on from the one before, do.
#[test]
fn records_of_another_log() {
    let folder = Folder::new();
    let (head, own) = records();
    for (name, other) in [("zn", 7), ("P18", 1)] {
        // A log with another first report, and the same ones behind it.
        let mut crc = head::read(&head).unwrap().crc;
        let mut others = Vec::new();
        for (place, frame) in frames().iter().enumerate() {
            let first = report_index::frame::report(&[("zn", 3), (name, other)]).unwrap();
            let mut bytes = Vec::new();
            let record = Record {
                kind: REPORT,
                flags: 0,
                number: place as u32 + 1,
                bytes: if place == 0 { &first } else { frame },
            };
            crc = record.write(&mut bytes, crc);
            others.push(bytes);
        }
        for place in 0..own.len() {
            let mut records = own.clone();
            records[place].clone_from(&others[place]);
            let bytes = [head.clone(), records.concat()].concat();
            let found = exported(&folder, &bytes);
            assert_eq!(found, (4, vec![]), "{name}, record {place}");
        }
    }
}

/// The log that docs/FORMAT.md shows.
#[test]
fn the_log_of_the_document() {
    let document = Path::new(env!("CARGO_MANIFEST_DIR")).join("../../docs/FORMAT.md");
    let document = fs::read_to_string(document).expect("the document");
    let begin = document.find("    72 65 70 6F").expect("the example");
    let example = &document[begin..];
    let example = &example[..example.find("\n\n").expect("its end")];
    let byte = |word: &str| {
        u8::from_str_radix(word, 16)
            .ok()
            .filter(|_| word.len() == 2)
    };
    let bytes = example
        .lines()
        .flat_map(|line| line.split_whitespace().map_while(byte));
    let bytes: Vec<u8> = bytes.collect();
    assert_eq!(bytes.len(), 78);
    let folder = Folder::new();
    folder.expect(0, &["season", "new"], b"");
    folder.expect(0, &["season", "report", "zn=3", "P17"], b"");
    folder.expect(0, &["season", "report", "zn=4"], b"");
    assert_eq!(folder.read("season"), bytes);
}

/// An import of all or nothing is one group: cut anywhere, it is not held at all.
#[test]
fn an_import_of_all_or_nothing_is_held_as_a_whole() {
    let folder = Folder::new();
    folder.expect(0, &["season", "new"], b"");
    folder.expect(0, &["season", "report", "zn"], b"");
    let before = folder.read("season").len();
    let lines = b"report zn=2\nreport zn=3\nreport zn=4\n";
    folder.expect(0, &["season", "import", "--all-or-nothing"], lines);
    let whole = folder.read("season");
    assert_eq!(read(&whole).frames().len(), 4);
    for length in before..whole.len() {
        let cut = read(&whole[..length]);
        assert_eq!(cut.frames().len(), 1, "cut after {length}");
        assert_eq!(cut.end() as usize, before, "cut after {length}");
    }
    // Without the option, each report stands alone.
    folder.expect(0, &["other", "new"], b"");
    folder.expect(0, &["other", "import"], lines);
    let other = folder.read("other");
    assert_eq!(read(&other[..other.len() - 1]).frames().len(), 2);
}

/// On a pipe, what was read before is not read again, but for a verification.
#[test]
fn a_verification_reads_every_byte_again() {
    let folder = Folder::new();
    folder.write("season", &log());
    let mut damaged = log();
    damaged[head::BYTES + 20] ^= 1;
    folder.write("lines", &damaged);
    let (exit, out, errors) = run_here(&folder.file("season"), &[], b"last\nverify\n");
    assert_eq!((exit, &errors[..]), (0, &b""[..]));
    let sound = format!("sound: 5 reports, 4 terms, {} bytes", log().len());
    let expected = format!("ok 1\n5\treport cu=256\nok 1\n{sound}\n");
    assert_eq!(String::from_utf8(out).unwrap(), expected);
    let mut input = Changing {
        file: folder.file("season"),
        bytes: damaged,
        lines: vec![b"verify\n", b"last\n", b"last\n"],
    };
    let (exit, out, errors) = run_with(&folder.file("season"), &[], &mut input);
    assert_eq!(exit, 4);
    let twice = "ok 1\n5\treport cu=256\n".repeat(2);
    assert_eq!(String::from_utf8(out).unwrap(), twice);
    let errors = String::from_utf8(errors).unwrap();
    assert!(
        errors.contains("damaged at byte 16; the last sound report is 0"),
        "{errors}"
    );
}

/// An input that writes these bytes to the file before it gives the second line.
struct Changing {
    file: PathBuf,
    bytes: Vec<u8>,
    lines: Vec<&'static [u8]>,
}

impl Read for Changing {
    fn read(&mut self, bytes: &mut [u8]) -> io::Result<usize> {
        if self.lines.len() == 2 {
            fs::write(&self.file, &self.bytes)?;
        }
        let line = self.lines.pop().unwrap_or_default();
        bytes[..line.len()].copy_from_slice(line);
        Ok(line.len())
    }
}

/// The log with another record behind it, sound in itself.
fn log_with(kind: u8, flags: u8, number: u32, bytes: &[u8]) -> Vec<u8> {
    let mut log = log();
    let crc = u32::from_be_bytes(*log.last_chunk().unwrap());
    let record = Record {
        kind,
        flags,
        number,
        bytes,
    };
    record.write(&mut log, crc);
    log
}

#[test]
fn what_only_a_newer_program_knows() {
    let folder = Folder::new();
    let frame = &frames()[0];
    let later_kind = b"\x01\x00\x01\x04";
    let later_version = b"\x02\x00\x01\x01";
    for bytes in [
        log_with(0x02, 0, 5, b""),
        log_with(0x00, 0, 6, b"x"),
        log_with(0x7F, 0, 6, b"x"),
        log_with(REPORT, 0x02, 6, frame),
        log_with(REPORT, 0x80, 6, frame),
        log_with(0x80, 0x02, 6, b"x"),
        log_with(REPORT, 0, 6, later_kind),
        log_with(REPORT, 0, 6, later_version),
    ] {
        assert_eq!(exported(&folder, &bytes), (4, vec![]));
        let errors = folder.expect_errors(4, &["season", "find", "zn"], b"");
        assert!(errors.contains("written by a newer reports"), "{errors}");
        folder.expect(4, &["season", "report", "zn"], b"");
        folder.expect(4, &["season", "recover", "sound"], b"");
        folder.expect(4, &["season", "info"], b"");
        assert_eq!(folder.read("season"), bytes);
        assert_eq!(folder.names(), ["season"]);
    }
}

#[test]
fn records_that_may_be_passed_over() {
    let folder = Folder::new();
    for kind in [0x80, 0xFF] {
        let bytes = log_with(kind, 0, 77, b"a remark");
        assert_eq!(exported(&folder, &bytes), (0, frames().concat()));
        assert_eq!(folder.expect(0, &["season", "report", "zn"], b""), "6\n");
        folder.expect(0, &["season", "verify"], b"");
        // A group that such a record begins is a group.
        let bytes = log_with(kind, GROUP_GOES_ON, 77, b"a remark");
        assert_eq!(exported(&folder, &bytes), (0, frames().concat()));
        assert!(matches!(read(&bytes).finding(), Finding::Torn { .. }));
    }
}

#[test]
fn a_wrong_number_is_damage() {
    let folder = Folder::new();
    for number in [0, 1, 5, 7, u32::MAX] {
        let bytes = log_with(REPORT, 0, number, &frames()[0]);
        assert_eq!(exported(&folder, &bytes), (4, vec![]), "{number}");
    }
}
