//! The four calls through the wrapper: what they give back, and each refusal by its name.

use reference::compose::{framed, query_frame, report_frame};
use reference::frames::Call;
use report_index::{Counters, Index, Listed, Refusal};

/// A term of 36 bytes: ten postings of one byte fill its head.
const LONG: &[u8; 36] = b"abcdefghijklmnopqrstuvwxyz0123456789";

fn one(term: &[u8]) -> Vec<u8> {
    query_frame(Call::OneTerm, 0, &[term])
}

fn all(terms: &[&[u8]]) -> Vec<u8> {
    query_frame(Call::AllTerms, 0, terms)
}

fn listed(filled: usize, more: bool) -> Result<Listed, Refusal> {
    Ok(Listed { filled, more })
}

/// Fails unless the report is refused so and nothing changes.
fn assert_refused(index: &mut Index, frame: &[u8], refusal: Refusal) {
    let before = index.clone();
    assert_eq!(index.report(frame), Err(refusal), "{frame:02X?}");
    assert_eq!(*index, before, "{frame:02X?}");
}

/// Fails unless both listings of this term are refused so.
fn assert_listings_refused(index: &Index, term: &[u8], refusal: Refusal) {
    let (mut numbers, mut counts) = ([7; 2], [8; 2]);
    let answer = index.list_one(&one(term), &mut numbers, &mut counts);
    assert_eq!(answer, Err(refusal));
    assert_eq!(index.list_all(&all(&[term]), &mut numbers), Err(refusal));
    assert_eq!((numbers, counts), ([7; 2], [8; 2]));
}

#[test]
fn a_chain_of_two_blocks() {
    let mut index = Index::new(2, 2);
    for number in 1..=11 {
        assert_eq!(index.report(&report_frame(&[(LONG, 1)])), Ok(number));
    }
    let counters = Counters {
        used: 2,
        terms: 1,
        reports: 11,
    };
    assert_eq!(index.counters, counters);
    // Report 11 opens the second block with its b-gap of 10.
    assert_eq!(index.arena[64..69], [0, 0, 0, 11, 0x25]);
    let (mut numbers, mut counts) = ([0; 12], [0; 11]);
    let answer = index.list_one(&one(LONG), &mut numbers, &mut counts);
    assert_eq!(answer, listed(11, false));
    assert_eq!(numbers, [1, 2, 3, 4, 5, 6, 7, 8, 9, 10, 11, 0]);
    assert_eq!(counts, [1; 11]);
    index.start();
    assert_eq!(index.counters, Counters::default());
    assert_eq!(index.list_all(&all(&[LONG]), &mut []), listed(0, false));
}

#[test]
fn later_places_are_kept() {
    let mut index = Index::new(4, 8);
    assert_eq!(index.report(&report_frame(&[(b"a", 5), (b"b", 1)])), Ok(1));
    assert_eq!(index.report(&report_frame(&[(b"A", 6)])), Ok(2));
    let (mut numbers, mut counts) = ([70; 3], [80; 4]);
    let answer = index.list_one(&one(b"a"), &mut numbers, &mut counts);
    assert_eq!(answer, listed(2, false));
    assert_eq!((numbers, counts), ([1, 2, 70], [5, 6, 80, 80]));
    let mut numbers = [70; 1];
    assert_eq!(index.list_all(&all(&[b"a"]), &mut numbers), listed(1, true));
    let mut numbers = [70; 2];
    let answer = index.list_all(&all(&[b"a", b"b", b"B"]), &mut numbers);
    assert_eq!((answer, numbers), (listed(1, false), [1, 70]));
}

#[test]
fn no_memory_at_all() {
    let mut index = Index::new(0, 0);
    assert_eq!(index.report(&report_frame(&[])), Ok(1));
    assert_refused(&mut index, &report_frame(&[(b"a", 1)]), Refusal::Terms);
    let answer = index.list_one(&one(b"a"), &mut [], &mut []);
    assert_eq!(answer, listed(0, false));
    assert_refused(&mut index, &[], Refusal::Header);
}

#[test]
fn refusals_of_frames() {
    let mut index = Index::new(4, 8);
    let cases = [
        (vec![2, 0, 1, 1], Refusal::Header),
        (vec![1, 0, 2, 1], Refusal::Length),
        (framed(&[2]), Refusal::Kind),
        (framed(&[1, 1]), Refusal::Fields),
        (report_frame(&[(b"a b", 1)]), Refusal::Term),
        (report_frame(&[(b"a", 0)]), Refusal::Count),
        (report_frame(&[(b"a", 1), (b"A", 1)]), Refusal::Repeat),
    ];
    for (frame, refusal) in cases {
        assert_refused(&mut index, &frame, refusal);
    }
}

#[test]
fn refusals_of_memory() {
    let mut index = Index::new(1, 4);
    let (first, second) = (report_frame(&[(b"a", 1)]), report_frame(&[(b"b", 1)]));
    assert_eq!(index.report(&first), Ok(1));
    assert_refused(&mut index, &second, Refusal::Room);

    let sound = index.clone();
    index.table.truncate(3);
    assert_refused(&mut index, &report_frame(&[(b"c", 1)]), Refusal::Terms);

    index = sound.clone();
    index.counters.used = 2;
    assert_refused(&mut index, &first, Refusal::Counters);
    assert_listings_refused(&index, b"a", Refusal::Counters);

    index = sound.clone();
    index.counters.reports = u32::MAX;
    assert_refused(&mut index, &first, Refusal::Reports);

    // The write offset of the head of "a".
    index = sound;
    index.arena[16] = 65;
    assert_refused(&mut index, &first, Refusal::Damage);
    assert_listings_refused(&index, b"a", Refusal::Damage);
}

/// The second term's tail is the full head of the first. Writing the first line puts a link there,
/// which, read as the first report of the second term's tail, is over the number of reports.
#[test]
fn a_report_stopped_while_it_is_written() {
    let mut index = Index::new(14, 8);
    for number in 1..=10 {
        assert_eq!(index.report(&report_frame(&[(LONG, 1)])), Ok(number));
    }
    assert_eq!(index.report(&report_frame(&[(b"b", 1)])), Ok(11));
    index.arena[64 + 7] = 0;
    index.counters.used = 12;
    let frame = report_frame(&[(LONG, 1), (b"b", 1)]);
    assert_eq!(index.report(&frame), Err(Refusal::Writing));
    let counters = Counters {
        used: 13,
        terms: 2,
        reports: 11,
    };
    assert_eq!(index.counters, counters);
    assert_eq!(index.arena[..4], [0, 0, 0, 12]);
}
