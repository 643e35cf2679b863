//! The stack that a call uses: `include/report_index.h` says how much is enough.

use std::thread;

use report_index::{frame, Index};

/// What the header says.
const ENOUGH: usize = 64 * 1024;

/// The four calls, with the longest frames that they take.
fn all_calls() {
    let mut index = Index::new(2_000, 4_000);
    let terms: Vec<String> = (0..511).map(|n| format!("{n:03}")).collect();
    let lines: Vec<(&str, u32)> = terms.iter().map(|term| (term.as_str(), 1)).collect();
    let report = frame::report(&lines).expect("a body has room for these lines");
    assert!(report.len() > 4_080, "{} bytes", report.len());
    assert_eq!(index.report(&report), Ok(1));
    assert_eq!(index.report(&report), Ok(2));
    let (mut numbers, mut counts) = ([0; 4], [0; 4]);
    let one = frame::one(0, "000").expect("one term has room");
    let listed = index.list_one(&one, &mut numbers, &mut counts);
    assert_eq!(listed.map(|listed| listed.filled), Ok(2));
    let names: Vec<&str> = terms[..8].iter().map(String::as_str).collect();
    let all = frame::all(0, &names).expect("eight terms have room");
    let listed = index.list_all(&all, &mut numbers);
    assert_eq!(listed.map(|listed| listed.filled), Ok(2));
}

#[test]
fn the_stack_that_the_header_names_is_enough() {
    let thread = thread::Builder::new().stack_size(ENOUGH);
    thread
        .spawn(all_calls)
        .expect("a thread")
        .join()
        .expect("all calls end");
}
