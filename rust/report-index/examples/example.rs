//! The report index from Rust: two reports are taken, one term and two terms are looked for, and a
//! term with a barred byte is refused.
//!
//!     cargo run --offline --release -p report-index --example example

use report_index::{frame, Index, Refusal};

fn take(index: &mut Index, lines: &[(&str, u32)]) {
    match frame::report(lines).and_then(|frame| index.report(&frame)) {
        Ok(number) => println!("report {number}"),
        Err(refusal) => println!("refused {}", refusal.number()),
    }
}

fn more(more: bool) -> &'static str {
    if more {
        " +"
    } else {
        ""
    }
}

fn main() -> Result<(), Refusal> {
    // 1,000 blocks of 64 bytes, and a table that may hold 256 terms.
    let mut index = Index::new(1_000, 512);
    take(&mut index, &[("zn", 3), ("P17", 1)]);
    take(&mut index, &[("zn", 4)]);

    let (mut numbers, mut counts) = ([0; 16], [0; 16]);
    let listed = index.list_one(&frame::one(0, "zn")?, &mut numbers, &mut counts)?;
    let found: String = (0..listed.filled)
        .map(|place| format!(" {}:{}", numbers[place], counts[place]))
        .collect();
    println!("found{found}{}", more(listed.more));

    let listed = index.list_all(&frame::all(0, &["zn", "p17"])?, &mut numbers)?;
    let found: String = numbers[..listed.filled]
        .iter()
        .map(|number| format!(" {number}"))
        .collect();
    println!("found{found}{}", more(listed.more));

    take(&mut index, &[("z n", 1)]);
    Ok(())
}
