//! Measures the proved library, plain Rust and SQLite FTS5 side by side and writes tables.
//!
//! Use: `bench [--plot FILE] [REPORTS..]`, by default 20,000 and 200,000 reports; with `--plot` the
//! figures are drawn into a file too. docs/BENCHMARKS.md says what is measured and holds the figures
//! of one run.

use std::fs;
use std::process::ExitCode;

use bench::fts::{Fts, Texts};
use bench::links::Chains;
use bench::memory::{Lists, Memory};
use bench::plain::PLAIN;
use bench::plot::{svg, Bars, Group};
use bench::rounds::Times;
use bench::workload::{Queries, Workload};
use differential::calls::{Calls, LIBRARY};
use report_index::BLOCK_BYTES;

/// The two that take turns.
const SIDES: [Calls; 2] = [LIBRARY, PLAIN];

/// The slots of the table: at most half of them are filled, and there are 50,000 terms.
const SLOTS: usize = 1 << 17;

/// Rounds of taking all reports, fewer where they are many; an even number.
fn ingest_rounds(reports: usize) -> usize {
    (500_000 / reports).clamp(3, 8) * 2
}

/// Rounds of each kind of query.
const QUERY_ROUNDS: usize = 15;

/// How long a round of queries takes at least, in nanoseconds.
const QUERY_ROUND: f64 = 5e6;

fn main() -> ExitCode {
    let words: Vec<String> = std::env::args().skip(1).collect();
    let (plot, sizes) = match words.as_slice() {
        [option, file, sizes @ ..] if option == "--plot" => (Some(file), sizes),
        sizes => (None, sizes),
    };
    let Some(sizes) = numbers_of_reports(sizes) else {
        eprintln!("Use: bench [--plot FILE] [REPORTS..]    (numbers of 1,000 or more)");
        return ExitCode::from(2);
    };
    let groups: Vec<Group> = sizes.into_iter().map(measure).collect();
    if let Some(file) = plot {
        if let Err(error) = fs::write(file, svg(&groups)) {
            eprintln!("{file} was not written: {error}");
            return ExitCode::FAILURE;
        }
    }
    ExitCode::SUCCESS
}

/// The numbers of reports to measure with; none where a word is no such number.
fn numbers_of_reports(words: &[String]) -> Option<Vec<usize>> {
    if words.is_empty() {
        return Some(vec![20_000, 200_000]);
    }
    let numbers = words.iter().map(|word| word.parse().ok());
    numbers
        .map(|number| number.filter(|number| *number >= 1_000))
        .collect()
}

/// Measures all with this many reports; gives what is drawn.
fn measure(reports: usize) -> Group {
    let mut rows = Vec::new();
    let workload = Workload::new(reports);
    let blocks = workload.postings / 8 + 60_000;
    let mut memory = Memory::new(blocks, SLOTS);
    let mut fts = Fts::new();
    println!("### {reports} reports, {} postings\n", workload.postings);
    println!("| what | library | plain Rust | library / plain Rust | of the medians | FTS5 | FTS5 / library |");
    println!("|---|---|---|---|---|---|---|");
    let rounds = measure_ingest(&workload, &mut memory, &mut fts);
    print_row("a posting taken", NANOSECONDS, &rounds);
    rows.push(rounds.bars("a posting taken"));
    let mut links = Vec::new();
    for queries in workload.queries() {
        let (rounds, found) = measure_queries(&workload, &queries, &memory, Some(&mut fts));
        let name = format!("{}; {} found", queries.name, found / queries.places.len());
        print_row(&name, MICROSECONDS, &rounds);
        rows.push(rounds.bars(queries.name));
        if !queries.are_of_one_term() {
            links.push(links_row(&workload, &queries, &memory, &rounds));
        }
    }
    for queries in workload.readings() {
        let (rounds, _) = measure_queries(&workload, &queries, &memory, None);
        let name = format!("{} read for damage, nothing listed", queries.name);
        print_row(&name, MICROSECONDS, &rounds);
    }
    print_links(&links);
    print_sizes(&workload, &memory);
    Group { reports, rows }
}

/// The rounds behind one row of the table: those of the library and of plain Rust, and of how many
/// parts each is, and those of FTS5, none where it is not measured.
#[derive(Default)]
struct Rounds {
    sides: [Times; 2],
    parts: usize,
    fts: Times,
    fts_parts: usize,
}

impl Rounds {
    /// The nanoseconds of FTS5's best round, for one part.
    fn fts(&self) -> Option<f64> {
        (!self.fts.is_empty()).then(|| self.fts.best(self.fts_parts))
    }

    /// The best rounds, for one part, to be drawn.
    fn bars(&self, what: &str) -> Bars {
        let [library, plain] = &self.sides;
        Bars {
            what: what.to_owned(),
            library: library.best(self.parts),
            plain: plain.best(self.parts),
            fts: self.fts(),
        }
    }
}

/// Takes all reports, in alternating rounds; who comes first, the library or plain Rust, alternates
/// too. The start of an index is not on the clock. Fails unless both leave the same bytes, entries
/// and counters.
fn measure_ingest(workload: &Workload, memory: &mut Memory, fts: &mut Fts) -> Rounds {
    let [library, plain] = SIDES.map(|calls| memory.left(&calls, &workload.frames));
    assert!(library == plain, "arena, table or counters differ");
    let texts = Texts::of_reports(workload);
    let mut rounds = Rounds {
        parts: workload.postings,
        fts_parts: workload.postings,
        ..Rounds::default()
    };
    for round in 0..ingest_rounds(workload.reports.len()) {
        for side in [round % 2, 1 - round % 2] {
            memory.start(&SIDES[side]);
            rounds.sides[side].take(|| memory.ingest(&SIDES[side], &workload.frames));
        }
        fts.ingest(&texts, &mut rounds.fts);
    }
    fts.merge();
    rounds
}

/// Lists all queries of one kind, in alternating rounds, each after a pass off the clock, so that
/// whoever comes before does not matter; gives the rounds, and how many reports all queries of the
/// kind find together.
fn measure_queries(
    workload: &Workload,
    queries: &Queries,
    memory: &Memory,
    mut fts: Option<&mut Fts>,
) -> (Rounds, usize) {
    let frames = queries.frames(&workload.terms);
    let texts = Texts::of_queries(workload, queries);
    let mut lists = Lists::new(workload.reports.len(), queries.are_of_one_term());
    let found = compare_results(memory, &frames, &mut lists);
    let passes = passes(memory, &frames, &mut lists);
    let mut rounds = Rounds {
        parts: passes * frames.len(),
        fts_parts: frames.len(),
        ..Rounds::default()
    };
    for _ in 0..QUERY_ROUNDS {
        for (calls, times) in SIDES.iter().zip(&mut rounds.sides) {
            list_frames(memory, calls, &frames, 1, &mut lists);
            times.take(|| list_frames(memory, calls, &frames, passes, &mut lists));
        }
        if let Some(fts) = &mut fts {
            fts.list(&texts, &mut lists.numbers, found, &mut Times::default());
            fts.list(&texts, &mut lists.numbers, found, &mut rounds.fts);
        }
    }
    (rounds, found)
}

/// Lists all queries, so many times one after another.
fn list_frames(
    memory: &Memory,
    calls: &Calls,
    frames: &[Vec<u8>],
    passes: usize,
    lists: &mut Lists,
) {
    for frame in frames.iter().cycle().take(passes * frames.len()) {
        memory.list(calls, frame, lists);
    }
}

/// Fails unless both sides list the same; gives how many reports all queries find together.
fn compare_results(memory: &Memory, frames: &[Vec<u8>], lists: &mut Lists) -> usize {
    let mut found = 0;
    for frame in frames {
        let filled = memory.list(&LIBRARY, frame, lists);
        let library = lists.clone();
        assert_eq!(
            memory.list(&PLAIN, frame, lists),
            filled,
            "the numbers of reports differ"
        );
        assert!(*lists == library, "the lists differ");
        found += filled;
    }
    found
}

/// How often the queries are repeated in a round, so that it takes some milliseconds.
fn passes(memory: &Memory, frames: &[Vec<u8>], lists: &mut Lists) -> usize {
    let mut time = Times::default();
    time.take(|| list_frames(memory, &PLAIN, frames, 1, lists));
    (QUERY_ROUND / time.best(1)).ceil() as usize
}

/// Follows the links of the queries' chains alone, each round after a pass of the library's listings:
/// a row with the best round, and a third of FTS5's time for comparison.
fn links_row(workload: &Workload, queries: &Queries, memory: &Memory, rounds: &Rounds) -> String {
    let frames = queries.frames(&workload.terms);
    let mut lists = Lists::new(workload.reports.len(), false);
    let chains = Chains::new(workload, queries, memory);
    let number = frames.len();
    let blocks = chains.follow() / number;
    let mut times = Times::default();
    for _ in 0..QUERY_ROUNDS {
        list_frames(memory, &LIBRARY, &frames, 1, &mut lists);
        times.take(|| assert_eq!(chains.follow() / number, blocks, "the chains' blocks"));
    }
    let [best, median] = [times.best(number), times.median(number)].map(|time| time / 1_000.0);
    let third = |fts: f64| format!("{:.2}", fts / 3.0 / 1_000.0);
    let third = rounds.fts().map_or(String::new(), third);
    let name = queries.name;
    format!("| {name} | {blocks} | {best:.2} | {median:.2} | {third} |")
}

fn print_links(rows: &[String]) {
    println!("\n| links followed alone | blocks a query | microseconds a query | of the median round | a third of FTS5's time |");
    println!("|---|---|---|---|---|");
    for row in rows {
        println!("{row}");
    }
}

/// A unit of time: its name, its nanoseconds and the digits behind the point.
type Unit = (&'static str, f64, usize);

const NANOSECONDS: Unit = ("nanoseconds", 1.0, 1);

const MICROSECONDS: Unit = ("microseconds", 1_000.0, 2);

/// Writes one row: the best rounds, for one part.
fn print_row(what: &str, unit: Unit, rounds: &Rounds) {
    let (name, nanoseconds, digits) = unit;
    let [library, plain] = &rounds.sides;
    let medians = library.median(rounds.parts) / plain.median(rounds.parts);
    let [library, plain] = [library.best(rounds.parts), plain.best(rounds.parts)];
    let shown = |time: f64| format!("{:.digits$}", time / nanoseconds);
    let fts = rounds.fts();
    let ratio = fts.map_or(String::new(), |fts| format!("{:.1}", fts / library));
    println!(
        "| {what}, {name} | {} | {} | {:.2} | {medians:.2} | {} | {ratio} |",
        shown(library),
        shown(plain),
        library / plain,
        fts.map_or(String::new(), shown),
    );
}

fn print_sizes(workload: &Workload, memory: &Memory) {
    let postings = workload.postings as f64;
    let arena = f64::from(memory.counters.used) * BLOCK_BYTES as f64 / postings;
    let table = (memory.table.len() * 4) as f64 / postings;
    println!(
        "\n{} terms, {} blocks.",
        memory.counters.terms, memory.counters.used
    );
    println!(
        "Bytes a posting: arena {arena:.3}, table {table:.3}, together {:.3}.\n",
        arena + table
    );
}
