//! A plot of the figures: for each row, how many times as long as the library the others take.

use std::fmt::Write;

/// One row of a table: what was measured, and the time of the library, of plain Rust and, where it is
/// measured, of FTS5, in one unit.
#[derive(Debug, Clone)]
pub struct Bars {
    /// What was measured.
    pub what: String,
    /// The library's time.
    pub library: f64,
    /// The time of plain Rust.
    pub plain: f64,
    /// The time of FTS5.
    pub fts: Option<f64>,
}

/// The rows of one number of reports.
#[derive(Debug, Clone)]
pub struct Group {
    /// How many reports there are.
    pub reports: usize,
    /// The rows.
    pub rows: Vec<Bars>,
}

const WIDTH: f64 = 860.0;

/// Where the bars begin: the place of the ratio `LEAST`.
const LEFT: f64 = 290.0;

/// A doubling of the time.
const DOUBLING: f64 = 80.0;

const LEAST: f64 = 0.5;

const BAR: f64 = 9.0;

const ROW: f64 = 26.0;

const LINES: [f64; 7] = [0.5, 1.0, 2.0, 4.0, 8.0, 16.0, 32.0];

const PLAIN: &str = "#5b8db8";

const FTS: &str = "#c9a24b";

/// Where a ratio stands from left to right.
fn place(ratio: f64) -> f64 {
    LEFT + DOUBLING * (ratio.max(LEAST) / LEAST).log2()
}

/// The plot as an SVG document.
pub fn svg(groups: &[Group]) -> String {
    let rows: usize = groups.iter().map(|group| group.rows.len()).sum();
    let height = 90.0 + 40.0 * groups.len() as f64 + ROW * rows as f64;
    let mut out = String::new();
    let _ = writeln!(
        out,
        "<svg xmlns=\"http://www.w3.org/2000/svg\" width=\"{WIDTH}\" height=\"{height}\" \
         font-family=\"sans-serif\" font-size=\"12\">\n\
         <rect width=\"100%\" height=\"100%\" fill=\"#ffffff\"/>\n\
         <text x=\"10\" y=\"22\" font-size=\"15\">Time, in times of the proved library's (best rounds)</text>\n\
         <rect x=\"10\" y=\"34\" width=\"12\" height=\"{BAR}\" fill=\"{PLAIN}\"/><text x=\"28\" y=\"43\">plain Rust</text>\n\
         <rect x=\"110\" y=\"34\" width=\"12\" height=\"{BAR}\" fill=\"{FTS}\"/><text x=\"128\" y=\"43\">SQLite FTS5</text>"
    );
    grid(&mut out, height);
    let mut y = 75.0;
    for group in groups {
        y += 24.0;
        let _ = writeln!(
            out,
            "<text x=\"10\" y=\"{y:.0}\" font-weight=\"bold\">{} reports</text>",
            group.reports
        );
        y += 16.0;
        for row in &group.rows {
            bars(&mut out, row, y);
            y += ROW;
        }
    }
    out.push_str("</svg>\n");
    out
}

/// The lines of the ratios; that of the library is darker.
fn grid(out: &mut String, height: f64) {
    for ratio in LINES {
        let (x, end) = (place(ratio), height - 12.0);
        let colour = if ratio == 1.0 { "#333333" } else { "#dddddd" };
        let _ = writeln!(
            out,
            "<line x1=\"{x:.0}\" y1=\"70\" x2=\"{x:.0}\" y2=\"{end:.0}\" stroke=\"{colour}\"/>\
             <text x=\"{x:.0}\" y=\"64\" text-anchor=\"middle\">{ratio}</text>"
        );
    }
}

/// The bars of one row, from the line of the library on.
fn bars(out: &mut String, row: &Bars, y: f64) {
    let _ = writeln!(
        out,
        "<text x=\"{}\" y=\"{:.0}\" text-anchor=\"end\">{}</text>",
        LEFT - 12.0,
        y + 12.0,
        row.what
    );
    bar(out, row.plain / row.library, y, PLAIN);
    if let Some(fts) = row.fts {
        bar(out, fts / row.library, y + BAR + 1.0, FTS);
    }
}

fn bar(out: &mut String, ratio: f64, y: f64, colour: &str) {
    let (one, end) = (place(1.0), place(ratio));
    let (x, width) = (one.min(end), (end - one).abs().max(1.0));
    let _ = writeln!(
        out,
        "<rect x=\"{x:.1}\" y=\"{y:.1}\" width=\"{width:.1}\" height=\"{BAR}\" fill=\"{colour}\"/>\
         <text x=\"{:.1}\" y=\"{:.1}\" font-size=\"10\">{ratio:.1}</text>",
        one.max(end) + 4.0,
        y + BAR - 0.5
    );
}
