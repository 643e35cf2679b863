//! The reports and queries that are measured: drawn, and the same each time.

use reference::compose::{query_frame, report_frame};
use reference::draws::Draws;
use reference::frames::Call;

/// How many different terms reports are drawn from.
const TERMS: usize = 50_000;

/// How many queries of each kind are measured.
const QUERIES: usize = 40;

/// Reports, as frames and as lists of terms.
pub struct Workload {
    /// The terms, the most frequent first.
    pub terms: Vec<String>,
    /// The places of each report's terms in `terms`.
    pub reports: Vec<Vec<u32>>,
    /// The frame of each report.
    pub frames: Vec<Vec<u8>>,
    /// How many postings the reports have together.
    pub postings: usize,
}

impl Workload {
    /// This many reports. Each has 10 to 60 lines with different terms; the term at place n is drawn
    /// with a chance in proportion to 1 / n (Zipf's law).
    pub fn new(reports: usize) -> Workload {
        let mut draws = Draws::new(0x0BE7_C4A1_2026);
        let terms = draw_terms(&mut draws);
        let zipf = Zipf::new(TERMS);
        let mut workload = Workload {
            terms,
            reports: Vec::new(),
            frames: Vec::new(),
            postings: 0,
        };
        for _ in 0..reports {
            workload.add_report(&mut draws, &zipf);
        }
        workload
    }

    fn add_report(&mut self, draws: &mut Draws, zipf: &Zipf) {
        let lines = draws.between(10, 60);
        let mut places: Vec<u32> = Vec::new();
        while places.len() < lines {
            let place = zipf.draw(draws);
            if !places.contains(&place) {
                places.push(place);
            }
        }
        let lines: Vec<(&[u8], u32)> = places
            .iter()
            .map(|place| (self.terms[*place as usize].as_bytes(), draw_count(draws)))
            .collect();
        self.frames.push(report_frame(&lines));
        self.postings += lines.len();
        self.reports.push(places);
    }

    /// In how many reports each term stands.
    fn frequencies(&self) -> Vec<usize> {
        let mut frequencies = vec![0; self.terms.len()];
        for place in self.reports.iter().flatten() {
            frequencies[*place as usize] += 1;
        }
        frequencies
    }

    /// The queries of all kinds.
    pub fn queries(&self) -> Vec<Queries> {
        let frequencies = self.frequencies();
        let reports = self.reports.len();
        let of_frequency = |least: usize, most: usize| {
            let places = 0..self.terms.len() as u32;
            let range = least..=most;
            let fitting = places.filter(|place| range.contains(&frequencies[*place as usize]));
            let fitting: Vec<u32> = fitting.collect();
            let step = (fitting.len() / QUERIES).max(1);
            let spread = fitting.into_iter().step_by(step).take(QUERIES);
            spread.map(|place| vec![place]).collect()
        };
        let mut all = vec![
            Queries::new("one term, rare (5 to 20 reports)", of_frequency(5, 20)),
            Queries::new(
                "one term, middle (1 of 200 reports)",
                of_frequency(reports / 250, reports / 150),
            ),
            Queries::new(
                "one term, frequent (over 1 of 4 reports)",
                of_frequency(reports / 4, reports),
            ),
        ];
        for (number, name) in [
            (2, "2 terms"),
            (3, "3 terms"),
            (4, "4 terms"),
            (8, "8 terms"),
        ] {
            all.push(Queries::new(name, self.terms_of_one_report(number)));
        }
        all
    }

    /// Queries that name an unknown term beside several known ones: the chains of these are read
    /// whole, as always, and nothing is listed.
    pub fn readings(&self) -> Vec<Queries> {
        let kinds = [
            (2, "2 terms"),
            (3, "3 terms"),
            (4, "4 terms"),
            (7, "7 terms"),
        ];
        let reading = |(number, name)| Queries {
            and_unknown: true,
            ..Queries::new(name, self.terms_of_one_report(number))
        };
        kinds.into_iter().map(reading).collect()
    }

    /// So many terms of one report, for each of several reports: each query matches at least one.
    fn terms_of_one_report(&self, number: usize) -> Vec<Vec<u32>> {
        let step = self.reports.len() / QUERIES;
        let chosen = self
            .reports
            .iter()
            .skip(step / 2)
            .step_by(step)
            .take(QUERIES);
        chosen.map(|places| places[..number].to_vec()).collect()
    }
}

/// Queries of one kind: for each the places of its terms.
pub struct Queries {
    /// What kind.
    pub name: &'static str,
    /// The places of each query's terms.
    pub places: Vec<Vec<u32>>,
    /// Whether each names an unknown term too.
    and_unknown: bool,
}

impl Queries {
    fn new(name: &'static str, places: Vec<Vec<u32>>) -> Queries {
        Queries {
            name,
            places,
            and_unknown: false,
        }
    }

    /// Whether the queries name one term each.
    pub fn are_of_one_term(&self) -> bool {
        self.places.iter().all(|places| places.len() == 1)
    }

    /// The frames of the queries.
    pub fn frames(&self, terms: &[String]) -> Vec<Vec<u8>> {
        let call = if self.are_of_one_term() {
            Call::OneTerm
        } else {
            Call::AllTerms
        };
        let frame = |places: &Vec<u32>| {
            let named = places.iter().map(|place| terms[*place as usize].as_bytes());
            // No term of the workload has this byte.
            let unknown = self.and_unknown.then_some(&b"!"[..]);
            query_frame(call, 0, &named.chain(unknown).collect::<Vec<&[u8]>>())
        };
        self.places.iter().map(frame).collect()
    }
}

/// Different terms of 2 to 20 small letters and digits.
fn draw_terms(draws: &mut Draws) -> Vec<String> {
    const LETTERS: &[u8; 36] = b"abcdefghijklmnopqrstuvwxyz0123456789";
    let mut met = std::collections::HashSet::new();
    let mut terms = Vec::new();
    while terms.len() < TERMS {
        let length = draws.between(2, 20);
        let letter = |_| char::from(LETTERS[draws.between(0, LETTERS.len() - 1)]);
        let term: String = (0..length).map(letter).collect();
        if met.insert(term.clone()) {
            terms.push(term);
        }
    }
    terms
}

/// A count: 1, 2 or 3 in 19 of 20 cases.
fn draw_count(draws: &mut Draws) -> u32 {
    match draws.below(20) {
        0..=12 => 1,
        13..=16 => 2,
        17 | 18 => 3,
        _ => draws.between(4, 40) as u32,
    }
}

/// Draws places by Zipf's law.
struct Zipf {
    /// The sums of the weights up to each place.
    sums: Vec<u64>,
}

impl Zipf {
    fn new(places: usize) -> Zipf {
        let mut sum = 0;
        let weights = (1..=places as u64).map(|place| 1_000_000_000 / place);
        let sums = weights.map(|weight| {
            sum += weight;
            sum
        });
        Zipf {
            sums: sums.collect(),
        }
    }

    fn draw(&self, draws: &mut Draws) -> u32 {
        let drawn = draws.below(*self.sums.last().expect("a place"));
        self.sums.partition_point(|sum| *sum <= drawn) as u32
    }
}
