//! Compares the proved library with the reference and the plain ledger over drawn calls.
//!
//! Use: `differential CALLS [SEED]`. Cases are run one after another, from the case with the seed on,
//! until they made so many calls. Without a seed one is taken from the clock. The same seed gives
//! the same calls each time.

use std::process::ExitCode;
use std::time::{Instant, SystemTime, UNIX_EPOCH};

use differential::calls::LIBRARY;
use differential::cases;

fn main() -> ExitCode {
    let words: Vec<String> = std::env::args().skip(1).collect();
    let Some((calls, seed)) = read_words(&words) else {
        eprintln!(
            "Use: differential CALLS [SEED]    (two numbers; without a seed the clock gives one)"
        );
        return ExitCode::from(2);
    };
    println!("seed {seed}");
    let clock = Instant::now();
    match cases::run(LIBRARY, seed, calls, |_| true) {
        Ok(tally) => {
            print!("{}", tally.text());
            println!(
                "no difference; {:.1} seconds",
                clock.elapsed().as_secs_f64()
            );
            ExitCode::SUCCESS
        }
        Err(failure) => {
            println!("DIFFERENCE\n{failure}");
            ExitCode::FAILURE
        }
    }
}

/// The number of calls and the seed, or nothing if the words do not give them.
fn read_words(words: &[String]) -> Option<(u64, u64)> {
    match words {
        [calls] => Some((calls.parse().ok()?, seed_of_clock())),
        [calls, seed] => Some((calls.parse().ok()?, seed.parse().ok()?)),
        _ => None,
    }
}

/// A seed that differs from run to run.
fn seed_of_clock() -> u64 {
    let since = SystemTime::now().duration_since(UNIX_EPOCH);
    since.map_or(1, |since| since.as_millis() as u64)
}
