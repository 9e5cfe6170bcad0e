//! Lists the same heads of the same inputs by the proved library and by GULA, compares the rules, and reports the seconds.
mod clock;
mod gula;
mod input;
mod plain;
mod random;
mod rulebook;

use gula::{Compare, TooLong, coded, learn};
use input::{Input, VALUES, inputs};
use std::process::ExitCode;
use std::time::{Duration, Instant};

/// A call is made again until so many seconds went by; the mean counts.
const LONG_ENOUGH: f64 = 0.5;

/// Rule memory for as many rules as there can be bodies.
const RULE_MEMORY: usize = 8 * 1_000_000;

/// The answer of a call, and its seconds.
fn timed<T>(mut call: impl FnMut() -> T) -> (T, f64) {
    let started = clock::seconds();
    let mut calls = 0.0;
    loop {
        let answer = call();
        calls += 1.0;
        let taken = clock::seconds() - started;
        if taken >= LONG_ENOUGH {
            return (answer, taken / calls);
        }
    }
}

/// What GULA did: its rules and seconds, or none where it was stopped.
struct Learned(Option<(Vec<[u8; 8]>, f64)>);

impl Learned {
    /// GULA with its rules as arrays.
    fn plain(input: &Input, value: u8, limit: Duration) -> Learned {
        let (learned, seconds) = timed(|| plain::learn(input, value, Instant::now() + limit));
        Learned(match learned {
            Ok(rules) => Some((plain::coded(input, &rules), seconds)),
            Err(TooLong) => None,
        })
    }

    /// GULA with each rule in a word.
    fn packed(input: &Input, value: u8, compare: Compare, limit: Duration) -> Learned {
        let (learned, seconds) = timed(|| learn(input, value, compare, Instant::now() + limit));
        Learned(match learned {
            Ok(rules) => Some((coded(input, &rules), seconds)),
            Err(TooLong) => None,
        })
    }

    /// The seconds, and how many times as long the listing took.
    fn cells(&self, listing: f64, limit: Duration) -> String {
        match &self.0 {
            Some((_, seconds)) => format!("{seconds:>10.6} {:>8.2}", listing / seconds),
            None => format!("{:>10} {:>8}", format!("> {}", limit.as_secs()), "-"),
        }
    }

    /// Whether the rules are others than those of the listing.
    fn differs(&self, rules: &[u8]) -> bool {
        self.0
            .as_ref()
            .is_some_and(|(learned, _)| learned.as_flattened() != rules)
    }
}

/// Lists one head by both programs, and answers whether they agree.
fn compare(input: &Input, value: u8, memory: &mut [u8], limit: Duration) -> bool {
    let image = rulebook::image(input);
    let (count, seconds) = timed(|| rulebook::list(input.kind, &image, value, memory));
    let rules = &memory[..8 * count];
    let learned = [
        Learned::plain(input, value, limit),
        Learned::packed(input, value, Compare::All, limit),
        Learned::packed(input, value, Compare::NearMisses, limit),
    ];
    let agreed = !learned.iter().any(|l| l.differs(rules));
    let cells: Vec<String> = learned.iter().map(|l| l.cells(seconds, limit)).collect();
    let verdict = match agreed {
        _ if learned.iter().all(|l| l.0.is_none()) => "not compared",
        true => "same rules",
        false => "DIFFERENT RULES",
    };
    println!(
        "{:<26} {value:>5} {count:>7} {seconds:>10.6} {} {verdict}",
        input.name,
        cells.join(" ")
    );
    agreed
}

fn main() -> ExitCode {
    let limit = std::env::args()
        .nth(1)
        .map_or(60, |s| s.parse().expect("seconds"));
    let limit = Duration::from_secs(limit);
    let mut memory = vec![0; RULE_MEMORY];
    let mut agree = true;
    println!(
        "{:<26} {:>5} {:>7} {:>10} {:>10} {:>8} {:>10} {:>8} {:>10} {:>8}",
        "features, rows, kind",
        "value",
        "rules",
        "listing",
        "GULA",
        "ratio",
        "packed",
        "ratio",
        "filtered",
        "ratio"
    );
    for input in inputs() {
        for value in 0..VALUES {
            agree &= compare(&input, value, &mut memory, limit);
        }
    }
    if agree {
        ExitCode::SUCCESS
    } else {
        ExitCode::FAILURE
    }
}
