//! Compares the proved library with the plain one, and with strict two-phase locking.
//!
//! `harness agree [FILES] [LISTS] [INPUTS]` tells in how many cases they differ; its status is 1 if in any.
//! `harness speed` tells how fast each is.

mod agree;
mod calls;
mod clock;
mod files;
mod inputs;
mod proved;
mod random;
mod shapes;
mod speed;
mod yards;

use std::env;
use std::process::ExitCode;

/// The argument at a place as a number.
fn count(at: usize, otherwise: u64) -> u64 {
    env::args()
        .nth(at)
        .and_then(|word| word.parse().ok())
        .unwrap_or(otherwise)
}

fn agree() -> ExitCode {
    let files = agree::files_agree(count(2, 40_000));
    println!(
        "agree files={} accepted={} faults={:?} states={} writes={} seeds=0.. differences={}",
        files.cases,
        files.accepted,
        &files.faults[1..],
        files.sets,
        files.writes,
        files.differences
    );
    let runs = agree::runs_agree(count(3, 30_000));
    println!(
        "agree runs={} answers={:?} seeds=2^40.. differences={}",
        runs.cases, runs.answers, runs.differences
    );
    let yards = yards::yards_agree(count(4, 20_000));
    println!(
        "agree yards={} accepted={} too_short={} words={:?} seeds=2^41.. differences={}",
        yards.tried.cases,
        yards.tried.accepted,
        yards.too_short,
        yards.words,
        yards.tried.differences
    );
    let differences = files.differences + runs.differences + yards.tried.differences;
    ExitCode::from(u8::from(differences > 0))
}

fn main() -> ExitCode {
    match env::args().nth(1).as_deref() {
        Some("agree") => agree(),
        Some("speed") => {
            speed::speed();
            ExitCode::SUCCESS
        }
        Some("repeat") => {
            let word = |at| env::args().nth(at).unwrap_or_default();
            speed::repeat(&word(2), &word(3), &word(4), count(5, 100) as u32);
            ExitCode::SUCCESS
        }
        _ => {
            eprintln!("usage: harness agree [FILES] [LISTS] [INPUTS] | speed | repeat read|step SHAPE proved|plain TIMES");
            ExitCode::FAILURE
        }
    }
}
