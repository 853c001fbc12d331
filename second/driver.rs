//! The driver of the second program: makes networks and enquiries from a seed, puts each to the static library and to
//! the programs, and compares every answer with the reference's. See README.md for how it is run.

mod brute;
mod case;
mod damage;
mod enquiries;
mod examples;
mod generate;
mod library;
mod named;
mod process;
mod random;
mod reference;
mod selftest;

use case::{Case, Programs, Tally};
use std::process::ExitCode;
use std::{env, io};

const USAGE: &str = "\
driver CASES SEED [ROUTE [NORMALISE]]
driver --case SEED CASE [ROUTE [NORMALISE]]
driver --named [ROUTE [NORMALISE]]
driver --self";

/// After so many mismatches a run ends.
const MOST_MISMATCHES: u64 = 10;
/// Cases between two lines of progress.
const PROGRESS: u64 = 1_000;

/// The cases of a seed, counted from 0; whether all agree.
fn run_cases(cases: u64, seed: u64, programs: &Programs) -> io::Result<bool> {
    let mut tally = Tally::default();
    let mut mismatches = 0;
    let mut done = 0;
    while done < cases && mismatches < MOST_MISMATCHES {
        programs.folder.note(&format!("{seed} {done}"))?;
        if let Err(report) = Case::of(seed, done).run(programs, &mut tally) {
            mismatches += 1;
            println!("{report}");
        }
        done += 1;
        if done % PROGRESS == 0 {
            eprintln!("second: {done} of {cases}");
        }
    }
    println!("{}", tally.told());
    println!("second: {done} cases, {mismatches} mismatches");
    Ok(mismatches == 0)
}

fn run_case(seed: u64, number: u64, programs: &Programs) -> bool {
    let compared = Case::of(seed, number).run(programs, &mut Tally::default());
    match &compared {
        Ok(()) => println!("case {number} of seed {seed}: no mismatch"),
        Err(report) => println!("{report}"),
    }
    compared.is_ok()
}

/// Does what the arguments say; `None` where they say nothing known.
fn perform(arguments: &[&str]) -> Option<io::Result<bool>> {
    match arguments {
        ["--self"] => Some(Ok(selftest::run())),
        ["--named", paths @ ..] if paths.len() <= 2 => {
            Some(Programs::given(paths).and_then(|programs| named::run(&programs)))
        }
        ["--case", seed, number, paths @ ..] if paths.len() <= 2 => {
            let (seed, number) = (seed.parse().ok()?, number.parse().ok()?);
            Some(Programs::given(paths).map(|programs| run_case(seed, number, &programs)))
        }
        [cases, seed, paths @ ..] if paths.len() <= 2 => {
            let (cases, seed) = (cases.parse().ok()?, seed.parse().ok()?);
            Some(Programs::given(paths).and_then(|programs| run_cases(cases, seed, &programs)))
        }
        _ => None,
    }
}

fn main() -> ExitCode {
    let arguments: Vec<String> = env::args().skip(1).collect();
    let arguments: Vec<&str> = arguments.iter().map(String::as_str).collect();
    match perform(&arguments) {
        None => {
            eprintln!("{USAGE}");
            ExitCode::from(2)
        }
        Some(Err(error)) => {
            eprintln!("driver: {error}");
            ExitCode::from(2)
        }
        Some(Ok(agreed)) => ExitCode::from(u8::from(!agreed)),
    }
}
