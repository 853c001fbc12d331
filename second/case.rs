//! One case: a network made from the seed and the case's number, and all that is asked of it. The library is asked for
//! the file as made, or for the same lines in another order, and for some damaged copies of it; a share of the cases
//! goes through the programs as well. The first difference ends the case with a report that suffices to see it and to
//! make it again.

use crate::damage;
use crate::enquiries;
use crate::generate::{self, Made};
use crate::library::{self, Empty};
use crate::process::{Folder, Net};
use crate::random::Random;
use crate::reference::Reference;
use std::path::PathBuf;
use std::{env, fs, io};

/// Damaged copies asked of a small file; a file over `SMALL` bytes gets one.
const DAMAGED_COPIES: usize = 6;
const SMALL: usize = 4_000;

/// The programs to run, where given, and where to run them.
pub struct Programs {
    pub route: Option<PathBuf>,
    pub normalise: Option<PathBuf>,
    pub folder: Folder,
}

impl Programs {
    /// The route program, then the writer of normal files.
    pub fn given(paths: &[&str]) -> io::Result<Programs> {
        // The programs run in another folder, which a relative path would not survive.
        let found = |path: &&str| {
            let named = |error: io::Error| io::Error::new(error.kind(), format!("{path}: {error}"));
            PathBuf::from(path).canonicalize().map_err(named)
        };
        let (route, normalise) = (paths.first().map(found).transpose()?, paths.get(1).map(found).transpose()?);
        Ok(Programs { route, normalise, folder: Folder::new()? })
    }
}

/// How often each outcome was seen, and how many programs were run.
#[derive(Default)]
pub struct Tally {
    pub routes: [u64; 12],
    pub normals: [u64; 12],
    pub runs: u64,
}

impl Tally {
    pub fn told(&self) -> String {
        let told = |counts: &[u64; 12]| {
            let seen = counts.iter().enumerate().filter(|(_, &count)| count > 0);
            seen.map(|(number, count)| format!("{number}: {count}")).collect::<Vec<_>>().join(", ")
        };
        format!(
            "enquiries by outcome  {}\nnormal files by outcome  {}\nprogram runs  {}",
            told(&self.routes),
            told(&self.normals),
            self.runs
        )
    }
}

/// A file that is asked for, with the answers expected.
pub struct Subject {
    pub file: Vec<u8>,
    pub reference: Reference,
}

impl Subject {
    pub fn of(file: Vec<u8>) -> Subject {
        Subject { reference: Reference::of(&file), file }
    }

    pub fn accepted(&self) -> bool {
        self.reference.network().is_ok()
    }
}

pub struct Case {
    seed: u64,
    number: u64,
    random: Random,
    made: Made,
}

impl Case {
    pub fn of(seed: u64, number: u64) -> Case {
        let mut random = Random::of_case(seed, number);
        let made = generate::make(&mut random);
        Case { seed, number, random, made }
    }

    pub fn run(mut self, programs: &Programs, tally: &mut Tally) -> Result<(), String> {
        let mut whole = Subject::of(self.made.file.clone());
        if whole.accepted() && self.random.percent(30) {
            // What is expected of one order is expected of any other.
            whole.file = generate::in_any_order(&mut self.random, &whole.file);
        }
        let asked = if whole.accepted() && self.made.file.len() <= SMALL { self.random.within(1..=5) } else { 1 };
        self.ask_library(&whole, asked, tally)?;
        for _ in 0..if self.made.file.len() <= SMALL { DAMAGED_COPIES } else { 1 } {
            let copy = Subject::of(damage::damaged(&mut self.random, &self.made.file));
            self.ask_library(&copy, 1, tally)?;
        }
        self.ask_programs(&whole, programs, tally)
    }

    fn ask_library(&mut self, subject: &Subject, asked: usize, tally: &mut Tally) -> Result<(), String> {
        let Subject { file, reference } = subject;
        let random = &mut self.random;
        let text_length = enquiries::normal_length(random, file);
        match library::compare_normal(random, reference, file, text_length, Empty::Either) {
            Ok(outcome) => tally.normals[outcome.number as usize] += 1,
            Err(difference) => return Err(self.report(file, &difference)),
        }
        for _ in 0..asked {
            let random = &mut self.random;
            let enquiry = enquiries::enquiry(random, reference, self.made.enquiry);
            let lengths = enquiries::lengths(random, reference, enquiry);
            match library::compare_route(random, reference, file, enquiry, lengths) {
                Ok(outcome) => tally.routes[outcome.number as usize] += 1,
                Err(difference) => return Err(self.report(file, &difference)),
            }
        }
        Ok(())
    }

    fn ask_programs(&mut self, whole: &Subject, programs: &Programs, tally: &mut Tally) -> Result<(), String> {
        let random = &mut self.random;
        let damaged = Subject::of(damage::damaged(random, &self.made.file));
        let empty = Subject::of(Vec::new());
        let (net, subject) = match random.below(60) {
            0 => (Net::Absent, &empty),
            1 => (Net::Directory, &empty),
            2..=14 => (Net::File(&damaged.file), &damaged),
            _ => (Net::File(&whole.file), whole),
        };
        let chunk = random.pick(&[1_000, 4_096, 65_536, 1 << 20]);
        let (run_route, run_normalise) = (random.percent(15), random.percent(10));
        if let (Some(route), true) = (&programs.route, run_route) {
            let input = enquiries::input(random, &subject.reference, self.made.enquiry);
            let expected = subject.reference.route_program(&input);
            let compared = programs.folder.compare(route, net, &input, chunk, &expected);
            compared.map_err(|difference| self.report(&subject.file, &difference))?;
            tally.runs += 1;
        }
        if let (Some(normalise), true) = (&programs.normalise, run_normalise) {
            let expected = subject.reference.normalise_program();
            let compared = programs.folder.compare(normalise, net, b"", chunk, &expected);
            compared.map_err(|difference| self.report(&subject.file, &difference))?;
            tally.runs += 1;
        }
        Ok(())
    }

    fn report(&self, file: &[u8], difference: &str) -> String {
        let Case { seed, number, made, .. } = self;
        format!(
            "MISMATCH in case {number} of seed {seed} (family {})\n\
             again: driver --case {seed} {number}, with the same programs\n{}{difference}",
            made.family,
            told_file(file, &format!("mismatch-{seed}-{number}"))
        )
    }
}

/// A network file for a report: told line by line, and kept byte by byte beside the driver.
pub fn told_file(file: &[u8], name: &str) -> String {
    let kept = env::current_exe()
        .map(|driver| driver.with_file_name(format!("{name}.tsv")))
        .and_then(|path| fs::write(&path, file).map(|()| path));
    let kept = kept.map_or_else(|error| format!("not kept: {error}"), |path| format!("kept as {}", path.display()));
    let lines: Vec<String> =
        file.split_inclusive(|&byte| byte == b'\n').map(|line| format!("    {}\n", line.escape_ascii())).collect();
    format!("network file, {} bytes, {kept}:\n{}", file.len(), lines.concat())
}
