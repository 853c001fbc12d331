//! The named cases: a fixed list of cases at the edges, compared as the random cases are. Each says in the
//! list what it is to give, so that a case that no longer is what its name says fails even where both sides agree.

mod list;
mod rings;

use crate::case::{told_file, Programs, Subject, Tally};
use crate::examples::{spelled, LISTED_INPUT, LISTED_OUTPUT, NETWORK_A};
use crate::library::{self, Empty, Lengths};
use crate::process::Net;
use crate::random::Random;
use crate::reference::{Enquiry, Outcome, StepKey, STEP_LIMIT};
use std::fmt::Debug;
use std::io;
use std::rc::Rc;

/// Decides the junk in the rooms and where they lie, nothing else.
const SEED: u64 = 1;
/// The text room of a case that is not about it.
const TEXT_ROOM: usize = 65_536;
/// Bytes that a program's standard input is written by.
const CHUNK: usize = 4_096;

struct Named {
    name: String,
    subject: Rc<Subject>,
    enquiry: Enquiry,
    lengths: Lengths,
    expected: Expected,
}

/// What a case is to give: the outcome, and the rest as far as its name is about it.
#[derive(Default)]
struct Expected {
    number: u32,
    line: u32,
    weight: u32,
    steps: u32,
    length: Option<usize>,
    tunnels: Option<usize>,
    links: Option<Vec<u16>>,
    keys: Option<Vec<StepKey>>,
}

impl Named {
    /// A case with rooms that just suffice for the tables and with room for every route.
    fn new(name: impl Into<String>, subject: &Rc<Subject>, [s, a, d, b]: [u32; 4]) -> Named {
        let pairs = subject.reference.network().map_or(0, |network| network.places() * network.places());
        let lengths = Lengths {
            weight: pairs,
            count: pairs,
            choice: 8 * pairs,
            step: 4 * STEP_LIMIT as usize,
            text: TEXT_ROOM,
            empty: Empty::Either,
        };
        let enquiry = Enquiry { s, a, d, b };
        Named { name: name.into(), subject: Rc::clone(subject), enquiry, lengths, expected: Expected::default() }
    }

    fn lent(mut self, change: impl FnOnce(&mut Lengths)) -> Named {
        change(&mut self.lengths);
        self
    }

    fn gives(mut self, number: u32, weight: u32, steps: u32) -> Named {
        self.expected = Expected { number, weight, steps, ..self.expected };
        self
    }

    fn refused(self, number: u32) -> Named {
        self.gives(number, 0, 0)
    }

    fn at_line(mut self, line: u32) -> Named {
        self.expected.line = line;
        self
    }

    fn writes(mut self, bytes: usize) -> Named {
        self.expected.length = Some(bytes);
        self
    }

    fn opens(mut self, tunnels: usize) -> Named {
        self.expected.tunnels = Some(tunnels);
        self
    }

    fn takes(mut self, links: &[u16]) -> Named {
        self.expected.links = Some(links.to_vec());
        self
    }

    fn has_keys(mut self, keys: &[StepKey]) -> Named {
        self.expected.keys = Some(keys.to_vec());
        self
    }

    fn run(&self, random: &mut Random, programs: &Programs, tally: &mut Tally) -> Result<(), String> {
        let reference = &self.subject.reference;
        let empty = self.lengths.empty;
        let keys = self.keys();
        for file in self.orders() {
            let text_length = self.lengths.text.min(file.len());
            let normal = library::compare_normal(random, reference, &file, text_length, empty)?;
            tally.normals[normal.number as usize] += 1;
            let outcome = library::compare_route(random, reference, &file, self.enquiry, self.lengths)?;
            tally.routes[outcome.number as usize] += 1;
            self.judge(outcome, &keys)?;
        }
        self.run_programs(programs, tally)
    }

    fn run_programs(&self, programs: &Programs, tally: &mut Tally) -> Result<(), String> {
        let Subject { file, reference } = &*self.subject;
        if let Some(route) = &programs.route {
            let Enquiry { s, a, d, b } = self.enquiry;
            let input = format!("ask\t{s}\t{a}\t{d}\t{b}\n").into_bytes();
            let expected = reference.route_program(&input);
            programs.folder.compare(route, Net::File(file), &input, CHUNK, &expected)?;
            tally.runs += 1;
        }
        if let Some(normalise) = &programs.normalise {
            let expected = reference.normalise_program();
            programs.folder.compare(normalise, Net::File(file), b"", CHUNK, &expected)?;
            tally.runs += 1;
        }
        Ok(())
    }

    /// The file as it is listed and, where it is accepted, with its lines after the first backwards: the same is
    /// expected of both.
    fn orders(&self) -> Vec<Vec<u8>> {
        let file = &self.subject.file;
        let mut lines: Vec<&[u8]> = file.split_inclusive(|&byte| byte == b'\n').collect();
        match &mut lines[..] {
            [_, others @ ..] if self.subject.accepted() => others.reverse(),
            _ => return vec![file.clone()],
        }
        vec![file.clone(), lines.concat()]
    }

    /// Whether the outcome and the best route's keys are what the list says.
    fn judge(&self, outcome: Outcome, taken: &[StepKey]) -> Result<(), String> {
        let Expected { number, line, weight, steps, length, tunnels: opened, links, keys } = &self.expected;
        held("number", Some(number), &outcome.number)?;
        held("line", Some(line), &outcome.line)?;
        held("weight", Some(weight), &outcome.weight)?;
        held("steps", Some(steps), &outcome.steps)?;
        held("length", length.as_ref(), &outcome.length)?;
        held("open tunnels", opened.as_ref(), &tunnels(taken))?;
        held("links", links.as_ref(), &taken.iter().map(|key| key[0]).collect())?;
        held("step keys", keys.as_ref(), &taken.to_vec())
    }

    /// The step keys of the best route, none where there is none to be handed out.
    fn keys(&self) -> Vec<StepKey> {
        let reference = &self.subject.reference;
        let asked = reference.network().is_ok_and(|network| network.holds(self.enquiry));
        let route = asked.then(|| reference.best_route(self.enquiry)).flatten();
        route.map_or(Vec::new(), |route| route.keys)
    }

    fn report(&self, number: usize, difference: &str) -> String {
        let told = told_file(&self.subject.file, &format!("mismatch-named-{number}"));
        format!("MISMATCH in named case {number}, {}\n{told}{difference}", self.name)
    }
}

/// The most tunnels that are open at once.
fn tunnels(keys: &[StepKey]) -> usize {
    let opened = keys.iter().scan(0, |open, [_, kind, ..]| {
        *open += [0, 1, -1][usize::from(*kind)];
        Some(*open)
    });
    opened.max().unwrap_or(0) as usize
}

fn held<T: PartialEq + Debug>(what: &str, listed: Option<&T>, found: &T) -> Result<(), String> {
    match listed {
        Some(listed) if listed != found => {
            Err(format!("not what its name says: {what} listed as {listed:?}, found {found:?}\n"))
        }
        _ => Ok(()),
    }
}

/// Document 01's listing word by word, whatever the reference would write.
fn listing_of_the_program(programs: &Programs, tally: &mut Tally) -> Result<(), String> {
    let (file, input, expected) = (spelled(NETWORK_A), spelled(LISTED_INPUT), spelled(LISTED_OUTPUT));
    if let Some(route) = &programs.route {
        programs.folder.compare(route, Net::File(&file), &input, CHUNK, &expected)?;
        tally.runs += 1;
    }
    Ok(())
}

/// The whole list; whether all agree.
pub fn run(programs: &Programs) -> io::Result<bool> {
    let mut tally = Tally::default();
    let cases = list::all();
    let mut reports: Vec<String> = listing_of_the_program(programs, &mut tally).err().into_iter().collect();
    for (number, case) in cases.iter().enumerate() {
        programs.folder.note(&format!("named case {number}, {}", case.name))?;
        let mut random = Random::of_case(SEED, number as u64);
        if let Err(difference) = case.run(&mut random, programs, &mut tally) {
            reports.push(case.report(number, &difference));
        }
    }
    for report in &reports {
        println!("{report}");
    }
    println!("{}", tally.told());
    println!("second: {} named cases, {} mismatches", cases.len(), reports.len());
    Ok(reports.is_empty())
}
