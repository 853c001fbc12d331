//! The static library called as a C host calls it, and its answers held against the reference's. Every room is lent
//! out of a larger memory filled with junk; after the call the whole memory must be what the reference makes of the
//! same junk, so that untouched entries and the guards around the room are compared like everything else.

use crate::random::Random;
use crate::reference::{Enquiry, Outcome, Reference, Rooms};
use std::fmt::Debug;
use std::fmt::Write;
use std::{ptr, thread};

extern "C" {
    fn mpakirovu_route(
        file: *const u8,
        file_len: usize,
        s: u32,
        a: u32,
        d: u32,
        b: u32,
        weight: *mut u32,
        weight_len: usize,
        count: *mut u16,
        count_len: usize,
        choice: *mut u16,
        choice_len: usize,
        step: *mut u16,
        step_len: usize,
        text: *mut u8,
        text_len: usize,
    ) -> Outcome;

    fn mpakirovu_normal(file: *const u8, file_len: usize, text: *mut u8, text_len: usize) -> Outcome;
}

/// The most entries of guard before and after a room.
const GUARD: usize = 24;
/// How many differing entries of a room a report lists, and how many bytes or entries of an answer it shows.
const LISTED: usize = 12;
const SHOWN: usize = 4_000;
/// The stack on which the library is called, in bytes: what the header asks of a host, so that a call that needs more
/// ends the run.
const STACK: usize = 2 << 20;

/// Something that a room holds.
trait Entry: Copy + PartialEq + Debug {
    fn of(bits: u64) -> Self;
}

impl Entry for u8 {
    fn of(bits: u64) -> u8 {
        bits as u8
    }
}

impl Entry for u16 {
    fn of(bits: u64) -> u16 {
        bits as u16
    }
}

impl Entry for u32 {
    fn of(bits: u64) -> u32 {
        bits as u32
    }
}

/// How rooms of length 0 are lent.
#[derive(Clone, Copy, Debug, PartialEq, Eq)]
pub enum Empty {
    Null,
    Pointer,
    /// Each room as chance has it.
    Either,
}

/// A room with guards on both sides; one of length 0 may be lent as NULL.
#[derive(Clone)]
struct Lent<T> {
    memory: Vec<T>,
    start: usize,
    length: usize,
    null: bool,
}

impl<T: Entry> Lent<T> {
    fn new(random: &mut Random, length: usize, empty: Empty) -> Lent<T> {
        let start = random.within(1..=GUARD);
        let whole = start + length + random.within(1..=GUARD);
        let memory = match random.below(5) {
            0 => vec![T::of(0); whole],
            1 => vec![T::of(u64::MAX); whole],
            _ => (0..whole).map(|_| T::of(random.next())).collect(),
        };
        let null = match empty {
            _ if length > 0 => false,
            Empty::Null => true,
            Empty::Pointer => false,
            Empty::Either => random.percent(50),
        };
        Lent { memory, start, length, null }
    }

    /// A copy of something lent for reading.
    fn holding(random: &mut Random, entries: &[T], empty: Empty) -> Lent<T> {
        let mut lent = Lent::new(random, entries.len(), empty);
        lent.room().copy_from_slice(entries);
        lent
    }

    fn room(&mut self) -> &mut [T] {
        &mut self.memory[self.start..self.start + self.length]
    }

    fn pointer(&mut self) -> *mut T {
        if self.null {
            ptr::null_mut()
        } else {
            self.room().as_mut_ptr()
        }
    }

    fn told(&self) -> String {
        format!("{}{}", self.length, if self.null { " (NULL)" } else { "" })
    }

    /// Adds to the report where another memory differs from this one; entry numbers count from the room's first.
    fn report(&self, name: &str, before: &Lent<T>, found: &Lent<T>, report: &mut String) {
        let indices: Vec<usize> = (0..self.memory.len()).filter(|&i| self.memory[i] != found.memory[i]).collect();
        for &index in indices.iter().take(LISTED) {
            let entry = index as isize - self.start as isize;
            let guard = if (0..self.length as isize).contains(&entry) { "" } else { " (guard)" };
            add(
                report,
                format!(
                    "{name} entry {entry}{guard}: before {:?}, expected {:?}, found {:?}",
                    before.memory[index], self.memory[index], found.memory[index]
                ),
            );
        }
        if indices.len() > LISTED {
            add(report, format!("{name}: {} entries differ in all", indices.len()));
        }
    }
}

fn add(report: &mut String, line: String) {
    writeln!(report, "{line}").expect("writing to a string succeeds");
}

/// The lengths of the five rooms, and how those of length 0 are lent.
#[derive(Clone, Copy, Debug)]
pub struct Lengths {
    pub weight: usize,
    pub count: usize,
    pub choice: usize,
    pub step: usize,
    pub text: usize,
    pub empty: Empty,
}

/// Everything lent to a route enquiry, before or after it.
#[derive(Clone)]
struct AllLent {
    file: Lent<u8>,
    weight: Lent<u32>,
    count: Lent<u16>,
    choice: Lent<u16>,
    step: Lent<u16>,
    text: Lent<u8>,
}

impl AllLent {
    fn rooms(&mut self) -> Rooms<'_> {
        Rooms {
            weight: self.weight.room(),
            count: self.count.room(),
            choice: self.choice.room(),
            step: self.step.room(),
            text: self.text.room(),
        }
    }

    fn call(&mut self, Enquiry { s, a, d, b }: Enquiry) -> Outcome {
        // SAFETY: every pointer is good for its length, or NULL with length 0, and no two memories overlap.
        unsafe {
            mpakirovu_route(
                self.file.pointer(),
                self.file.length,
                s,
                a,
                d,
                b,
                self.weight.pointer(),
                self.weight.length,
                self.count.pointer(),
                self.count.length,
                self.choice.pointer(),
                self.choice.length,
                self.step.pointer(),
                self.step.length,
                self.text.pointer(),
                self.text.length,
            )
        }
    }
}

/// Calls the library on a thread of its own, so that its stack is what `STACK` says.
fn on_stack(call: impl FnOnce() -> Outcome + Send) -> Outcome {
    thread::scope(|scope| {
        let called = thread::Builder::new().stack_size(STACK).spawn_scoped(scope, call).expect("a thread is to be had");
        called.join().expect("the library does not panic")
    })
}

/// Calls the route enquiry on both sides; the expected outcome, or a report of how they differ.
pub fn compare_route(
    random: &mut Random,
    reference: &Reference,
    file: &[u8],
    enquiry: Enquiry,
    lengths: Lengths,
) -> Result<Outcome, String> {
    let Lengths { weight, count, choice, step, text, empty } = lengths;
    let before = AllLent {
        file: Lent::holding(random, file, empty),
        weight: Lent::new(random, weight, empty),
        count: Lent::new(random, count, empty),
        choice: Lent::new(random, choice, empty),
        step: Lent::new(random, step, empty),
        text: Lent::new(random, text, empty),
    };
    let (mut right, mut found) = (before.clone(), before.clone());
    let expected = reference.route(enquiry, right.rooms());
    let outcome = on_stack(|| found.call(enquiry));

    let mut differences = String::new();
    right.file.report("file", &before.file, &found.file, &mut differences);
    right.weight.report("weight room", &before.weight, &found.weight, &mut differences);
    right.count.report("count room", &before.count, &found.count, &mut differences);
    right.choice.report("choice room", &before.choice, &found.choice, &mut differences);
    right.step.report("step room", &before.step, &found.step, &mut differences);
    right.text.report("text room", &before.text, &found.text, &mut differences);
    if outcome == expected && differences.is_empty() {
        return Ok(expected);
    }

    let Enquiry { s, a, d, b } = enquiry;
    let mut report = String::new();
    add(&mut report, format!("route enquiry S {s}, a {a}, D {d}, b {b}"));
    add(
        &mut report,
        format!(
            "room lengths: weight {}, count {}, choice {}, step {}, text {}; file {}",
            before.weight.told(),
            before.count.told(),
            before.choice.told(),
            before.step.told(),
            before.text.told(),
            before.file.told()
        ),
    );
    report_answers(&mut report, expected, right.text.room(), outcome, found.text.room());
    if expected.number == 0 || expected.number == 11 {
        let entries = (4 * expected.steps as usize).min(SHOWN);
        add(&mut report, format!("expected steps {:?}", &right.step.room()[..entries]));
        add(&mut report, format!("found steps    {:?}", &found.step.room()[..entries]));
    }
    Err(report + &differences)
}

/// Calls the normal writer on both sides; the expected outcome, or a report of how they differ.
pub fn compare_normal(
    random: &mut Random,
    reference: &Reference,
    file: &[u8],
    text_length: usize,
    empty: Empty,
) -> Result<Outcome, String> {
    let file_before = Lent::holding(random, file, empty);
    let text_before = Lent::<u8>::new(random, text_length, empty);
    let (mut right, mut found) = (text_before.clone(), text_before.clone());
    let mut file_after = file_before.clone();
    let expected = reference.normal(right.room());
    let outcome = on_stack(|| {
        // SAFETY: both pointers are good for their lengths, or NULL with length 0, and the memories do not overlap.
        unsafe { mpakirovu_normal(file_after.pointer(), file_after.length, found.pointer(), found.length) }
    });

    let mut differences = String::new();
    file_before.report("file", &file_before, &file_after, &mut differences);
    right.report("text room", &text_before, &found, &mut differences);
    if outcome == expected && differences.is_empty() {
        return Ok(expected);
    }

    let mut report = String::new();
    add(&mut report, format!("normal writer, text room {}; file {}", text_before.told(), file_before.told()));
    report_answers(&mut report, expected, right.room(), outcome, found.room());
    Err(report + &differences)
}

/// Both outcomes, and the text each says it has written as far as the room goes and a reader would.
fn report_answers(report: &mut String, expected: Outcome, right: &[u8], outcome: Outcome, found: &[u8]) {
    add(report, format!("expected {expected:?}"));
    add(report, format!("found    {outcome:?}"));
    add(report, format!("expected text {}", right[..expected.length.min(SHOWN)].escape_ascii()));
    add(report, format!("found text    {}", found[..outcome.length.min(found.len()).min(SHOWN)].escape_ascii()));
}
