//! What is asked of a network: the four values of an enquiry, the lengths of the rooms around those that just suffice,
//! and the input of the route program.

use crate::library::{Empty, Lengths};
use crate::random::Random;
use crate::reference::{Enquiry, Network, Reference, INPUT_LIMIT, STEP_LIMIT};

/// Networks of more places are only asked what is refused before the tables are filled.
pub const TABLE_PLACES: usize = 90;

/// Ways to spell an input line that are not quite an enquiry, or one out of range.
const ODD_LINES: [&[u8]; 26] = [
    b"\n",
    b"ask\n",
    b"ask\t0\t0\t0\n",
    b"ask\t0\t0\t0\t0\t\n",
    b"ask\t0\t0\t0\t0\t0\n",
    b"ask\t0\t0\t0\t00\n",
    b"ask\t00\t0\t0\t0\n",
    b"ask\t0\t0\t0\t0\r\n",
    b"ask\t0\t0\t0\t\n",
    b"ask\t\t0\t0\t0\n",
    b"ask\t0\t\t0\t0\t0\n",
    b"\task\t0\t0\t0\t0\n",
    b"ask 0 0 0 0\n",
    b" ask\t0\t0\t0\t0\n",
    b"ASK\t0\t0\t0\t0\n",
    b"asks\t0\t0\t0\t0\n",
    b"as\t0\t0\t0\t0\n",
    b"net\t1\t1\n",
    b"ask\t+0\t0\t0\t0\n",
    b"ask\t0\t-0\t0\t0\n",
    b"ask\t0\t0\t0x0\t0\n",
    b"ask\t9999\t0\t0\t00\n",
    b"ask\t4294967296\t4294967296\t4294967296\t4294967296\n",
    b"ask\t0\t0\t18446744073709551616\t0\n",
    b"ask\t0\t0\t0\t340282366920938463463374607431768211456\n",
    b"ask\t\xff\t0\t0\t0\0\n",
];

/// An enquiry: the one the network was built for, a feasible one with many steps, the empty route's, any, or one with
/// values out of range.
pub fn enquiry(random: &mut Random, reference: &Reference, built_for: Option<Enquiry>) -> Enquiry {
    let Ok(network) = reference.network() else {
        let mut value = || random.below(4) as u32;
        return Enquiry { s: value(), a: value(), d: value(), b: value() };
    };
    let tables = network.places() <= TABLE_PLACES;
    match (random.below(100), built_for) {
        (0..=39, Some(enquiry)) => enquiry,
        (0..=74, _) if tables => longest_of(random, network, reference, 12),
        (75..=79, _) => {
            let Enquiry { s, a, .. } = any(random, network);
            Enquiry { s, a, d: s, b: a }
        }
        (80..=88, _) => out_of_range(random, network),
        _ => any(random, network),
    }
}

fn any(random: &mut Random, network: &Network) -> Enquiry {
    let (nodes, protocols) = (network.nodes as usize, network.protocols as usize);
    Enquiry {
        s: random.below(nodes) as u32,
        a: random.below(protocols) as u32,
        d: random.below(nodes) as u32,
        b: random.below(protocols) as u32,
    }
}

/// Of so many random enquiries, a feasible one with the most steps.
fn longest_of(random: &mut Random, network: &Network, reference: &Reference, tries: usize) -> Enquiry {
    let enquiries: Vec<Enquiry> = (0..tries).map(|_| any(random, network)).collect();
    let steps = |enquiry: &Enquiry| reference.cost(*enquiry).map(|cost| cost.steps);
    enquiries.into_iter().max_by_key(steps).unwrap_or_else(|| any(random, network))
}

/// One or two values at or past the end of their ranges.
fn out_of_range(random: &mut Random, network: &Network) -> Enquiry {
    let Enquiry { s, a, d, b } = any(random, network);
    let ranges = [(s, network.nodes), (a, network.protocols), (d, network.nodes), (b, network.protocols)];
    let mut values = ranges.map(|(value, _)| value);
    for _ in 0..random.within(1..=2) {
        let which = random.below(4);
        let (value, end) = ranges[which];
        values[which] = random.pick(&[end, end, end + 1, 256, 65_536 + value, 1 << 31, u32::MAX - 1, u32::MAX]);
    }
    let [s, a, d, b] = values;
    Enquiry { s, a, d, b }
}

/// Lengths of every kind around what the answer needs.
pub fn lengths(random: &mut Random, reference: &Reference, enquiry: Enquiry) -> Lengths {
    let Ok(network) = reference.network() else {
        let mut length = || random.pick(&[0, 1, 4, 30, 300]);
        let [weight, count, choice, step, text] = [(); 5].map(|()| length());
        return Lengths { weight, count, choice, step, text, empty: Empty::Either };
    };
    let pairs = network.places() * network.places();
    let mut tables = [pairs, pairs, 8 * pairs];
    if network.places() > TABLE_PLACES {
        // Too short by one entry in one room, or far too short in all.
        let short = random.below(10);
        for (room, length) in tables.iter_mut().enumerate() {
            *length = if short < 3 { *length - usize::from(room == short) } else { random.below(100) };
        }
    } else {
        let shorten = random.percent(12);
        for length in &mut tables {
            *length = match random.below(10) {
                0..=2 if shorten => *length - 1,
                3 if shorten => random.below(*length),
                4 if shorten => 0,
                5..=7 => *length,
                _ => *length + random.within(1..=9),
            };
        }
    }
    let [weight, count, choice] = tables;
    let within_tables = network.holds(enquiry) && network.places() <= TABLE_PLACES;
    let (steps, bytes) = match within_tables.then(|| reference.best_route(enquiry)).flatten() {
        Some(route) => (route.keys.len(), route.text.len()),
        None => (random.pick(&[0, 3, STEP_LIMIT as usize, STEP_LIMIT as usize + 100]), 100),
    };
    let step = match random.below(20) {
        0 => 0,
        1..=2 => (4 * steps).saturating_sub(1),
        3 => random.below(4 * steps + 1),
        4..=5 => 4 * STEP_LIMIT as usize,
        6..=8 => 4 * steps + random.within(4..=11),
        _ => 4 * steps + random.below(4),
    };
    let text = match random.below(20) {
        0..=1 => 0,
        2..=4 => bytes.saturating_sub(1),
        5 => random.below(bytes + 1),
        6..=11 => bytes + random.within(1..=40),
        _ => bytes,
    };
    Lengths { weight, count, choice, step, text, empty: Empty::Either }
}

/// The text room of the normal writer.
pub fn normal_length(random: &mut Random, file: &[u8]) -> usize {
    match random.below(8) {
        0 => 0,
        1..=2 => file.len().saturating_sub(1),
        3 => random.below(file.len() + 1),
        4..=5 => file.len() + random.within(1..=40),
        _ => file.len(),
    }
}

/// Standard input for the route program.
pub fn input(random: &mut Random, reference: &Reference, built_for: Option<Enquiry>) -> Vec<u8> {
    let mut input = Vec::new();
    for _ in 0..random.below(7) {
        if random.percent(30) {
            input.extend(random.pick(&ODD_LINES));
        } else {
            let Enquiry { s, a, d, b } = enquiry(random, reference, built_for);
            input.extend(format!("ask\t{s}\t{a}\t{d}\t{b}\n").bytes());
        }
    }
    // So many enquiries are asked only where each is quick.
    let quick = reference.network().is_ok_and(|network| network.places() <= 4);
    match random.below(40) {
        0..=1 => {
            input.pop();
        }
        2 => fill(random, &mut input, INPUT_LIMIT, quick),
        3 => fill(random, &mut input, INPUT_LIMIT + 1, quick),
        4 => fill(random, &mut input, INPUT_LIMIT + 40_000, quick),
        _ => {}
    }
    input
}

/// Lengthens an input to a size: by one long field, a number perhaps, by empty lines or by many enquiries.
fn fill(random: &mut Random, input: &mut Vec<u8>, size: usize, enquiries: bool) {
    let fillers: [&[u8]; 5] = [b"x", b"0", b"1", b"\n", b"ask\t0\t0\t0\t0\n"];
    let filler = random.pick(&fillers[..if enquiries { 5 } else { 4 }]);
    input.extend(b"ask\t0\t0\t0\t");
    input.extend(filler.iter().cycle().take(size - input.len()));
    if random.percent(70) {
        input[size - 1] = b'\n';
    }
}
