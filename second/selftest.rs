//! The reference held against document 01's own words (marked examples, listing, run-only cases) and against the
//! search over real stacks. Deterministic; every failure is printed, and any makes the whole fail.

use crate::brute;
use crate::examples::{run_only, spelled, EXAMPLES, LISTED_INPUT, LISTED_OUTPUT, NETWORK_A};
use crate::generate;
use crate::random::Random;
use crate::reference::{Enquiry, Network, Outcome, Reference, Rooms, COUNT_OVER, STEP_LIMIT, WEIGHT_LIMIT};

const SEED: u64 = 1;
/// Small networks that are tried out in full.
const TRIED_NETWORKS: u64 = 1_500;
/// The longest routes that are tried on them.
const TRIED_STEPS: usize = 10;
/// The longest routes that are tried in families where hardly any step is free.
const LONG_STEPS: usize = 300;

/// Counts what was checked and prints what failed.
#[derive(Default)]
struct Checks {
    made: u64,
    failed: u64,
}

impl Checks {
    fn check(&mut self, holds: bool, what: impl FnOnce() -> String) {
        self.made += 1;
        if !holds {
            self.failed += 1;
            println!("FAILED: {}", what());
        }
    }
}

pub fn run() -> bool {
    let mut checks = Checks::default();
    examples(&mut checks);
    listing(&mut checks);
    rooms_of_the_listing(&mut checks);
    files_that_are_run(&mut checks);
    normal_order(&mut checks);
    tried_networks(&mut checks);
    tried_families(&mut checks);
    step_limit(&mut checks);
    println!("self: {} checks, {} failures", checks.made, checks.failed);
    checks.failed == 0
}

/// The outcome of an enquiry with rooms for 64 places, and the rooms' contents.
struct Asked {
    outcome: Outcome,
    weight: Vec<u32>,
    count: Vec<u16>,
    step: Vec<u16>,
    text: Vec<u8>,
}

fn ask(reference: &Reference, [s, a, d, b]: [u32; 4], step_room: usize, text_room: usize) -> Asked {
    let mut asked = Asked {
        outcome: Outcome::default(),
        weight: vec![7; 4_096],
        count: vec![7; 4_096],
        step: vec![7; step_room],
        text: vec![7; text_room],
    };
    asked.outcome = reference.route(
        Enquiry { s, a, d, b },
        Rooms {
            weight: &mut asked.weight,
            count: &mut asked.count,
            choice: &mut vec![7; 8 * 4_096],
            step: &mut asked.step,
            text: &mut asked.text,
        },
    );
    asked
}

fn examples(checks: &mut Checks) {
    for (row, (network, enquiry, number, weight, steps, links)) in EXAMPLES.into_iter().enumerate() {
        let asked = ask(&Reference::of(&spelled(network)), enquiry, 400, 4_000);
        let Outcome { length, .. } = asked.outcome;
        checks.check(asked.outcome == Outcome { number, line: 0, weight, steps, length }, || {
            format!("marked example in row {row}: {:?}", asked.outcome)
        });
        let taken: Vec<u16> = asked.step.chunks_exact(4).take(links.len()).map(|key| key[0]).collect();
        checks.check(taken == links, || format!("links of row {row}: {taken:?}"));
    }
}

fn listing(checks: &mut Checks) {
    let reference = Reference::of(&spelled(NETWORK_A));
    let written = reference.route_program(&spelled(LISTED_INPUT));
    checks.check(written == spelled(LISTED_OUTPUT), || format!("the listing: {}", written.escape_ascii()));
    let odd = reference.route_program(b"ask\t9\t0\t0\t00\n\nask\t4\t0\t0\t0\nask\t0\t0\t0\t0");
    checks.check(odd == spelled("refused 2 1\nrefused 2 2\nrefused 6 3\nrefused 2 4\n"), || {
        format!("odd input: {}", odd.escape_ascii())
    });
    let long = reference.route_program(&[b'\n'; 65_537]);
    checks.check(long == b"badask\t1\t0\n", || format!("input too long: {}", long.escape_ascii()));
    let absent = Reference::of(b"").route_program(b"");
    checks.check(absent == b"badnet\t2\t1\n", || format!("no network: {}", absent.escape_ascii()));
}

fn rooms_of_the_listing(checks: &mut Checks) {
    let reference = Reference::of(&spelled(NETWORK_A));
    for (step_room, text_room, number, weight, steps, length) in
        [(12, 77, 0, 20, 3, 77), (12, 76, 11, 20, 3, 0), (11, 77, 10, 0, 0, 0), (11, 0, 10, 0, 0, 0)]
    {
        let asked = ask(&reference, [0, 0, 3, 0], step_room, text_room);
        checks.check(asked.outcome == Outcome { number, line: 0, weight, steps, length }, || {
            format!("step room {step_room}, text room {text_room}: {:?}", asked.outcome)
        });
        let steps_written = asked.step.iter().any(|&entry| entry != 7);
        let text_written = asked.text.iter().any(|&byte| byte != 7);
        checks.check((steps_written, text_written) == (number != 10, number == 0), || {
            format!("what is written for {number}")
        });
        checks.check(asked.weight[64..].iter().all(|&entry| entry == 7), || "entries past N²".to_string());
    }
}

fn files_that_are_run(checks: &mut Checks) {
    for (text, expected) in run_only() {
        let found = Reference::of(&spelled(&text)).network().err().map(|refusal| (refusal.number, refusal.line));
        checks.check(found == expected, || format!("{:.40}: {found:?}, expected {expected:?}", text));
    }
}

/// Two orders of A have the same normal file, which is A as it is listed.
fn normal_order(checks: &mut Checks) {
    let file = spelled(NETWORK_A);
    let mut random = Random::of_case(SEED, 0);
    for _ in 0..20 {
        let order = generate::in_any_order(&mut random, &file);
        let mut text = vec![0; file.len()];
        let outcome = Reference::of(&order).normal(&mut text);
        checks.check((outcome.number, outcome.length) == (0, file.len()) && text == file, || {
            format!("normal file of an order of A: {}", text.escape_ascii())
        });
    }
}

/// All pairs of places of many small networks, tried up to a number of steps.
fn tried_networks(checks: &mut Checks) {
    for case in 0..TRIED_NETWORKS {
        let (network, _) = generate::small(&mut Random::of_case(SEED, case));
        let reference = Reference::of(&network.normal_file());
        for s in 0..network.nodes {
            for a in 0..network.protocols {
                try_row(checks, &network, &reference, (s, a), TRIED_STEPS);
            }
        }
    }
}

/// Long routes: those forced by doubling and by rings, with parallel links among them.
fn tried_families(checks: &mut Checks) {
    for case in 0..20 {
        let mut random = Random::of_case(SEED, case);
        let levels = 1 + case as usize % 5;
        let (network, enquiry) = generate::doubled(&mut random, levels, &[levels / 2], None);
        let reference = Reference::of(&network.normal_file());
        try_row(checks, &network, &reference, (enquiry.s, enquiry.a), LONG_STEPS);
        let cost = reference.cost(enquiry);
        let expected = 6 * (1 << levels) - 5 + (1 << (levels - levels / 2));
        let fits = cost.is_some_and(|cost| cost.steps == expected || cost.weight > WEIGHT_LIMIT);
        checks.check(fits, || format!("{levels} levels of doubling: {cost:?}, expected {expected} steps"));
    }
    for case in 0..40 {
        let (network, _) = generate::rings(&mut Random::of_case(SEED, case));
        let reference = Reference::of(&network.normal_file());
        try_row(checks, &network, &reference, (0, 0), LONG_STEPS);
    }
}

/// Everything that leads from one place: what was tried must be found, and what was found must not be beaten.
fn try_row(checks: &mut Checks, network: &Network, reference: &Reference, (s, a): (u32, u32), most_steps: usize) {
    let tried = brute::try_all(network, s, a, most_steps);
    for d in 0..network.nodes {
        for b in 0..network.protocols {
            let enquiry = Enquiry { s, a, d, b };
            let cost = reference.cost(enquiry);
            let holds = match (tried.get(&(d, b)), cost) {
                (None, None) => true,
                (None, Some(cost)) => cost.weight > WEIGHT_LIMIT || cost.steps as usize > most_steps,
                (Some(_), None) => false,
                (Some(route), Some(cost)) if cost.weight > WEIGHT_LIMIT => route.weight > WEIGHT_LIMIT,
                (Some(route), Some(cost)) if cost.steps as usize > most_steps => route.weight > cost.weight,
                (Some(route), Some(cost)) => {
                    let keys = reference.best_route(enquiry).map(|best| best.keys);
                    (route.weight, route.steps) == (cost.weight, cost.steps as usize)
                        && Some(&route.keys) == keys.as_ref()
                }
            };
            checks.check(holds, || {
                format!(
                    "{enquiry:?}: {cost:?} against {:?} in\n{}",
                    tried.get(&(d, b)),
                    String::from_utf8_lossy(&network.normal_file())
                )
            });
        }
    }
}

/// 4,096 steps are handed out, one more is not.
fn step_limit(checks: &mut Checks) {
    for (over, number, count) in [(false, 0, STEP_LIMIT), (true, 10, COUNT_OVER)] {
        let mut random = Random::of_case(SEED, 0);
        let (network, Enquiry { s, a, d, b }) = generate::at_step_limit(&mut random, over);
        let asked = ask(&Reference::of(&network.normal_file()), [s, a, d, b], 4 * 4_096, 1_000_000);
        let entry = network.place(s, a) * network.places() + network.place(d, b);
        checks.check(
            (network.places(), asked.outcome.number, u32::from(asked.count[entry])) == (64, number, count),
            || format!("{} places, {:?}, count {}", network.places(), asked.outcome, asked.count[entry]),
        );
    }
}
