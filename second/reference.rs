//! The reference: document 01 written a second time, from its text alone. A [`Reference`] is a network file with its
//! judgement; it answers what the library's two calls and the two programs are to answer, room by room and byte by
//! byte. It is slow and plain on purpose, and allocates freely.

mod best;
mod lines;
mod network;
mod program;
mod trace;

pub use best::{Cost, StepKey, COUNT_OVER, STEP_LIMIT, WEIGHT_LIMIT};
pub use network::{Function, Kind, Link, Network, Refusal, FILE_LIMIT, LINE_LIMIT, PLACE_LIMIT};
pub use program::INPUT_LIMIT;

use best::BestRoutes;
use std::cell::OnceCell;

/// Weight room entry of a pair whose feasible routes all weigh over the limit.
const ALL_HEAVY: u32 = 4_294_967_294;
/// Weight room entry of a pair without a feasible route.
const NONE_FEASIBLE: u32 = 4_294_967_295;

/// What a call hands back; laid out as the C interface has it.
#[repr(C)]
#[derive(Clone, Copy, Debug, Default, PartialEq, Eq)]
pub struct Outcome {
    pub number: u32,
    pub line: u32,
    pub weight: u32,
    pub steps: u32,
    pub length: usize,
}

impl Outcome {
    fn of(number: u32) -> Self {
        Outcome { number, ..Outcome::default() }
    }
}

/// From node S with a stack holding only a, to node D with a stack holding only b.
#[derive(Clone, Copy, Debug, PartialEq, Eq)]
pub struct Enquiry {
    pub s: u32,
    pub a: u32,
    pub d: u32,
    pub b: u32,
}

/// The five rooms that the caller of a route enquiry lends.
pub struct Rooms<'a> {
    pub weight: &'a mut [u32],
    pub count: &'a mut [u16],
    pub choice: &'a mut [u16],
    pub step: &'a mut [u16],
    pub text: &'a mut [u8],
}

/// A best route that can be handed out: its totals, its step keys and its trace.
pub struct BestRoute {
    pub weight: u32,
    pub steps: u32,
    pub keys: Vec<StepKey>,
    pub text: Vec<u8>,
}

/// A network file, judged; the best routes are computed when first wanted.
pub struct Reference {
    reading: Result<Network, Refusal>,
    best: OnceCell<BestRoutes>,
}

impl Reference {
    pub fn of(file: &[u8]) -> Self {
        Reference { reading: Network::read(file), best: OnceCell::new() }
    }

    pub fn network(&self) -> Result<&Network, Refusal> {
        self.reading.as_ref().map_err(|refusal| *refusal)
    }

    /// The normal writer.
    pub fn normal(&self, text: &mut [u8]) -> Outcome {
        match &self.reading {
            Err(refusal) => refusal.outcome(),
            Ok(network) => {
                let normal = network.normal_file();
                if normal.len() > text.len() {
                    return Outcome::of(11);
                }
                text[..normal.len()].copy_from_slice(&normal);
                Outcome { length: normal.len(), ..Outcome::of(0) }
            }
        }
    }

    /// The route enquiry, with the outcomes tried in the order of document 01.
    pub fn route(&self, enquiry: Enquiry, rooms: Rooms) -> Outcome {
        let network = match &self.reading {
            Err(refusal) => return refusal.outcome(),
            Ok(network) => network,
        };
        if !network.holds(enquiry) {
            return Outcome::of(6);
        }
        let pairs = network.places() * network.places();
        if rooms.weight.len() < pairs || rooms.count.len() < pairs || rooms.choice.len() < 8 * pairs {
            return Outcome::of(7);
        }
        self.fill_tables(network, rooms.weight, rooms.count);
        rooms.choice[..8 * pairs].fill(0);

        match self.cost(enquiry) {
            None => return Outcome::of(8),
            Some(Cost::HEAVY) => return Outcome::of(9),
            Some(_) => {}
        }
        let route = match self.best_route(enquiry) {
            Some(route) if route.keys.len() <= rooms.step.len() / 4 => route,
            _ => return Outcome::of(10),
        };
        for (entries, key) in rooms.step.chunks_exact_mut(4).zip(&route.keys) {
            entries.copy_from_slice(key);
        }
        let totals = Outcome { weight: route.weight, steps: route.steps, ..Outcome::default() };
        if route.text.len() > rooms.text.len() {
            return Outcome { number: 11, ..totals };
        }
        rooms.text[..route.text.len()].copy_from_slice(&route.text);
        Outcome { number: 0, length: route.text.len(), ..totals }
    }

    /// Least weight and fewest steps of a well-ranged enquiry, or nothing where no route is feasible.
    pub fn cost(&self, enquiry: Enquiry) -> Option<Cost> {
        let network = self.reading.as_ref().ok()?;
        let (from, to) = network.ends(enquiry);
        self.best_routes(network).cost(from, to)
    }

    /// The best route of a well-ranged enquiry where it keeps to both limits.
    pub fn best_route(&self, enquiry: Enquiry) -> Option<BestRoute> {
        let network = self.reading.as_ref().ok()?;
        let (from, to) = network.ends(enquiry);
        let keys = self.best_routes(network).keys(from, to)?;
        let cost = self.cost(enquiry)?;
        let text = trace::trace(network, enquiry, cost, &keys);
        Some(BestRoute { weight: cost.weight as u32, steps: cost.steps, keys, text })
    }

    fn best_routes(&self, network: &Network) -> &BestRoutes {
        self.best.get_or_init(|| BestRoutes::of(network))
    }

    fn fill_tables(&self, network: &Network, weight: &mut [u32], count: &mut [u16]) {
        let places = network.places();
        let best = self.best_routes(network);
        for from in 0..places {
            for to in 0..places {
                let (least, fewest) = match best.cost(from, to) {
                    None => (NONE_FEASIBLE, 0),
                    Some(Cost::HEAVY) => (ALL_HEAVY, 0),
                    Some(cost) => (cost.weight as u32, cost.steps as u16),
                };
                weight[from * places + to] = least;
                count[from * places + to] = fewest;
            }
        }
    }
}
